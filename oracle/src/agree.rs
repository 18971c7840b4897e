//! Playing one tape on two players and comparing everything after each record.

use crate::judge::{is_marked, qualifies};
use crate::player::{Player, Pool};
use crate::session::{Session, Step};
use crate::state::{State, sample_bits};
use crate::tape::{self, Format, Stop};
use std::panic::{AssertUnwindSafe, catch_unwind};

/// Where and in what two players differ.
#[derive(Clone, Debug, PartialEq)]
pub struct Difference {
    /// The record's place on the tape, counted from 0.
    pub record: usize,
    pub what: String,
}

/// What a tape's records did, in numbers.
#[derive(Clone, Copy, Debug, Default, PartialEq, Eq)]
pub struct Tally {
    pub tapes: u64,
    pub records: u64,
    /// Records by refusal; at place 0 those accepted.
    pub refusals: [u64; 19],
}

/// Play a tape on both; the tally, or the first difference. A panic is a difference. The outputs of marked calls are compared
/// only where every contribution of the tape qualifies (document 02, Paper 9).
pub fn agree<A: Player, B: Player>(
    format: Format,
    variants: (A::Variant, B::Variant),
    tape: &[u8],
    pool: &Pool,
) -> Result<Tally, Difference> {
    let record = std::cell::Cell::new(0);
    let run = || run::<A, B>(format, variants, tape, pool, &record);
    catch_unwind(AssertUnwindSafe(run)).unwrap_or_else(|_| {
        Err(Difference {
            record: record.get(),
            what: "panic".into(),
        })
    })
}

fn run<A: Player, B: Player>(
    format: Format,
    variants: (A::Variant, B::Variant),
    tape: &[u8],
    pool: &Pool,
    record: &std::cell::Cell<usize>,
) -> Result<Tally, Difference> {
    let mut tally = Tally {
        tapes: 1,
        ..Tally::default()
    };
    let (calls, stop) = tape::records(format, tape);
    let Some((creation, calls)) = calls.split_first() else {
        tally.count_stop(stop);
        return Ok(tally);
    };
    let (mut a, answer_a) = Session::<A>::create(variants.0, creation, pool);
    let (mut b, answer_b) = Session::<B>::create(variants.1, creation, pool);
    let created = |answer| Step {
        answer,
        samples: None,
    };
    tally.count(answer_a.refusal());
    compare(&a, created(answer_a), &b, created(answer_b), true).map_err(|what| at(0, what))?;
    if answer_a.refusal() != 0 {
        return Ok(tally);
    }
    let alike = qualifies(calls);
    for (place, call) in calls.iter().enumerate() {
        record.set(place + 1);
        let heard = alike || !is_marked(call);
        let (step_a, step_b) = (a.step(call), b.step(call));
        tally.count(step_a.answer.refusal());
        compare(&a, step_a, &b, step_b, heard).map_err(|what| at(place + 1, what))?;
    }
    tally.count_stop(stop);
    Ok(tally)
}

fn at(record: usize, what: String) -> Difference {
    Difference { record, what }
}

impl Tally {
    fn count(&mut self, refusal: u8) {
        self.records += 1;
        self.refusals[usize::from(refusal)] += 1;
    }

    fn count_stop(&mut self, stop: Option<(Stop, &[u8])>) {
        if let Some((stop, _)) = stop {
            self.count(stop.refusal);
        }
    }

    pub fn add(&mut self, other: Tally) {
        self.tapes += other.tapes;
        self.records += other.records;
        for (mine, others) in self.refusals.iter_mut().zip(other.refusals) {
            *mine += others;
        }
    }
}

fn compare<A: Player, B: Player>(
    a: &Session<A>,
    step_a: Step,
    b: &Session<B>,
    step_b: Step,
    heard: bool,
) -> Result<(), String> {
    equal("answer", &step_a, &step_b)?;
    equal("counts", &a.player.counts(), &b.player.counts())?;
    states(&a.player.state(), &b.player.state())?;
    if heard {
        memory("output", &a.output, &b.output)?;
    }
    equal("scratch length", &a.scratch.len(), &b.scratch.len())?;
    let decided = match step_a.samples {
        Some(_) => a
            .player
            .scratch_given()
            .or(b.player.scratch_given())
            .unwrap_or(0),
        None => a.scratch.len(),
    };
    let decided = decided.min(a.scratch.len());
    memory("scratch", &a.scratch[..decided], &b.scratch[..decided])
}

fn equal<T: PartialEq + std::fmt::Debug>(name: &str, a: &T, b: &T) -> Result<(), String> {
    if a == b {
        Ok(())
    } else {
        Err(format!("{name}: {a:?} and {b:?}"))
    }
}

fn states(a: &State, b: &State) -> Result<(), String> {
    if a == b {
        return Ok(());
    }
    equal("waiting", &a.waiting, &b.waiting)?;
    equal("sounding", &a.sounding, &b.sounding)?;
    equal("finished", &a.finished, &b.finished)?;
    equal("edits", &a.edits, &b.edits)?;
    equal("index", &a.index, &b.index)?;
    equal("let go", &a.let_go, &b.let_go)?;
    equal("messages", &a.messages, &b.messages)?;
    equal("returned", &a.returned, &b.returned)?;
    let clocks = |state: &State| {
        [state.clock, state.threshold, state.rate, state.duration].map(f64::from_bits)
    };
    equal("clock, threshold, rate, duration", &clocks(a), &clocks(b))?;
    equal("next number", &a.next, &b.next)?;
    Err("a zero's sign among clock, threshold, rate and duration".into())
}

/// Samples by bits, any NaN equal to any NaN.
fn memory(name: &str, a: &[f32], b: &[f32]) -> Result<(), String> {
    equal(&format!("{name} length"), &a.len(), &b.len())?;
    for (place, (x, y)) in a.iter().zip(b).enumerate() {
        if sample_bits(*x) != sample_bits(*y) {
            return Err(format!("{name} place {place}: {x:?} and {y:?}"));
        }
    }
    Ok(())
}
