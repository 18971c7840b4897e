//! The Rust crate over the live engine (bindings/rust) beside the original: random lists of calls, by its own types. After each call its
//! answer, samples, clock, counts and sounding places are the original's; the counts of a block's places, and the samples of marked
//! calls, are the second ledger's. bindings/rust/check runs it.

use chakaqel::{Edited, EventId, Fade, Refusal, ReplayMode, Sequencer};
use oracle::call::{Call, Curve, MixOrder, Mode, Push, PushKind, Source, Timing};
use oracle::engine::Engine;
use oracle::generate::pools::pool_for;
use oracle::generate::random::Random;
use oracle::generate::{PROFILES, generate};
use oracle::ledger::Ledger;
use oracle::player::{Answer, Places, Player, Pool};
use oracle::session::{Session, pool};
use oracle::state::sample_bits;
use oracle::tape::{self, Format};

/// Lists of each profile.
const LISTS: u64 = 40;

/// The sequencer with what is lent to its calls.
struct Live {
    sequencer: Box<Sequencer>,
    channels: usize,
    pool: Pool,
    output: Vec<f32>,
    places: Option<Places>,
}

fn refused(refusal: Refusal) -> Answer {
    Answer::Refused(refusal.number())
}

fn done<T>(answer: Result<T, Refusal>) -> Answer {
    answer.map_or_else(refused, |_| Answer::Done)
}

fn curve(curve: Curve) -> Fade {
    match curve {
        Curve::Power => Fade::Power,
        Curve::Smooth => Fade::Smooth,
    }
}

fn source(source: Source) -> chakaqel::Source {
    match source {
        Source::Held { level } => chakaqel::Source::Held(level),
        Source::Ramp { value, step } => chakaqel::Source::Ramp { value, step },
        Source::Clip { offset, length } => chakaqel::Source::Clip { offset, length },
    }
}

fn order(order: MixOrder) -> chakaqel::MixOrder {
    match order {
        MixOrder::Forward => chakaqel::MixOrder::Forward,
        MixOrder::Backward => chakaqel::MixOrder::Backward,
    }
}

impl Live {
    fn create(call: &Call, pool: &Pool) -> (Self, Answer) {
        let Call::Create {
            channels,
            mode,
            first,
        } = *call
        else {
            unreachable!("the reader stops at any other first record")
        };
        let mode = match mode {
            Mode::All => ReplayMode::All,
            Mode::None => ReplayMode::None,
        };
        let mut sequencer = Box::new(Sequencer::from_arrays(chakaqel::Arrays::zeroed()));
        let answer = sequencer.create(channels.into(), mode, first);
        let made = Sequencer::new(channels.into(), mode, first);
        assert_eq!(made.as_ref().err(), answer.as_ref().err());
        if let Ok(made) = made {
            assert!(made.as_arrays().same_bits(sequencer.as_arrays()));
        }
        let live = Self {
            sequencer,
            channels: answer.map_or(1, |()| channels.into()),
            pool: pool.clone(),
            output: Vec::new(),
            places: None,
        };
        (live, done(answer))
    }

    /// Lent memory holds before a call what a session's does.
    fn lend(&mut self, length: usize) {
        self.output = (0..length).map(|place| -1.0 - place as f32).collect();
    }

    fn push(&mut self, kind: PushKind, push: &Push) -> Answer {
        let (start, end) = (push.start, push.end);
        let (fade, fade_in, fade_out) = (curve(push.curve), push.fade_in, push.fade_out);
        let (source, gain) = (source(push.source), push.gain());
        let s = &mut self.sequencer;
        let pushed = match kind {
            PushKind::Absolute => s.push(start, end, fade, fade_in, fade_out, source, gain),
            PushKind::Relative => {
                s.push_relative(start, end, fade, fade_in, fade_out, source, gain)
            }
            PushKind::Duration => {
                s.push_duration(start, end, fade, fade_in, fade_out, source, gain)
            }
        };
        pushed.map_or_else(refused, |pushed| Answer::Number(pushed.id.number()))
    }

    fn tick(&mut self, mix: MixOrder, length: usize) -> Answer {
        self.lend(length);
        done(match mix {
            MixOrder::Forward => self.sequencer.tick(&self.pool, &mut self.output),
            mix => self
                .sequencer
                .tick_in_order(order(mix), &self.pool, &mut self.output),
        })
    }

    fn block(&mut self, mix: MixOrder, size: usize, length: usize) -> Answer {
        self.lend(length);
        let (s, pool, output) = (&mut self.sequencer, &self.pool, &mut self.output);
        let answer = match mix {
            MixOrder::Forward => s.process(size, pool, output),
            mix => s.process_in_order(order(mix), size, pool, output),
        };
        self.places = answer.ok().map(|places| Places {
            kept: places.kept,
            forced: places.forced,
            edge: places.edge,
        });
        done(answer)
    }

    fn step(&mut self, call: &Call) -> Answer {
        self.output.clear();
        self.places = None;
        let channels = self.channels;
        match *call {
            Call::Push(kind, ref push, _) => self.push(kind, push),
            Call::Edit(timing, edit) => {
                let id = EventId::from_number(edit.number);
                let answer = match timing {
                    Timing::Absolute => self.sequencer.edit(id, edit.end, edit.fade_out),
                    Timing::Relative => self.sequencer.edit_relative(id, edit.end, edit.fade_out),
                };
                answer.map_or_else(refused, |edited| match edited {
                    Edited::Applied => Answer::Applied,
                    Edited::Past => Answer::Past,
                    Edited::Stored => Answer::Stored,
                })
            }
            Call::Tick => self.tick(MixOrder::Forward, channels),
            Call::MarkedTick => self.tick(MixOrder::Backward, channels),
            Call::TickLent(length) => self.tick(MixOrder::Forward, length.into()),
            Call::Block(size) => self.block(MixOrder::Forward, size.into(), 64 * channels),
            Call::MarkedBlock(size) => self.block(MixOrder::Backward, size.into(), 64 * channels),
            Call::BlockLent(size, length, _) => {
                self.block(MixOrder::Forward, size.into(), length.into())
            }
            Call::Reset => {
                self.sequencer.reset();
                Answer::Done
            }
            Call::Rate(rate) => done(self.sequencer.set_sample_rate(rate)),
            Call::Pool(length) => {
                self.pool = pool(length);
                Answer::Done
            }
            Call::Create { .. } | Call::FrontReset | Call::Spin(_) => unreachable!("{call:?}"),
        }
    }
}

/// The clock, counts and sounding places are the original's.
fn same_engine(rust: &Engine, live: &Sequencer) {
    let state = rust.state();
    assert_eq!(live.time().to_bits(), state.clock, "clock");
    let counts = live.counts();
    let [waiting, sounding, finished] =
        [counts.waiting, counts.sounding, counts.finished].map(|count| count as usize);
    let counts = oracle::state::Counts {
        waiting,
        sounding,
        finished,
        let_go: counts.let_go,
    };
    assert_eq!(counts, rust.counts(), "counts");
    let place = |number| live.place(EventId::from_number(number));
    for (number, at) in &state.index {
        assert_eq!(place(*number), Some(*at), "place of {number}");
    }
    for event in state.waiting.iter().chain(&state.finished) {
        assert_eq!(place(event.number), None, "place of {}", event.number);
    }
    assert_eq!(place(state.next), None, "place of the next number");
}

fn bits(samples: &[f32]) -> Vec<u32> {
    samples.iter().map(|x| sample_bits(*x)).collect()
}

/// The call as the live engine has it: a block is lent no scratch, and some ticks and blocks are marked.
fn live_call(call: &Call, marked: bool) -> Call {
    match *call {
        Call::Tick if marked => Call::MarkedTick,
        Call::Block(size) if marked => Call::MarkedBlock(size),
        Call::BlockLent(size, output, _) => Call::BlockLent(size, output, None),
        other => other,
    }
}

/// Plays a list on the three; how many calls, and how many of them were refused.
fn play(calls: &[Call], pool: &Pool, seed: u64) -> [u64; 2] {
    let Some((creation, calls)) = calls.split_first() else {
        return [0; 2];
    };
    let (mut rust, answer) = Session::<Engine>::create((), creation, pool);
    let (mut ledger, _) = Session::<Ledger>::create(None, creation, pool);
    let (mut live, told) = Live::create(creation, pool);
    assert_eq!(told, answer, "{creation:?}");
    let mut random = Random::new(!seed);
    let marks = random.pick(&[0, 20, 60]);
    let mut tally = [1, u64::from(answer.refusal() != 0)];
    for call in calls {
        let call = live_call(call, random.chance(marks));
        // A snapshot goes on as the engine would have.
        if random.chance(5) {
            live.sequencer = live.sequencer.clone();
        }
        let (step, said, told) = (rust.step(&call), ledger.step(&call), live.step(&call));
        assert_eq!(told, step.answer, "{call:?}");
        assert_eq!(told, said.answer, "{call:?}");
        let marked = matches!(call, Call::MarkedTick | Call::MarkedBlock(_));
        let samples = if marked { &ledger.output } else { &rust.output };
        assert_eq!(bits(&live.output), bits(samples), "{call:?}");
        if live.places.is_some() {
            assert_eq!(live.places, ledger.player.places(), "{call:?}");
        }
        same_engine(&rust.player, &live.sequencer);
        tally[0] += 1;
        tally[1] += u64::from(told.refusal() != 0);
    }
    tally
}

/// One list of every profile of an engine's tapes and scripts, for each seed; the profile late, of millions of blocks, is left out.
#[test]
fn each_call_is_the_originals() {
    let engines = |format| matches!(format, Format::Tape | Format::Script);
    let [mut calls, mut refused] = [0; 2];
    for profile in PROFILES {
        if !engines(profile.format) || profile.name == "late" {
            continue;
        }
        for seed in 0..LISTS {
            let tape = generate(profile, seed);
            let (records, _) = tape::records(profile.format, &tape);
            let (pool, _) = pool_for(&tape, seed);
            let [more, no] = play(&records, &pool, seed);
            calls += more;
            refused += no;
        }
    }
    println!("bindings: {calls} calls, {refused} refused by both");
    assert!(calls > 100_000 && refused > 1_000);
}
