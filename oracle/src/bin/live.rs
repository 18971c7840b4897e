//! Compares the live engine's C entries, by the low-level module of their Rust crate, with the original call by call:
//! `live compare LISTS [SEED]`.
//! A list is the calls of a random tape or script, with a random pool, on memory that holds any bits before the creation. After each
//! call the answer, the samples, the clock, the counts, all lists, the index and the stored edits are those of the original; the
//! counts of places, and the samples of marked calls, are the second ledger's. A refused call leaves every bit as it was, and so
//! does a number that names no mode, curve, source or mark. Before the creation some calls are made on that memory.

use chakaqel::{Arrays, entries};
use oracle::call::{Call, Curve, Edit, MixOrder, Mode, Push, PushKind, Source, Timing};
use oracle::engine::Engine;
use oracle::generate::pools::pool_for;
use oracle::generate::random::Random;
use oracle::generate::{PROFILES, generate};
use oracle::ledger::Ledger;
use oracle::player::{Answer, Places, Player, Pool};
use oracle::session::Session;
use oracle::state::{Counts, EditState, EventState, State, sample_bits};
use oracle::tape::{self, Format};
use std::process::ExitCode;

// Where crates/memory/src/lib.rt has the parts.
const WAITING: usize = 0;
const SOUNDING: usize = 256;
const FINISHED: usize = 512;
const CLOCK: usize = 3072;
const EDIT_TIMES: usize = 3076;
const EDIT_NUMBERS: usize = 1024;
const COUNTS: usize = 1280;

/// What lent places hold before a call, so that those left alone show.
const MARK: u64 = 0xA5A5_A5A5;

fn any_bits(random: &mut Random) -> Box<Arrays> {
    let mut memory = Box::new(Arrays::zeroed());
    memory.times.fill_with(|| f64::from_bits(random.next()));
    memory
        .levels
        .fill_with(|| f32::from_bits(random.next() as u32));
    memory.marks.fill_with(|| random.next() as u32);
    memory.numbers.fill_with(|| random.next());
    memory
}

fn event(memory: &Arrays, slot: usize) -> EventState {
    let at = 4 * slot;
    let mark = memory.marks[at];
    let (a, b) = (memory.levels[at + 2], memory.levels[at + 3]);
    let source = match mark % 4 {
        0 => Source::Held { level: a },
        1 => Source::Ramp { value: a, step: b },
        _ => Source::Clip {
            offset: memory.marks[at + 1],
            length: memory.marks[at + 2],
        },
    };
    let ramp = matches!(source, Source::Ramp { .. });
    let clip = matches!(source, Source::Clip { .. });
    EventState {
        start: memory.times[at].to_bits(),
        end: memory.times[at + 1].to_bits(),
        fade_in: memory.times[at + 2].to_bits(),
        fade_out: memory.times[at + 3].to_bits(),
        gain: memory.levels[at].to_bits(),
        curve: if mark < 4 {
            Curve::Power
        } else {
            Curve::Smooth
        },
        source,
        value: if ramp {
            sample_bits(memory.levels[at + 1])
        } else {
            0
        },
        place: if clip { memory.marks[at + 3] } else { 0 },
        number: memory.numbers[slot],
    }
}

fn events(memory: &Arrays, first: usize, count: u64) -> Vec<EventState> {
    (first..first + count as usize)
        .map(|slot| event(memory, slot))
        .collect()
}

fn edits(memory: &Arrays) -> Vec<EditState> {
    let edit = |j: usize| EditState {
        number: memory.numbers[EDIT_NUMBERS + j],
        end: memory.times[EDIT_TIMES + 2 * j].to_bits(),
        fade_out: memory.times[EDIT_TIMES + 2 * j + 1].to_bits(),
    };
    let mut edits: Vec<EditState> = (0..memory.numbers[COUNTS + 3] as usize).map(edit).collect();
    edits.sort_by_key(|edit| edit.number);
    edits
}

/// How many events on the way from the heap's first free place to its top come after a start and a number (Paper 13).
fn rise(memory: &Arrays, start: f64, number: u64) -> u64 {
    let mut risen = 0;
    let mut place = memory.numbers[COUNTS] as usize;
    while place > 0 {
        place = (place - 1) / 2;
        let order = memory.times[4 * (WAITING + place)].total_cmp(&start);
        risen += u64::from(order.then(memory.numbers[place].cmp(&number)).is_gt());
    }
    risen
}

type PushEntry = fn(&mut Arrays, &mut [u64; 2], &entries::Push) -> u64;

/// The live engine behind its C entries.
struct Live {
    memory: Box<Arrays>,
    before: Box<Arrays>,
    random: Random,
    /// Whether calls are made without a look at what a refused one leaves: in the millions of blocks of `Call::Spin`.
    plain: bool,
    /// Calls with a number that names nothing.
    unknown: u64,
    places: Places,
}

impl Live {
    /// What a call did to what it was lent, by its code.
    fn told(&mut self, code: u64, kept: bool) -> Result<(), u8> {
        if code == 0 || code >= 256 {
            return Ok(());
        }
        assert!(
            kept,
            "refusal {code} changed what was lent beside the engine"
        );
        let same = self.plain || self.memory.same_bits(&self.before);
        assert!(same, "refusal {code} changed the engine");
        Err(code as u8)
    }

    fn remember(&mut self) {
        if !self.plain {
            self.before.clone_from(&self.memory);
        }
    }

    /// A call that names no mode, curve, source or mark is refused with 14 and changes nothing.
    fn try_unknown(&mut self, pool: &[f32]) {
        if self.plain || !self.random.chance(10) {
            return;
        }
        self.remember();
        let odd = self
            .random
            .pick(&[2u32, 3, 4, 7, 9, 255, 256, 65_536, u32::MAX]);
        let (mut told, mut places, mut out) = ([MARK; 2], [MARK; 3], [-1.0f32; 512]);
        let at = self.memory.times[CLOCK];
        let random = self.random.below(8);
        let channels = self.memory.numbers[COUNTS + 4] as usize;
        let pushes: [PushEntry; 3] = [
            entries::push,
            entries::push_relative,
            entries::push_duration,
        ];
        let memory = &mut *self.memory;
        let code = match random {
            0 => entries::create(memory, 1, odd, 1),
            1 => entries::tick(memory, odd, pool, &mut out[..channels]),
            2 => {
                let out = &mut out[..64 * channels];
                entries::process(memory, &mut places, odd, 64, pool, out)
            }
            k => {
                let (curve, source) = if k < 6 {
                    (odd, k as u32 % 3)
                } else {
                    (k as u32 % 2, odd.max(3))
                };
                let push = entries::Push {
                    curve,
                    source,
                    ..plain_push(at, at + 1.0)
                };
                pushes[k as usize % 3](memory, &mut told, &push)
            }
        };
        assert_eq!(code, 14, "a number that names nothing");
        assert_eq!((told, places), ([MARK; 2], [MARK; 3]));
        assert!(out.iter().all(|x| *x == -1.0), "14 wrote samples");
        assert!(self.memory.same_bits(&self.before), "14 changed the engine");
        self.unknown += 1;
    }
}

/// A push of a held level, without fades, at gain 1.0.
fn plain_push(start: f64, end: f64) -> entries::Push {
    entries::Push {
        start,
        end,
        curve: 0,
        fade_in: 0.0,
        fade_out: 0.0,
        source: 0,
        a: 0.5,
        b: 0.0,
        offset: 0,
        length: 9,
        gain: 1.0,
    }
}

/// Calls on memory that no creation made: any bits, or any events under counts that are near 256 or beyond. Nothing is known of what they
/// answer but that a refused one changes nothing.
fn on_any_memory(live: &mut Live, pool: &Pool) {
    let random = &mut live.random;
    let channels = 1 + random.below(8);
    if random.chance(75) {
        live.memory.numbers[COUNTS..COUNTS + 4]
            .fill_with(|| random.pick(&[0, 1, 7, 200, 255, 256, 257, 300, u64::MAX]));
        live.memory.numbers[COUNTS + 4] = channels;
        live.memory.times[CLOCK] = random.below(1000) as f64;
        live.memory.times[CLOCK + 2] = 8.0;
        live.memory.times[CLOCK + 3] = 0.125;
    }
    let (start, end) = (random.below(9) as f64, 900.0);
    let mut out = vec![0.0; 64 * channels as usize];
    for _ in 0..8 {
        live.remember();
        let number = live.memory.numbers[live.random.below(1288) as usize];
        let (mut told, mut places) = ([MARK; 2], [MARK; 3]);
        let memory = &mut *live.memory;
        let code = match live.random.below(7) {
            0 => entries::tick(memory, 1, pool, &mut out[..channels as usize]),
            1 | 2 => entries::process(memory, &mut places, 0, 64, pool, &mut out),
            3 => entries::edit(memory, number, end, 1.0),
            4 => entries::set_sample_rate(memory, 9.0),
            5 => {
                entries::reset(memory);
                0
            }
            _ => {
                let push = entries::Push {
                    curve: 1,
                    fade_out: 1.0,
                    source: 1,
                    b: 0.5,
                    ..plain_push(start, end)
                };
                entries::push(memory, &mut told, &push)
            }
        };
        let kept = (told, places) == ([MARK; 2], [MARK; 3]);
        let _ = live.told(code, code == 0 || kept);
    }
}

fn number(check: Result<(), u8>, accepted: Answer) -> Answer {
    match check {
        Ok(()) => accepted,
        Err(number) => Answer::Refused(number),
    }
}

impl Player for Live {
    /// The seed of what the memory holds before the creation.
    type Variant = u64;

    fn create(seed: u64, channels: u8, mode: Mode, first: u64) -> (Self, Answer) {
        let mut random = Random::new(seed);
        let memory = any_bits(&mut random);
        let mut live = Live {
            before: memory.clone(),
            memory,
            random,
            plain: false,
            unknown: 0,
            places: Places::default(),
        };
        on_any_memory(&mut live, &vec![0.5; 64].into());
        let mode = match mode {
            Mode::All => 0,
            Mode::None => 1,
        };
        let code = entries::create(&mut live.memory, channels.into(), mode, first);
        let answer = match code {
            0 => Answer::Done,
            code => Answer::Refused(code as u8),
        };
        (live, answer)
    }

    fn push(&mut self, kind: PushKind, push: &Push) -> Answer {
        self.try_unknown(&[]);
        self.remember();
        let mut told = [MARK; 2];
        let curve = match push.curve {
            Curve::Power => 0,
            Curve::Smooth => 1,
        };
        // What a source does not use is any number.
        let any = self.random.next() as u32;
        let odd = f32::from_bits(any);
        let (source, a, b, offset, length) = match push.source {
            Source::Held { level } => (0, level, odd, any, any),
            Source::Ramp { value, step } => (1, value, step, any, any),
            Source::Clip { offset, length } => (2, odd, odd, offset, length),
        };
        let (entry, from): (PushEntry, f64) = match kind {
            PushKind::Absolute => (entries::push, push.start),
            PushKind::Relative => (
                entries::push_relative,
                push.start + self.memory.times[CLOCK],
            ),
            PushKind::Duration => (entries::push_duration, push.start),
        };
        let numbers = entries::Push {
            start: push.start,
            end: push.end,
            curve,
            fade_in: push.fade_in,
            fade_out: push.fade_out,
            source,
            a,
            b,
            offset,
            length,
            gain: push.gain(),
        };
        let code = entry(&mut self.memory, &mut told, &numbers);
        if let Err(refusal) = self.told(code, told == [MARK; 2]) {
            return Answer::Refused(refusal);
        }
        assert_eq!(code, 0, "a push");
        let rise = if from < self.before.times[CLOCK + 1] {
            0
        } else {
            rise(&self.before, from, told[0])
        };
        assert_eq!(told[1], rise, "the rise");
        Answer::Number(told[0])
    }

    fn edit(&mut self, timing: Timing, edit: &Edit) -> Answer {
        self.remember();
        let entry = match timing {
            Timing::Absolute => entries::edit,
            Timing::Relative => entries::edit_relative,
        };
        let code = entry(&mut self.memory, edit.number, edit.end, edit.fade_out);
        let accepted = match code {
            entries::PAST => Answer::Past,
            entries::STORED => Answer::Stored,
            _ => Answer::Applied,
        };
        number(self.told(code, true), accepted)
    }

    fn tick(&mut self, order: MixOrder, output: &mut [f32], pool: &Pool) -> Answer {
        self.try_unknown(pool);
        self.remember();
        let mark = u32::from(order == MixOrder::Backward);
        let code = entries::tick(&mut self.memory, mark, pool, output);
        // Whether a refused one has written samples is seen where the outputs are compared.
        number(self.told(code, true), Answer::Done)
    }

    fn block(
        &mut self,
        order: MixOrder,
        size: usize,
        output: &mut [f32],
        _: Option<&mut [f32]>,
        pool: &Pool,
    ) -> Answer {
        self.try_unknown(pool);
        self.remember();
        let mark = u32::from(order == MixOrder::Backward);
        let mut places = [MARK; 3];
        let memory = &mut self.memory;
        let code = entries::process(memory, &mut places, mark, size, pool, output);
        let check = self.told(code, places == [MARK; 3]);
        if check.is_ok() {
            let [kept, forced, edge] = places;
            self.places = Places { kept, forced, edge };
        }
        number(check, Answer::Done)
    }

    fn reset(&mut self) -> Answer {
        entries::reset(&mut self.memory);
        Answer::Done
    }

    fn rate(&mut self, rate: f64) -> Answer {
        self.remember();
        let code = entries::set_sample_rate(&mut self.memory, rate);
        number(self.told(code, true), Answer::Done)
    }

    fn front_reset(&mut self) -> Answer {
        unreachable!("an engine's script has no front")
    }

    fn channels(&self) -> usize {
        self.memory.numbers[COUNTS + 4] as usize
    }

    fn counts(&self) -> Counts {
        let [waiting, sounding, finished, let_go] = entries::counts(&self.memory);
        Counts {
            waiting: waiting as usize,
            sounding: sounding as usize,
            finished: finished as usize,
            let_go,
        }
    }

    fn state(&self) -> State {
        let m = &*self.memory;
        let n = &m.numbers;
        let mut waiting = events(m, WAITING, n[COUNTS]);
        waiting.sort_by(|a, b| {
            let starts = f64::from_bits(a.start).total_cmp(&f64::from_bits(b.start));
            starts.then(a.number.cmp(&b.number))
        });
        let sounding = events(m, SOUNDING, n[COUNTS + 1]);
        let finished = events(m, FINISHED, n[COUNTS + 2]);
        let edits = edits(m);
        // The place of every number that is held or edited, and of some that are not.
        let lists = [&waiting, &sounding, &finished].into_iter().flatten();
        let mut known: Vec<u64> = lists.map(|event| event.number).collect();
        known.extend(edits.iter().map(|edit| edit.number));
        known.extend([0, 1, n[COUNTS + 6], u64::MAX, n[767], n[1023]]);
        known.sort_unstable();
        known.dedup();
        let place = |number: u64| {
            let place = entries::place(m, number);
            (place != entries::NO_PLACE).then_some((number, place as usize))
        };
        let index = known.into_iter().filter_map(place).collect();
        State {
            waiting,
            sounding,
            finished,
            edits,
            index,
            let_go: self.counts().let_go,
            clock: entries::time(m).to_bits(),
            threshold: m.times[CLOCK + 1].to_bits(),
            rate: m.times[CLOCK + 2].to_bits(),
            duration: m.times[CLOCK + 3].to_bits(),
            next: n[COUNTS + 6],
            messages: Vec::new(),
            returned: Vec::new(),
        }
    }

    fn scratch_given(&self) -> Option<usize> {
        None
    }

    fn places(&self) -> Option<Places> {
        Some(self.places)
    }
}

/// What was compared.
#[derive(Default)]
struct Tally {
    calls: u64,
    refused: u64,
    unknown: u64,
    samples: u64,
    marked: u64,
}

fn same<T: PartialEq + std::fmt::Debug>(name: &str, a: &T, b: &T) {
    assert!(a == b, "{name}: {a:?} and {b:?}");
}

fn same_samples(a: &[f32], b: &[f32]) {
    let bits = |row: &[f32]| -> Vec<u32> { row.iter().map(|x| sample_bits(*x)).collect() };
    same("samples", &bits(a), &bits(b));
}

fn same_state(a: &impl Player, b: &impl Player) {
    same("counts", &a.counts(), &b.counts());
    let (a, b) = (a.state(), b.state());
    same("waiting", &a.waiting, &b.waiting);
    same("sounding", &a.sounding, &b.sounding);
    same("finished", &a.finished, &b.finished);
    same("index", &a.index, &b.index);
    same("edits", &a.edits, &b.edits);
    same("clock", &a.clock, &b.clock);
    assert!(a == b, "threshold, rate, duration or next number");
}

/// The call as a live one: a block is lent no scratch, and some ticks and blocks are marked.
fn live_call(call: &Call, marked: bool) -> Call {
    match *call {
        Call::Tick if marked => Call::MarkedTick,
        Call::Block(size) if marked => Call::MarkedBlock(size),
        Call::BlockLent(size, output, _) => Call::BlockLent(size, output, None),
        other => other,
    }
}

/// Plays a list on the three; panics at the first difference, with the call's place in `at`.
fn play(calls: &[Call], pool: &Pool, seed: u64, tally: &mut Tally, at: &mut usize) {
    let Some((creation, calls)) = calls.split_first() else {
        return;
    };
    let (mut rust, answer) = Session::<Engine>::create((), creation, pool);
    let (mut ledger, _) = Session::<Ledger>::create(None, creation, pool);
    let (mut ours, told) = Session::<Live>::create(seed, creation, pool);
    let mut random = Random::new(!seed);
    let marks = random.pick(&[0, 0, 20, 60]);
    tally.calls += 1;
    tally.refused += u64::from(answer.refusal() != 0);
    same("answer", &answer, &told);
    same_state(&rust.player, &ours.player);
    for (place, call) in calls.iter().enumerate() {
        *at = place + 1;
        let call = live_call(call, random.chance(marks));
        ours.player.plain = matches!(call, Call::Spin(_));
        let (step, said, told) = (rust.step(&call), ledger.step(&call), ours.step(&call));
        same("answer", &step, &told);
        same("the ledger's answer", &said, &told);
        same_state(&rust.player, &ours.player);
        let marked = matches!(call, Call::MarkedTick | Call::MarkedBlock(_));
        if marked {
            same_samples(&ledger.output, &ours.output);
            tally.marked += 1;
        } else {
            same_samples(&rust.output, &ours.output);
        }
        let block = matches!(
            call,
            Call::Block(_) | Call::BlockLent(..) | Call::MarkedBlock(_)
        );
        if block && told.samples.is_some() {
            same("places", &ledger.player.places(), &ours.player.places());
        }
        tally.calls += 1;
        tally.refused += u64::from(step.answer.refusal() != 0);
        tally.samples += ours.output.len() as u64;
    }
    tally.unknown += ours.player.unknown;
}

fn main() -> ExitCode {
    let arguments: Vec<String> = std::env::args().skip(1).collect();
    let number = |word: &String| word.parse::<u64>().ok();
    let (lists, first) = match &arguments[..] {
        [compare, lists] if compare == "compare" => (number(lists), Some(0)),
        [compare, lists, seed] if compare == "compare" => (number(lists), number(seed)),
        _ => (None, None),
    };
    let (Some(lists), Some(first)) = (lists, first) else {
        eprintln!("usage: live compare LISTS [SEED]");
        return ExitCode::from(2);
    };
    std::panic::set_hook(Box::new(|_| {}));
    let engines = |format| matches!(format, Format::Tape | Format::Script);
    let profiles: Vec<_> = PROFILES
        .iter()
        .filter(|profile| engines(profile.format))
        .collect();
    let (mut tally, mut passed, mut failed) = (Tally::default(), 0u64, 0u64);
    for k in 0..lists {
        let (turn, at) = (k / profiles.len() as u64, k % profiles.len() as u64);
        // A list of the profile late has millions of blocks: one in all, and a short one in its place afterwards.
        let late = profiles[at as usize].name == "late" && turn > 0;
        let profile = profiles[if late { 0 } else { at as usize }];
        let seed = first + turn + if late { lists } else { 0 };
        let tape = generate(profile, seed);
        let (calls, _) = tape::records(profile.format, &tape);
        let (pool, words) = pool_for(&tape, seed);
        let mut at = 0;
        let run = || play(&calls, &pool, seed ^ k, &mut tally, &mut at);
        match std::panic::catch_unwind(std::panic::AssertUnwindSafe(run)) {
            Ok(()) => passed += 1,
            Err(panic) => {
                failed += 1;
                let text = panic.downcast_ref::<String>().cloned();
                let text = text.unwrap_or_else(|| "a panic".into());
                if failed <= 3 {
                    let call = calls.get(at);
                    eprintln!(
                        "live: profile {}, seed {seed}, pool {words}, call {at}, {call:?}: {text}",
                        profile.name
                    );
                }
            }
        }
    }
    let Tally {
        calls,
        refused,
        unknown,
        samples,
        marked,
    } = tally;
    println!(
        "live: {lists} lists, {calls} calls, {refused} refused by both, {marked} marked, {unknown} of no such number, {samples} samples"
    );
    println!("{passed} passed, {failed} failed");
    if failed == 0 {
        ExitCode::SUCCESS
    } else {
        ExitCode::FAILURE
    }
}
