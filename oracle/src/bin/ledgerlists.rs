//! Random short lists of calls, with what the original answers, writes and holds after each, as the
//! Rattle files crates/ledger_trials/specs/NAME.antt. The same files at every run. The gains of
//! RustLists1 to RustLists4 are 1.0; ListsWithGains has other gains, ListsWithMarks marked ticks and blocks, and both are
//! measured by the second ledger.
//!
//! Usage: ledgerlists NAME > crates/ledger_trials/specs/NAME.antt

use oracle::call::{Call, Curve, Edit, MixOrder, Mode, Push, PushKind, Source, Timing};
use oracle::engine::Engine;
use oracle::ledger::Ledger;
use oracle::player::{Answer, BLOCK, Player, Pool};
use oracle::state::{EventState, State, sample_bits};
use std::fmt::Write;
use std::process::ExitCode;

/// How many lists one theorem covers.
const GROUP: usize = 10;
const SEED: u64 = 20_260_101;
const GAINS_SEED: u64 = SEED + 1;
const MARKS_SEED: u64 = SEED + 2;

/// The files: what their lists have that the Rust has not, and the first and last of their groups.
const FILES: [(&str, Beyond, usize, usize); 6] = [
    ("RustLists1", Beyond::Nothing, 1, 3),
    ("RustLists2", Beyond::Nothing, 4, 6),
    ("RustLists3", Beyond::Nothing, 7, 9),
    ("RustLists4", Beyond::Nothing, 10, 11),
    ("ListsWithGains", Beyond::Gains, 1, 1),
    ("ListsWithMarks", Beyond::Marks, 1, 1),
];

/// What a list has that the Rust has not.
#[derive(Clone, Copy, PartialEq, Eq)]
enum Beyond {
    Nothing,
    /// Gains other than 1.0 (document 02, Paper 5).
    Gains,
    /// Ticks and blocks with the mark (document 02, Paper 9), behind a chord.
    Marks,
}

/// A call whose text is longer is broken into lines.
const LONG: usize = 380;

/// What lent memory holds before a call.
const LENT: f32 = 0.25;

/// The pool that is lent to every tick and block.
const POOL: [f32; 7] = [0.5, -0.75, 1.5, 0.1, -2.0, 0.3, 1.0];

const RATES: &[f64] = &[
    8.0, 8.0, 8.0, 10.0, 3.0, 7.0, 1.0, 44_100.0, 48_000.0, 999.999,
];
const LEVELS: &[f32] = &[1.0, 1.0, 0.5, -1.0, 0.1, 3.0, 1e-3, 0.0, -0.0, 0.7];
const TINY: &[f64] = &[5e-324, 1e-300, 1e-17, -1.0, -0.0];
const WILD_TIMES: &[f64] = &[
    f64::NAN,
    f64::INFINITY,
    f64::NEG_INFINITY,
    1e9,
    -1e9,
    1_000_000_000.000_000_1,
    1e300,
];
const WILD_SAMPLES: &[f32] = &[f32::NAN, f32::INFINITY, f32::NEG_INFINITY, f32::MAX];
/// Finite gains, and those that are refused.
const GAINS: &[f32] = &[1.0, 0.5, 0.7, -1.0, -0.3, 0.0, -0.0, 1e-40, 3.0, 1e38, 3e38];
const WILD_GAINS: &[f32] = &[f32::NAN, f32::INFINITY, f32::NEG_INFINITY];
const WILD_RATES: &[f64] = &[0.0, 0.999, 1_000_001.0, f64::NAN, -8.0, f64::INFINITY, 1e6];

/// A small deterministic random generator: splitmix64.
struct Random(u64);

impl Random {
    fn next(&mut self) -> u64 {
        self.0 = self.0.wrapping_add(0x9E37_79B9_7F4A_7C15);
        let mut x = self.0;
        x = (x ^ (x >> 30)).wrapping_mul(0xBF58_476D_1CE4_E5B9);
        x = (x ^ (x >> 27)).wrapping_mul(0x94D0_49BB_1331_11EB);
        x ^ (x >> 31)
    }

    fn below(&mut self, limit: u64) -> u64 {
        self.next() % limit
    }

    /// A number from `low` to `high`, both included.
    fn between(&mut self, low: i64, high: i64) -> i64 {
        low + self.below((high - low + 1) as u64) as i64
    }

    fn chance(&mut self, percent: u64) -> bool {
        self.below(100) < percent
    }

    fn pick<T: Copy>(&mut self, items: &[T]) -> T {
        items[self.below(items.len() as u64) as usize]
    }
}

/// One list: the engine plays each call as it is drawn, so that times lie round the clock.
struct Trial<'a, P> {
    random: &'a mut Random,
    engine: P,
    beyond: Beyond,
    pool: Pool,
    first: u64,
    /// Each call with what it must give back.
    calls: Vec<String>,
}

// ---- drawing

impl<P: Player> Trial<'_, P> {
    fn clock(&self) -> f64 {
        f64::from_bits(self.engine.state().clock)
    }

    /// A length of time in half samples, now and then a neighbour of it.
    fn half_samples(&mut self, count: i64) -> f64 {
        let length = count as f64 * 0.5 / f64::from_bits(self.engine.state().rate);
        match self.random.below(16) {
            0 => length.next_up(),
            1 => length.next_down(),
            2 => length * 1.1,
            _ => length,
        }
    }

    fn duration(&mut self) -> f64 {
        match self.random.below(8) {
            0 => f64::INFINITY,
            1 => {
                let count = self.random.between(0, 2);
                self.half_samples(count)
            }
            _ => {
                let count = self.random.between(1, 30);
                self.half_samples(count)
            }
        }
    }

    /// A fade that an event of this length may have.
    fn fade(&mut self, length: f64) -> f64 {
        let fade = match self.random.below(8) {
            0..=2 => 0.0,
            3 => length,
            4 => self.random.pick(TINY),
            _ => {
                let count = self.random.between(1, 12);
                self.half_samples(count)
            }
        };
        if fade <= length && fade.is_finite() {
            fade
        } else {
            0.0
        }
    }

    fn level(&mut self) -> f32 {
        if self.random.chance(3) {
            self.random.pick(WILD_SAMPLES)
        } else {
            self.random.pick(LEVELS)
        }
    }

    fn source(&mut self) -> Source {
        match self.random.below(3) {
            0 => Source::Held {
                level: self.level(),
            },
            1 => Source::Ramp {
                value: self.level(),
                step: self.level(),
            },
            _ => Source::Clip {
                offset: self.random.pick(&[0, 0, 1, 3, 6, 7, u32::MAX]),
                length: self.random.pick(&[0, 2, 5, 9, u32::MAX]),
            },
        }
    }

    fn gain(&mut self) -> f32 {
        if self.random.chance(10) {
            self.random.pick(WILD_GAINS)
        } else {
            self.random.pick(GAINS)
        }
    }

    fn push(&mut self) -> Call {
        let kind = self.random.pick(&[
            PushKind::Absolute,
            PushKind::Absolute,
            PushKind::Relative,
            PushKind::Duration,
        ]);
        let count = self
            .random
            .pick(&[0, 0, 0, 0, 1, 1, -1, -1, 2, 3, 4, 8, 13, -7]);
        let offset = self.half_samples(count);
        let mut start = match kind {
            PushKind::Relative => offset,
            _ => self.clock() + offset,
        };
        if self.random.chance(6) {
            start = self.random.pick(&[0.0, -0.0, -1.0]);
        }
        let duration = self.duration();
        let mut end = match kind {
            PushKind::Duration => duration,
            _ => start + duration,
        };
        let length = match kind {
            PushKind::Duration => (start + duration) - start,
            _ => end - start,
        };
        let (mut fade_in, mut fade_out) = (self.fade(length), self.fade(length));
        if self.random.chance(5) {
            let value = self.random.pick(WILD_TIMES);
            match self.random.below(4) {
                0 => start = value,
                1 => end = value,
                2 => fade_in = value,
                _ => fade_out = value,
            }
        }
        if self.random.chance(3) {
            fade_out = length.next_up();
        }
        let curve = self.random.pick(&[Curve::Power, Curve::Smooth]);
        let source = self.source();
        let written_gain = if self.beyond == Beyond::Gains {
            Some(self.gain())
        } else {
            None
        };
        Call::Push(
            kind,
            Push {
                start,
                end,
                fade_in,
                fade_out,
                curve,
                source,
                written_gain,
            },
            0,
        )
    }

    fn edit(&mut self) -> Call {
        let timing = self.random.pick(&[Timing::Absolute, Timing::Relative]);
        let next = self.engine.state().next;
        let number = match self.random.below(6) {
            0 => next,
            1 => self.random.pick(&[0, 7, u64::MAX]),
            _ => {
                let given = next.wrapping_sub(self.first);
                self.first.wrapping_add(self.random.below(given.max(1)))
            }
        };
        let offset = match self.random.below(6) {
            0 => f64::INFINITY,
            1 => {
                let count = self.random.between(-9, 2);
                self.half_samples(count)
            }
            _ => {
                let count = self.random.between(0, 24);
                self.half_samples(count)
            }
        };
        let mut end = match timing {
            Timing::Absolute => self.clock() + offset,
            Timing::Relative => offset,
        };
        let mut fade_out = self.fade(f64::INFINITY);
        if self.random.chance(6) {
            let value = self.random.pick(WILD_TIMES);
            if self.random.chance(50) {
                end = value;
            } else {
                fade_out = value;
            }
        }
        Call::Edit(
            timing,
            Edit {
                number,
                end,
                fade_out,
            },
        )
    }

    fn block(&mut self) -> Call {
        let whole = (BLOCK * self.engine.channels()) as u16;
        // Long blocks are rare: the logic computes each sample.
        let size = match self.random.below(40) {
            0 => 64,
            1 | 2 => 65,
            3 | 4 => 0,
            5 | 6 => self.random.between(9, 20) as u8,
            _ => self.random.between(1, 8) as u8,
        };
        let output = if self.random.chance(6) {
            self.random.pick(&[0, whole - 1, whole + 64])
        } else {
            whole
        };
        let one = BLOCK as u16;
        // with one channel 64 samples are the whole
        let former = if whole == one { 0 } else { whole };
        let wrong = Some(self.random.pick(&[former, one - 1, one + 1]));
        let scratch = self.random.pick(&[
            None,
            None,
            None,
            Some(one),
            Some(one),
            Some(one),
            Some(one),
            Some(one),
            Some(one),
            Some(one),
            wrong,
        ]);
        Call::BlockLent(size, output, scratch)
    }

    fn tick(&mut self) -> Call {
        let channels = self.engine.channels() as u16;
        Call::TickLent(if self.random.chance(8) {
            self.random.pick(&[0, channels - 1, channels + 1])
        } else {
            channels
        })
    }

    /// A tick, or a block of at most 8 samples that is lent a scratch.
    fn tick_or_small_block(&mut self) -> Call {
        if self.random.chance(50) {
            return self.tick();
        }
        let size = self.random.between(1, 8) as u8;
        let channels = self.engine.channels() as u16;
        Call::BlockLent(size, BLOCK as u16 * channels, Some(BLOCK as u16))
    }

    fn call(&mut self) -> Call {
        match self.random.below(100) {
            0..26 => self.push(),
            26..44 => self.edit(),
            44..67 => self.tick(),
            67..88 => self.block(),
            88..93 => Call::Reset,
            _ => {
                let rates = if self.random.chance(20) {
                    WILD_RATES
                } else {
                    RATES
                };
                Call::Rate(self.random.pick(rates))
            }
        }
    }
}

// ---- playing

impl<P: Player> Trial<'_, P> {
    fn play(&mut self, call: &Call) {
        let order = if self.beyond == Beyond::Marks && self.random.chance(75) {
            MixOrder::Backward
        } else {
            MixOrder::Forward
        };
        let want = match *call {
            Call::Push(kind, ref push, _) => says(self.engine.push(kind, push)),
            Call::Edit(timing, ref edit) => says(self.engine.edit(timing, edit)),
            Call::Reset => says(self.engine.reset()),
            Call::Rate(rate) => says(self.engine.rate(rate)),
            Call::TickLent(length) => self.play_tick(order, length.into()),
            Call::BlockLent(size, output, scratch) => {
                self.play_block(order, size, output.into(), scratch.map(usize::from))
            }
            _ => unreachable!("`call` draws no other"),
        };
        let call = call_text(call, order);
        let text = format!("({call}, {want})");
        let long = text.chars().count() > LONG;
        self.calls.push(if long {
            let want = broken(&want, "                ");
            format!("(\n            {call},\n            {want},\n          )")
        } else {
            text
        });
    }

    fn play_tick(&mut self, order: MixOrder, length: usize) -> String {
        let mut output = vec![LENT; length];
        let answer = self.engine.tick(order, &mut output, &self.pool);
        if answer.refusal() != 0 {
            untouched(&output);
            return says(answer);
        }
        same_channels(&output, 1);
        format!(
            "ticks {} {}",
            self.engine.channels(),
            sample_bits(output[0])
        )
    }

    fn play_block(
        &mut self,
        order: MixOrder,
        size: u8,
        length: usize,
        scratch: Option<usize>,
    ) -> String {
        let mut output = vec![LENT; length];
        let mut lent = vec![LENT; scratch.unwrap_or(0)];
        let given = scratch.map(|_| &mut lent[..]);
        let answer = self
            .engine
            .block(order, size.into(), &mut output, given, &self.pool);
        if answer.refusal() != 0 {
            untouched(&output);
            untouched(&lent);
            return says(answer);
        }
        same_channels(&output, BLOCK);
        let written = usize::from(size).next_multiple_of(8);
        untouched(&output[written..BLOCK]);
        let run = if scratch.is_some() {
            &lent[..size.into()]
        } else {
            &[]
        };
        format!(
            "blocks {} ({}) ({})",
            self.engine.channels(),
            bits_text(&output[..written]),
            bits_text(run)
        )
    }
}

fn untouched(samples: &[f32]) {
    assert!(
        samples
            .iter()
            .all(|sample| sample.to_bits() == LENT.to_bits())
    );
}

/// One value feeds all channels: the first stands for each.
fn same_channels(output: &[f32], stride: usize) {
    let bits = |samples: &[f32]| samples.iter().copied().map(sample_bits).collect::<Vec<_>>();
    let first = bits(&output[..stride]);
    assert!(output.chunks(stride).all(|channel| bits(channel) == first));
}

// ---- writing antt

fn list(items: impl IntoIterator<Item = String>) -> String {
    let mut text = String::new();
    for item in items {
        write!(text, "{item} ∷ ").expect("a string grows");
    }
    text + "[]"
}

/// A field of a record, or what a call must give, whose lists are broken into lines of at most 200 characters, in `rt fmt`'s layout.
fn broken(field: &str, indent: &str) -> String {
    let mut text = String::new();
    let mut width = 0;
    for item in field.split(" ∷ ") {
        let long = item.chars().count() + 3;
        if text.is_empty() {
            width = long - 3;
        } else if width + long > 200 {
            text = text + "\n" + indent + "∷ ";
            width = indent.len() - 1 + long;
        } else {
            text += " ∷ ";
            width += long;
        }
        text += item;
    }
    text
}

fn finite(negative: bool, mut digits: u64, mut power: i64) -> String {
    if digits == 0 {
        return format!("(fin {negative} 0 (pos 0))");
    }
    let zeros = digits.trailing_zeros();
    digits >>= zeros;
    power += i64::from(zeros);
    if power < 0 {
        format!("(fin {negative} {digits} (negsuc {}))", -power - 1)
    } else {
        format!("(fin {negative} {digits} (pos {power}))")
    }
}

fn double(x: f64) -> String {
    if x.is_nan() {
        return "nan".into();
    }
    let negative = x.is_sign_negative();
    if x.is_infinite() {
        return format!("(inf {negative})");
    }
    let bits = x.to_bits();
    let (field, low) = ((bits >> 52) & 0x7FF, bits & ((1 << 52) - 1));
    match field {
        0 => finite(negative, low, -1074),
        _ => finite(negative, low | 1 << 52, field as i64 - 1075),
    }
}

/// Each f32 is an f64.
fn single(x: f32) -> String {
    double(x.into())
}

fn source_text(source: Source) -> String {
    match source {
        Source::Held { level } => format!("(Held {})", single(level)),
        Source::Ramp { value, step } => format!("(Ramp {} {})", single(value), single(step)),
        Source::Clip { offset, length } => format!("(Clip {offset} {length})"),
    }
}

fn call_text(call: &Call, order: MixOrder) -> String {
    match call {
        Call::Push(kind, push, _) => {
            let kind = match kind {
                PushKind::Absolute => "absolute",
                PushKind::Relative => "relative",
                PushKind::Duration => "by_duration",
            };
            let times = [push.start, push.end, push.fade_in, push.fade_out]
                .map(double)
                .join(" ");
            format!(
                "push {kind} {times} {:?} {} {}",
                push.curve,
                source_text(push.source),
                single(push.gain())
            )
        }
        Call::Edit(timing, edit) => {
            let kind = match timing {
                Timing::Absolute => "absolute_end",
                Timing::Relative => "relative_end",
            };
            format!(
                "edit {kind} {} {} {}",
                edit.number,
                double(edit.end),
                double(edit.fade_out)
            )
        }
        Call::TickLent(length) => format!("tick {order:?} pool (quarters {length})"),
        Call::BlockLent(size, output, scratch) => {
            let scratch = match scratch {
                Some(length) => format!("(some (quarters {length}))"),
                None => "none".into(),
            };
            format!("block {order:?} {size} pool (quarters {output}) {scratch}")
        }
        Call::Reset => "reset".into(),
        Call::Rate(rate) => format!("rate {}", double(*rate)),
        _ => unreachable!("`call` draws no other"),
    }
}

fn answer_text(answer: Answer) -> String {
    match answer {
        Answer::Refused(number) => format!("refused {number}"),
        Answer::Done => "done".into(),
        Answer::Number(number) => format!("number {number}"),
        Answer::Applied => "applied".into(),
        Answer::Past => "past".into(),
        Answer::Stored => "stored".into(),
        Answer::Queued => unreachable!("an engine queues nothing"),
    }
}

fn bits_text(samples: &[f32]) -> String {
    list(
        samples
            .iter()
            .map(|&sample| sample_bits(sample).to_string()),
    )
}

fn says(answer: Answer) -> String {
    match answer {
        Answer::Number(_) | Answer::Refused(_) => format!("says ({})", answer_text(answer)),
        _ => format!("says {}", answer_text(answer)),
    }
}

fn event_numbers(event: &EventState) -> Vec<String> {
    let (kind, first, second) = match event.source {
        Source::Held { level } => (0, level.to_bits(), 0),
        Source::Ramp { value, step } => (1, value.to_bits(), step.to_bits()),
        Source::Clip { offset, length } => (2, offset, length),
    };
    let curve = match event.curve {
        Curve::Power => 0,
        Curve::Smooth => 1,
    };
    let times = [
        event.number,
        event.start,
        event.end,
        event.fade_in,
        event.fade_out,
    ];
    let rest = [curve, kind, first, second, event.value, event.place];
    times
        .iter()
        .map(u64::to_string)
        .chain(rest.iter().map(u32::to_string))
        .collect()
}

fn state_text(state: &State) -> String {
    // 0 after 2^64 - 1 has been given
    let next = if state.next == 0 {
        1 << 64
    } else {
        u128::from(state.next)
    };
    let mut numbers: Vec<String> = [
        state.waiting.len(),
        state.sounding.len(),
        state.finished.len(),
    ]
    .iter()
    .map(usize::to_string)
    .collect();
    numbers.extend(
        [
            state.let_go,
            state.clock,
            state.threshold,
            state.rate,
            state.duration,
        ]
        .map(|x| x.to_string()),
    );
    numbers.push(next.to_string());
    for event in state
        .waiting
        .iter()
        .chain(&state.sounding)
        .chain(&state.finished)
    {
        numbers.extend(event_numbers(event));
    }
    list(numbers)
}

fn edits_text(state: &State) -> String {
    list(state.edits.iter().map(|edit| {
        format!(
            "record {{ id = {}; end = {}; fade = {} }}",
            edit.number, edit.end, edit.fade_out
        )
    }))
}

/// One list as a trial, with the answers of a player of this kind.
fn trial<P: Player>(random: &mut Random, beyond: Beyond) -> String {
    let channels = random.pick(&[1, 1, 1, 2, 2, 3]);
    let channels = if random.chance(2) {
        random.pick(&[0, 9])
    } else {
        channels
    };
    let mode = random.pick(&[Mode::All, Mode::None]);
    let first = random.pick(&[1, 1, 1, 1, 1, 1, 2, 1000, u64::MAX - 2, u64::MAX]);
    let first = if random.chance(2) { 0 } else { first };
    let (engine, created) = P::create(P::Variant::default(), channels, mode, first);
    let mut trial = Trial {
        random,
        first: engine.state().next,
        engine,
        beyond,
        pool: POOL.into(),
        calls: Vec::new(),
    };
    if trial.random.chance(85) {
        let rate = trial.random.pick(RATES);
        trial.play(&Call::Rate(rate));
    }
    let (fewest, chord) = match beyond {
        Beyond::Marks => (8, 4),
        _ => (0, 2),
    };
    for place in 0..trial.random.between(fewest, 11) {
        let call = if place < chord {
            trial.push()
        } else if beyond == Beyond::Marks && trial.random.chance(80) {
            trial.tick_or_small_block()
        } else {
            trial.call()
        };
        trial.play(&call);
    }
    let state = trial.engine.state();
    let calls: Vec<String> = trial
        .calls
        .iter()
        .map(|call| format!("{call}\n          ∷ "))
        .collect();
    format!(
        "record {{
      channels = {channels};
      mode = {mode:?};
      first = {first};
      created = {};
      calls = {}[];
{};
      edits = {};
    }}",
        answer_text(created),
        calls.concat(),
        broken(
            &format!("      state = {}", state_text(&state)),
            "          "
        ),
        edits_text(&state)
    )
}

/// What a file's lists are, and whose answers they have.
fn about(beyond: Beyond) -> &'static str {
    match beyond {
        Beyond::Nothing => {
            "random lists of calls, each with what the Rust sequencer answers, writes and holds after it"
        }
        Beyond::Gains => {
            "random lists of calls with gains other than 1.0, which the Rust has not: the answers are those of the oracle's second ledger, written in Rust from the documents"
        }
        Beyond::Marks => {
            "random lists of calls with marked ticks and blocks, which the Rust has not: the answers are those of the oracle's second ledger, written in Rust from the documents"
        }
    }
}

const IMPORTS: &str = "\
use Rattle.std.specs.Prelude.{◌≡◌, refl, true, false, List, [], ◌∷◌, pos, negsuc}
use Rattle.std.proofs.Math.Option.{none, some}
use Rattle.std.specs.Float.{nan, inf, fin}
use Rattle.event.specs.declared.Fade.TheVariants.{Power, Smooth}
use Rattle.event.specs.declared.MixOrder.TheVariants.{Forward, Backward}
use Rattle.event.specs.declared.ReplayMode.TheVariants.{All, None}
use Rattle.event.specs.declared.Source.TheVariants.{Held, Ramp, Clip}
use Rattle.ledger.specs.Calls.{push, edit, tick, block, rate, reset, absolute, relative, by_duration, absolute_end, relative_end, number, applied, past, stored, done, refused}
use Rattle.ledger_trials.specs.Trials.{Trial, pool, quarters, says, ticks, blocks, all_agree}
";

fn main() -> ExitCode {
    let name = std::env::args().nth(1).unwrap_or_default();
    let Some((_, beyond, first, last)) = FILES.into_iter().find(|file| file.0 == name) else {
        eprintln!("usage: ledgerlists {}", FILES.map(|file| file.0).join("|"));
        return ExitCode::from(2);
    };
    println!(
        "-- GENERATED by the oracle's `ledgerlists`: {}. The ledger has the same. Assumes nothing.",
        about(beyond)
    );
    print!("{IMPORTS}");
    let mut random = Random(match beyond {
        Beyond::Nothing => SEED,
        Beyond::Gains => GAINS_SEED,
        Beyond::Marks => MARKS_SEED,
    });
    for group in 1..=last {
        let trials = (0..GROUP).map(|_| match beyond {
            Beyond::Nothing => trial::<Engine>(&mut random, beyond),
            Beyond::Gains | Beyond::Marks => trial::<Ledger>(&mut random, beyond),
        });
        let trials = trials.collect();
        if group >= first {
            print_group(group, trials);
        }
    }
    ExitCode::SUCCESS
}

fn print_group(group: usize, trials: Vec<String>) {
    println!("\nunfoldable pub lists{group} : List Trial");
    println!("lists{group} =\n    {}\n    ∷ []", trials.join("\n    ∷ "));
    println!("\npub agree{group} : all_agree lists{group} ≡ true");
    println!("unfolding all_agree lists{group}");
    println!("agree{group} = refl");
}
