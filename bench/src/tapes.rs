//! The tapes, always the same. But for `music` with gains all gains are 1.0.

use crate::call::{Call, Curve, Edit, Mode, Push, PushKind, Source, Timing};
use oracle::generate::random::Random;
use oracle::generate::{Gains, PROFILES, Profile, generate};
use oracle::tape::{self, Format};

const RATE: f64 = 44_100.0;
/// The bytes of a record 00.
const CREATION: usize = 11;

struct Writer {
    tape: Vec<u8>,
    random: Random,
    /// The next number.
    next: u64,
}

impl Writer {
    /// In mode None, so that events that have finished are let go.
    fn new(channels: u8) -> Self {
        let mut writer = Self {
            tape: Vec::new(),
            random: Random::new(1),
            next: 1,
        };
        writer.put(Call::Create {
            channels,
            mode: Mode::None,
            first: 1,
        });
        writer
    }

    fn put(&mut self, call: Call) {
        tape::write(&mut self.tape, &call);
    }

    /// So many samples, in seconds.
    fn seconds(&mut self, (fewest, most): (i64, i64)) -> f64 {
        self.random.between(fewest, most) as f64 / RATE
    }

    /// A clip, or now and then a ramp or a held level, that waits and lasts so many samples; it fades for so many parts of that.
    fn push(&mut self, wait: (i64, i64), length: (i64, i64), fade: f64, gains: bool) {
        let (start, length) = (self.seconds(wait), self.seconds(length));
        let offset = self.random.below(2048) as u32;
        let source = match self.random.below(8) {
            0 => Source::Held { level: 0.25 },
            1 => Source::Ramp {
                value: 0.25,
                step: 0.00001,
            },
            _ => Source::Clip {
                offset,
                length: 2048,
            },
        };
        let gain = self.random.between(1, 7) as f32 / 8.0;
        let push = Push {
            start,
            end: start + length,
            fade_in: length * fade,
            fade_out: length * fade,
            curve: self.random.pick(&[Curve::Power, Curve::Smooth]),
            source,
            written_gain: gains.then_some(gain),
        };
        self.put(Call::Push(PushKind::Relative, push, 0));
        self.next += 1;
    }

    fn edit(&mut self, number: u64) {
        let edit = Edit {
            number,
            end: self.seconds((0, 600)),
            fade_out: self.seconds((0, 64)),
        };
        self.put(Call::Edit(Timing::Relative, edit));
    }
}

/// Three blocks of 64 after each push; about 13 clips sound, each with a fade of a fifth of its length at both ends.
fn music(channels: u8, gains: bool, pushes: usize) -> Vec<u8> {
    let mut writer = Writer::new(channels);
    for _ in 0..pushes {
        writer.push((0, 192), (500, 4500), 0.2, gains);
        for _ in 0..3 {
            writer.put(Call::Block(64));
        }
    }
    writer.tape
}

/// So many clips sound throughout, without fades, in blocks of 64.
fn sounding(clips: usize, blocks: usize) -> Vec<u8> {
    let mut writer = Writer::new(1);
    for _ in 0..clips {
        writer.push((0, 0), (1 << 40, 1 << 40), 0.0, false);
    }
    for _ in 0..blocks {
        writer.put(Call::Block(64));
    }
    writer.tape
}

/// 40 ticks after each push; about ten clips sound, every other one fades.
fn ticks(pushes: usize) -> Vec<u8> {
    let mut writer = Writer::new(1);
    for push in 0..pushes {
        let fade = [0.0, 0.2][push % 2];
        writer.push((0, 40), (100, 700), fade, false);
        for _ in 0..40 {
            writer.put(Call::Tick);
        }
    }
    writer.tape
}

/// 48 clips start in each block of 64, and as many finish.
fn dense(blocks: usize) -> Vec<u8> {
    let mut writer = Writer::new(1);
    for _ in 0..blocks {
        for _ in 0..48 {
            writer.push((0, 63), (64, 192), 0.2, false);
        }
        writer.put(Call::Block(64));
    }
    writer.tape
}

/// 256 clips are pushed and start in one block of 64; three blocks later all are let go.
pub fn all_at_once(rounds: usize) -> Vec<u8> {
    let mut writer = Writer::new(1);
    for _ in 0..rounds {
        for _ in 0..256 {
            writer.push((0, 63), (64, 64), 0.2, false);
        }
        for _ in 0..4 {
            writer.put(Call::Block(64));
        }
    }
    writer.tape
}

/// The same 256 pushes, and a reset that lets them go: what is left of the tape above are its four blocks.
pub fn pushed_alone(rounds: usize) -> Vec<u8> {
    let mut writer = Writer::new(1);
    for _ in 0..rounds {
        for _ in 0..256 {
            writer.push((0, 63), (64, 64), 0.2, false);
        }
        writer.put(Call::Reset);
    }
    writer.tape
}

/// A time in the first 63 samples at 44,100 Hz, another for each of the first 4,294,967,296 numbers.
fn scattered(number: u64) -> f64 {
    let part = (number as u32).wrapping_mul(0x9E37_79B1);
    f64::from(part) / 4_294_967_296.0 * 63.0 / 44_100.0
}

/// n events are pushed that sound on without a fade, to start at 0 or, `apart`, each at a time of its own in one block, other ones in each round. Where `starts` that block follows; then a reset.
pub fn come_in(n: u64, apart: bool, starts: bool, rounds: usize) -> Vec<u8> {
    let mut writer = Writer::new(1);
    for round in 0..rounds {
        for i in 0..n {
            let push = Push {
                start: if apart {
                    scattered(round as u64 * n + i)
                } else {
                    0.0
                },
                end: 1000.0,
                fade_in: 0.0,
                fade_out: 0.0,
                curve: if i % 2 == 1 {
                    Curve::Smooth
                } else {
                    Curve::Power
                },
                source: match i % 3 {
                    0 => Source::Held { level: 0.25 },
                    1 => Source::Ramp {
                        value: 0.25,
                        step: 0.00001,
                    },
                    _ => Source::Clip {
                        offset: i as u32,
                        length: 2048,
                    },
                },
                written_gain: None,
            };
            writer.put(Call::Push(PushKind::Absolute, push, 0));
        }
        if starts {
            writer.put(Call::Block(64));
        }
        writer.put(Call::Reset);
    }
    writer.tape
}

/// With each push and block: an edit of the pushed clip, which waits, one of a clip that sounds, and one of any of the last 20, which may
/// have finished: such an edit stays stored up to the reset after each 100 blocks.
fn edits(rounds: usize) -> Vec<u8> {
    let mut writer = Writer::new(1);
    for _ in 0..rounds {
        for _ in 0..100 {
            writer.push((64, 256), (400, 1000), 0.2, false);
            let newest = writer.next - 1;
            for earlier in [0, writer.random.below(5) + 4, writer.random.below(20)] {
                writer.edit(newest.saturating_sub(earlier));
            }
            writer.put(Call::Block(64));
        }
        writer.put(Call::Reset);
    }
    writer.tape
}

/// Random tapes of the oracle's profiles as one tape: our creation, then each tape without its record 00. A profile gives whole tapes
/// up to so many records.
fn joined<'a>(profiles: impl Iterator<Item = &'a Profile>, records: usize) -> Vec<u8> {
    let mut tape = Writer::new(1).tape;
    for profile in profiles {
        let (mut given, mut seed) = (0, 0);
        while given < records {
            let random = generate(profile, seed);
            given += count(&random);
            seed += 1;
            tape.extend_from_slice(&random[CREATION..]);
        }
    }
    tape
}

/// Blocks of all sizes.
fn blocks(records: usize) -> Vec<u8> {
    joined(PROFILES.iter().filter(|p| p.name == "blocks"), records)
}

/// All profiles of whole tapes with gains of 1.0.
fn mix(records: usize) -> Vec<u8> {
    let plain = |p: &&Profile| {
        p.format == Format::Tape && !p.damaged && matches!(p.gains, Gains::None | Gains::One)
    };
    joined(PROFILES.iter().filter(plain), records)
}

/// Every tape, so many times as long.
pub fn all(times: usize) -> Vec<(&'static str, Vec<u8>)> {
    vec![
        ("music, 1 ch", music(1, false, 1_000 * times)),
        ("music, 2 ch", music(2, false, 1_000 * times)),
        ("music, 8 ch", music(8, false, 1_000 * times)),
        (
            "music, 2 ch, a gain for each clip",
            music(2, true, 1_000 * times),
        ),
        ("ticks", ticks(250 * times)),
        ("blocks", blocks(8_000 * times)),
        ("blocks of 64, 1 sounding", sounding(1, 4_000 * times)),
        ("blocks of 64, 8 sounding", sounding(8, 2_000 * times)),
        ("blocks of 64, 64 sounding", sounding(64, 500 * times)),
        ("blocks of 64, 256 sounding", sounding(256, 200 * times)),
        ("dense", dense(100 * times)),
        ("256 at once", all_at_once(20 * times)),
        ("256 pushed, then a reset", pushed_alone(20 * times)),
        ("edits", edits(10 * times)),
        ("random mix", mix(2_000 * times)),
    ]
}

/// How many records a tape has.
pub fn count(tape: &[u8]) -> usize {
    let (calls, stop) = tape::records(Format::Tape, tape);
    assert!(stop.is_none(), "the tape stops");
    calls.len()
}
