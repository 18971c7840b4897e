//! Records for Paper 6's tape writer and the oracle's own bytes for them: `writervectors stdin [REQUESTS SEED]` prints the
//! vectors, `writervectors stdout [REQUESTS SEED]` the answers; without the numbers, the files of crates/tape_writer_vectors.
//! An answer is worked out from the paper's text with the oracle's own tape writer, and what that wrote is read back by the
//! oracle's reader. Behind the requests stand tapes, read and written again record by record.

use oracle::call::{Call, Curve, Edit, Mode, Push, PushKind, Source, Timing};
use oracle::digest::mixed;
use oracle::generate::random::Random;
use oracle::generate::{generate, named};
use oracle::tape::{self, Format};
use std::io::{self, Write};

/// A record's arguments, the free place and the buffer's length.
struct Request {
    kind: u64,
    channels: u64,
    mode: u64,
    number: u64,
    times: [f64; 4],
    curve: u64,
    source: u64,
    value: f32,
    step: f32,
    offset: u32,
    length: u32,
    gain: f32,
    room: u32,
    size: u64,
    rate: f64,
    place: u64,
}

impl Request {
    fn bytes(&self) -> Vec<u8> {
        let mut out = Vec::new();
        for word in [self.kind, self.channels, self.mode, self.number] {
            out.extend(word.to_le_bytes());
        }
        for time in self.times {
            out.extend(time.to_le_bytes());
        }
        for word in [self.curve, self.source] {
            out.extend(word.to_le_bytes());
        }
        let (value, step) = (self.value.to_bits(), self.step.to_bits());
        for word in [
            value,
            step,
            self.offset,
            self.length,
            self.gain.to_bits(),
            self.room,
        ] {
            out.extend(word.to_le_bytes());
        }
        for word in [self.size, self.rate.to_bits(), self.place] {
            out.extend(word.to_le_bytes());
        }
        out
    }

    /// The call, or none where the paper says 14.
    fn call(&self) -> Option<Call> {
        let byte = |n: u64| u8::try_from(n).ok();
        let [start, end, fade_in, fade_out] = self.times;
        let push = |kind, written_gain| {
            let curve = match self.curve {
                0 => Curve::Power,
                1 => Curve::Smooth,
                _ => return None,
            };
            let source = match self.source {
                0 => Source::Held { level: self.value },
                1 => Source::Ramp {
                    value: self.value,
                    step: self.step,
                },
                2 => Source::Clip {
                    offset: self.offset,
                    length: self.length,
                },
                _ => return None,
            };
            Some(Call::Push(
                kind,
                Push {
                    start,
                    end,
                    fade_in,
                    fade_out,
                    curve,
                    source,
                    written_gain,
                },
                0,
            ))
        };
        let edit = |timing| {
            Some(Call::Edit(
                timing,
                Edit {
                    number: self.number,
                    end,
                    fade_out,
                },
            ))
        };
        match self.kind {
            0x00 => Some(Call::Create {
                channels: byte(self.channels)?,
                mode: match self.mode {
                    0 => Mode::All,
                    1 => Mode::None,
                    _ => return None,
                },
                first: self.number,
            }),
            0x01 => push(PushKind::Absolute, None),
            0x02 => push(PushKind::Relative, None),
            0x03 => push(PushKind::Duration, None),
            0x04 => edit(Timing::Absolute),
            0x05 => edit(Timing::Relative),
            0x06 => Some(Call::Tick),
            0x07 => Some(Call::Block(byte(self.size)?)),
            0x08 => Some(Call::Reset),
            0x09 => Some(Call::Rate(self.rate)),
            0x0A => push(PushKind::Absolute, Some(self.gain)),
            0x0B => push(PushKind::Relative, Some(self.gain)),
            0x0C => push(PushKind::Duration, Some(self.gain)),
            _ => None,
        }
    }

    fn answer(&self) -> String {
        let mut buffer = vec![0xEE; self.room as usize];
        let answer = match self.call() {
            None => "refused 14".to_string(),
            Some(call) => {
                let record = tape::bytes(&[canonical(call)]);
                reads_back(&record, self.kind == 0);
                match buffer.get_mut(usize::try_from(self.place).expect("64 bits")..) {
                    Some(rest) if record.len() <= rest.len() => {
                        rest[..record.len()].copy_from_slice(&record);
                        (self.place + record.len() as u64).to_string()
                    }
                    _ => "refused 19".to_string(),
                }
            }
        };
        let bytes: String = buffer.iter().map(|byte| format!("{byte:02x}")).collect();
        format!("{answer} {bytes}\n")
    }
}

/// The oracle's reader takes the record apart, whatever follows, as a call of the same bytes.
fn reads_back(record: &[u8], first: bool) {
    let followed = [record, &[0xFF; 3]].concat();
    let (call, length) = tape::read(Format::Tape, &followed, first).expect("it was written");
    assert_eq!(
        (tape::bytes(&[call]), length),
        (record.to_vec(), record.len())
    );
}

/// With a held source's unused word 0 and every NaN the one that document 01 names.
fn canonical(call: Call) -> Call {
    let double = |x: f64| {
        if x.is_nan() {
            f64::from_bits(0x7FF8_0000_0000_0000)
        } else {
            x
        }
    };
    let single = |x: f32| {
        if x.is_nan() {
            f32::from_bits(0x7FC0_0000)
        } else {
            x
        }
    };
    match call {
        Call::Push(kind, push, _) => {
            let source = match push.source {
                Source::Held { level } => Source::Held {
                    level: single(level),
                },
                Source::Ramp { value, step } => Source::Ramp {
                    value: single(value),
                    step: single(step),
                },
                clip => clip,
            };
            let push = Push {
                start: double(push.start),
                end: double(push.end),
                fade_in: double(push.fade_in),
                fade_out: double(push.fade_out),
                source,
                written_gain: push.written_gain.map(single),
                ..push
            };
            Call::Push(kind, push, 0)
        }
        Call::Edit(timing, edit) => Call::Edit(
            timing,
            Edit {
                end: double(edit.end),
                fade_out: double(edit.fade_out),
                ..edit
            },
        ),
        Call::Rate(rate) => Call::Rate(double(rate)),
        call => call,
    }
}

/// Any bits, or an odd one.
fn float(random: &mut Random) -> f64 {
    match random.below(10) {
        0 => f64::NAN,
        1 => f64::from_bits(0xFFF0_0000_0000_0001 + random.below(1 << 40)),
        2 => random.pick(&[
            f64::INFINITY,
            f64::NEG_INFINITY,
            0.0,
            -0.0,
            f64::MAX,
            5e-324,
        ]),
        3..=5 => random.between(-64, 64) as f64 / 8.0,
        _ => f64::from_bits(random.next()),
    }
}

fn float32(random: &mut Random) -> f32 {
    match random.below(10) {
        0 => f32::NAN,
        1 => f32::from_bits(0xFF80_0001 + random.below(1 << 20) as u32),
        2 => random.pick(&[f32::INFINITY, f32::NEG_INFINITY, 0.0, -0.0, f32::MAX, 1e-45]),
        3..=5 => random.between(-64, 64) as f32 / 8.0,
        _ => f32::from_bits(random.next() as u32),
    }
}

/// Up to `most`, now and then just above it, or anything.
fn number(random: &mut Random, most: u64) -> u64 {
    match random.below(40) {
        0 => most + 1,
        1 => most + 256,
        2 => random.next(),
        3 => u64::MAX - random.below(3),
        _ => random.below(most + 1),
    }
}

fn request(random: &mut Random) -> Request {
    let room = if random.chance(60) {
        64
    } else {
        random.below(65)
    } as u32;
    let place = match random.below(20) {
        0 => room as u64,
        1 => room as u64 + 1,
        2 => u64::MAX - random.below(64),
        3..=6 => random.below(65),
        _ => random.below(12),
    };
    Request {
        kind: number(random, 12),
        channels: number(random, 255),
        mode: number(random, 1),
        number: random.next() >> random.below(64),
        times: [(); 4].map(|()| float(random)),
        curve: number(random, 1),
        source: number(random, 2),
        value: float32(random),
        step: float32(random),
        offset: random.next() as u32,
        length: random.next() as u32,
        gain: float32(random),
        room,
        size: number(random, 255),
        rate: float(random),
        place,
    }
}

/// Tapes of several profiles, each cut to 6,000 bytes.
fn tapes(seed: u64) -> Vec<Vec<u8>> {
    let profiles = [
        "small",
        "numbers",
        "blocks",
        "edits",
        "damaged",
        "gains",
        "gains-wild",
        "gains-damaged",
    ];
    profiles
        .iter()
        .flat_map(|name| {
            (seed..seed + 4).map(|seed| generate(named(name).expect("a profile"), seed))
        })
        .map(|tape| tape[..tape.len().min(6_000)].to_vec())
        .collect()
}

fn main() -> io::Result<()> {
    let mut arguments = std::env::args().skip(1);
    let which = arguments.next();
    let mut number = |or: u64| {
        arguments
            .next()
            .map_or(or, |word| word.parse().expect("a number"))
    };
    let (count, seed) = (number(400), number(6));
    let mut random = Random::new(seed);
    let mut out = io::stdout().lock();
    match which.as_deref() {
        Some("stdin") => {
            out.write_all(
                &u32::try_from(count)
                    .expect("at most 2^32 - 1 requests")
                    .to_le_bytes(),
            )?;
            for _ in 0..count {
                out.write_all(&request(&mut random).bytes())?;
            }
            for tape in tapes(seed) {
                out.write_all(&u16::try_from(tape.len()).expect("cut").to_le_bytes())?;
                out.write_all(&tape)?;
            }
        }
        Some("stdout") => {
            for _ in 0..count {
                out.write_all(request(&mut random).answer().as_bytes())?;
            }
            for tape in tapes(seed) {
                let (calls, _) = tape::records(Format::Tape, &tape);
                let calls: Vec<_> = calls.into_iter().map(canonical).collect();
                let bytes = tape::bytes(&calls);
                let digest = bytes
                    .iter()
                    .fold(0, |digest, &byte| mixed(digest, byte.into()));
                writeln!(out, "{} {digest:016x}", bytes.len())?;
            }
        }
        _ => panic!("usage: writervectors stdin|stdout [REQUESTS SEED]"),
    }
    Ok(())
}
