//! Document 02, Paper 1: a run of push records as the original's pushes one after another, and random scripts for the program
//! `batch_trail`: a tape on which 00 makes a new engine wherever it stands, and kind 20 is such a run (its count, the length of
//! the lent slice, the length of the run as two bytes, the run).

use crate::call::{Call, Push, PushKind};
use crate::digest;
use crate::engine::Engine;
use crate::generate::random::Random;
use crate::player::{Answer, Player, Pool};
use crate::session::Session;
use crate::tape::{self, Format};
use std::io::Write;

/// The kind of a run on a script.
const RUN: u8 = 0x20;
/// Most places of the slice that is lent.
const PLACES: usize = 64;

/// How many records were pushed, and what ended the run, 0 if nothing did.
pub struct Batch {
    pub pushed: usize,
    pub ended: u8,
}

/// The record that begins the bytes: a push with its length, or what stops the run.
fn next(records: &[u8]) -> Result<(PushKind, Push, usize), u8> {
    let kind = *records.first().ok_or(15)?;
    if !matches!(kind, 0x01..=0x03 | 0x0A..=0x0C) {
        return Err(14);
    }
    match tape::read(Format::Tape, records, false) {
        Ok((Call::Push(kind, push, _), length)) => Ok((kind, push, length)),
        Ok(_) => unreachable!("its kind is a push"),
        Err(stop) => Err(stop.refusal),
    }
}

pub fn push_records(
    player: &mut impl Player,
    records: &[u8],
    count: usize,
    numbers: &mut [u64],
) -> Batch {
    if count > 32 || numbers.len() != 32 {
        return Batch {
            pushed: 0,
            ended: 16,
        };
    }
    let mut rest = records;
    for pushed in 0..count {
        let (kind, push, length) = match next(rest) {
            Ok(record) => record,
            Err(ended) => return Batch { pushed, ended },
        };
        match player.push(kind, &push) {
            Answer::Number(number) => numbers[pushed] = number,
            answer => {
                let ended = answer.refusal();
                return Batch { pushed, ended };
            }
        }
        rest = &rest[length..];
    }
    Batch {
        pushed: count,
        ended: 0,
    }
}

/// What `batch_trail` must print of a script, and how many of its runs each number ended.
pub fn listing(script: &[u8], pool: &Pool) -> (Vec<u8>, [u64; 256]) {
    let mut out = Vec::new();
    let mut ended = [0; 256];
    let mut session: Option<Session<Engine>> = None;
    let mut rest = script;
    while let Some(&kind) = rest.first() {
        if kind == RUN {
            let (count, lent) = (rest[1].into(), usize::from(rest[2]).min(PLACES));
            let length = usize::from(u16::from_le_bytes([rest[3], rest[4]]));
            let records = &rest[5..5 + length];
            rest = &rest[5 + length..];
            let player = &mut session.as_mut().expect("a script begins with 00").player;
            let mut numbers: Vec<u64> = (0..PLACES as u64).map(|k| 1_000_000 + k).collect();
            let batch = push_records(player, records, count, &mut numbers[..lent]);
            ended[usize::from(batch.ended)] += 1;
            write!(out, "{} {}", batch.pushed, batch.ended).expect("a Vec takes all");
            for number in numbers {
                write!(out, " {number}").expect("a Vec takes all");
            }
            out.push(b'\n');
            let channels = player.channels();
            digest::line(
                &mut out,
                RUN,
                Answer::Done,
                None,
                channels,
                &player.state(),
                false,
            )
            .expect("a Vec takes all");
        } else {
            let (call, length) = tape::read(Format::Tape, rest, kind == 0)
                .expect("a script's own records are whole");
            rest = &rest[length..];
            match &mut session {
                Some(session) if kind != 0 => {
                    session.step(&call);
                }
                _ => session = Some(Session::create((), &call, pool).0),
            }
        }
    }
    (out, ended)
}

// ---- random scripts

fn time(random: &mut Random) -> f64 {
    match random.below(12) {
        0 => -0.0,
        1 => 0.0,
        2 => random.between(-4000, 4000) as f64 / 7.0,
        _ => random.between(-8, 60) as f64 * 0.125,
    }
}

fn odd_float(random: &mut Random) -> f64 {
    random.pick(&[
        f64::NAN,
        f64::INFINITY,
        -f64::INFINITY,
        1e9,
        1.000_000_001e9,
        -2e9,
    ])
}

/// A push record; `odd` of 100 have an argument that is refused, or near it.
fn push(random: &mut Random, odd: u64) -> Vec<u8> {
    let kind = random.pick(&[1u8, 1, 2, 3, 0x0A, 0x0B, 0x0C]);
    let mut bytes = vec![kind];
    let start = time(random);
    let length = random.between(0, 40) as f64 * 0.125;
    let end = match random.below(10) {
        0 => f64::INFINITY,
        _ if kind == 3 || kind == 0x0C => length,
        _ => start + length,
    };
    let mut times = [start, end, 0.0, 0.0];
    if random.chance(50) {
        times[2] = length / 2.0;
        times[3] = random.pick(&[0.0, length, length / 4.0]);
    }
    if random.chance(odd) {
        let place = random.below(4) as usize;
        times[place] = odd_float(random);
    }
    if random.chance(odd) {
        times[random.pick(&[2, 3])] = random.pick(&[length, length + 0.125, 100.0, -1.0]);
    }
    for x in times {
        bytes.extend(x.to_le_bytes());
    }
    let curve = if random.chance(odd / 2) {
        random.pick(&[2, 7, 255])
    } else {
        random.below(2) as u8
    };
    let source = if random.chance(odd / 2) {
        random.pick(&[3, 9, 255])
    } else {
        random.below(3) as u8
    };
    bytes.extend([curve, source]);
    for _ in 0..2 {
        let level = if random.chance(odd) {
            random.pick(&[f32::NAN, f32::INFINITY, -f32::INFINITY, f32::MAX])
        } else {
            random.between(-32, 32) as f32 / 32.0
        };
        bytes.extend(if source == 2 {
            (random.below(9000) as u32).to_le_bytes()
        } else {
            level.to_le_bytes()
        });
    }
    if kind > 9 {
        let gain = if random.chance(odd) {
            random.pick(&[f32::NAN, f32::INFINITY, -f32::INFINITY])
        } else {
            random.pick(&[1.0f32, 0.5, -2.0, 0.0])
        };
        bytes.extend(gain.to_le_bytes());
    }
    bytes
}

/// A record that is no push, or a kind byte alone.
fn other(random: &mut Random) -> Vec<u8> {
    let kind = random.pick(&[0u8, 4, 5, 6, 7, 8, 9, 0x0D, 0x20, 0xFF]);
    let mut bytes = vec![kind];
    bytes.extend((0..random.pick(&[0, 1, 8, 10, 24])).map(|_| random.below(3) as u8));
    bytes
}

/// A run with its count: whole, cut, damaged, longer or shorter than the count says.
fn run(random: &mut Random) -> (usize, Vec<u8>) {
    let odd = random.pick(&[0, 0, 2, 10]);
    let records = random.pick(&[0, 1, 2, 3, 5, 8, 13, 31, 32, 33]);
    let mut bytes = Vec::new();
    for _ in 0..records {
        if random.chance(odd / 2) {
            bytes.extend(other(random));
        } else {
            bytes.extend(push(random, odd));
        }
    }
    if random.chance(25) && !bytes.is_empty() {
        let keep = random.below(bytes.len() as u64) as usize;
        bytes.truncate(keep);
    }
    if random.chance(10) && !bytes.is_empty() {
        let place = random.below(bytes.len() as u64) as usize;
        bytes[place] = random.next() as u8;
    }
    if random.chance(25) {
        let more = random.below(60);
        bytes.extend((0..more).map(|_| random.next() as u8));
    }
    let count = match random.below(12) {
        0 => 0,
        1 => random.pick(&[33, 64, 255]),
        2 => 32,
        3 => random.below(33) as usize,
        4 => records + 1,
        5 => records.saturating_sub(1),
        _ => records.min(32),
    };
    (count, bytes)
}

/// A script below 65,536 bytes. Some engines are nearly full, some near the last number.
pub fn script(random: &mut Random) -> Vec<u8> {
    let mut bytes = Vec::new();
    for _ in 0..random.pick(&[1, 2, 4]) {
        bytes.extend([0, 1 + random.below(2) as u8, random.below(2) as u8]);
        let first = match random.below(4) {
            0 => u64::MAX - random.below(60),
            _ => 1 + random.below(1000),
        };
        bytes.extend(first.to_le_bytes());
        bytes.push(9);
        bytes.extend(random.pick(&[8.0f64, 16.0]).to_le_bytes());
        if random.chance(30) {
            for _ in 0..random.pick(&[200, 240, 256]) {
                bytes.extend(push(random, 0));
            }
        }
        for _ in 0..random.pick(&[5, 15, 30]) {
            match random.below(10) {
                0 => bytes.push(8),
                1 => {
                    bytes.push(9);
                    bytes.extend(random.pick(&[8.0f64, 16.0, 32.0]).to_le_bytes());
                }
                2 => {
                    bytes.push(random.pick(&[4, 5]));
                    bytes.extend((1 + random.below(1100)).to_le_bytes());
                    bytes.extend(time(random).to_le_bytes());
                    bytes.extend(0f64.to_le_bytes());
                }
                3..5 => bytes.push(6),
                5..7 => bytes.extend([7, random.below(65) as u8]),
                _ => {
                    let (count, records) = run(random);
                    let lent = if random.chance(90) {
                        32
                    } else {
                        random.pick(&[0, 1, 31, 33, 64])
                    };
                    bytes.extend([RUN, count as u8, lent]);
                    bytes.extend((records.len() as u16).to_le_bytes());
                    bytes.extend(records);
                }
            }
        }
        if bytes.len() > 30_000 {
            break;
        }
    }
    bytes
}
