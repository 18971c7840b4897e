//! Document 02, Paper 4, by its sentences, over the original's own lists; and tapes on a grid of 125 ms, on which starts, ends
//! and stretches meet.

use crate::engine::Engine;
use crate::generate::random::Random;
use crate::player::{Player, Pool};
use crate::session::Session;
use crate::state::{EventState, State};
use crate::tape::{self, Format};
use std::fmt::Write;

fn start(event: &EventState) -> f64 {
    f64::from_bits(event.start)
}

/// How many numbers the lent slice must have.
pub const SLICE: usize = 256;

/// All held events with start < the stretch's end and end > its beginning, by start then number; or the refusal. The slice has
/// `length` numbers.
pub fn clips(state: &State, from: f64, to: f64, length: usize) -> Result<Vec<u64>, u8> {
    if from.is_nan() || to.is_nan() || to <= from || length != SLICE {
        return Err(17);
    }
    let lists = [&state.waiting, &state.sounding, &state.finished];
    let mut found: Vec<&EventState> = lists
        .into_iter()
        .flatten()
        .filter(|event| start(event) < to && f64::from_bits(event.end) > from)
        .collect();
    found.sort_by(|a, b| start(a).total_cmp(&start(b)).then(a.number.cmp(&b.number)));
    Ok(found.iter().map(|event| event.number).collect())
}

/// The first waiting event that starts at or after the time, or none; or the refusal.
pub fn first_from(state: &State, time: f64) -> Result<Option<u64>, u8> {
    if time.is_nan() {
        return Err(17);
    }
    let first = state
        .waiting
        .iter()
        .filter(|event| start(event) >= time)
        .min_by(|a, b| start(a).total_cmp(&start(b)).then(a.number.cmp(&b.number)));
    Ok(first.map(|event| event.number))
}

/// An argument of `trail_clips` in seconds: milliseconds in up to 15 decimal digits, or `inf`, a minus sign in front or none.
/// Anything else is a NaN.
pub fn seconds(argument: &str) -> f64 {
    let (sign, rest) = match argument.strip_prefix('-') {
        Some(rest) => (-1.0, rest),
        None => (1.0, argument),
    };
    if rest == "inf" {
        return sign * f64::INFINITY;
    }
    let digits =
        !rest.is_empty() && rest.len() <= 15 && rest.bytes().all(|byte| byte.is_ascii_digit());
    if !digits {
        return f64::NAN;
    }
    sign * (rest.parse::<u64>().expect("it has up to 15 digits") as f64 / 1000.0)
}

/// What `trail_clips` prints for the events of a state, lent a slice of the given length, or of 256.
pub fn text(state: &State, from: &str, to: &str, length: Option<usize>) -> String {
    let (from, to) = (seconds(from), seconds(to));
    let lent = length.unwrap_or(SLICE);
    let mut text = String::new();
    // "the rest of the slice left"; a refused call writes nothing
    let mut left = lent;
    match clips(state, from, to, lent) {
        Ok(numbers) => {
            left -= numbers.len();
            writeln!(text, "clips {}", numbers.len()).unwrap();
            for number in numbers {
                writeln!(text, "{number}").unwrap();
            }
        }
        Err(refusal) => writeln!(text, "clips refused {refusal}").unwrap(),
    }
    match first_from(state, from) {
        Ok(Some(number)) => writeln!(text, "first {number}").unwrap(),
        Ok(None) => writeln!(text, "first none").unwrap(),
        Err(refusal) => writeln!(text, "first refused {refusal}").unwrap(),
    }
    if length.is_some() {
        writeln!(text, "left {left}").unwrap();
    }
    text
}

/// The state after a whole tape, which is played as far as no record stops it. Before its first record stands a fresh engine of
/// one channel.
pub fn played(tape: &[u8], pool: &Pool) -> State {
    let mut session: Option<Session<Engine>> = None;
    let mut rest = tape;
    while !rest.is_empty() {
        let Ok((call, length)) = tape::read(Format::Tape, rest, session.is_none()) else {
            break;
        };
        rest = &rest[length..];
        match &mut session {
            Some(session) => {
                session.step(&call);
            }
            None => {
                let (created, answer) = Session::<Engine>::create((), &call, pool);
                if answer.refusal() != 0 {
                    return created.player.state();
                }
                session = Some(created);
            }
        }
    }
    match session {
        Some(session) => session.player.state(),
        None => Engine::create((), 1, crate::call::Mode::All, 1).0.state(),
    }
}

/// A multiple of 125 ms from -1 s to 5 s; zero of either sign.
fn on_grid(random: &mut Random) -> f64 {
    let k = random.between(-8, 40);
    if k == 0 && random.chance(50) {
        -0.0
    } else {
        k as f64 * 0.125
    }
}

/// A tape at 8 or 16 samples a second whose times are on the grid: pushes of each kind, many of equal starts, some that end
/// before they start (with fades below 0), edits, ticks, blocks, resets and rates.
pub fn tape(random: &mut Random) -> Vec<u8> {
    let mut bytes = vec![0, 1, random.below(2) as u8];
    bytes.extend((1 + random.below(3)).to_le_bytes());
    bytes.push(9);
    bytes.extend(random.pick(&[8.0f64, 16.0]).to_le_bytes());
    let records = random.pick(&[0, 1, 3, 20, 60, 200, 400]);
    let busy = random.pick(&[5, 20, 60]);
    for _ in 0..records {
        if random.chance(busy) {
            match random.below(20) {
                0 => bytes.push(8),
                1 => {
                    bytes.push(9);
                    bytes.extend(random.pick(&[8.0f64, 16.0, 32.0]).to_le_bytes());
                }
                2..6 => {
                    bytes.push(random.pick(&[4, 5]));
                    bytes.extend((1 + random.below(40)).to_le_bytes());
                    bytes.extend(on_grid(random).to_le_bytes());
                    bytes.extend(0f64.to_le_bytes());
                }
                6..13 => bytes.push(6),
                _ => {
                    bytes.push(7);
                    bytes.push(random.below(9) as u8);
                }
            }
        } else {
            bytes.push(random.pick(&[1, 1, 1, 2, 3]));
            let end = if random.chance(10) {
                f64::INFINITY
            } else {
                on_grid(random)
            };
            for time in [on_grid(random), end, -9.0, -9.0] {
                bytes.extend(time.to_le_bytes());
            }
            bytes.extend([1, 0]);
            bytes.extend(1f32.to_le_bytes());
            bytes.extend([0; 4]);
        }
    }
    bytes
}

/// An end of a stretch, as an argument.
pub fn argument(random: &mut Random) -> String {
    match random.below(20) {
        0 => "inf".into(),
        1 => "-inf".into(),
        2 => "-0".into(),
        3 => random
            .pick(&["", "-", "x", "1e3", "+1", "nan", "1234567890123456"])
            .into(),
        4..7 => random.between(-1000, 5000).to_string(),
        _ => (random.between(-8, 40) * 125).to_string(),
    }
}

/// The slice's length, where it is given; most often the right one.
pub fn length(random: &mut Random) -> Option<usize> {
    match random.below(8) {
        0..3 => None,
        3..6 => Some(SLICE),
        _ => Some(random.pick(&[0, 1, 64, 255, 257, 300, 512])),
    }
}
