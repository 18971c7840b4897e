//! Tapes as bytes: reading a record, writing a record.

use crate::call::{Call, Curve, Edit, Mode, Push, PushKind, Source, Timing};

/// What may stand on a tape.
#[derive(Clone, Copy, PartialEq, Eq, Debug)]
pub enum Format {
    /// Document 01's tape with document 02's Paper 5: kinds 00 to 0C.
    Tape,
    /// A tape with kinds 11 to 14 for what is lent and for many blocks at once, and 15 and 16 for marked calls.
    Script,
    /// A tape for the desk with kinds 11 to 13, 15 and 16, and 10 for the front's reset.
    Desk,
}

/// A record that cannot be taken apart: its kind and refusal 14 or 15.
#[derive(Clone, Copy, PartialEq, Eq, Debug)]
pub struct Stop {
    pub kind: u8,
    pub refusal: u8,
}

/// A scratch length in kind 12 that means: none is lent.
const NO_SCRATCH: u16 = 0xFFFF;

/// The length of the body of a kind, or none if the kind is unknown.
fn body_length(format: Format, kind: u8) -> Option<usize> {
    let scripted = format != Format::Tape;
    match kind {
        0x00 => Some(10),
        0x01..=0x03 => Some(42),
        0x0A..=0x0C => Some(42 + 4),
        0x04 | 0x05 => Some(24),
        0x06 | 0x08 => Some(0),
        0x07 => Some(1),
        0x09 => Some(8),
        0x10 if format == Format::Desk => Some(0),
        0x11 if scripted => Some(2),
        0x12 if scripted => Some(5),
        0x13 if scripted => Some(2),
        0x14 if format == Format::Script => Some(4),
        0x15 if scripted => Some(0),
        0x16 if scripted => Some(1),
        _ => None,
    }
}

/// Places in a body, with their greatest known value, that refusal 14 looks at.
fn checked_bytes(kind: u8) -> &'static [(usize, u8)] {
    match kind {
        0x00 => &[(1, 1)],
        0x01..=0x03 | 0x0A..=0x0C => &[(32, 1), (33, 2)],
        _ => &[],
    }
}

/// Take the record at the tape's beginning apart: the call and its length in bytes.
/// The tape is not empty; `first` says whether this is its first record.
pub fn read(format: Format, tape: &[u8], first: bool) -> Result<(Call, usize), Stop> {
    let kind = tape[0];
    let body = &tape[1..];
    let stop = |refusal| Stop { kind, refusal };
    let length = body_length(format, kind).ok_or(stop(14))?;
    if first != (kind == 0x00) {
        return Err(stop(14));
    }
    for &(place, greatest) in checked_bytes(kind) {
        if body.get(place).is_some_and(|&byte| byte > greatest) {
            return Err(stop(14));
        }
    }
    let body = body.get(..length).ok_or(stop(15))?;
    Ok((take_apart(kind, body), 1 + length))
}

fn u16_at(body: &[u8], place: usize) -> u16 {
    u16::from_le_bytes(body[place..place + 2].try_into().unwrap())
}

fn u32_at(body: &[u8], place: usize) -> u32 {
    u32::from_le_bytes(body[place..place + 4].try_into().unwrap())
}

fn u64_at(body: &[u8], place: usize) -> u64 {
    u64::from_le_bytes(body[place..place + 8].try_into().unwrap())
}

fn f32_at(body: &[u8], place: usize) -> f32 {
    f32::from_bits(u32_at(body, place))
}

fn f64_at(body: &[u8], place: usize) -> f64 {
    f64::from_bits(u64_at(body, place))
}

/// The call of a whole body whose kind and checked bytes are known.
fn take_apart(kind: u8, body: &[u8]) -> Call {
    match kind {
        0x00 => Call::Create {
            channels: body[0],
            mode: if body[1] == 0 { Mode::All } else { Mode::None },
            first: u64_at(body, 2),
        },
        0x01 => push(PushKind::Absolute, body, None),
        0x02 => push(PushKind::Relative, body, None),
        0x03 => push(PushKind::Duration, body, None),
        0x0A => push(PushKind::Absolute, body, Some(f32_at(body, 42))),
        0x0B => push(PushKind::Relative, body, Some(f32_at(body, 42))),
        0x0C => push(PushKind::Duration, body, Some(f32_at(body, 42))),
        0x04 => Call::Edit(Timing::Absolute, edit(body)),
        0x05 => Call::Edit(Timing::Relative, edit(body)),
        0x06 => Call::Tick,
        0x07 => Call::Block(body[0]),
        0x08 => Call::Reset,
        0x09 => Call::Rate(f64_at(body, 0)),
        0x10 => Call::FrontReset,
        0x11 => Call::TickLent(u16_at(body, 0)),
        0x12 => {
            let scratch = u16_at(body, 3);
            let scratch = (scratch != NO_SCRATCH).then_some(scratch);
            Call::BlockLent(body[0], u16_at(body, 1), scratch)
        }
        0x13 => Call::Pool(u16_at(body, 0)),
        0x14 => Call::Spin(u32_at(body, 0)),
        0x15 => Call::MarkedTick,
        _ => Call::MarkedBlock(body[0]),
    }
}

fn push(kind: PushKind, body: &[u8], written_gain: Option<f32>) -> Call {
    let (word, other) = (u32_at(body, 34), u32_at(body, 38));
    let (source, unused) = match body[33] {
        0 => {
            let level = f32::from_bits(word);
            (Source::Held { level }, other)
        }
        1 => {
            let (value, step) = (f32::from_bits(word), f32::from_bits(other));
            (Source::Ramp { value, step }, 0)
        }
        _ => {
            let (offset, length) = (word, other);
            (Source::Clip { offset, length }, 0)
        }
    };
    let push = Push {
        start: f64_at(body, 0),
        end: f64_at(body, 8),
        fade_in: f64_at(body, 16),
        fade_out: f64_at(body, 24),
        curve: if body[32] == 0 {
            Curve::Power
        } else {
            Curve::Smooth
        },
        source,
        written_gain,
    };
    Call::Push(kind, push, unused)
}

fn edit(body: &[u8]) -> Edit {
    Edit {
        number: u64_at(body, 0),
        end: f64_at(body, 8),
        fade_out: f64_at(body, 16),
    }
}

/// Append the record of a call.
pub fn write(tape: &mut Vec<u8>, call: &Call) {
    tape.push(call.kind());
    match *call {
        Call::Create {
            channels,
            mode,
            first,
        } => {
            tape.push(channels);
            tape.push(match mode {
                Mode::All => 0,
                Mode::None => 1,
            });
            tape.extend(first.to_le_bytes());
        }
        Call::Push(_, push, unused) => {
            for time in [push.start, push.end, push.fade_in, push.fade_out] {
                tape.extend(time.to_bits().to_le_bytes());
            }
            tape.push(match push.curve {
                Curve::Power => 0,
                Curve::Smooth => 1,
            });
            let (source, word, other) = match push.source {
                Source::Held { level } => (0, level.to_bits(), unused),
                Source::Ramp { value, step } => (1, value.to_bits(), step.to_bits()),
                Source::Clip { offset, length } => (2, offset, length),
            };
            tape.push(source);
            tape.extend(word.to_le_bytes());
            tape.extend(other.to_le_bytes());
            if let Some(gain) = push.written_gain {
                tape.extend(gain.to_bits().to_le_bytes());
            }
        }
        Call::Edit(_, edit) => {
            tape.extend(edit.number.to_le_bytes());
            tape.extend(edit.end.to_bits().to_le_bytes());
            tape.extend(edit.fade_out.to_bits().to_le_bytes());
        }
        Call::Tick | Call::MarkedTick | Call::Reset | Call::FrontReset => {}
        Call::Block(size) | Call::MarkedBlock(size) => tape.push(size),
        Call::Rate(rate) => tape.extend(rate.to_bits().to_le_bytes()),
        Call::TickLent(output) => tape.extend(output.to_le_bytes()),
        Call::BlockLent(size, output, scratch) => {
            tape.push(size);
            tape.extend(output.to_le_bytes());
            tape.extend(scratch.unwrap_or(NO_SCRATCH).to_le_bytes());
        }
        Call::Pool(length) => tape.extend(length.to_le_bytes()),
        Call::Spin(blocks) => tape.extend(blocks.to_le_bytes()),
    }
}

/// The bytes of a list of calls.
pub fn bytes(calls: &[Call]) -> Vec<u8> {
    let mut tape = Vec::new();
    for call in calls {
        write(&mut tape, call);
    }
    tape
}

/// A tape as its whole records, and the stop and the bytes where they end before it does.
pub fn records(format: Format, tape: &[u8]) -> (Vec<Call>, Option<(Stop, &[u8])>) {
    let mut calls = Vec::new();
    let mut rest = tape;
    while !rest.is_empty() {
        match read(format, rest, calls.is_empty()) {
            Ok((call, length)) => {
                calls.push(call);
                rest = &rest[length..];
            }
            Err(stop) => return (calls, Some((stop, rest))),
        }
    }
    (calls, None)
}

/// The tape as the port's desk_trail can lend: no scratch, and a pool of at most 4,096 samples.
pub fn as_the_port_lends(format: Format, tape: &[u8]) -> Vec<u8> {
    let (calls, stop) = records(format, tape);
    let mut plain = Vec::with_capacity(tape.len());
    for call in calls {
        let call = match call {
            Call::BlockLent(size, output, _) => Call::BlockLent(size, output, None),
            Call::Pool(length) => Call::Pool(length.min(4_096)),
            call => call,
        };
        write(&mut plain, &call);
    }
    if let Some((_, rest)) = stop {
        plain.extend_from_slice(rest);
    }
    plain
}
