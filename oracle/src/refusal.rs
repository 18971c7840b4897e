//! Document 01's refusals in their order, 18 of document 02's Paper 5 among them, as they stand in front of the original.

use crate::call::{Edit, Push, PushKind, Source};
use crate::player::{BLOCK, MAX_HELD};

/// The greatest magnitude of a time or fade, and of the clock.
const MAX_TIME: f64 = 1_000_000_000.0;
const MAX_RATE: f64 = 1_000_000.0;
pub const MAX_MESSAGES: usize = 64;

pub type Check = Result<(), u8>;

fn refuse_if(refused: bool, number: u8) -> Check {
    if refused { Err(number) } else { Ok(()) }
}

pub fn creation(channels: u8, first: u64) -> Check {
    refuse_if(!(1..=8).contains(&channels) || first == 0, 1)
}

pub fn rate(rate: f64) -> Check {
    refuse_if(!(1.0..=MAX_RATE).contains(&rate), 2)
}

/// A time or fade that must be finite.
fn in_limits(time: f64) -> bool {
    time.abs() <= MAX_TIME
}

/// An end or duration, which may be +infinity.
fn end_in_limits(end: f64) -> bool {
    in_limits(end) || end == f64::INFINITY
}

fn source_is_finite(source: Source) -> bool {
    match source {
        Source::Held { level } => level.is_finite(),
        Source::Ramp { value, step } => value.is_finite() && step.is_finite(),
        Source::Clip { .. } => true,
    }
}

/// Refusals 3 to 7, with 18 directly after 5. `next` is 0 after number 2^64 - 1 has been given.
pub fn push(kind: PushKind, push: &Push, held: usize, next: u64) -> Check {
    let times = in_limits(push.start) && end_in_limits(push.end);
    refuse_if(
        !(times && in_limits(push.fade_in) && in_limits(push.fade_out)),
        3,
    )?;
    let end = match kind {
        PushKind::Duration => push.start + push.end,
        PushKind::Absolute | PushKind::Relative => push.end,
    };
    let duration = end - push.start;
    refuse_if(!(push.fade_in <= duration && push.fade_out <= duration), 4)?;
    refuse_if(!source_is_finite(push.source), 5)?;
    refuse_if(!push.gain().is_finite(), 18)?;
    refuse_if(held >= MAX_HELD, 6)?;
    refuse_if(next == 0, 7)
}

pub fn edit(edit: &Edit) -> Check {
    refuse_if(!(end_in_limits(edit.end) && in_limits(edit.fade_out)), 8)
}

/// Refusal 9, for an edit that must be stored anew.
pub fn stored_edits(edits: usize) -> Check {
    refuse_if(edits >= MAX_HELD, 9)
}

pub fn tick(channels: usize, output: usize, clock_after: f64) -> Check {
    refuse_if(output != channels, 10)?;
    refuse_clock(clock_after)
}

pub fn block(
    channels: usize,
    size: usize,
    output: usize,
    scratch: Option<usize>,
    clock_after: f64,
) -> Check {
    // document 02, Paper 7: a lent scratch has 64 samples, whatever the channels
    refuse_if(
        output != BLOCK * channels || scratch.is_some_and(|length| length != BLOCK),
        10,
    )?;
    refuse_if(size > BLOCK, 11)?;
    refuse_clock(clock_after)
}

fn refuse_clock(clock_after: f64) -> Check {
    refuse_if(clock_after > MAX_TIME || clock_after.is_nan(), 12)
}

pub fn messages(queued: usize) -> Check {
    refuse_if(queued >= MAX_MESSAGES, 13)
}
