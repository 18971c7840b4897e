//! Everything that a player holds, as plain values that compare by bits.

use crate::call::{Curve, Source};

/// An event with its source's place.
#[derive(Clone, PartialEq, Debug)]
pub struct EventState {
    pub start: u64,
    pub end: u64,
    pub fade_in: u64,
    pub fade_out: u64,
    pub gain: u32,
    pub curve: Curve,
    pub source: Source,
    /// A ramp's next value; 0 with other sources.
    pub value: u32,
    /// How many samples a clip has given, at most its length; 0 with other sources.
    pub place: u32,
    pub number: u64,
}

#[derive(Clone, PartialEq, Debug)]
pub struct EditState {
    pub number: u64,
    pub end: u64,
    pub fade_out: u64,
}

/// A message from the desk's front to its back.
#[derive(Clone, PartialEq, Debug)]
pub enum MessageState {
    Reset,
    Push(EventState),
    PushRelative(EventState),
    Edit(EditState),
    EditRelative(EditState),
}

#[derive(Clone, PartialEq, Debug)]
pub struct State {
    /// By start, then by number.
    pub waiting: Vec<EventState>,
    pub sounding: Vec<EventState>,
    pub finished: Vec<EventState>,
    /// By number.
    pub edits: Vec<EditState>,
    /// Number and place in the sounding list, by number.
    pub index: Vec<(u64, usize)>,
    pub let_go: u64,
    pub clock: u64,
    pub threshold: u64,
    pub rate: u64,
    pub duration: u64,
    /// The next number, 0 after 2^64 - 1 has been given.
    pub next: u64,
    /// The desk's queues, the oldest first; empty for an engine.
    pub messages: Vec<MessageState>,
    pub returned: Vec<u64>,
}

/// Waiting, sounding, finished, let go.
#[derive(Clone, Copy, PartialEq, Eq, Debug, Default)]
pub struct Counts {
    pub waiting: usize,
    pub sounding: usize,
    pub finished: usize,
    pub let_go: u64,
}

/// A sample's bits, any NaN as 7FC00000.
pub fn sample_bits(sample: f32) -> u32 {
    if sample.is_nan() {
        0x7FC0_0000
    } else {
        sample.to_bits()
    }
}
