//! What the calls take and answer.

/// The number of an event, a kind of its own: it never serves as a place in a list.
#[derive(Clone, Copy, PartialEq, Eq, PartialOrd, Ord, Hash, Debug)]
pub struct EventId(u64);

impl EventId {
    /// The event with that number. An edit may name one that is not yet given.
    pub const fn from_number(number: u64) -> Self {
        Self(number)
    }

    /// The event's number.
    pub const fn number(self) -> u64 {
        self.0
    }
}

/// Fade curves.
#[derive(Clone, Copy, PartialEq, Eq, Hash, Debug, Default)]
pub enum Fade {
    /// Equal power, for signals with independent phases.
    Power,
    /// Equal amplitude, for signals with matching phases. The default, as in the Rust.
    #[default]
    Smooth,
}

impl Fade {
    /// The curve's number for the entries.
    pub const fn number(self) -> u32 {
        match self {
            Self::Power => 0,
            Self::Smooth => 1,
        }
    }
}

/// Whether a reset plays the events again.
#[derive(Clone, Copy, PartialEq, Eq, Hash, Debug)]
pub enum ReplayMode {
    /// A reset sends every event back to wait. Finished events are held until then.
    All,
    /// A reset lets every event go, and the next tick or block lets a finished one go.
    None,
}

impl ReplayMode {
    /// The mode's number for the entries.
    pub const fn number(self) -> u32 {
        match self {
            Self::All => 0,
            Self::None => 1,
        }
    }
}

/// The order in which a tick or block adds the sounding events (document 02, Paper 9).
#[derive(Clone, Copy, PartialEq, Eq, Hash, Debug, Default)]
pub enum MixOrder {
    /// As their list has them.
    #[default]
    Forward,
    /// From the list's end: the marked calls.
    Backward,
}

impl MixOrder {
    /// The mark's number for the entries.
    pub const fn number(self) -> u32 {
        match self {
            Self::Forward => 0,
            Self::Backward => 1,
        }
    }
}

/// What an event plays. One value feeds all channels, and only samples that are heard move a source on.
#[derive(Clone, Copy, PartialEq, Debug)]
pub enum Source {
    /// One level throughout.
    Held(f32),
    /// A value to which a step is added after each sample.
    Ramp {
        /// The first value.
        value: f32,
        /// What is added, in f32.
        step: f32,
    },
    /// A part of the pool that is lent to each tick and block; 0.0 past its end, and past the pool's.
    Clip {
        /// The place of its first sample in the pool.
        offset: u32,
        /// How many samples it has.
        length: u32,
    },
}

/// What an accepted push answers.
#[derive(Clone, Copy, PartialEq, Eq, Debug)]
pub struct Pushed {
    /// The event's number.
    pub id: EventId,
    /// How many levels it rose in the heap of waiting events; 0 if it sounds at once (document 02, Paper 13).
    pub rise: u64,
}

/// What became of an accepted edit.
#[derive(Clone, Copy, PartialEq, Eq, Hash, Debug)]
pub enum Edited {
    /// The event sounds and has the new end and fade-out.
    Applied,
    /// The new end is past: nothing is changed.
    Past,
    /// Stored for when the event starts, in place of an edit stored before.
    Stored,
}

/// How the places of a block, where its events start, end and fade, were computed, each counted once (document 02, Paper 12).
#[derive(Clone, Copy, PartialEq, Eq, Hash, Debug, Default)]
pub struct Places {
    /// Kept as rounded.
    pub kept: u64,
    /// Forced into the block.
    pub forced: u64,
    /// Set at an edge, without rounding.
    pub edge: u64,
}

/// How many events wait, sound, are finished, and were let go.
#[derive(Clone, Copy, PartialEq, Eq, Hash, Debug, Default)]
pub struct Counts {
    /// Events that wait for their start.
    pub waiting: u64,
    /// Events that sound.
    pub sounding: u64,
    /// Events that are finished and still held.
    pub finished: u64,
    /// Events that were let go since the creation.
    pub let_go: u64,
}
