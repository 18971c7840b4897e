//! Why a call is refused.

use core::fmt;

/// Why a call was refused, by the number in document 01's list (18: document 02, Paper 5). A refused call has changed nothing.
///
/// The engine's calls answer 1 to 12 and 18; 14 only where [`entries`](crate::entries) are called with a number of no kind. 13 is
/// the desk's and 15 a tape's: they are here so that every number has its words.
#[derive(Clone, Copy, PartialEq, Eq, Hash, Debug)]
#[repr(u8)]
pub enum Refusal {
    /// Channels are not 1 to 8, or the first number is 0.
    Creation = 1,
    /// A rate is not from 1 to 1,000,000.
    Rate = 2,
    /// A time or fade is NaN or beyond 1,000,000,000; only an end or duration may be +infinity.
    Time = 3,
    /// A fade is longer than the event.
    LongFade = 4,
    /// A held level, a ramp's value or its step is not finite.
    Source = 5,
    /// 256 events are held.
    Full = 6,
    /// The last event number, 2^64 - 1, has been given.
    Numbers = 7,
    /// An edit's end or fade-out is NaN or beyond 1,000,000,000; only the end may be +infinity.
    EditTime = 8,
    /// 256 edits are stored.
    EditsFull = 9,
    /// The output's length is not that of the call: a place a channel for a tick, 64 a channel for a block.
    OutputLength = 10,
    /// The block's size is above 64.
    BlockSize = 11,
    /// The clock would pass 1,000,000,000.
    Clock = 12,
    /// 64 messages are queued (on the desk).
    Messages = 13,
    /// A mode, curve, source or mark has a number that names none, or a tape's record is of no kind.
    Unknown = 14,
    /// A tape ends inside a record.
    CutRecord = 15,
    /// A gain is not finite.
    Gain = 18,
}

impl Refusal {
    /// Every refusal, in the order of the numbers.
    pub const ALL: [Self; 16] = [
        Self::Creation,
        Self::Rate,
        Self::Time,
        Self::LongFade,
        Self::Source,
        Self::Full,
        Self::Numbers,
        Self::EditTime,
        Self::EditsFull,
        Self::OutputLength,
        Self::BlockSize,
        Self::Clock,
        Self::Messages,
        Self::Unknown,
        Self::CutRecord,
        Self::Gain,
    ];

    /// The refusal with that number, or none.
    pub fn from_number(number: u64) -> Option<Self> {
        let has = |refusal: &Self| u64::from(refusal.number()) == number;
        Self::ALL.into_iter().find(has)
    }

    /// The number in document 01's list.
    pub const fn number(self) -> u8 {
        self as u8
    }

    /// The reason, in words.
    pub const fn words(self) -> &'static str {
        match self {
            Self::Creation => "channels are not 1 to 8, or the first number is 0",
            Self::Rate => "a rate is not from 1 to 1,000,000",
            Self::Time => "a time or fade is NaN or beyond 1,000,000,000",
            Self::LongFade => "a fade is longer than the event",
            Self::Source => "a level, ramp value or step is not finite",
            Self::Full => "256 events are held",
            Self::Numbers => "the last event number has been given",
            Self::EditTime => "an edit's end or fade is NaN or beyond 1,000,000,000",
            Self::EditsFull => "256 edits are stored",
            Self::OutputLength => "the output's length is not that of the call",
            Self::BlockSize => "the block's size is above 64",
            Self::Clock => "the clock would pass 1,000,000,000",
            Self::Messages => "64 messages are queued",
            Self::Unknown => "a mode, curve, source or mark of no such number",
            Self::CutRecord => "a tape ends inside a record",
            Self::Gain => "a gain is not finite",
        }
    }

    /// What an entry answered beside its own answers.
    ///
    /// # Panics
    ///
    /// For a number that document 01 does not list: the library then is not this header's.
    pub(crate) fn of(code: u64) -> Self {
        match Self::from_number(code) {
            Some(refusal) => refusal,
            None => panic!("the library answered {code}, which is no refusal"),
        }
    }
}

impl fmt::Display for Refusal {
    fn fmt(&self, f: &mut fmt::Formatter) -> fmt::Result {
        write!(f, "refusal {}: {}", self.number(), self.words())
    }
}

impl core::error::Error for Refusal {}
