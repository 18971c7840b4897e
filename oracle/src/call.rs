//! The calls of a tape or script, as plain data.

#[derive(Clone, Copy, PartialEq, Eq, Debug)]
pub enum Mode {
    All,
    None,
}

#[derive(Clone, Copy, PartialEq, Eq, Debug)]
pub enum Curve {
    Power,
    Smooth,
}

#[derive(Clone, Copy, PartialEq, Debug)]
pub enum Source {
    Held { level: f32 },
    Ramp { value: f32, step: f32 },
    Clip { offset: u32, length: u32 },
}

#[derive(Clone, Copy, PartialEq, Eq, Debug)]
pub enum Timing {
    Absolute,
    Relative,
}

/// The order in which a tick or block adds the sounding events. Document 02, Paper 9: with the mark from the list's end.
#[derive(Clone, Copy, PartialEq, Eq, Debug)]
pub enum MixOrder {
    Forward,
    Backward,
}

/// How a push gives its end.
#[derive(Clone, Copy, PartialEq, Eq, Debug)]
pub enum PushKind {
    Absolute,
    Relative,
    Duration,
}

#[derive(Clone, Copy, PartialEq, Debug)]
pub struct Push {
    pub start: f64,
    /// The end, or the duration in a push by duration.
    pub end: f64,
    pub fade_in: f64,
    pub fade_out: f64,
    pub curve: Curve,
    pub source: Source,
    /// The gain as the record has it: kinds 01 to 03 have none.
    pub written_gain: Option<f32>,
}

impl Push {
    /// Document 02, Paper 5: records 01 to 03 mean gain 1.0.
    pub fn gain(&self) -> f32 {
        self.written_gain.unwrap_or(1.0)
    }
}

#[derive(Clone, Copy, PartialEq, Debug)]
pub struct Edit {
    pub number: u64,
    pub end: f64,
    pub fade_out: f64,
}

#[derive(Clone, Copy, PartialEq, Debug)]
pub enum Call {
    Create {
        channels: u8,
        mode: Mode,
        first: u64,
    },
    /// The last field is a held source's unused word; 0 with other sources.
    Push(PushKind, Push, u32),
    Edit(Timing, Edit),
    Tick,
    Block(u8),
    Reset,
    Rate(f64),
    /// Desk scripts only: the reset that the front queues.
    FrontReset,
    /// Scripts only: a tick with the length of the lent output.
    TickLent(u16),
    /// Scripts only: a block with the lengths of the lent output and scratch.
    BlockLent(u8, u16, Option<u16>),
    /// Scripts only: the length of the pool that is lent from here on.
    Pool(u16),
    /// Scripts only: a tick and a block with the mark. A marked block is lent no scratch.
    MarkedTick,
    MarkedBlock(u8),
    /// Engine scripts only: so many blocks of 64 samples, up to the first refused one.
    Spin(u32),
}

impl Call {
    /// The byte of kind.
    pub fn kind(&self) -> u8 {
        match self {
            Call::Create { .. } => 0x00,
            Call::Push(kind, push, _) => match (kind, push.written_gain) {
                (PushKind::Absolute, None) => 0x01,
                (PushKind::Relative, None) => 0x02,
                (PushKind::Duration, None) => 0x03,
                (PushKind::Absolute, Some(_)) => 0x0A,
                (PushKind::Relative, Some(_)) => 0x0B,
                (PushKind::Duration, Some(_)) => 0x0C,
            },
            Call::Edit(Timing::Absolute, _) => 0x04,
            Call::Edit(Timing::Relative, _) => 0x05,
            Call::Tick => 0x06,
            Call::Block(_) => 0x07,
            Call::Reset => 0x08,
            Call::Rate(_) => 0x09,
            Call::FrontReset => 0x10,
            Call::TickLent(_) => 0x11,
            Call::BlockLent(..) => 0x12,
            Call::Pool(_) => 0x13,
            Call::Spin(_) => 0x14,
            Call::MarkedTick => 0x15,
            Call::MarkedBlock(_) => 0x16,
        }
    }
}
