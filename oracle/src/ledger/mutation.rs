//! Deliberate faults of the ledger, to show that the comparison catches them.

#[derive(Clone, Copy, PartialEq, Eq, Debug)]
pub enum Mutation {
    /// A finished event leaves its place by closing the gap.
    SwapOrderIgnored,
    /// After a finish the moved event is skipped.
    MovedEventSkipped,
    /// Fade places are counted by the rate, not by the sample duration.
    FadeByRate,
    /// Fades are counted from the block's edge, as before document 02's Paper 3.
    FadeFromEdge,
    /// The gain is multiplied on after the fades.
    GainAfterFades,
    /// A ramp goes on with its value times the gain.
    RampWithGain,
    /// A source whose gain is 0 does not move.
    GainZeroHolds,
    /// A fade-out place at the edge that is raised to s counts as forced.
    EdgeRaisedIsForced,
    /// The places of an event that gives no samples are not counted.
    SilentNotCounted,
    /// A push straight to the sounding list takes a stored edit.
    PushTakesEdit,
    /// A reset in mode All empties the edits.
    ResetEmptiesEdits,
    /// A block of n samples is n ticks.
    BlockAsTicks,
    /// The desk handles a reset message without draining first.
    QueueFlat,
    /// A marked call adds in the list's order.
    MarkIgnored,
    /// A marked call adds from the end of the list before events finish and others fill their places.
    MarkBeforeMoves,
}

impl Mutation {
    pub const ALL: [Mutation; 15] = [
        Mutation::SwapOrderIgnored,
        Mutation::MovedEventSkipped,
        Mutation::FadeByRate,
        Mutation::FadeFromEdge,
        Mutation::GainAfterFades,
        Mutation::RampWithGain,
        Mutation::GainZeroHolds,
        Mutation::EdgeRaisedIsForced,
        Mutation::SilentNotCounted,
        Mutation::PushTakesEdit,
        Mutation::ResetEmptiesEdits,
        Mutation::BlockAsTicks,
        Mutation::QueueFlat,
        Mutation::MarkIgnored,
        Mutation::MarkBeforeMoves,
    ];

    pub fn name(self) -> &'static str {
        match self {
            Mutation::SwapOrderIgnored => "swap-order-ignored",
            Mutation::MovedEventSkipped => "moved-event-skipped",
            Mutation::FadeByRate => "fade-by-rate",
            Mutation::FadeFromEdge => "fade-from-edge",
            Mutation::GainAfterFades => "gain-after-fades",
            Mutation::RampWithGain => "ramp-with-gain",
            Mutation::GainZeroHolds => "gain-zero-holds",
            Mutation::EdgeRaisedIsForced => "edge-raised-is-forced",
            Mutation::SilentNotCounted => "silent-not-counted",
            Mutation::PushTakesEdit => "push-takes-edit",
            Mutation::ResetEmptiesEdits => "reset-empties-edits",
            Mutation::BlockAsTicks => "block-as-ticks",
            Mutation::QueueFlat => "queue-flat",
            Mutation::MarkIgnored => "mark-ignored",
            Mutation::MarkBeforeMoves => "mark-before-moves",
        }
    }

    pub fn named(name: &str) -> Option<Self> {
        Self::ALL
            .into_iter()
            .find(|mutation| mutation.name() == name)
    }
}
