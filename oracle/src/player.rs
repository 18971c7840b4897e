//! What the original and the ledger have in common: the calls, with what is lent to them.

use crate::call::{Edit, MixOrder, Mode, Push, PushKind, Timing};
use crate::state::{Counts, State};
use std::rc::Rc;

/// Most events held, and most edits stored.
pub const MAX_HELD: usize = 256;
/// Samples per channel of a block's output.
pub const BLOCK: usize = 64;

#[derive(Clone, Copy, PartialEq, Eq, Debug)]
pub enum Answer {
    Refused(u8),
    Done,
    Number(u64),
    Applied,
    Past,
    Stored,
    Queued,
}

impl Answer {
    /// The refusal's number, or 0.
    pub fn refusal(self) -> u8 {
        match self {
            Answer::Refused(number) => number,
            _ => 0,
        }
    }
}

/// Document 02, Paper 12: how the s, z and fade places of a block came, each counted once.
#[derive(Clone, Copy, PartialEq, Eq, Debug, Default)]
pub struct Places {
    /// As rounded.
    pub kept: u64,
    /// By the index step, by a cut to the block's size or to 64, or a rounded fade-out place raised to s.
    pub forced: u64,
    /// Without the index step.
    pub edge: u64,
}

/// The pool of samples that is lent to a call.
pub type Pool = Rc<[f32]>;

/// An engine or a desk. On a desk pushes, edits and `front_reset` are the front's calls.
pub trait Player: Sized {
    /// What chooses between variants of this player.
    type Variant: Copy + Default;

    /// A player, or refusal 1 with the player that a refused creation hands back.
    fn create(variant: Self::Variant, channels: u8, mode: Mode, first: u64) -> (Self, Answer);
    fn push(&mut self, kind: PushKind, push: &Push) -> Answer;
    fn edit(&mut self, timing: Timing, edit: &Edit) -> Answer;
    /// The Rust has no mark: the original adds forward, whatever the order.
    fn tick(&mut self, order: MixOrder, output: &mut [f32], pool: &Pool) -> Answer;
    fn block(
        &mut self,
        order: MixOrder,
        size: usize,
        output: &mut [f32],
        scratch: Option<&mut [f32]>,
        pool: &Pool,
    ) -> Answer;
    fn reset(&mut self) -> Answer;
    fn rate(&mut self, rate: f64) -> Answer;
    fn front_reset(&mut self) -> Answer;
    fn channels(&self) -> usize;
    fn counts(&self) -> Counts;
    fn state(&self) -> State;
    /// How many first places of a lent scratch, which has 64 samples, the last call decides.
    fn scratch_given(&self) -> Option<usize>;
    /// How the places of the last accepted block came, if this player counts them.
    fn places(&self) -> Option<Places> {
        None
    }
}
