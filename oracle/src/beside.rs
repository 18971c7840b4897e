//! One player with the counts of another: the original, which counts no places, beside the second ledger, which does.

use crate::call::{Edit, MixOrder, Mode, Push, PushKind, Timing};
use crate::player::{Answer, Places, Player, Pool};
use crate::state::{Counts, State};

/// All but the places is the first one's.
pub struct Beside<P, L> {
    player: P,
    counting: L,
}

impl<P: Player, L: Player> Player for Beside<P, L> {
    type Variant = (P::Variant, L::Variant);

    fn create(variant: Self::Variant, channels: u8, mode: Mode, first: u64) -> (Self, Answer) {
        let (player, answer) = P::create(variant.0, channels, mode, first);
        let (counting, _) = L::create(variant.1, channels, mode, first);
        (Beside { player, counting }, answer)
    }

    fn push(&mut self, kind: PushKind, push: &Push) -> Answer {
        self.counting.push(kind, push);
        self.player.push(kind, push)
    }

    fn edit(&mut self, timing: Timing, edit: &Edit) -> Answer {
        self.counting.edit(timing, edit);
        self.player.edit(timing, edit)
    }

    fn tick(&mut self, order: MixOrder, output: &mut [f32], pool: &Pool) -> Answer {
        self.counting.tick(order, &mut output.to_vec(), pool);
        self.player.tick(order, output, pool)
    }

    fn block(
        &mut self,
        order: MixOrder,
        size: usize,
        output: &mut [f32],
        scratch: Option<&mut [f32]>,
        pool: &Pool,
    ) -> Answer {
        let mut copy = scratch.as_deref().map(<[f32]>::to_vec);
        let mut other = output.to_vec();
        self.counting
            .block(order, size, &mut other, copy.as_deref_mut(), pool);
        self.player.block(order, size, output, scratch, pool)
    }

    fn reset(&mut self) -> Answer {
        self.counting.reset();
        self.player.reset()
    }

    fn rate(&mut self, rate: f64) -> Answer {
        self.counting.rate(rate);
        self.player.rate(rate)
    }

    fn front_reset(&mut self) -> Answer {
        self.counting.front_reset();
        self.player.front_reset()
    }

    fn channels(&self) -> usize {
        self.player.channels()
    }

    fn counts(&self) -> Counts {
        self.player.counts()
    }

    fn state(&self) -> State {
        self.player.state()
    }

    fn scratch_given(&self) -> Option<usize> {
        self.player.scratch_given()
    }

    fn places(&self) -> Option<Places> {
        self.counting.places()
    }
}
