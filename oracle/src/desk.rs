//! The original's front and backend behind the refusals.

use crate::call::{Edit, MixOrder, Mode, Push, PushKind, Timing};
use crate::engine::{
    answer, clock_after, fresh_sequencer, held, load_scratch, process, send_edit, send_push,
    store_scratch,
};
use crate::original::audiounit::AudioUnit;
use crate::original::realseq::SequencerBackend;
use crate::original::sequencer::Sequencer;
use crate::player::{Answer, Player, Pool};
use crate::refusal;
use crate::state::{Counts, MessageState, State};
use crate::units::lend;

pub struct Desk {
    front: Sequencer,
    back: SequencerBackend,
    /// The next number, 0 after 2^64 - 1 has been given.
    next: u64,
    /// Accepted pushes.
    pushed: u64,
}

impl Desk {
    fn fresh(channels: u8, mode: Mode, first: u64) -> Self {
        let mut front = fresh_sequencer(channels, mode);
        let back = front.backend();
        Self {
            front,
            back,
            next: first,
            pushed: 0,
        }
    }

    /// Queued messages, and the pushes and edits among them.
    fn queued(&self) -> (usize, usize, usize) {
        let messages = self.front.messages();
        let is_push = |message: &&MessageState| {
            matches!(
                message,
                MessageState::Push(_) | MessageState::PushRelative(_)
            )
        };
        let is_edit = |message: &&MessageState| {
            matches!(
                message,
                MessageState::Edit(_) | MessageState::EditRelative(_)
            )
        };
        let pushes = messages.iter().filter(is_push).count();
        let edits = messages.iter().filter(is_edit).count();
        (messages.len(), pushes, edits)
    }

    fn try_push(&mut self, kind: PushKind, push: &Push) -> Result<Answer, u8> {
        let (messages, pushes, _) = self.queued();
        let held = held(&self.back.sequencer().counts()) + pushes;
        refusal::push(kind, push, held, self.next)?;
        refusal::messages(messages)?;
        let number = send_push(&mut self.front, kind, push, self.next);
        self.next = self.next.wrapping_add(1);
        self.pushed += 1;
        Ok(Answer::Number(number))
    }

    fn try_edit(&mut self, timing: Timing, edit: &Edit) -> Result<Answer, u8> {
        refusal::edit(edit)?;
        let (messages, _, edits) = self.queued();
        refusal::stored_edits(self.back.sequencer().edits() + edits)?;
        refusal::messages(messages)?;
        send_edit(&mut self.front, timing, edit);
        Ok(Answer::Queued)
    }
}

impl Player for Desk {
    type Variant = ();

    fn create((): (), channels: u8, mode: Mode, first: u64) -> (Self, Answer) {
        match refusal::creation(channels, first) {
            Ok(()) => (Self::fresh(channels, mode, first), Answer::Done),
            Err(number) => (Self::fresh(1, Mode::All, 1), Answer::Refused(number)),
        }
    }

    fn push(&mut self, kind: PushKind, push: &Push) -> Answer {
        self.try_push(kind, push).unwrap_or_else(Answer::Refused)
    }

    fn edit(&mut self, timing: Timing, edit: &Edit) -> Answer {
        self.try_edit(timing, edit).unwrap_or_else(Answer::Refused)
    }

    fn tick(&mut self, _: MixOrder, output: &mut [f32], pool: &Pool) -> Answer {
        let sequencer = self.back.sequencer();
        let after = sequencer.clock() + sequencer.duration();
        let check = refusal::tick(self.channels(), output.len(), after);
        if check.is_ok() {
            lend(pool, || self.back.tick(&[], output));
        }
        answer(check, Answer::Done)
    }

    fn block(
        &mut self,
        _: MixOrder,
        size: usize,
        output: &mut [f32],
        scratch: Option<&mut [f32]>,
        pool: &Pool,
    ) -> Answer {
        let after = clock_after(self.back.sequencer(), size);
        let lent = scratch.as_ref().map(|scratch| scratch.len());
        let check = refusal::block(self.channels(), size, output.len(), lent, after);
        if check.is_ok() {
            load_scratch(self.back.sequencer_mut(), scratch.as_deref());
            process(&mut self.back, size, output, pool);
            store_scratch(self.back.sequencer_mut(), scratch);
        }
        answer(check, Answer::Done)
    }

    fn reset(&mut self) -> Answer {
        self.back.reset();
        Answer::Done
    }

    fn rate(&mut self, rate: f64) -> Answer {
        let check = refusal::rate(rate);
        if check.is_ok() {
            self.back.set_sample_rate(rate);
        }
        answer(check, Answer::Done)
    }

    fn front_reset(&mut self) -> Answer {
        let (messages, ..) = self.queued();
        let check = refusal::messages(messages);
        if check.is_ok() {
            self.front.reset();
        }
        answer(check, Answer::Queued)
    }

    fn channels(&self) -> usize {
        self.back.outputs()
    }

    fn counts(&self) -> Counts {
        let counts = self.back.sequencer().counts();
        let (_, pushes, _) = self.queued();
        Counts {
            let_go: self.pushed - (held(&counts) + pushes) as u64,
            ..counts
        }
    }

    fn state(&self) -> State {
        State {
            let_go: self.counts().let_go,
            next: self.next,
            messages: self.front.messages(),
            returned: self.front.returned(),
            ..self.back.sequencer().state()
        }
    }

    fn scratch_given(&self) -> Option<usize> {
        None
    }
}
