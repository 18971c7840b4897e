//! Document 01, The desk: two queues around a ledger.

use super::engine::{Ledger, push_end};
use super::event::{Event, edit_state};
use super::mutation::Mutation;
use super::refusals;
use crate::call::{Edit, MixOrder, Mode, Push, PushKind, Timing};
use crate::player::{Answer, Places, Player, Pool};
use crate::state::{Counts, MessageState, State};
use std::collections::VecDeque;

const QUEUE: usize = 64;

enum Message {
    Push(Timing, Event),
    Edit(Timing, Edit),
    Reset,
}

pub struct DeskLedger {
    ledger: Ledger,
    messages: VecDeque<Message>,
    returned: VecDeque<u64>,
}

impl DeskLedger {
    fn new(ledger: Ledger) -> Self {
        DeskLedger {
            ledger,
            messages: VecDeque::new(),
            returned: VecDeque::new(),
        }
    }

    fn queued_pushes(&self) -> usize {
        self.messages
            .iter()
            .filter(|message| matches!(message, Message::Push(..)))
            .count()
    }

    fn queued_edits(&self) -> usize {
        self.messages
            .iter()
            .filter(|message| matches!(message, Message::Edit(..)))
            .count()
    }

    fn full(&self) -> bool {
        self.messages.len() >= QUEUE
    }

    /// An accepted front call.
    fn queue(&mut self, message: Message) {
        self.returned.clear();
        self.messages.push_back(message);
    }

    /// The event is let go now; its number comes back if there is room.
    fn give_back(&mut self, number: u64) {
        self.ledger.let_go.push(number);
        if self.returned.len() < QUEUE {
            self.returned.push_back(number);
        }
    }

    fn give_back_finished(&mut self) {
        if self.ledger.mode == Mode::None {
            while let Some(event) = self.ledger.finished.pop() {
                self.give_back(event.number);
            }
        }
    }

    fn drain(&mut self) {
        while let Some(message) = self.messages.pop_front() {
            match message {
                Message::Push(timing, event) => self.ledger.accept(timing, event),
                Message::Edit(timing, edit) => {
                    self.ledger.accept_edit(timing, &edit);
                }
                Message::Reset => self.drain_and_reset(),
            }
        }
    }

    fn drain_and_reset(&mut self) {
        if self.ledger.mutation != Some(Mutation::QueueFlat) {
            self.drain();
        }
        self.give_back_finished();
        if self.ledger.mode == Mode::None {
            for event in std::mem::take(&mut self.ledger.waiting) {
                self.give_back(event.number);
            }
            while let Some(event) = self.ledger.sounding.pop() {
                self.give_back(event.number);
            }
        }
        self.ledger.accept_reset();
    }
}

impl Player for DeskLedger {
    type Variant = Option<Mutation>;

    fn create(mutation: Self::Variant, channels: u8, mode: Mode, first: u64) -> (Self, Answer) {
        let (ledger, answer) = Ledger::create(mutation, channels, mode, first);
        (DeskLedger::new(ledger), answer)
    }

    fn push(&mut self, kind: PushKind, push: &Push) -> Answer {
        let end = push_end(kind, push);
        let held = self.ledger.held() + self.queued_pushes();
        let mut checks = refusals::push(push, end, held, self.ledger.next == 0).to_vec();
        checks.push((13, self.full()));
        if let Some(refused) = refusals::first(&checks) {
            return refused;
        }
        let number = self.ledger.take_number();
        let timing = match kind {
            PushKind::Relative => Timing::Relative,
            _ => Timing::Absolute,
        };
        self.queue(Message::Push(timing, Event::new(push, end, number)));
        Answer::Number(number)
    }

    fn edit(&mut self, timing: Timing, edit: &Edit) -> Answer {
        let checks = [
            (8, refusals::edit(edit)),
            (9, self.ledger.edits.len() + self.queued_edits() >= 256),
            (13, self.full()),
        ];
        if let Some(refused) = refusals::first(&checks) {
            return refused;
        }
        self.queue(Message::Edit(timing, *edit));
        Answer::Queued
    }

    fn tick(&mut self, order: MixOrder, output: &mut [f32], pool: &Pool) -> Answer {
        if let Some(refused) = refusals::first(&refusals::tick(&self.ledger, output.len())) {
            return refused;
        }
        self.drain();
        self.ledger.tick_samples(order, output, pool);
        self.give_back_finished();
        Answer::Done
    }

    fn block(
        &mut self,
        order: MixOrder,
        size: usize,
        output: &mut [f32],
        scratch: Option<&mut [f32]>,
        pool: &Pool,
    ) -> Answer {
        let lent = scratch.as_ref().map(|scratch| scratch.len());
        let checks = refusals::block(&self.ledger, size, output.len(), lent);
        if let Some(refused) = refusals::first(&checks) {
            return refused;
        }
        self.drain();
        self.ledger
            .block_samples(order, size, output, scratch, pool);
        self.give_back_finished();
        Answer::Done
    }

    fn reset(&mut self) -> Answer {
        self.drain();
        self.drain_and_reset();
        Answer::Done
    }

    fn rate(&mut self, rate: f64) -> Answer {
        if refusals::rate(rate) {
            return Answer::Refused(2);
        }
        self.drain();
        self.ledger.accept_rate(rate);
        Answer::Done
    }

    fn front_reset(&mut self) -> Answer {
        if self.full() {
            return Answer::Refused(13);
        }
        self.queue(Message::Reset);
        Answer::Queued
    }

    fn channels(&self) -> usize {
        self.ledger.channels
    }

    fn counts(&self) -> Counts {
        self.ledger.counts()
    }

    fn state(&self) -> State {
        let message = |message: &Message| match message {
            Message::Push(Timing::Absolute, event) => MessageState::Push(event.state()),
            Message::Push(Timing::Relative, event) => MessageState::PushRelative(event.state()),
            Message::Edit(Timing::Absolute, edit) => MessageState::Edit(edit_state(edit)),
            Message::Edit(Timing::Relative, edit) => MessageState::EditRelative(edit_state(edit)),
            Message::Reset => MessageState::Reset,
        };
        State {
            messages: self.messages.iter().map(message).collect(),
            returned: self.returned.iter().copied().collect(),
            ..self.ledger.state()
        }
    }

    fn scratch_given(&self) -> Option<usize> {
        self.ledger.scratch_given()
    }

    fn places(&self) -> Option<Places> {
        self.ledger.places()
    }
}
