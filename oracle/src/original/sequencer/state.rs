//! Stand-in: a view of the sequencer's private state. It changes only the scratch.

use super::*;
use crate::call::Curve;
use crate::state::{Counts, EditState, EventState, MessageState, State, sample_bits};
use crate::units;

impl Event {
    pub(crate) fn state(&self) -> EventState {
        let (source, gain, value, place) = units::place(&*self.unit);
        EventState {
            start: self.start_time.to_bits(),
            end: self.end_time.to_bits(),
            fade_in: self.fade_in.to_bits(),
            fade_out: self.fade_out.to_bits(),
            gain: gain.to_bits(),
            curve: match self.fade_ease {
                Fade::Power => Curve::Power,
                Fade::Smooth => Curve::Smooth,
            },
            source,
            value: sample_bits(value),
            place,
            number: self.id.0,
        }
    }
}

impl Edit {
    pub(crate) fn state(&self, id: EventId) -> EditState {
        EditState {
            number: id.0,
            end: self.end_time.to_bits(),
            fade_out: self.fade_out.to_bits(),
        }
    }
}

impl Message {
    fn state(&self) -> MessageState {
        match self {
            Message::Reset => MessageState::Reset,
            Message::Push(event) => MessageState::Push(event.state()),
            Message::PushRelative(event) => MessageState::PushRelative(event.state()),
            Message::Edit(id, edit) => MessageState::Edit(edit.state(*id)),
            Message::EditRelative(id, edit) => MessageState::EditRelative(edit.state(*id)),
        }
    }
}

impl Sequencer {
    pub(crate) fn clock(&self) -> f64 {
        self.time
    }

    pub(crate) fn duration(&self) -> f64 {
        self.sample_duration
    }

    pub(crate) fn threshold(&self) -> f64 {
        self.active_threshold
    }

    pub(crate) fn is_active(&self, id: EventId) -> bool {
        self.active_map.contains_key(&id)
    }

    pub(crate) fn has_edit(&self, id: EventId) -> bool {
        self.edit_map.contains_key(&id)
    }

    pub(crate) fn edits(&self) -> usize {
        self.edit_map.len()
    }

    /// Waiting, sounding, finished; the let-go count is the wrapper's.
    pub(crate) fn counts(&self) -> Counts {
        Counts {
            waiting: self.ready.len(),
            sounding: self.active.len(),
            finished: self.past.len(),
            let_go: 0,
        }
    }

    /// All but the let-go count, the next number and the desk's queues.
    pub(crate) fn state(&self) -> State {
        let mut waiting: Vec<&Event> = self.ready.iter().collect();
        waiting.sort_by(|a, b| b.cmp(a));
        let mut edits: Vec<EditState> = self.edit_map.iter().map(|(id, edit)| edit.state(*id)).collect();
        edits.sort_by_key(|edit| edit.number);
        let mut index: Vec<(u64, usize)> = self.active_map.iter().map(|(id, i)| (id.0, *i)).collect();
        index.sort();
        State {
            waiting: waiting.into_iter().map(Event::state).collect(),
            sounding: self.active.iter().map(Event::state).collect(),
            finished: self.past.iter().map(Event::state).collect(),
            edits,
            index,
            let_go: 0,
            clock: self.time.to_bits(),
            threshold: self.active_threshold.to_bits(),
            rate: self.sample_rate.to_bits(),
            duration: self.sample_duration.to_bits(),
            next: 0,
            messages: Vec::new(),
            returned: Vec::new(),
        }
    }

    /// The intermediate output buffer, per channel 64 samples.
    pub(crate) fn scratch(&mut self) -> BufferMut<'_> {
        self.buffer.buffer_mut()
    }

    /// A front's queued messages.
    pub(crate) fn messages(&self) -> Vec<MessageState> {
        let (sender, _) = self.front.as_ref().expect("a front");
        sender.peek(Message::state)
    }

    /// Numbers of the events that came back to a front.
    pub(crate) fn returned(&self) -> Vec<u64> {
        let (_, receiver) = self.front.as_ref().expect("a front");
        receiver.peek(|event| event.as_ref().expect("an event").id.0)
    }
}
