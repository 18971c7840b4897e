//! Document 01, Sources and events, and document 02's Paper 5: an event's gain.

use super::mutation::Mutation;
use crate::call::{Curve, Edit, Push, Source};
use crate::state::{EditState, EventState, sample_bits};

#[derive(Clone, Debug)]
pub struct Event {
    pub start: f64,
    pub end: f64,
    pub fade_in: f64,
    pub fade_out: f64,
    pub gain: f32,
    pub curve: Curve,
    pub source: Source,
    pub number: u64,
    /// A ramp's next value.
    value: f32,
    /// How many samples a clip has given, at most its length.
    place: u32,
}

impl Event {
    pub fn new(push: &Push, end: f64, number: u64) -> Self {
        let mut event = Event {
            start: push.start,
            end,
            fade_in: push.fade_in,
            fade_out: push.fade_out,
            gain: push.gain(),
            curve: push.curve,
            source: push.source,
            number,
            value: 0.0,
            place: 0,
        };
        event.rewind();
        event
    }

    /// Bring the source back to its beginning.
    pub fn rewind(&mut self) {
        self.place = 0;
        if let Source::Ramp { value, .. } = self.source {
            self.value = value;
        }
    }

    /// "Every event carries an f32 gain, multiplied onto the source's sample before the fades, by one rounding."
    pub fn give_with_gain(&mut self, pool: &[f32], mutation: Option<Mutation>) -> f32 {
        let before = (self.value, self.place);
        let sample = self.give(pool);
        let product = sample * self.gain;
        match mutation {
            Some(Mutation::GainAfterFades) => return sample,
            Some(Mutation::RampWithGain) => self.value += product - sample,
            Some(Mutation::GainZeroHolds) if self.gain == 0.0 => (self.value, self.place) = before,
            _ => {}
        }
        product
    }

    /// The source's next sample; a ramp goes on with its own value.
    fn give(&mut self, pool: &[f32]) -> f32 {
        match self.source {
            Source::Held { level } => level,
            Source::Ramp { step, .. } => {
                let value = self.value;
                self.value = value + step;
                value
            }
            Source::Clip { offset, length } => {
                let mut sample = 0.0;
                if self.place < length {
                    let at = u64::from(offset) + u64::from(self.place);
                    if at < pool.len() as u64 {
                        sample = pool[at as usize];
                    }
                    self.place += 1;
                }
                sample
            }
        }
    }

    pub fn take_edit(&mut self, edit: &Edit) {
        self.end = edit.end;
        self.fade_out = edit.fade_out;
    }

    pub fn state(&self) -> EventState {
        EventState {
            start: self.start.to_bits(),
            end: self.end.to_bits(),
            fade_in: self.fade_in.to_bits(),
            fade_out: self.fade_out.to_bits(),
            gain: sample_bits(self.gain),
            curve: self.curve,
            source: self.source,
            value: sample_bits(self.value),
            place: self.place,
            number: self.number,
        }
    }
}

pub fn edit_state(edit: &Edit) -> EditState {
    EditState {
        number: edit.number,
        end: edit.end.to_bits(),
        fade_out: edit.fade_out.to_bits(),
    }
}
