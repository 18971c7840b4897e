//! The original's sequencer behind the refusals.

use crate::call::{Curve, Edit, MixOrder, Mode, Push, PushKind, Timing};
use crate::original::audiounit::AudioUnit;
use crate::original::buffer::{BufferMut, BufferRef, BufferVec};
use crate::original::sequencer::{EventId, Fade, ReplayMode, Sequencer};
use crate::original::shared::set_next_id;
use crate::player::{Answer, BLOCK, Player, Pool};
use crate::refusal::{self, Check};
use crate::state::{Counts, State};
use crate::units::{lend, unit};

pub struct Engine {
    sequencer: Sequencer,
    /// The next number, 0 after 2^64 - 1 has been given.
    next: u64,
    /// Accepted pushes.
    pushed: u64,
}

impl Engine {
    fn fresh(channels: u8, mode: Mode, first: u64) -> Self {
        Self {
            sequencer: fresh_sequencer(channels, mode),
            next: first,
            pushed: 0,
        }
    }

    fn check_stored(&self, edit: &Edit, end: f64) -> Result<Answer, u8> {
        let id = EventId(edit.number);
        if self.sequencer.is_active(id) {
            return Ok(Answer::Applied);
        }
        if end < self.sequencer.threshold() {
            return Ok(Answer::Past);
        }
        if !self.sequencer.has_edit(id) {
            refusal::stored_edits(self.sequencer.edits())?;
        }
        Ok(Answer::Stored)
    }

    fn try_push(&mut self, kind: PushKind, push: &Push) -> Result<Answer, u8> {
        let held = held(&self.sequencer.counts());
        refusal::push(kind, push, held, self.next)?;
        let number = send_push(&mut self.sequencer, kind, push, self.next);
        self.next = self.next.wrapping_add(1);
        self.pushed += 1;
        Ok(Answer::Number(number))
    }

    fn try_edit(&mut self, timing: Timing, edit: &Edit) -> Result<Answer, u8> {
        refusal::edit(edit)?;
        let end = match timing {
            Timing::Absolute => edit.end,
            Timing::Relative => self.sequencer.clock() + edit.end,
        };
        let answer = self.check_stored(edit, end)?;
        send_edit(&mut self.sequencer, timing, edit);
        Ok(answer)
    }
}

pub fn fresh_sequencer(channels: u8, mode: Mode) -> Sequencer {
    let mode = match mode {
        Mode::All => ReplayMode::All,
        Mode::None => ReplayMode::None,
    };
    Sequencer::new(0, channels.into(), mode)
}

pub fn held(counts: &Counts) -> usize {
    counts.waiting + counts.sounding + counts.finished
}

pub fn answer(check: Check, accepted: Answer) -> Answer {
    match check {
        Ok(()) => accepted,
        Err(number) => Answer::Refused(number),
    }
}

/// Hand an accepted push to the original.
pub fn send_push(sequencer: &mut Sequencer, kind: PushKind, push: &Push, number: u64) -> u64 {
    let fade = match push.curve {
        Curve::Power => Fade::Power,
        Curve::Smooth => Fade::Smooth,
    };
    let unit = unit(push.source, push.gain(), sequencer.outputs());
    let Push {
        start,
        end,
        fade_in,
        fade_out,
        ..
    } = *push;
    set_next_id(number);
    let id = match kind {
        PushKind::Absolute => sequencer.push(start, end, fade, fade_in, fade_out, unit),
        PushKind::Relative => sequencer.push_relative(start, end, fade, fade_in, fade_out, unit),
        PushKind::Duration => sequencer.push_duration(start, end, fade, fade_in, fade_out, unit),
    };
    id.0
}

/// Hand an accepted edit to the original.
pub fn send_edit(sequencer: &mut Sequencer, timing: Timing, edit: &Edit) {
    let id = EventId(edit.number);
    match timing {
        Timing::Absolute => sequencer.edit(id, edit.end, edit.fade_out),
        Timing::Relative => sequencer.edit_relative(id, edit.end, edit.fade_out),
    }
}

/// The clock after a step of `size` samples, computed as the original does.
pub fn clock_after(sequencer: &Sequencer, size: usize) -> f64 {
    sequencer.clock() + sequencer.duration() * size as f64
}

fn store(buffer: &BufferMut, samples: &mut [f32]) {
    for (channel, run) in samples.chunks_exact_mut(BLOCK).enumerate() {
        run.copy_from_slice(buffer.channel_f32(channel));
    }
}

fn load(buffer: &mut BufferMut, samples: &[f32]) {
    for (channel, run) in samples.chunks_exact(BLOCK).enumerate() {
        buffer.channel_f32_mut(channel).copy_from_slice(run);
    }
}

/// Process a block with the output lent as plain samples.
pub fn process(unit: &mut impl AudioUnit, size: usize, output: &mut [f32], pool: &Pool) {
    let mut buffer = BufferVec::new(unit.outputs());
    let mut buffer = buffer.buffer_mut();
    load(&mut buffer, output);
    lend(pool, || {
        unit.process(size, &BufferRef::empty(), &mut buffer)
    });
    store(&buffer, output);
}

/// Before a block: the lent scratch, of one channel, becomes the original's own first one. The original has one for each channel, all
/// with the same samples.
pub fn load_scratch(sequencer: &mut Sequencer, scratch: Option<&[f32]>) {
    if let Some(samples) = scratch {
        load(&mut sequencer.scratch(), samples);
    }
}

/// After a block: the original's first channel of scratch goes back to the lender.
pub fn store_scratch(sequencer: &mut Sequencer, scratch: Option<&mut [f32]>) {
    if let Some(samples) = scratch {
        store(&sequencer.scratch(), samples);
    }
}

impl Player for Engine {
    type Variant = ();

    fn create((): (), channels: u8, mode: Mode, first: u64) -> (Self, Answer) {
        match refusal::creation(channels, first) {
            Ok(()) => (Self::fresh(channels, mode, first), Answer::Done),
            Err(number) => (Self::fresh(1, Mode::All, 1), Answer::Refused(number)),
        }
    }

    fn push(&mut self, kind: PushKind, push: &Push) -> Answer {
        self.try_push(kind, push).unwrap_or_else(Answer::Refused)
    }

    fn edit(&mut self, timing: Timing, edit: &Edit) -> Answer {
        self.try_edit(timing, edit).unwrap_or_else(Answer::Refused)
    }

    fn tick(&mut self, _: MixOrder, output: &mut [f32], pool: &Pool) -> Answer {
        let after = self.sequencer.clock() + self.sequencer.duration();
        let check = refusal::tick(self.channels(), output.len(), after);
        if check.is_ok() {
            lend(pool, || self.sequencer.tick(&[], output));
        }
        answer(check, Answer::Done)
    }

    fn block(
        &mut self,
        _: MixOrder,
        size: usize,
        output: &mut [f32],
        scratch: Option<&mut [f32]>,
        pool: &Pool,
    ) -> Answer {
        let after = clock_after(&self.sequencer, size);
        let lent = scratch.as_ref().map(|scratch| scratch.len());
        let check = refusal::block(self.channels(), size, output.len(), lent, after);
        if check.is_ok() {
            load_scratch(&mut self.sequencer, scratch.as_deref());
            process(&mut self.sequencer, size, output, pool);
            store_scratch(&mut self.sequencer, scratch);
        }
        answer(check, Answer::Done)
    }

    fn reset(&mut self) -> Answer {
        self.sequencer.reset();
        Answer::Done
    }

    fn rate(&mut self, rate: f64) -> Answer {
        let check = refusal::rate(rate);
        if check.is_ok() {
            self.sequencer.set_sample_rate(rate);
        }
        answer(check, Answer::Done)
    }

    fn front_reset(&mut self) -> Answer {
        unreachable!("an engine's script has no front")
    }

    fn channels(&self) -> usize {
        self.sequencer.outputs()
    }

    fn counts(&self) -> Counts {
        let counts = self.sequencer.counts();
        Counts {
            let_go: self.pushed - held(&counts) as u64,
            ..counts
        }
    }

    fn state(&self) -> State {
        State {
            let_go: self.counts().let_go,
            next: self.next,
            ..self.sequencer.state()
        }
    }

    fn scratch_given(&self) -> Option<usize> {
        None
    }
}
