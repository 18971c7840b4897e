//! The C entry's loop in Rust: one pass over the tape, the refusals in front of the original, the samples as bytes.

use crate::call::{Call, Curve, Edit, Mode, Push, PushKind, Timing};
use crate::original::audiounit::AudioUnit;
use crate::original::buffer::{BufferRef, BufferVec};
use crate::original::sequencer::{EventId, Fade, ReplayMode, Sequencer};
use crate::original::shared::set_next_id;
use crate::refusal;
use crate::tape::{self, Format};
use crate::units::unit_of;
use std::sync::Arc;

struct Engine {
    sequencer: Sequencer,
    channels: usize,
    pool: Arc<[f32]>,
    /// The next number, 0 after 2^64 - 1 has been given.
    next: u64,
}

impl Engine {
    fn new(channels: u8, mode: Mode, first: u64) -> Self {
        let mode = match mode {
            Mode::All => ReplayMode::All,
            Mode::None => ReplayMode::None,
        };
        let channels = channels.into();
        let mut sequencer = Sequencer::new(0, channels, mode);
        sequencer.allocate();
        Self {
            sequencer,
            channels,
            pool: (0..4096u16).map(|k| f32::from(k) / 4096.0).collect(),
            next: first,
        }
    }

    fn push(&mut self, kind: PushKind, p: &Push) {
        let counts = self.sequencer.counts();
        let held = counts.waiting + counts.sounding + counts.finished;
        if refusal::push(kind, p, held, self.next).is_err() {
            return;
        }
        let fade = match p.curve {
            Curve::Power => Fade::Power,
            Curve::Smooth => Fade::Smooth,
        };
        let unit = unit_of(p.source, p.gain(), &self.pool, self.channels);
        set_next_id(self.next);
        self.next = self.next.wrapping_add(1);
        let s = &mut self.sequencer;
        match kind {
            PushKind::Absolute => s.push(p.start, p.end, fade, p.fade_in, p.fade_out, unit),
            PushKind::Relative => {
                s.push_relative(p.start, p.end, fade, p.fade_in, p.fade_out, unit)
            }
            PushKind::Duration => {
                s.push_duration(p.start, p.end, fade, p.fade_in, p.fade_out, unit)
            }
        };
    }

    fn edit(&mut self, timing: Timing, e: &Edit) {
        if refusal::edit(e).is_err() {
            return;
        }
        let s = &mut self.sequencer;
        let id = EventId(e.number);
        let end = match timing {
            Timing::Absolute => e.end,
            Timing::Relative => s.clock() + e.end,
        };
        let past = end < s.threshold();
        let stored = !s.is_active(id) && !past && !s.has_edit(id);
        if stored && refusal::stored_edits(s.edits()).is_err() {
            return;
        }
        match timing {
            Timing::Absolute => s.edit(id, e.end, e.fade_out),
            Timing::Relative => s.edit_relative(id, e.end, e.fade_out),
        }
    }

    /// Whether the clock lets so many samples pass.
    fn accepts(&self, size: usize) -> bool {
        let end = self.sequencer.clock() + self.sequencer.duration() * size as f64;
        refusal::block(self.channels, size, 64 * self.channels, None, end).is_ok()
    }
}

fn put(samples: &[f32], out: &mut [u8]) {
    for (x, bytes) in samples.iter().zip(out.chunks_exact_mut(4)) {
        let bits = if x.is_nan() { 0x7FC0_0000 } else { x.to_bits() };
        bytes.copy_from_slice(&bits.to_le_bytes());
    }
}

/// Render a tape into a byte slice; the count of bytes written.
pub fn render(tape: &[u8], out: &mut [u8]) -> usize {
    run::<false>(tape, out).0
}

/// The same tape: the nanoseconds that the original's `process` takes, without the loop around it and without the clock's own time.
pub fn process_time(tape: &[u8], out: &mut [u8]) -> u64 {
    run::<true>(tape, out).1
}

/// The count of bytes written and, where `process` is timed, its nanoseconds. Two readings of the clock right before each call tell what one takes.
fn run<const TIMED: bool>(tape: &[u8], out: &mut [u8]) -> (usize, u64) {
    let now = || if TIMED { crate::bench_now() } else { 0 };
    let (mut spent, mut clock) = (0, 0);
    let Some((
        Call::Create {
            channels: c,
            mode,
            first,
        },
        length,
    )) = next(tape, true)
    else {
        return (0, 0);
    };
    if refusal::creation(c, first).is_err() {
        return (0, 0);
    }
    let mut engine = Engine::new(c, mode, first);
    let channels = engine.channels;
    let mut buffers = BufferVec::new(channels);
    let mut line = [0.0; 8];
    let mut rest = &tape[length..];
    let mut at = 0;
    while let Some((call, length)) = next(rest, false) {
        rest = &rest[length..];
        match call {
            Call::Push(kind, push, _) => engine.push(kind, &push),
            Call::Edit(timing, edit) => engine.edit(timing, &edit),
            Call::Tick => {
                if !engine.accepts(1) {
                    continue;
                }
                engine.sequencer.tick(&[], &mut line[..channels]);
                let Some(room) = out.get_mut(at..at + 4 * channels) else {
                    return (at, spent - clock);
                };
                put(&line[..channels], room);
                at += 4 * channels;
            }
            Call::Block(size) => {
                let size = size.into();
                if !engine.accepts(size) {
                    continue;
                }
                let mut buffer = buffers.buffer_mut();
                let s = &mut engine.sequencer;
                let before = now();
                let start = now();
                s.process(size, &BufferRef::empty(), &mut buffer);
                spent += now() - start;
                clock += start - before;
                let Some(room) = out.get_mut(at..at + 4 * size * channels) else {
                    return (at, spent - clock);
                };
                for channel in 0..channels {
                    let samples = &buffer.channel_f32(channel)[..size];
                    put(samples, &mut room[4 * size * channel..]);
                }
                at += 4 * size * channels;
            }
            Call::Reset => engine.sequencer.reset(),
            Call::Rate(rate) => {
                if refusal::rate(rate).is_ok() {
                    engine.sequencer.set_sample_rate(rate);
                }
            }
            _ => unreachable!("a script's call on a tape"),
        }
    }
    (at, spent - clock)
}

/// The record at the tape's beginning and its length; none at the end and where it cannot be taken apart.
fn next(tape: &[u8], first: bool) -> Option<(Call, usize)> {
    if tape.is_empty() {
        return None;
    }
    tape::read(Format::Tape, tape, first).ok()
}

/// `rounds` times the pushes of a run of records, one after another, on an empty engine of one channel, which a reset empties
/// again: the nanoseconds and the numbers of the last round.
pub fn push_run(rounds: u64, records: &[u8], numbers: &mut [u64]) -> u64 {
    let mut engine = Engine::new(1, Mode::None, 1);
    let start = crate::bench_now();
    for _ in 0..rounds {
        let mut rest = std::hint::black_box(records);
        for number in numbers.iter_mut() {
            let Some((Call::Push(kind, push, _), length)) = next(rest, false) else {
                unreachable!("the records are pushes")
            };
            rest = &rest[length..];
            *number = engine.next;
            engine.push(kind, &push);
        }
        engine.sequencer.reset();
        engine.next = 1;
    }
    crate::bench_now() - start
}
