//! The three sources as audio units of the original, written for speed: a source is looked at once a block, and whole runs are filled and copied.
//! The gain of Paper 5 is the unit's own business: one of 1.0 leaves the samples alone, another is multiplied onto them.
//! (The oracle's own units go sample by sample, and take the pool from a thread-local.)

use crate::call::Source;
use crate::original::audiounit::AudioUnit;
use crate::original::buffer::{BufferMut, BufferRef};
use crate::original::signal::SignalFrame;
use std::sync::Arc;

#[derive(Clone)]
struct Unit<S> {
    signal: S,
    gain: f32,
    outputs: usize,
}

trait Signal: Clone + Send + Sync + 'static {
    fn next(&mut self) -> f32;
    fn run(&mut self, run: &mut [f32]);
    fn rewind(&mut self);
}

#[derive(Clone)]
struct Held(f32);

impl Signal for Held {
    fn next(&mut self) -> f32 {
        self.0
    }

    fn run(&mut self, run: &mut [f32]) {
        run.fill(self.0);
    }

    fn rewind(&mut self) {}
}

#[derive(Clone)]
struct Ramp {
    value: f32,
    step: f32,
    current: f32,
}

impl Signal for Ramp {
    fn next(&mut self) -> f32 {
        let given = self.current;
        self.current += self.step;
        given
    }

    fn run(&mut self, run: &mut [f32]) {
        for x in run {
            *x = self.next();
        }
    }

    fn rewind(&mut self) {
        self.current = self.value;
    }
}

#[derive(Clone)]
struct Clip {
    pool: Arc<[f32]>,
    offset: usize,
    length: usize,
    place: usize,
}

impl Signal for Clip {
    fn next(&mut self) -> f32 {
        if self.place == self.length {
            return 0.0;
        }
        let at = self.offset + self.place;
        self.place += 1;
        self.pool.get(at).copied().unwrap_or(0.0)
    }

    fn run(&mut self, run: &mut [f32]) {
        let left = run.len().min(self.length - self.place);
        let rest = self.pool.get(self.offset + self.place..).unwrap_or(&[]);
        let has = left.min(rest.len());
        run[..has].copy_from_slice(&rest[..has]);
        run[has..].fill(0.0);
        self.place += left;
    }

    fn rewind(&mut self) {
        self.place = 0;
    }
}

impl<S: Signal> AudioUnit for Unit<S> {
    fn reset(&mut self) {
        self.signal.rewind();
    }

    fn tick(&mut self, _input: &[f32], output: &mut [f32]) {
        let sample = self.signal.next();
        output.fill(if self.gain == 1.0 {
            sample
        } else {
            sample * self.gain
        });
    }

    fn process(&mut self, size: usize, _input: &BufferRef, output: &mut BufferMut) {
        let first = &mut output.channel_f32_mut(0)[..size];
        self.signal.run(first);
        if self.gain != 1.0 {
            for x in &mut *first {
                *x *= self.gain;
            }
        }
        for channel in 1..self.outputs {
            output.channel_f32_mut(channel)[..size].copy_from_slice(first);
        }
    }

    fn inputs(&self) -> usize {
        0
    }

    fn outputs(&self) -> usize {
        self.outputs
    }

    fn route(&mut self, _input: &SignalFrame, _frequency: f64) -> SignalFrame {
        SignalFrame
    }

    fn get_id(&self) -> u64 {
        0
    }

    fn footprint(&self) -> usize {
        size_of::<Self>()
    }
}

/// The unit of a source with its gain.
pub fn unit_of(source: Source, gain: f32, pool: &Arc<[f32]>, outputs: usize) -> Box<dyn AudioUnit> {
    match source {
        Source::Held { level } => Box::new(Unit {
            signal: Held(level),
            gain,
            outputs,
        }),
        Source::Ramp { value, step } => Box::new(Unit {
            signal: Ramp {
                value,
                step,
                current: value,
            },
            gain,
            outputs,
        }),
        Source::Clip { offset, length } => Box::new(Unit {
            signal: Clip {
                pool: pool.clone(),
                offset: offset as usize,
                length: length as usize,
                place: 0,
            },
            gain,
            outputs,
        }),
    }
}

/// The source that entry.rt.txt makes of the same numbers.
pub fn unit(kind: u64, at: usize, pool: &Arc<[f32]>, outputs: usize) -> Box<dyn AudioUnit> {
    let source = match kind {
        0 => Source::Held { level: 0.25 },
        1 => Source::Ramp {
            value: 0.25,
            step: 0.0000001,
        },
        _ => Source::Clip {
            offset: at as u32,
            length: 4000000,
        },
    };
    unit_of(source, 1.0, pool, outputs)
}

/// The vendored view of the state asks for this; no benchmark does.
pub fn place(_unit: &dyn AudioUnit) -> (Source, f32, f32, u32) {
    unreachable!("no benchmark looks at the state")
}
