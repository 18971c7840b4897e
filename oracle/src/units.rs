//! The three sources as audio units, the gain that such a unit can have, and the pool that is lent to a call.
//!
//! The pool is lent through a thread-local, so that the vendored signatures stay as they are.

use crate::call::Source;
use crate::original::audiounit::AudioUnit;
use crate::original::buffer::{BufferMut, BufferRef};
use crate::original::signal::SignalFrame;
use crate::player::Pool;
use core::any::Any;
use std::cell::RefCell;
use std::rc::Rc;

thread_local! {
    static POOL: RefCell<Pool> = RefCell::new(Rc::new([]));
}

/// Make a call with the pool lent to it.
pub fn lend<R>(pool: &Pool, call: impl FnOnce() -> R) -> R {
    POOL.set(pool.clone());
    let result = call();
    POOL.set(Rc::new([]));
    result
}

/// A source of samples.
trait Signal: Clone + Send + Sync + 'static {
    fn next(&mut self) -> f32;
    fn rewind(&mut self);
}

#[derive(Clone)]
struct Held {
    level: f32,
}

impl Signal for Held {
    fn next(&mut self) -> f32 {
        self.level
    }

    fn rewind(&mut self) {}
}

#[derive(Clone)]
struct Ramp {
    value: f32,
    step: f32,
    current: f32,
}

impl Signal for Ramp {
    fn next(&mut self) -> f32 {
        let given = self.current;
        self.current += self.step;
        given
    }

    fn rewind(&mut self) {
        self.current = self.value;
    }
}

#[derive(Clone)]
struct Clip {
    offset: u32,
    length: u32,
    place: u32,
}

impl Signal for Clip {
    fn next(&mut self) -> f32 {
        if self.place == self.length {
            return 0.0;
        }
        let at = self.offset as usize + self.place as usize;
        self.place += 1;
        POOL.with_borrow(|pool| pool.get(at).copied().unwrap_or(0.0))
    }

    fn rewind(&mut self) {
        self.place = 0;
    }
}

/// A unit whose one value feeds all channels. The Rust has no gain: one of 1.0 leaves the signal alone, and another is the
/// unit's own business, so that no vendored line changes.
#[derive(Clone)]
struct Unit<S> {
    signal: S,
    gain: f32,
    outputs: usize,
}

impl<S: Signal> Unit<S> {
    fn next(&mut self) -> f32 {
        let sample = self.signal.next();
        if self.gain == 1.0 {
            sample
        } else {
            sample * self.gain
        }
    }
}

impl<S: Signal> AudioUnit for Unit<S> {
    fn reset(&mut self) {
        self.signal.rewind();
    }

    fn tick(&mut self, _input: &[f32], output: &mut [f32]) {
        output.fill(self.next());
    }

    fn process(&mut self, size: usize, _input: &BufferRef, output: &mut BufferMut) {
        for place in 0..size {
            let sample = self.next();
            for channel in 0..self.outputs {
                output.set_f32(channel, place, sample);
            }
        }
    }

    fn inputs(&self) -> usize {
        0
    }

    fn outputs(&self) -> usize {
        self.outputs
    }

    fn route(&mut self, _input: &SignalFrame, _frequency: f64) -> SignalFrame {
        SignalFrame
    }

    fn get_id(&self) -> u64 {
        0
    }

    fn footprint(&self) -> usize {
        core::mem::size_of::<Self>()
    }
}

/// The unit of a source with its gain.
pub fn unit(source: Source, gain: f32, outputs: usize) -> Box<dyn AudioUnit> {
    match source {
        Source::Held { level } => Box::new(Unit {
            signal: Held { level },
            gain,
            outputs,
        }),
        Source::Ramp { value, step } => Box::new(Unit {
            signal: Ramp {
                value,
                step,
                current: value,
            },
            gain,
            outputs,
        }),
        Source::Clip { offset, length } => Box::new(Unit {
            signal: Clip {
                offset,
                length,
                place: 0,
            },
            gain,
            outputs,
        }),
    }
}

/// A unit's source and gain, a ramp's next value and a clip's place.
pub fn place(unit: &dyn AudioUnit) -> (Source, f32, f32, u32) {
    let any: &dyn Any = unit;
    if let Some(Unit { signal, gain, .. }) = any.downcast_ref::<Unit<Held>>() {
        let level = signal.level;
        return (Source::Held { level }, *gain, 0.0, 0);
    }
    if let Some(Unit { signal, gain, .. }) = any.downcast_ref::<Unit<Ramp>>() {
        let Ramp {
            value,
            step,
            current,
        } = *signal;
        return (Source::Ramp { value, step }, *gain, current, 0);
    }
    if let Some(Unit { signal, gain, .. }) = any.downcast_ref::<Unit<Clip>>() {
        let Clip {
            offset,
            length,
            place,
        } = *signal;
        return (Source::Clip { offset, length }, *gain, 0.0, place);
    }
    unreachable!("every unit comes from `unit`")
}
