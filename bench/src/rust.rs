//! The Rust side: the original's loops, the standard library's heap, a monotonic deque and the original's engine.

use crate::clock::bench_now;
use crate::original::audiounit::AudioUnit;
use crate::original::buffer::{BufferMut, BufferRef, BufferVec};
use crate::original::math::{sine_ease, smooth5};
use crate::original::sequencer::{Fade, ReplayMode, Sequencer};
use crate::original::shared::set_next_id;
use crate::original::{F32x, SIMD_M, SIMD_S};
use crate::units::unit;
use std::cmp::Ordering;
use std::collections::{BinaryHeap, VecDeque};
use std::hint::black_box;
use std::sync::Arc;

// ---- sample loops, as in `fade_in`, `fade_out` and `process` of the vendored sequencer.rs, over a whole block

/// A source from its beginning, as port_fill has it.
#[inline(never)]
pub fn fill(unit: &mut dyn AudioUnit, size: usize, output: &mut BufferMut) {
    unit.reset();
    unit.process(size, &BufferRef::empty(), output);
}

fn fade_by(output: &mut BufferMut, size: usize, phase: f32, step: f32, curve: impl Fn(f32) -> f32) {
    for channel in 0..output.channels() {
        let mut fade = phase;
        for x in output.channel_f32_mut(channel)[..size].iter_mut() {
            *x *= curve(fade);
            fade += step;
        }
    }
}

#[inline(never)]
pub fn fade(
    output: &mut BufferMut,
    size: usize,
    smooth: bool,
    rising: bool,
    phase: f32,
    step: f32,
) {
    match (smooth, rising) {
        (false, true) => fade_by(output, size, phase, step, sine_ease),
        (true, true) => fade_by(output, size, phase, step, smooth5),
        (false, false) => fade_by(output, size, phase, step, |x| sine_ease(1.0 - x)),
        (true, false) => fade_by(output, size, phase, step, |x| smooth5(1.0 - x)),
    }
}

#[inline(never)]
pub fn add(output: &mut BufferMut, scratch: &mut BufferMut, end_index: usize) {
    for channel in 0..output.channels() {
        for j in 0..end_index >> SIMD_S {
            output.add(channel, j, scratch.at(channel, j));
        }
        for j in end_index & !SIMD_M..end_index {
            output.channel_f32_mut(channel)[j] += scratch.channel_f32(channel)[j];
        }
    }
}

#[inline(never)]
pub fn clear(output: &mut BufferMut, items: usize) {
    for channel in 0..output.channels() {
        output.channel_mut(channel)[..items].fill(F32x::ZERO);
    }
}

// ---- the heap

/// As large as the port's event. The original's has a Box and 64 bytes.
#[derive(Clone, Copy)]
#[allow(dead_code)]
#[repr(C)]
struct Event {
    start_time: f64,
    end_time: f64,
    fade_in: f64,
    fade_out: f64,
    fade_ease: u8,
    source: (u32, u32, u32),
    value: f32,
    place: u32,
    gain: f32,
    id: u64,
}

const _: () = assert!(size_of::<Event>() == 72);

impl Ord for Event {
    fn cmp(&self, other: &Self) -> Ordering {
        let order = other.start_time.total_cmp(&self.start_time);
        order.then_with(|| other.id.cmp(&self.id))
    }
}

impl PartialOrd for Event {
    fn partial_cmp(&self, other: &Self) -> Option<Ordering> {
        Some(self.cmp(other))
    }
}

impl PartialEq for Event {
    fn eq(&self, other: &Self) -> bool {
        self.cmp(other) == Ordering::Equal
    }
}

impl Eq for Event {}

pub fn random(seed: u32) -> u32 {
    let x = seed ^ (seed << 13);
    let x = x ^ (x >> 17);
    x ^ (x << 5)
}

/// A random start, or one start and a random number.
fn event(s: u32, i: u64, equal: bool) -> Event {
    let (start, id) = if equal { (7, s as u64) } else { (s, i) };
    Event {
        start_time: start as f64,
        end_time: 1.0,
        fade_ease: 1,
        fade_in: 0.5,
        fade_out: 0.25,
        source: (2, 7, 9),
        value: 0.0,
        place: 3,
        gain: 1.0,
        id,
    }
}

pub fn heap(rounds: u64, n: u64, equal: bool, pops: bool) -> (u64, u64) {
    let mut heap = BinaryHeap::with_capacity(256);
    let mut d = 0u64;
    let start = bench_now();
    for _ in 0..black_box(rounds) {
        heap.clear();
        let mut s = 2463534242;
        for i in 0..n {
            s = random(s);
            heap.push(event(s, i, equal));
        }
        if pops {
            while let Some(event) = heap.pop() {
                d = d.rotate_left(7).wrapping_add(event.id);
            }
        } else {
            d = d
                .rotate_left(7)
                .wrapping_add(black_box(&heap).peek().unwrap().id);
        }
    }
    (bench_now() - start, d)
}

pub fn compare(rounds: u64, equal: bool) -> (u64, u64) {
    let mut s = 2463534242;
    let mut events = [event(0, 0, equal); 256];
    for (i, e) in events.iter_mut().enumerate() {
        s = random(s);
        *e = event(s, i as u64, equal);
    }
    let mut d = 0u64;
    let start = bench_now();
    for _ in 0..black_box(rounds) {
        for pair in black_box(&events).windows(2) {
            // the first to leave is the greatest
            d += (pair[0] > pair[1]) as u64;
        }
    }
    (bench_now() - start, d)
}

// ---- the running peak

/// A monotonic deque: magnitudes that a later one does not reach, each with its place in the history.
struct Peak {
    window: u64,
    fed: u64,
    kept: VecDeque<(u64, u32)>,
}

impl Peak {
    fn feed(&mut self, sample: f32) {
        let bits = sample.to_bits() & 0x7fff_ffff;
        let m = if bits > 0x7f80_0000 {
            0x7fc0_0000
        } else {
            bits
        };
        while self.kept.back().is_some_and(|&(_, last)| last <= m) {
            self.kept.pop_back();
        }
        self.kept.push_back((self.fed, m));
        self.fed += 1;
        if self.kept[0].0 + self.window < self.fed {
            self.kept.pop_front();
        }
    }

    fn peak(&self) -> u32 {
        self.kept.front().map_or(0, |&(_, m)| m)
    }
}

pub fn peak(rounds: u64, window: usize, runs: bool, samples: &[f32]) -> (u64, u64) {
    let (window, kept) = (window as u64, VecDeque::with_capacity(window + 1));
    let mut peak = Peak {
        window,
        fed: 0,
        kept,
    };
    let mut d = 0u64;
    let start = bench_now();
    for _ in 0..black_box(rounds) {
        if runs {
            for run in samples.chunks_exact(64) {
                for &sample in run {
                    peak.feed(sample);
                }
                d = d.rotate_left(7).wrapping_add(peak.peak() as u64);
            }
        } else {
            for &sample in samples {
                peak.feed(sample);
                d = d.rotate_left(7).wrapping_add(peak.peak() as u64);
            }
        }
    }
    (bench_now() - start, d)
}

// ---- the engine

fn new_engine(channels: usize) -> Sequencer {
    let mut s = Sequencer::new(0, channels, ReplayMode::None);
    s.allocate();
    s
}

fn push_events(s: &mut Sequencer, n: u64, fade: f64, pool: &Arc<[f32]>) {
    let channels = s.outputs();
    for i in 0..n {
        let ease = if i % 2 == 1 {
            Fade::Smooth
        } else {
            Fade::Power
        };
        let unit = unit(i % 3, i as usize, pool, channels);
        set_next_id(i + 1);
        s.push(0.0, 1000.0, ease, fade, fade, unit);
    }
}

/// The samples of a buffer, a channel after the other.
fn store(buffer: &mut BufferVec, out: &mut [f32]) {
    let buffer = buffer.buffer_mut();
    for (channel, run) in out.chunks_exact_mut(64).enumerate() {
        run.copy_from_slice(buffer.channel_f32(channel));
    }
}

pub fn blocks(
    channels: usize,
    n: u64,
    fade: f64,
    rounds: u64,
    pool: &Arc<[f32]>,
    out: &mut [f32],
) -> u64 {
    let mut s = new_engine(channels);
    push_events(&mut s, n, fade, pool);
    let mut vec = BufferVec::new(channels);
    let mut output = vec.buffer_mut();
    s.process(64, &BufferRef::empty(), &mut output);
    let start = bench_now();
    for _ in 0..rounds {
        black_box(&mut s).process(black_box(64), &BufferRef::empty(), black_box(&mut output));
    }
    let spent = bench_now() - start;
    store(&mut vec, out);
    spent
}

pub fn ticks(
    channels: usize,
    n: u64,
    fade: f64,
    rounds: u64,
    pool: &Arc<[f32]>,
    out: &mut [f32],
) -> u64 {
    let mut s = new_engine(channels);
    push_events(&mut s, n, fade, pool);
    s.tick(&[], out);
    let start = bench_now();
    for _ in 0..rounds {
        black_box(&mut s).tick(&[], black_box(&mut *out));
    }
    bench_now() - start
}

pub fn starts(n: u64, rounds: u64, pool: &Arc<[f32]>, out: &mut [f32]) -> [u64; 2] {
    let mut times = [0; 2];
    let mut vec = BufferVec::new(1);
    let mut s = new_engine(1);
    for _ in 0..rounds {
        let before = bench_now();
        push_events(black_box(&mut s), n, 0.0, pool);
        let between = bench_now();
        black_box(&mut s).process(64, &BufferRef::empty(), &mut vec.buffer_mut());
        times[0] += between - before;
        times[1] += bench_now() - between;
        s.reset();
    }
    store(&mut vec, out);
    times
}
