//! The engine's memory: snapshots, arrays that are lent, any bits, and that no call allocates.

// The counting allocator needs it.
#![allow(unsafe_code)]

use chakaqel::{Arrays, EventId, Fade, MixOrder, Refusal, ReplayMode, Sequencer, Source};
use std::alloc::{GlobalAlloc, Layout, System};
use std::cell::Cell;

thread_local! {
    static ALLOCATIONS: Cell<u64> = const { Cell::new(0) };
}

/// The system's allocator, with a count of each thread's allocations.
struct Counting;

// SAFETY: the system's allocator does the work; the counter neither allocates nor is dropped.
unsafe impl GlobalAlloc for Counting {
    unsafe fn alloc(&self, layout: Layout) -> *mut u8 {
        ALLOCATIONS.set(ALLOCATIONS.get() + 1);
        // SAFETY: as the caller gave it.
        unsafe { System.alloc(layout) }
    }

    unsafe fn dealloc(&self, pointer: *mut u8, layout: Layout) {
        // SAFETY: as the caller gave it.
        unsafe { System.dealloc(pointer, layout) }
    }
}

#[global_allocator]
static ALLOCATOR: Counting = Counting;

/// Numbers with no pattern to speak of (xorshift).
struct Random(u64);

impl Random {
    fn next(&mut self) -> u64 {
        self.0 ^= self.0 << 13;
        self.0 ^= self.0 >> 7;
        self.0 ^= self.0 << 17;
        self.0
    }
}

fn sounding() -> Sequencer {
    let mut sequencer = Sequencer::new(1, ReplayMode::All, 1).unwrap();
    let ramp = Source::Ramp {
        value: 0.0,
        step: 0.125,
    };
    let pushed = sequencer.push(0.0, 900.0, Fade::Power, 0.0, 0.0, ramp, 1.0);
    pushed.unwrap();
    sequencer
}

fn ticks(sequencer: &mut Sequencer, count: usize) -> Vec<f32> {
    let tick = |_| {
        let mut out = [-1.0];
        sequencer.tick(&[], &mut out).unwrap();
        out[0]
    };
    (0..count).map(tick).collect()
}

#[test]
fn a_clone_is_a_snapshot() {
    let mut sequencer = sounding();
    assert_eq!(ticks(&mut sequencer, 2), [0.0, 0.125]);
    let snapshot = sequencer.clone();
    assert_eq!(ticks(&mut sequencer, 2), [0.25, 0.375]);
    assert_eq!(ticks(&mut snapshot.clone(), 3), [0.25, 0.375, 0.5]);
    sequencer.clone_from(&snapshot);
    assert!(sequencer.as_arrays().same_bits(snapshot.as_arrays()));
    assert_eq!(ticks(&mut sequencer, 2), [0.25, 0.375]);
}

#[test]
fn arrays_hold_the_engine() {
    let mut sequencer = sounding();
    ticks(&mut sequencer, 2);
    let mut stored = sequencer.as_arrays().clone();
    let mut again = Sequencer::from_arrays(stored.clone());
    assert_eq!(ticks(&mut again, 1), [0.25]);
    // In place, without a copy: what the calls do stands in the arrays.
    let lent = Sequencer::lend(&mut stored);
    assert_eq!(ticks(lent, 1), [0.25]);
    assert!(stored.same_bits(again.as_arrays()));
    assert!(!stored.same_bits(sequencer.as_arrays()));
    *sequencer.as_arrays_mut() = stored;
    assert_eq!(ticks(&mut sequencer, 1), [0.375]);
}

#[test]
fn same_bits_are_not_equal_floats() {
    let mut a = Box::new(Arrays::zeroed());
    let mut b = a.clone();
    a.times[9] = f64::NAN;
    assert!(!a.same_bits(&b));
    b.times[9] = f64::NAN;
    assert!(a.same_bits(&b));
    b.levels[3071] = -0.0;
    assert!(!a.same_bits(&b));
}

/// An engine may be a static: zeros until it is created.
#[test]
fn in_a_static() {
    static ENGINE: std::sync::Mutex<Sequencer> =
        std::sync::Mutex::new(Sequencer::from_arrays(Arrays::zeroed()));
    let mut engine = ENGINE.lock().unwrap();
    let mut out = [0.0; 8];
    assert_eq!(engine.counts(), chakaqel::Counts::default());
    engine.create(8, ReplayMode::All, 1).unwrap();
    engine.tick(&[], &mut out).unwrap();
}

#[test]
fn an_engine_goes_to_another_thread() {
    let mut sequencer = Box::new(sounding());
    let playing = std::thread::spawn(move || ticks(&mut sequencer, 2));
    assert_eq!(playing.join().unwrap(), [0.0, 0.125]);
    fn shared<T: Send + Sync>() {}
    shared::<Sequencer>();
}

/// Calls of every kind; how many were refused, none of which may change a bit.
fn every_call(sequencer: &mut Sequencer, random: &mut Random) -> u64 {
    let pool = [0.5; 16];
    let mut out = [0.0; 64];
    let mut refused = 0;
    for kind in 0..11 {
        let before = sequencer.clone();
        let any = f64::from_bits(random.next());
        let id = EventId::from_number(random.next());
        let s = &mut *sequencer;
        let (fade, clip) = (
            Fade::Smooth,
            Source::Clip {
                offset: 3,
                length: 9,
            },
        );
        let answer: Result<(), Refusal> = match kind {
            0 => s.push(any, 9.0, fade, 0.0, 1.0, clip, 1.0).map(|_| ()),
            1 => s
                .push_relative(0.0, 9.0, fade, 0.0, 1.0, clip, 1.0)
                .map(|_| ()),
            2 => s
                .push_duration(0.0, 9.0, fade, 0.0, 1.0, clip, 1.0)
                .map(|_| ()),
            3 => s.edit(id, any, 1.0).map(|_| ()),
            4 => s.edit_relative(id, 8.0, 1.0).map(|_| ()),
            5 => s.tick(&pool, &mut out[..1]),
            6 => s.process(64, &pool, &mut out).map(|_| ()),
            7 => s.tick_in_order(MixOrder::Backward, &[], &mut out[..1]),
            8 => s
                .process_in_order(MixOrder::Backward, 3, &[], &mut out)
                .map(|_| ()),
            9 => s.set_sample_rate(any),
            _ => {
                s.reset();
                Ok(())
            }
        };
        if answer.is_err() {
            refused += 1;
            assert!(sequencer.as_arrays().same_bits(before.as_arrays()));
        }
        let place = sequencer.place(id);
        assert!(place.is_none_or(|place| place < chakaqel::MAX_EVENTS));
        let (_, _) = (sequencer.time(), sequencer.counts());
    }
    refused
}

#[test]
fn every_bit_pattern_is_an_engine() {
    let mut random = Random(0x9E37_79B9_7F4A_7C15);
    let mut refused = 0;
    for _ in 0..50 {
        let mut arrays = Box::new(Arrays::zeroed());
        arrays.times.fill_with(|| f64::from_bits(random.next()));
        let bits = |random: &mut Random| random.next() as u32;
        arrays
            .levels
            .fill_with(|| f32::from_bits(bits(&mut random)));
        arrays.marks.fill_with(|| bits(&mut random));
        arrays.numbers.fill_with(|| random.next());
        let sequencer = Sequencer::lend(&mut arrays);
        refused += every_call(sequencer, &mut random);
        sequencer.create(1, ReplayMode::None, 1).unwrap();
        assert_eq!(sequencer.counts(), chakaqel::Counts::default());
    }
    assert!(refused > 0);
}

#[test]
fn no_call_allocates() {
    let mut random = Random(1);
    let before = ALLOCATIONS.get();
    let mut sequencer = sounding();
    every_call(&mut sequencer, &mut random);
    sequencer.create(2, ReplayMode::All, 1).unwrap();
    let after = ALLOCATIONS.get();
    assert_eq!(after, before);
    // The counter counts.
    drop(Box::new(sequencer));
    assert_eq!(ALLOCATIONS.get(), before + 1);
}
