//! The live engine's C entries, by the low-level module of their Rust crate (bindings/rust), against the original: each call, and the tapes record by record.

use crate::call::{Call, Curve, Mode, PushKind, Source, Timing};
use crate::clock::bench_now;
use crate::original::audiounit::AudioUnit;
use crate::original::sequencer::{EventId, Fade, ReplayMode, Sequencer};
use crate::original::shared::set_next_id;
use crate::tape::{self, Format};
use crate::{best, head, render, rust, same, show, tapes, timed, units};
use chakaqel::{Arrays, entries};
use std::hint::black_box;
use std::sync::Arc;

/// An engine.
struct Memory(Arrays);

type PushEntry = fn(&mut Arrays, &mut [u64; 2], &entries::Push) -> u64;

/// A source as the entries take it.
fn numbers_of(source: Source) -> (u32, f32, f32, u32, u32) {
    match source {
        Source::Held { level } => (0, level, 0.0, 0, 0),
        Source::Ramp { value, step } => (1, value, step, 0, 0),
        Source::Clip { offset, length } => (2, 0.0, 0.0, offset, length),
    }
}

/// As the other side has them (units.rs).
fn source(i: u64) -> Source {
    match i % 3 {
        0 => Source::Held { level: 0.25 },
        1 => Source::Ramp {
            value: 0.25,
            step: 0.0000001,
        },
        _ => Source::Clip {
            offset: i as u32,
            length: 4_000_000,
        },
    }
}

impl Memory {
    fn new(channels: usize, mode: u32) -> Box<Self> {
        let mut memory = Box::new(Memory(Arrays::zeroed()));
        assert_eq!(memory.create(channels, mode, 1), 0);
        memory
    }

    fn create(&mut self, channels: usize, mode: u32, first: u64) -> u64 {
        entries::create(&mut self.0, channels, mode, first)
    }

    fn push(
        &mut self,
        entry: PushEntry,
        times: [f64; 4],
        curve: u32,
        from: Source,
        gain: f32,
    ) -> u64 {
        let (source, a, b, offset, length) = numbers_of(from);
        let [start, end, fade_in, fade_out] = times;
        let push = entries::Push {
            start,
            end,
            curve,
            fade_in,
            fade_out,
            source,
            a,
            b,
            offset,
            length,
            gain,
        };
        entry(&mut self.0, &mut [0; 2], &push)
    }

    fn process(&mut self, size: usize, pool: &[f32], out: &mut [f32]) -> u64 {
        entries::process(&mut self.0, &mut [0; 3], 0, size, pool, out)
    }

    fn tick(&mut self, pool: &[f32], out: &mut [f32]) -> u64 {
        entries::tick(&mut self.0, 0, pool, out)
    }

    fn reset(&mut self) {
        entries::reset(&mut self.0)
    }

    fn push_events(&mut self, n: u64, fade: f64) {
        for i in 0..n {
            let times = [0.0, 1000.0, fade, fade];
            let code = self.push(entries::push, times, (i % 2) as u32, source(i), 1.0);
            assert_eq!(code, 0);
        }
    }
}

fn blocks(channels: usize, n: u64, fade: f64, rounds: u64, pool: &[f32], out: &mut [f32]) -> u64 {
    let mut s = Memory::new(channels, 1);
    s.push_events(n, fade);
    s.process(64, pool, out);
    timed(rounds, || {
        black_box(&mut *s).process(black_box(64), pool, black_box(&mut *out));
    })
}

fn ticks(channels: usize, n: u64, fade: f64, rounds: u64, pool: &[f32], out: &mut [f32]) -> u64 {
    let mut s = Memory::new(channels, 1);
    s.push_events(n, fade);
    s.tick(pool, out);
    timed(rounds, || {
        black_box(&mut *s).tick(pool, black_box(&mut *out));
    })
}

/// The times of n pushes and of the block in which they start.
fn starts(n: u64, rounds: u64, pool: &[f32], out: &mut [f32]) -> [u64; 2] {
    let mut times = [0; 2];
    let mut s = Memory::new(1, 1);
    for _ in 0..rounds {
        let before = bench_now();
        black_box(&mut *s).push_events(n, 0.0);
        let between = bench_now();
        black_box(&mut *s).process(64, pool, out);
        times[0] += between - before;
        times[1] += bench_now() - between;
        s.reset();
    }
    times
}

/// Blocks or ticks with n events sounding, as `engine` in main.rs has them.
fn sounding(block: bool, n: u64, faded: bool, channels: usize, pool: &Arc<[f32]>) {
    let call = if block { "process" } else { "tick" };
    let events = match (n, faded) {
        (0, _) => "idle".to_string(),
        (_, false) => format!("{n} sounding"),
        (_, true) => format!("{n} sounding, both fades"),
    };
    let what = format!("{call}, {events}, {channels} ch");
    let fade = if faded { 1000.0 } else { 0.0 };
    let length = if block { 64 * channels } else { channels };
    let ours = |rounds, out: &mut [f32]| match block {
        true => blocks(channels, n, fade, rounds, pool, out),
        false => ticks(channels, n, fade, rounds, pool, out),
    };
    let theirs = |rounds, out: &mut [f32]| match block {
        true => rust::blocks(channels, n, fade, rounds, pool, out),
        false => rust::ticks(channels, n, fade, rounds, pool, out),
    };
    let (mut a, mut b) = (vec![-1.0; length], vec![-2.0; length]);
    for rounds in [0, 1, 20] {
        ours(rounds, &mut a);
        theirs(rounds, &mut b);
        same(&what, &a, &b);
    }
    let most = if block {
        crate::BLOCKS
    } else {
        50 * crate::BLOCKS
    };
    let times = best(most, [&mut |k| ours(k, &mut a), &mut |k| theirs(k, &mut b)]);
    show(&what, times, 1);
}

fn come_in(n: u64, pool: &Arc<[f32]>) {
    let (mut a, mut b) = ([-1.0; 64], [-2.0; 64]);
    starts(n, 2, pool, &mut a);
    rust::starts(n, 2, pool, &mut b);
    same("starts", &a, &b);
    for (part, what) in [(0, "push"), (1, "the block in which they start,")] {
        let times = best(
            100,
            [&mut |k| starts(n, k, pool, &mut a)[part], &mut |k| {
                rust::starts(n, k, pool, &mut b)[part]
            }],
        );
        show(&format!("{what} {n} events"), times, n as usize);
    }
}

/// The original, with n events that wait, or that sound.
fn original(mode: ReplayMode, n: u64, sound: bool, pool: &Arc<[f32]>) -> Sequencer {
    let mut s = Sequencer::new(0, 1, mode);
    s.allocate();
    for i in 0..n {
        let unit = units::unit(i % 3, i as usize, pool, 1);
        set_next_id(i + 1);
        s.push(
            if sound { 0.0 } else { 900.0 },
            1000.0,
            Fade::Power,
            0.0,
            0.0,
            unit,
        );
    }
    if sound {
        s.tick(&[], &mut [0.0]);
    }
    s
}

fn memory(mode: u32, n: u64, sound: bool, pool: &[f32]) -> Box<Memory> {
    let mut s = Memory::new(1, mode);
    for i in 0..n {
        let times = [if sound { 0.0 } else { 900.0 }, 1000.0, 0.0, 0.0];
        assert_eq!(s.push(entries::push, times, 0, source(i), 1.0), 0);
    }
    if sound {
        s.tick(pool, &mut [0.0]);
    }
    s
}

/// Pushes of the other two kinds: 256 on an empty engine, which a reset empties again; the reset counts on both sides.
fn other_pushes(pool: &Arc<[f32]>) {
    for (entry, relative, what) in [
        (entries::push_relative as PushEntry, true, "push_relative"),
        (entries::push_duration, false, "push_duration"),
    ] {
        let mut s = Memory::new(1, 1);
        let mut r = original(ReplayMode::None, 0, false, pool);
        let mut ours = || {
            for i in 0..256 {
                let times = [scattered(i), 1000.0, 0.0, 0.0];
                s.push(entry, times, 0, source(i), 1.0);
            }
            s.reset();
        };
        let mut theirs = || {
            for i in 0..256u64 {
                let unit = units::unit(i % 3, i as usize, pool, 1);
                set_next_id(i + 1);
                match relative {
                    true => r.push_relative(scattered(i), 1000.0, Fade::Power, 0.0, 0.0, unit),
                    false => r.push_duration(scattered(i), 1000.0, Fade::Power, 0.0, 0.0, unit),
                };
            }
            r.reset();
        };
        let times = best(
            100_000,
            [&mut |k| timed(k, &mut ours), &mut |k| timed(k, &mut theirs)],
        );
        show(&format!("{what}, 256 events, with their reset"), times, 256);
    }
}

fn scattered(number: u64) -> f64 {
    f64::from((number as u32).wrapping_mul(0x9E37_79B1)) / 4_294_967_296.0
}

/// Edits of each of n events in turn: of those that sound (applied), and of those that wait (stored, over the edit stored before).
fn edits(n: u64, sound: bool, relative: bool, pool: &Arc<[f32]>) {
    let mut s = memory(1, n, sound, pool);
    let mut r = original(ReplayMode::None, n, sound, pool);
    let mut ours = || {
        for i in 1..=n {
            let entry = match relative {
                true => entries::edit_relative,
                false => entries::edit,
            };
            entry(&mut black_box(&mut *s).0, i, 950.0, 0.0);
        }
    };
    let mut theirs = || {
        for i in 1..=n {
            let r = black_box(&mut r);
            match relative {
                true => r.edit_relative(EventId(i), 950.0, 0.0),
                false => r.edit(EventId(i), 950.0, 0.0),
            }
        }
    };
    let times = best(
        100_000,
        [&mut |k| timed(k, &mut ours), &mut |k| timed(k, &mut theirs)],
    );
    let call = if relative { "edit_relative" } else { "edit" };
    let state = if sound { "sound" } else { "wait" };
    show(&format!("{call}, {n} that {state}"), times, n as usize);
}

/// A reset or a change of the rate with 256 events that sound before each.
fn resets(mode: u32, rate: bool, pool: &Arc<[f32]>) {
    let theirs_mode = || match mode {
        0 => ReplayMode::All,
        _ => ReplayMode::None,
    };
    let ours = |rounds: u64| {
        let mut s = memory(mode, 256, true, pool);
        let mut spent = 0;
        for k in 0..rounds {
            let start = bench_now();
            if rate {
                let hertz = 44_100.0 + (k % 2) as f64;
                entries::set_sample_rate(&mut s.0, hertz);
            } else {
                s.reset();
            }
            spent += bench_now() - start;
            match mode {
                0 => {
                    s.tick(pool, &mut [0.0]);
                }
                _ => s.push_events(256, 0.0),
            }
        }
        spent
    };
    let theirs = |rounds: u64| {
        let mut r = original(theirs_mode(), 256, true, pool);
        let mut spent = 0;
        for k in 0..rounds {
            let start = bench_now();
            if rate {
                r.set_sample_rate(44_100.0 + (k % 2) as f64);
            } else {
                r.reset();
            }
            spent += bench_now() - start;
            match mode {
                0 => r.tick(&[], &mut [0.0]),
                _ => {
                    for i in 0..256u64 {
                        let unit = units::unit(i % 3, i as usize, pool, 1);
                        set_next_id(i + 1);
                        r.push(0.0, 1000.0, Fade::Power, 0.0, 0.0, unit);
                    }
                }
            }
        }
        spent
    };
    let times = best(100, [&mut |k| ours(k), &mut |k| theirs(k)]);
    let what = match (rate, mode) {
        (true, _) => "set_sample_rate, 256 sounding",
        (_, 0) => "reset, mode All, 256 sounding",
        _ => "reset, mode None, 256 held",
    };
    show(what, times, 1);
}

fn readers(pool: &Arc<[f32]>) {
    let s = memory(1, 256, true, pool);
    let r = original(ReplayMode::None, 256, true, pool);
    let mut time = || {
        black_box(entries::time(&black_box(&*s).0));
    };
    let mut rust_time = || {
        black_box(black_box(&r).time());
    };
    let times = best(
        1_000_000,
        [&mut |k| timed(k, &mut time), &mut |k| {
            timed(k, &mut rust_time)
        }],
    );
    show("time", times, 1);
    let mut counts = || {
        black_box(entries::counts(&black_box(&*s).0));
    };
    let mut rust_counts = || {
        black_box(black_box(&r).counts());
    };
    let times = best(
        1_000_000,
        [&mut |k| timed(k, &mut counts), &mut |k| {
            timed(k, &mut rust_counts)
        }],
    );
    show("counts", times, 1);
    let mut place = || {
        for i in 1..=256 {
            black_box(entries::place(&black_box(&*s).0, i));
        }
    };
    let mut rust_place = || {
        for i in 1..=256 {
            black_box(black_box(&r).is_active(EventId(i)));
        }
    };
    let times = best(
        1_000_000,
        [&mut |k| timed(k, &mut place), &mut |k| {
            timed(k, &mut rust_place)
        }],
    );
    show("place, 256 sounding, each in turn", times, 256);
    let mut made = Memory::new(1, 1);
    let mut create = || {
        black_box(&mut *made).create(1, 1, 1);
    };
    let mut rust_create = || {
        black_box(original(ReplayMode::None, 0, false, pool));
    };
    let times = best(
        1_000_000,
        [&mut |k| timed(k, &mut create), &mut |k| {
            timed(k, &mut rust_create)
        }],
    );
    show("create", times, 1);
}

fn put(samples: &[f32], out: &mut [u8]) {
    for (x, bytes) in samples.iter().zip(out.chunks_exact_mut(4)) {
        let bits = if x.is_nan() { 0x7FC0_0000 } else { x.to_bits() };
        bytes.copy_from_slice(&bits.to_le_bytes());
    }
}

/// A tape, record by record through the live calls, as `render` of render.rs has the loop; the count of bytes written.
fn play(s: &mut Memory, tape: &[u8], pool: &[f32], out: &mut [u8]) -> usize {
    let next = |tape: &[u8], first: bool| {
        (!tape.is_empty())
            .then(|| tape::read(Format::Tape, tape, first).ok())
            .flatten()
    };
    let Some((
        Call::Create {
            channels,
            mode,
            first,
        },
        length,
    )) = next(tape, true)
    else {
        return 0;
    };
    let channels = usize::from(channels);
    if s.create(channels, u32::from(mode == Mode::None), first) != 0 {
        return 0;
    }
    let mut rest = &tape[length..];
    let mut row = [0.0f32; 512];
    let mut at = 0;
    while let Some((call, length)) = next(rest, false) {
        rest = &rest[length..];
        match call {
            Call::Push(kind, p, _) => {
                let entry: PushEntry = match kind {
                    PushKind::Absolute => entries::push,
                    PushKind::Relative => entries::push_relative,
                    PushKind::Duration => entries::push_duration,
                };
                let times = [p.start, p.end, p.fade_in, p.fade_out];
                let curve = u32::from(p.curve == Curve::Smooth);
                s.push(entry, times, curve, p.source, p.gain());
            }
            Call::Edit(timing, e) => {
                let entry = match timing {
                    Timing::Absolute => entries::edit,
                    Timing::Relative => entries::edit_relative,
                };
                entry(&mut s.0, e.number, e.end, e.fade_out);
            }
            Call::Tick => {
                if s.tick(pool, &mut row[..channels]) != 0 {
                    continue;
                }
                let Some(room) = out.get_mut(at..at + 4 * channels) else {
                    return at;
                };
                put(&row[..channels], room);
                at += 4 * channels;
            }
            Call::Block(size) => {
                let size = usize::from(size);
                if s.process(size, pool, &mut row[..64 * channels]) != 0 {
                    continue;
                }
                let Some(room) = out.get_mut(at..at + 4 * size * channels) else {
                    return at;
                };
                for channel in 0..channels {
                    let samples = &row[64 * channel..64 * channel + size];
                    put(samples, &mut room[4 * size * channel..]);
                }
                at += 4 * size * channels;
            }
            Call::Reset => s.reset(),
            Call::Rate(rate) => {
                entries::set_sample_rate(&mut s.0, rate);
            }
            _ => unreachable!("a script's call on a tape"),
        }
    }
    at
}

/// A tape through the live calls, and through the same loop in Rust.
fn on_tape(what: &str, tape: &[u8]) {
    let records = tapes::count(tape);
    let pool: Vec<f32> = (0..4096u16).map(|k| f32::from(k) / 4096.0).collect();
    let mut s = Memory::new(1, 0);
    let mut theirs = vec![0xA5; 4 * 64 * 8 * records];
    let mut ours = theirs.clone();
    let length = render::render(tape, &mut theirs);
    let count = play(&mut s, tape, &pool, &mut ours);
    assert_eq!(count, length, "{what}: the counts differ");
    assert!(ours == theirs, "{what}: the bytes differ");
    ours.truncate(length);
    theirs.truncate(length);
    let times = best(
        1_000_000,
        [
            &mut |n| timed(n, || _ = play(&mut s, black_box(tape), &pool, &mut ours)),
            &mut |n| timed(n, || _ = render::render(black_box(tape), &mut theirs)),
        ],
    );
    show(what, times, records);
}

pub fn tables(pool: &Arc<[f32]>) {
    head("live: blocks of 64, ns a block");
    for channels in [1, 2, 8] {
        sounding(true, 0, false, channels, pool);
        for n in [1, 8, 64, 256] {
            sounding(true, n, false, channels, pool);
            if channels != 2 {
                sounding(true, n, true, channels, pool);
            }
        }
    }
    head("live: ticks, ns a tick");
    for channels in [1, 8] {
        sounding(false, 0, false, channels, pool);
        for n in [1, 8, 64] {
            sounding(false, n, false, channels, pool);
            sounding(false, n, true, channels, pool);
        }
    }
    head("live: events that come in, 1 ch, ns an event");
    come_in(16, pool);
    come_in(256, pool);
    other_pushes(pool);
    for (n, sound) in [(8, true), (256, true), (8, false), (256, false)] {
        edits(n, sound, false, pool);
        edits(n, sound, true, pool);
    }
    head("live: other calls, ns a call");
    resets(0, false, pool);
    resets(1, false, pool);
    resets(0, true, pool);
    readers(pool);
    head("live: tapes, one call a record, ns a record");
    for (what, tape) in tapes::all(1) {
        on_tape(what, &tape);
    }
}
