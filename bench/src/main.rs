//! The port against the original, in turns, as tables. README.md says what is compared.

// The oracle's files that the Rust side is made of, compiled here again; they name the three modules.
use oracle::{call, player, state};
#[path = "../../oracle/src/original/mod.rs"]
#[rustfmt::skip]
mod original;
#[path = "../../oracle/src/refusal.rs"]
#[allow(dead_code)]
mod refusal;
#[path = "../../oracle/src/tape.rs"]
#[allow(dead_code)]
mod tape;

mod batch;
mod clips;
mod clock;
mod live;
mod port;
mod programs;
mod render;
mod rust;
mod tapes;
mod units;

use clock::bench_now;
use original::buffer::{BufferMut, BufferVec};
use std::hint::black_box;
use std::path::Path;
use std::sync::Arc;
use std::time::Instant;

/// Turns of each side; the best counts.
const TURNS: u64 = 41;
/// Fewer where they would last longer than this, but so many at least. Times are in nanoseconds.
const LINE: u64 = 4_000_000_000;
const FEWEST: u64 = 5;
/// A turn of the slower side lasts so long at least.
const TURN: u64 = 1_000_000;
/// In so many blocks no clip runs past the pool.
const BLOCKS: u64 = 2000;
const POOL: usize = 64 * (BLOCKS as usize + 8);

/// One side: runs so many rounds and gives the time.
type Side<'a> = &'a mut dyn FnMut(u64) -> u64;

/// The best turn of each side, in nanoseconds a round. The sides take turns; a turn has `most` rounds at most.
fn best<const N: usize>(most: u64, mut sides: [Side; N]) -> [f64; N] {
    let mut rounds = 1;
    let slowest = loop {
        let slowest = sides.iter_mut().map(|side| side(rounds)).max().unwrap_or(1);
        if slowest >= TURN || rounds == most {
            break slowest.max(1);
        }
        rounds = (2 * rounds).min(most);
    };
    let mut least = [u64::MAX; N];
    for _ in 0..(LINE / slowest).clamp(FEWEST, TURNS) {
        for (least, side) in least.iter_mut().zip(&mut sides) {
            *least = side(rounds).min(*least);
        }
    }
    least.map(|spent| spent as f64 / rounds as f64)
}

fn timed(rounds: u64, mut call: impl FnMut()) -> u64 {
    let start = bench_now();
    for _ in 0..rounds {
        call();
    }
    bench_now() - start
}

fn head(what: &str) {
    println!("\n| {what} | ours | Rust | ratio |\n|---|---:|---:|---:|");
}

/// A line of the table, of so many parts a round.
fn show(what: &str, [ours, theirs]: [f64; 2], parts: usize) {
    let (a, b) = (ours / parts as f64, theirs / parts as f64);
    println!("| {what} | {a:.2} | {b:.2} | {:.2} |", a / b);
}

fn same(what: &str, ours: &[f32], theirs: &[f32]) {
    assert_eq!(ours.len(), theirs.len());
    let equal = |(x, y): (&f32, &f32)| x.to_bits() == y.to_bits();
    assert!(ours.iter().zip(theirs).all(equal), "{what}: samples differ");
}

/// The loops on 64 samples. Ours has one row for all channels.
fn loops(channels: usize, pool: &Arc<[f32]>) {
    for (kind, name) in [(0, "held"), (1, "ramp"), (2, "clip")] {
        let mut row = [0.0; 64];
        let mut unit = units::unit(kind, 7, pool, channels);
        let mut scratch = BufferVec::new(channels);
        compare_loop(
            &format!("fill {name}, {channels} ch"),
            &mut row,
            &mut scratch,
            |row| port::fill(row, pool, black_box(kind)),
            |scratch| rust::fill(black_box(&mut *unit), black_box(64), scratch),
        );
    }
    for (smooth, rising) in [(true, true), (true, false), (false, true), (false, false)] {
        let curve = if smooth { "smooth" } else { "power" };
        let way = if rising { "in" } else { "out" };
        let what = format!("fade {curve} {way}, {channels} ch");
        // Compared on a fade that changes the samples; timed at the curve's 1, so that they do not die out, which would be slow.
        for (phase, step) in [(0.1, 0.01), (if rising { 1.0 } else { 0.0 }, 0.0)] {
            let mut row = [0.5; 64];
            let mut scratch = filled(channels);
            let ours = |row: &mut [f32]| {
                port::fade(
                    row,
                    black_box(smooth),
                    black_box(rising),
                    black_box(phase),
                    step,
                )
            };
            let theirs = |scratch: &mut BufferMut| {
                let (smooth, rising, phase) = black_box((smooth, rising, phase));
                rust::fade(scratch, black_box(64), smooth, rising, phase, step)
            };
            if step > 0.0 {
                check_loop(&what, &mut row, &mut scratch, ours, theirs);
            } else {
                compare_loop(&what, &mut row, &mut scratch, ours, theirs);
            }
        }
    }
    let run = [0.5; 64];
    let mut added = filled(channels);
    let mut added = added.buffer_mut();
    compare_loop(
        &format!("add, {channels} ch"),
        &mut [0.5; 64],
        &mut filled(channels),
        |row| port::add(row, black_box(&run)),
        |output| rust::add(output, black_box(&mut added), black_box(64)),
    );
    // What one side does once a block, and the other not.
    let mut out = vec![0.5; 64 * channels];
    let mut output = BufferVec::new(channels);
    let mut write = || port::overlay(black_box(&mut out), black_box(&run));
    let mut clear = || rust::clear(&mut black_box(&mut output).buffer_mut(), black_box(8));
    let times = best(
        1_000_000,
        [&mut |n| timed(n, &mut write), &mut |n| timed(n, &mut clear)],
    );
    let what = "once a block: ours writes the row to the channels, Rust clears them";
    show(&format!("{what}, {channels} ch"), times, 64);
}

/// Paper 14: 64 samples by the table's entries from 256 on, against the curve that the table stands for. Compared on samples, timed on
/// zeros, which do not die out.
fn previews() {
    const STEP: f32 = 1.0 / 1024.0;
    let (first, phase) = black_box((256, 0.25));
    for (rising, way) in [(true, "rising"), (false, "falling")] {
        let curve = |row: &mut [f32]| port::fade(row, black_box(true), rising, phase, STEP);
        let theirs = |scratch: &mut BufferMut| {
            rust::fade(scratch, black_box(64), black_box(true), rising, phase, STEP)
        };
        let (mut a, mut b, mut c) = ([0.5; 64], [0.5; 64], filled(1));
        port::preview(&mut a, first, rising, 1);
        curve(&mut b);
        theirs(&mut c.buffer_mut());
        same(way, &a, &b);
        same(way, &a, c.buffer_mut().channel_f32_mut(0));
        let (mut a, mut b, mut c) = ([0.0; 64], [0.0; 64], BufferVec::new(1));
        let [table, ours, rusts] = best(
            1_000_000,
            [
                &mut |n| port::preview(black_box(&mut a), first, rising, n),
                &mut |n| timed(n, || curve(black_box(&mut b))),
                &mut |n| timed(n, || theirs(&mut black_box(&mut c).buffer_mut())),
            ],
        );
        show(&format!("{way}, our curve"), [table, ours], 64);
        show(&format!("{way}, the Rust's curve"), [table, rusts], 64);
    }
}

fn filled(channels: usize) -> BufferVec {
    let mut buffer = BufferVec::new(channels);
    for channel in 0..channels {
        buffer.channel_f32_mut(channel).fill(0.5);
    }
    buffer
}

/// One round of both sides; every channel of Rust's buffer must have our row.
fn check_loop(
    what: &str,
    row: &mut [f32],
    buffer: &mut BufferVec,
    mut ours: impl FnMut(&mut [f32]),
    mut theirs: impl FnMut(&mut BufferMut),
) {
    ours(row);
    theirs(&mut buffer.buffer_mut());
    for channel in 0..buffer.channels() {
        same(what, row, buffer.channel_f32(channel));
    }
}

fn compare_loop(
    what: &str,
    row: &mut [f32],
    buffer: &mut BufferVec,
    mut ours: impl FnMut(&mut [f32]),
    mut theirs: impl FnMut(&mut BufferMut),
) {
    check_loop(what, row, buffer, &mut ours, &mut theirs);
    let mut ours = || ours(black_box(row));
    let mut theirs = || theirs(&mut black_box(&mut *buffer).buffer_mut());
    let times = best(
        1_000_000,
        [&mut |n| timed(n, &mut ours), &mut |n| timed(n, &mut theirs)],
    );
    show(what, times, 64);
}

fn heap(n: u64, equal: bool) {
    for pops in [false, true] {
        let (ours, theirs) = (port::heap(3, n, equal, pops), rust::heap(3, n, equal, pops));
        assert_eq!(ours.1, theirs.1, "heap: the orders differ");
    }
    let [our_push, push, our_both, both] = best(
        1_000_000,
        [
            &mut |k| port::heap(k, n, equal, false).0,
            &mut |k| rust::heap(k, n, equal, false).0,
            &mut |k| port::heap(k, n, equal, true).0,
            &mut |k| rust::heap(k, n, equal, true).0,
        ],
    );
    let n = n as usize;
    let starts = if equal { ", equal starts" } else { "" };
    show(
        &format!("push, up to {n} events{starts}"),
        [our_push, push],
        n,
    );
    show(
        &format!("pop, from {n} events{starts}"),
        [our_both - our_push, both - push],
        n,
    );
}

/// The heap's comparison alone, of 256 events, each with the next.
fn comparison(equal: bool) {
    let (ours, theirs) = (port::compare(3, equal), rust::compare(3, equal));
    assert_eq!(ours.1, theirs.1, "comparison: the answers differ");
    let times = best(
        1_000_000,
        [&mut |k| port::compare(k, equal).0, &mut |k| {
            rust::compare(k, equal).0
        }],
    );
    let starts = if equal { "equal" } else { "different" };
    show(&format!("one comparison, {starts} starts"), times, 255);
}

/// The running peak over random samples, fed one at a time or in runs of 64, and read after each feed.
fn peak(window: usize, runs: bool, samples: &[f32]) {
    let (ours, theirs) = (
        port::peak(2, window, runs, samples),
        rust::peak(2, window, runs, samples),
    );
    assert_eq!(ours.1, theirs.1, "peak: the answers differ");
    let times = best(
        1_000_000,
        [&mut |k| port::peak(k, window, runs, samples).0, &mut |k| {
            rust::peak(k, window, runs, samples).0
        }],
    );
    let feeds = if runs { "runs of 64" } else { "single samples" };
    show(&format!("window {window}, {feeds}"), times, samples.len());
}

/// Blocks or ticks with n events sounding. Both sides make their engine anew for each turn, untimed.
fn engine(block: bool, n: u64, faded: bool, channels: usize, pool: &Arc<[f32]>) {
    let call = if block { "process" } else { "tick" };
    let sounding = match (n, faded) {
        (0, _) => "idle".to_string(),
        (_, false) => format!("{n} sounding"),
        (_, true) => format!("{n} sounding, both fades"),
    };
    let what = format!("{call}, {sounding}, {channels} ch");
    let fade = if faded { 1000.0 } else { 0.0 };
    let length = if block { 64 * channels } else { channels };
    let ours = |rounds, out: &mut [f32]| match block {
        true => port::blocks(channels, n, fade, rounds, pool, out),
        false => port::ticks(channels, n, fade, rounds, pool, out),
    };
    let theirs = |rounds, out: &mut [f32]| match block {
        true => rust::blocks(channels, n, fade, rounds, pool, out),
        false => rust::ticks(channels, n, fade, rounds, pool, out),
    };
    let (mut a, mut b) = (vec![-1.0; length], vec![-2.0; length]);
    for rounds in [0, 1, 20] {
        assert!(ours(rounds, &mut a) < u64::MAX, "{what}: refused");
        theirs(rounds, &mut b);
        same(&what, &a, &b);
    }
    let most = if block { BLOCKS } else { 50 * BLOCKS };
    let times = best(most, [&mut |k| ours(k, &mut a), &mut |k| theirs(k, &mut b)]);
    show(&what, times, 1);
}

fn starts(n: u64, pool: &Arc<[f32]>) {
    let (mut a, mut b) = ([-1.0; 64], [-2.0; 64]);
    for (part, together, what) in [
        (0, false, "push"),
        (1, false, "the block in which they start,"),
        (1, true, "the same in one function with pushes and reset,"),
    ] {
        port::starts(together, n, 2, pool, &mut a);
        rust::starts(n, 2, pool, &mut b);
        same("starts", &a, &b);
        let times = best(
            100,
            [
                &mut |k| port::starts(together, n, k, pool, &mut a)[part],
                &mut |k| rust::starts(n, k, pool, &mut b)[part],
            ],
        );
        show(&format!("{what} {n} events"), times, n as usize);
    }
}

/// The blocks of a tape where the engine stays in place. Ours is the tape through the C entry, less the same tape without them. The Rust's is its `process` alone on that tape: its
/// reset takes every waiting event from the heap, which would count for the tape without the blocks.
fn blocks_alone(what: &str, with: &[u8], without: &[u8], blocks: usize, events: usize) {
    let mut theirs = vec![0xA5; 4 * 64 * blocks];
    let mut ours = theirs.clone();
    let length = render::render(with, &mut theirs);
    assert_eq!(
        port::render(with, &mut ours),
        length,
        "{what}: the counts differ"
    );
    assert!(ours == theirs, "{what}: the bytes differ");
    let mut ours_too = ours.clone();
    let [pushes, both, blocks] = best(
        1_000_000,
        [
            &mut |k| timed(k, || _ = port::render(black_box(without), &mut ours)),
            &mut |k| timed(k, || _ = port::render(black_box(with), &mut ours_too)),
            &mut |k| {
                (0..k)
                    .map(|_| render::process_time(black_box(with), &mut theirs))
                    .sum()
            },
        ],
    );
    show(what, [both - pushes, blocks], events);
}

/// The block in which 256 events start, at one time or each at its own; and the four blocks in which 256 clips start and end.
fn starts_on_tapes() {
    const ROUNDS: usize = 20;
    for (apart, when) in [(false, ""), (true, ", each at its own time")] {
        let [without, with] =
            [false, true].map(|starts| tapes::come_in(256, apart, starts, ROUNDS));
        let what = format!("the block in which they start, 256 events, through the C entry{when}");
        blocks_alone(&what, &with, &without, ROUNDS, 256 * ROUNDS);
    }
    let (with, without) = (tapes::all_at_once(ROUNDS), tapes::pushed_alone(ROUNDS));
    let what = "the four blocks of '256 at once', 256 events, through the C entry";
    blocks_alone(what, &with, &without, 4 * ROUNDS, 256 * ROUNDS);
}

/// A tape through the C entry, and through the same loop in Rust.
fn entry(what: &str, tape: &[u8]) {
    let records = tapes::count(tape);
    // Room for 64 samples of 8 channels a record, and marked where nothing is written.
    let mut theirs = vec![0xA5; 4 * 64 * 8 * records];
    let mut ours = theirs.clone();
    let length = render::render(tape, &mut theirs);
    assert_eq!(
        port::render(tape, &mut ours),
        length,
        "{what}: the counts differ"
    );
    assert!(ours == theirs, "{what}: the bytes differ");
    ours.truncate(length);
    theirs.truncate(length);
    let times = best(
        1_000_000,
        [
            &mut |n| {
                timed(n, || {
                    assert_eq!(port::render(black_box(tape), &mut ours), length)
                })
            },
            &mut |n| {
                timed(n, || {
                    assert_eq!(render::render(black_box(tape), &mut theirs), length)
                })
            },
        ],
    );
    show(what, times, records);
}

/// A tape through the program `trail`, and through `oracle-trail`.
fn trail(what: &str, ours: &str, theirs: &str, tape: &[u8], folder: &Path) {
    let file = folder.join("tape");
    std::fs::write(&file, tape).expect("the folder takes a tape");
    let same = programs::output(ours, &file) == programs::output(theirs, &file);
    assert!(same, "{what}: the listings differ");
    let times = best(
        1_000_000,
        [&mut |n| programs::timed(ours, &file, n), &mut |n| {
            programs::timed(theirs, &file, n)
        }],
    );
    show(what, times, tapes::count(tape));
}

fn main() {
    let pool: Arc<[f32]> = (0..POOL).map(|k| (k % 4096) as f32 / 4096.0).collect();
    let arguments: Vec<String> = std::env::args().collect();
    let start = Instant::now();
    if arguments.get(1).is_some_and(|word| word == "live") {
        live::tables(&pool);
        return;
    }

    head("sample loops, ns a sample");
    for channels in [1, 8] {
        loops(channels, &pool);
    }
    println!("\n| the preview, ns a sample | table | curve | ratio |\n|---|---:|---:|---:|");
    previews();
    head("heap of events, ns a call");
    for (n, equal) in [(16, false), (256, false), (16, true), (256, true)] {
        heap(n, equal);
    }
    comparison(false);
    comparison(true);
    head("running peak, ns a sample");
    let noise: Vec<f32> = std::iter::successors(Some(2463534242), |&s| Some(rust::random(s)))
        .map(|s| s as i32 as f32)
        .take(16384)
        .collect();
    for window in [64, 4096] {
        peak(window, false, &noise);
        peak(window, true, &noise);
    }
    for (block, what) in [
        (true, "blocks of 64, ns a block"),
        (false, "ticks, ns a tick"),
    ] {
        head(what);
        for channels in [1, 8] {
            engine(block, 0, false, channels, &pool);
            for n in [1, 8, 64, 256] {
                if block || n < 256 {
                    engine(block, n, false, channels, &pool);
                    engine(block, n, true, channels, &pool);
                }
            }
        }
    }
    clips::table();
    batch::table();
    head("events that come in, 1 ch, ns an event");
    for n in [16, 256] {
        starts(n, &pool);
    }
    starts_on_tapes();
    head("tapes through the C entry, ns a record");
    for (what, tape) in tapes::all(1) {
        entry(what, &tape);
    }
    live::tables(&pool);
    if let [_, ours, theirs, folder] = &arguments[..] {
        head("tapes through the programs, ns a record");
        // Longer ones, so that starting a program counts for little.
        for (what, tape) in tapes::all(5) {
            trail(
                &format!("trail, {what}"),
                ours,
                theirs,
                &tape,
                Path::new(folder),
            );
        }
    } else {
        println!(
            "\nSkipped: trail against oracle-trail, since target/bin/trail is not there (`rt ci` and `.ci/built`)."
        );
    }
    let seconds = start.elapsed().as_secs();
    println!("\nThe best of {TURNS} turns, in turns, by CPU time; {seconds} s in all.");
}
