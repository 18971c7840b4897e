//! Paper 4: the clips of a stretch among 256 held events, and the first waiting one from a time on, against a filter and the
//! standard library's sort.

use crate::{bench_now, best, head, rust, show};
use std::hint::black_box;

unsafe extern "C" {
    fn port_clips(
        rounds: u64,
        to: f64,
        out: *mut u64,
        n: usize,
        count: *mut u64,
        one: usize,
    ) -> u64;
    fn port_first(rounds: u64, time: f64, number: *mut u64, one: usize) -> u64;
}

/// An event of 64 bytes.
#[derive(Clone, Copy)]
struct Event {
    start: f64,
    end: f64,
    _rest: [u64; 5],
    number: u64,
}

fn before(a: &Event, b: &Event) -> std::cmp::Ordering {
    a.start.total_cmp(&b.start).then(a.number.cmp(&b.number))
}

/// As `full_engine` of entry.rt.txt has them: waiting, sounding, finished.
fn lists() -> [Vec<Event>; 3] {
    let mut seed = 2463534242;
    let events: Vec<Event> = (0..256)
        .map(|number| {
            seed = rust::random(seed);
            Event {
                start: seed as f64,
                end: 1.0,
                _rest: [0; 5],
                number,
            }
        })
        .collect();
    [
        events[..128].to_vec(),
        events[128..192].to_vec(),
        events[192..].to_vec(),
    ]
}

fn rust_clips(lists: &[Vec<Event>; 3], from: f64, to: f64, out: &mut [u64]) -> usize {
    let mut found = Vec::with_capacity(256);
    for list in lists {
        found.extend(list.iter().filter(|e| e.start < to && e.end > from));
    }
    found.sort_unstable_by(|a, b| before(a, b));
    for (place, event) in out.iter_mut().zip(&found) {
        *place = event.number;
    }
    found.len()
}

fn rust_first(waiting: &[Event], time: f64) -> u64 {
    let first = waiting
        .iter()
        .filter(|e| e.start >= time)
        .min_by(|a, b| before(a, b));
    first.map_or(256, |e| e.number)
}

fn timed(rounds: u64, mut call: impl FnMut()) -> u64 {
    let start = bench_now();
    for _ in 0..rounds {
        call();
    }
    bench_now() - start
}

pub fn table() {
    let lists = lists();
    head("256 events held, ns a call");
    for (to, what) in [
        (1e10, "the clips of a stretch: all 256"),
        (268_435_456.0, "those that start in its first sixteenth"),
    ] {
        let (mut a, mut b, mut n) = ([0; 256], [0; 256], [0]);
        let mut ours = |k| unsafe { port_clips(k, to, a.as_mut_ptr(), 256, n.as_mut_ptr(), 1) };
        ours(1);
        let count = rust_clips(&lists, 0.0, to, &mut b);
        assert_eq!(
            (n[0] as usize, &a[..count]),
            (count, &b[..count]),
            "the clips differ"
        );
        let mut theirs = |k| {
            timed(k, || {
                black_box(rust_clips(black_box(&lists), 0.0, to, black_box(&mut b)));
            })
        };
        let mut ours = |k| unsafe { port_clips(k, to, a.as_mut_ptr(), 256, n.as_mut_ptr(), 1) };
        let times = best(1_000_000, [&mut ours, &mut theirs]);
        show(&format!("{what} ({count})"), times, 1);
    }
    let (mut number, time) = ([0], black_box(2e9));
    let mut ours = |k| unsafe { port_first(k, time, number.as_mut_ptr(), 1) };
    ours(1);
    let times = best(
        1_000_000,
        [&mut ours, &mut |k| {
            timed(k, || {
                black_box(rust_first(black_box(&lists[0]), time));
            })
        }],
    );
    assert_eq!(number[0], rust_first(&lists[0], time), "the first differs");
    show("the first of 128 that wait", times, 1);
}
