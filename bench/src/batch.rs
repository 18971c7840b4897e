//! Paper 1: 32 push records in one call, against the same 32 read and pushed one after another, ours and Rust's.

use crate::{best, head, render, rust, show};

unsafe extern "C" {
    fn port_batch(
        rounds: u64,
        records: *const u8,
        length: usize,
        numbers: *mut u64,
        places: usize,
    ) -> u64;
    fn port_pushes(
        rounds: u64,
        records: *const u8,
        length: usize,
        numbers: *mut u64,
        places: usize,
    ) -> u64;
}

/// 32 pushes of kind 01 with random starts, held, without fades.
fn records() -> Vec<u8> {
    let mut seed = 2463534242;
    let mut bytes = Vec::new();
    for _ in 0..32 {
        seed = rust::random(seed);
        let start = f64::from(seed) / 8.0;
        bytes.push(1);
        for time in [start, start + 1.0, 0.0, 0.0] {
            bytes.extend(time.to_le_bytes());
        }
        bytes.extend([1, 0]);
        bytes.extend(0.25f32.to_le_bytes());
        bytes.extend([0; 4]);
    }
    bytes
}

pub fn table() {
    let records = records();
    let (bytes, length) = (records.as_ptr(), records.len());
    let (mut a, mut b, mut c) = ([0; 32], [0; 32], [0; 32]);
    let mut one = |k| unsafe { port_batch(k, bytes, length, a.as_mut_ptr(), 32) };
    let mut each = |k| unsafe { port_pushes(k, bytes, length, b.as_mut_ptr(), 32) };
    let mut theirs = |k| render::push_run(k, &records, &mut c);
    let [one, each, theirs] = best(100_000, [&mut one, &mut each, &mut theirs]);
    assert_eq!((a, b), (c, c), "the numbers differ");
    head("32 push records, ns a record");
    show("one call", [one, theirs], 32);
    show("one after another", [each, theirs], 32);
}
