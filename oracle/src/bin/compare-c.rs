//! Compares the port's C entries, linked from their static library, with the oracle's bytes: the original's where all gains of a
//! tape are 1.0, else the second ledger's. `render_with_pool` has a random pool for each tape.

use oracle::compare::{Compared, Options, compare};
use oracle::generate::pools::pool_for;
use oracle::render::{render as expected_render, render_ends};
use oracle::session::{TRAIL_POOL, pool};
use oracle::tape::Format;
use std::process::ExitCode;

unsafe extern "C" {
    /// Renders a lent tape into a lent byte slice; the count of bytes written.
    fn render(tape: *const u8, tape_length: usize, out: *mut u8, out_length: usize) -> usize;

    /// The same with a lent pool.
    fn render_with_pool(
        tape: *const u8,
        tape_length: usize,
        pool: *const f32,
        pool_length: usize,
        out: *mut u8,
        out_length: usize,
    ) -> usize;
}

/// How many ticks and blocks of a tape have their ends tried as the length lent, and up to which length of the tape.
const ENDS: usize = 24;
const SHORT: usize = 2_048;

/// The stack, in bytes, that docs/HANDBOOK.md states for the C entry.
const STACK: usize = 512 << 10;

/// What the lent bytes hold before a call, so that those left alone show.
const MARK: u8 = 0xA5;

fn main() -> ExitCode {
    let arguments: Vec<String> = std::env::args().skip(1).collect();
    match run(&arguments) {
        Ok(compared) => compared.conclude("compare-c"),
        Err(usage) => {
            eprintln!("{usage}");
            ExitCode::from(2)
        }
    }
}

fn run(arguments: &[String]) -> Result<Compared, String> {
    let usable = |profile: &oracle::generate::Profile| profile.format == Format::Tape;
    let (options, rest) = Options::read(arguments, usable)?;
    if !rest.is_empty() {
        return Err("usage: compare-c [--tapes N] [--seed S] [--profile P]..".into());
    }
    let pool = pool(TRAIL_POOL);
    // Room for the longest tape's samples: 64 of 8 channels for each record.
    let mut room = Vec::new();
    Ok(compare(&options, |tape, seed| {
        room.resize(4 * 64 * 8 * tape.len(), MARK);
        let ends = render_ends(tape, &mut room, &pool);
        room.clear();
        let whole = ends.last().copied().unwrap_or(0);
        let mut lengths = vec![whole + 5, whole, whole.saturating_sub(1), whole / 2, 0];
        let tried = if tape.len() <= SHORT { ENDS } else { 0 };
        for end in ends.into_iter().take(tried) {
            lengths.extend([end.saturating_sub(1), end, end + 1]);
        }
        lengths.sort_unstable();
        lengths.dedup();
        let with_lengths = lengths.into_iter().find_map(|length| {
            let mut expected = vec![MARK; length];
            let mut got = expected.clone();
            let expected_count = expected_render(tape, &mut expected, &pool);
            let count = with_stated_stack(|| {
                // Safety: both slices are lent for the call, with their lengths.
                unsafe { render(tape.as_ptr(), tape.len(), got.as_mut_ptr(), got.len()) }
            });
            difference(length, (expected_count, &expected), (count, &got))
        });
        with_lengths.or_else(|| with_pool(tape, seed, whole + 5))
    }))
}

/// `render_with_pool` with the pool of a tape and a seed, and so many bytes lent.
fn with_pool(tape: &[u8], seed: u64, length: usize) -> Option<String> {
    let (pool, words) = pool_for(tape, seed);
    let mut expected = vec![MARK; length];
    let mut got = expected.clone();
    let expected_count = expected_render(tape, &mut expected, &pool);
    let samples = &pool[..];
    let count = with_stated_stack(|| {
        let (tape_at, pool_at, out_at) = (tape.as_ptr(), samples.as_ptr(), got.as_mut_ptr());
        // Safety: the three slices are lent for the call, with their lengths.
        unsafe { render_with_pool(tape_at, tape.len(), pool_at, samples.len(), out_at, length) }
    });
    let what = difference(length, (expected_count, &expected), (count, &got))?;
    Some(format!("with a pool ({words}): {what}"))
}

/// What a call gives on a thread with the stack that the handbook states.
fn with_stated_stack<T: Send>(call: impl FnOnce() -> T + Send) -> T {
    std::thread::scope(|scope| {
        let thread = std::thread::Builder::new().stack_size(STACK);
        let spawned = thread.spawn_scoped(scope, call).expect("a thread");
        spawned.join().expect("it ends")
    })
}

fn difference(length: usize, expected: (usize, &[u8]), got: (usize, &[u8])) -> Option<String> {
    if expected == got {
        return None;
    }
    let place = expected.1.iter().zip(got.1).position(|(a, b)| a != b);
    Some(format!(
        "{length} bytes lent: expected count {}, got {}; first different byte: {place:?}",
        expected.0, got.0
    ))
}
