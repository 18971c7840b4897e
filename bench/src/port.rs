//! The functions of entry.rt.txt. A slice crosses as a pointer and a length.

mod raw {
    unsafe extern "C" {
        pub fn port_render(tape: *const u8, n: usize, out: *mut u8, m: usize) -> usize;
        pub fn port_fill(row: *mut f32, n: usize, pool: *const f32, k: usize, kind: u64);
        pub fn port_fade(
            row: *mut f32,
            n: usize,
            smooth: bool,
            rising: bool,
            phase: f32,
            step: f32,
        );
        pub fn port_add(mix: *mut f32, n: usize, row: *const f32, k: usize);
        pub fn port_overlay(out: *mut f32, n: usize, mix: *const f32, k: usize);
        pub fn port_preview(
            row: *mut f32,
            n: usize,
            first: usize,
            rising: bool,
            rounds: u64,
        ) -> u64;
        pub fn port_heap(
            rounds: u64,
            n: u64,
            equal: bool,
            pops: bool,
            digest: *mut u64,
            one: usize,
        ) -> u64;
        pub fn port_compare(rounds: u64, equal: bool, digest: *mut u64, one: usize) -> u64;
        pub fn port_peak(
            rounds: u64,
            window: usize,
            runs: bool,
            samples: *const f32,
            n: usize,
            row: *mut u32,
            m: usize,
            digest: *mut u64,
            one: usize,
        ) -> u64;
        pub fn port_starts(
            n: u64,
            rounds: u64,
            pool: *const f32,
            k: usize,
            out: *mut f32,
            m: usize,
            times: *mut u64,
            two: usize,
        );
        pub fn port_starts_together(
            n: u64,
            rounds: u64,
            pool: *const f32,
            k: usize,
            out: *mut f32,
            m: usize,
            times: *mut u64,
            two: usize,
        );
        pub fn port_blocks(
            channels: usize,
            n: u64,
            fade: f64,
            rounds: u64,
            pool: *const f32,
            k: usize,
            out: *mut f32,
            m: usize,
        ) -> u64;
        pub fn port_ticks(
            channels: usize,
            n: u64,
            fade: f64,
            rounds: u64,
            pool: *const f32,
            k: usize,
            out: *mut f32,
            m: usize,
        ) -> u64;
    }
}

/// A tape through the C entry; the count of bytes written.
pub fn render(tape: &[u8], out: &mut [u8]) -> usize {
    unsafe { raw::port_render(tape.as_ptr(), tape.len(), out.as_mut_ptr(), out.len()) }
}

pub fn fill(row: &mut [f32], pool: &[f32], kind: u64) {
    unsafe { raw::port_fill(row.as_mut_ptr(), row.len(), pool.as_ptr(), pool.len(), kind) }
}

pub fn fade(row: &mut [f32], smooth: bool, rising: bool, phase: f32, step: f32) {
    unsafe { raw::port_fade(row.as_mut_ptr(), row.len(), smooth, rising, phase, step) }
}

pub fn add(mix: &mut [f32], row: &[f32]) {
    unsafe { raw::port_add(mix.as_mut_ptr(), mix.len(), row.as_ptr(), row.len()) }
}

pub fn overlay(out: &mut [f32], mix: &[f32]) {
    unsafe { raw::port_overlay(out.as_mut_ptr(), out.len(), mix.as_ptr(), mix.len()) }
}

/// The time.
pub fn preview(row: &mut [f32], first: usize, rising: bool, rounds: u64) -> u64 {
    unsafe { raw::port_preview(row.as_mut_ptr(), row.len(), first, rising, rounds) }
}

/// The time, and a digest of the order.
pub fn heap(rounds: u64, n: u64, equal: bool, pops: bool) -> (u64, u64) {
    let mut digest = 0;
    let spent = unsafe { raw::port_heap(rounds, n, equal, pops, &mut digest, 1) };
    (spent, digest)
}

/// The time, and how many leave first.
pub fn compare(rounds: u64, equal: bool) -> (u64, u64) {
    let mut digest = 0;
    let spent = unsafe { raw::port_compare(rounds, equal, &mut digest, 1) };
    (spent, digest)
}

/// The time, and a digest of the answers.
pub fn peak(rounds: u64, window: usize, runs: bool, samples: &[f32]) -> (u64, u64) {
    let mut row = [7; 4096];
    let mut digest = 0;
    let (s, r) = (samples.as_ptr(), row.as_mut_ptr());
    let spent = unsafe {
        raw::port_peak(
            rounds,
            window,
            runs,
            s,
            samples.len(),
            r,
            row.len(),
            &mut digest,
            1,
        )
    };
    (spent, digest)
}

/// The times of the pushes and of the blocks in which they start. The block has a function of its own, or stands together with the pushes and the reset.
pub fn starts(together: bool, n: u64, rounds: u64, pool: &[f32], out: &mut [f32]) -> [u64; 2] {
    let mut times = [0; 2];
    let (p, o, t) = (pool.as_ptr(), out.as_mut_ptr(), times.as_mut_ptr());
    let call = match together {
        true => raw::port_starts_together,
        false => raw::port_starts,
    };
    unsafe { call(n, rounds, p, pool.len(), o, out.len(), t, 2) }
    times
}

pub fn blocks(
    channels: usize,
    n: u64,
    fade: f64,
    rounds: u64,
    pool: &[f32],
    out: &mut [f32],
) -> u64 {
    assert_eq!(out.len(), 64 * channels);
    let (p, o) = (pool.as_ptr(), out.as_mut_ptr());
    unsafe { raw::port_blocks(channels, n, fade, rounds, p, pool.len(), o, out.len()) }
}

pub fn ticks(
    channels: usize,
    n: u64,
    fade: f64,
    rounds: u64,
    pool: &[f32],
    out: &mut [f32],
) -> u64 {
    assert_eq!(out.len(), channels);
    let (p, o) = (pool.as_ptr(), out.as_mut_ptr());
    unsafe { raw::port_ticks(channels, n, fade, rounds, p, pool.len(), o, out.len()) }
}
