//! The C entries of include/chakaqel.h as safe functions, in numbers: one for each, on an engine's arrays.
//!
//! [`Sequencer`] says the same with types of its own. This module is for callers who have numbers: tests, and
//! layers for other languages. An answer is 0 or a refusal's number ([`Refusal`](crate::Refusal)); of an edit also [`PAST`] and
//! [`STORED`]. A number for a mode, curve, source or mark that names none is refused with 14.
//!
//! All of this crate's `unsafe` is here. The header asks of a caller, and this is why each call is sound:
//!
//! - "A pointer must be valid, aligned as its type is, and not null even where its length is 0." Each is made from a reference to
//!   an array or slice, for the time of the call. A slice's pointer is aligned and not null, also where it is empty.
//! - "What is written must not overlap anything else that is lent." It is lent by `&mut`, and the four arrays are fields of one
//!   struct.
//! - "No length is above PTRDIFF_MAX bytes." No slice is longer than `isize::MAX` bytes.
//! - "One thread at a time may call with one engine." A call that writes has the engine by `&mut`. The readers take it as
//!   `const` and write nothing to it, so that several threads may read by `&`.
//! - "Every bit pattern is an engine." So nothing is asked of what the arrays hold.
//!
//! An array that a call takes has the places that the header asks for: its length is in its type.

#![allow(unsafe_code)]

use crate::Sequencer;
use crate::arrays::Arrays;

/// What an edit answers where its end is past.
pub const PAST: u64 = 256;
/// What an edit answers where it is stored.
pub const STORED: u64 = 257;
/// What [`place`] answers of an event that does not sound.
pub const NO_PLACE: u64 = 256;

/// The arguments of a push as numbers.
#[derive(Clone, Copy, Debug)]
pub struct Push {
    /// The start, in seconds.
    pub start: f64,
    /// The end, or the duration in a push by duration.
    pub end: f64,
    /// 0 power, 1 smooth.
    pub curve: u32,
    /// The fade-in, in seconds.
    pub fade_in: f64,
    /// The fade-out, in seconds.
    pub fade_out: f64,
    /// 0 held, 1 ramp, 2 clip. What a source does not use is not looked at.
    pub source: u32,
    /// A held level, or a ramp's first value.
    pub a: f32,
    /// A ramp's step.
    pub b: f32,
    /// A clip's offset.
    pub offset: u32,
    /// A clip's length.
    pub length: u32,
    /// What multiplies the source's samples.
    pub gain: f32,
}

/// The entries as the header declares them.
#[rustfmt::skip]
mod c {
    pub type Push = unsafe extern "C" fn(times: *mut f64, levels: *mut f32, marks: *mut u32, numbers: *mut u64, told: *mut u64,
        start: f64, end: f64, curve: u32, fade_in: f64, fade_out: f64, source: u32, a: f32, b: f32, offset: u32, length: u32,
        gain: f32) -> u64;
    pub type Edit = unsafe extern "C" fn(times: *mut f64, levels: *const f32, marks: *const u32, numbers: *mut u64, number: u64,
        end: f64, fade_out: f64) -> u64;

    unsafe extern "C" {
        pub fn chakaqel_create(times: *mut f64, levels: *mut f32, marks: *mut u32, numbers: *mut u64, channels: usize, mode: u32,
            first: u64) -> u64;
        pub fn chakaqel_push(times: *mut f64, levels: *mut f32, marks: *mut u32, numbers: *mut u64, told: *mut u64, start: f64,
            end: f64, curve: u32, fade_in: f64, fade_out: f64, source: u32, a: f32, b: f32, offset: u32, length: u32,
            gain: f32) -> u64;
        pub fn chakaqel_push_relative(times: *mut f64, levels: *mut f32, marks: *mut u32, numbers: *mut u64, told: *mut u64,
            start: f64, end: f64, curve: u32, fade_in: f64, fade_out: f64, source: u32, a: f32, b: f32, offset: u32, length: u32,
            gain: f32) -> u64;
        pub fn chakaqel_push_duration(times: *mut f64, levels: *mut f32, marks: *mut u32, numbers: *mut u64, told: *mut u64,
            start: f64, duration: f64, curve: u32, fade_in: f64, fade_out: f64, source: u32, a: f32, b: f32, offset: u32,
            length: u32, gain: f32) -> u64;
        pub fn chakaqel_edit(times: *mut f64, levels: *const f32, marks: *const u32, numbers: *mut u64, number: u64, end: f64,
            fade_out: f64) -> u64;
        pub fn chakaqel_edit_relative(times: *mut f64, levels: *const f32, marks: *const u32, numbers: *mut u64, number: u64,
            end: f64, fade_out: f64) -> u64;
        pub fn chakaqel_tick(times: *mut f64, levels: *mut f32, marks: *mut u32, numbers: *mut u64, mark: u32, pool: *const f32,
            pool_length: usize, out: *mut f32, out_length: usize) -> u64;
        pub fn chakaqel_process(times: *mut f64, levels: *mut f32, marks: *mut u32, numbers: *mut u64, places: *mut u64,
            mark: u32, size: usize, pool: *const f32, pool_length: usize, out: *mut f32, out_length: usize) -> u64;
        pub fn chakaqel_reset(times: *mut f64, levels: *mut f32, marks: *mut u32, numbers: *mut u64);
        pub fn chakaqel_set_sample_rate(times: *mut f64, levels: *mut f32, marks: *mut u32, numbers: *mut u64, rate: f64) -> u64;
        pub fn chakaqel_time(times: *const f64, levels: *const f32, marks: *const u32, numbers: *const u64) -> f64;
        pub fn chakaqel_counts(times: *const f64, levels: *const f32, marks: *const u32, numbers: *const u64, counts: *mut u64);
        pub fn chakaqel_place(times: *const f64, levels: *const f32, marks: *const u32, numbers: *const u64, number: u64) -> u64;
    }
}

/// The arrays, lent to be changed: CHAKAQEL_LENT of the header.
fn lent(arrays: &mut Arrays) -> (*mut f64, *mut f32, *mut u32, *mut u64) {
    (
        arrays.times.as_mut_ptr(),
        arrays.levels.as_mut_ptr(),
        arrays.marks.as_mut_ptr(),
        arrays.numbers.as_mut_ptr(),
    )
}

/// The arrays, lent to be read.
fn read(arrays: &Arrays) -> (*const f64, *const f32, *const u32, *const u64) {
    (
        arrays.times.as_ptr(),
        arrays.levels.as_ptr(),
        arrays.marks.as_ptr(),
        arrays.numbers.as_ptr(),
    )
}

/// Makes an empty engine of the arrays, whatever they held: 1 to 8 channels, mode 0 All or 1 None, the first event's number.
/// Answers 0, 14, or 1: then they hold an empty engine of one channel, mode All, first number 1.
#[inline]
pub fn create(arrays: &mut Arrays, channels: usize, mode: u32, first: u64) -> u64 {
    let (t, l, m, n) = lent(arrays);
    // SAFETY: "a pointer must be valid, aligned": the four arrays, lent by `&mut`, are four fields and do not overlap.
    unsafe { c::chakaqel_create(t, l, m, n, channels, mode, first) }
}

/// Schedules an event. Answers 0, with its number and its rise in `told`; or 14, 3, 4, 5, 18, 6 or 7.
#[inline]
pub fn push(arrays: &mut Arrays, told: &mut [u64; 2], push: &Push) -> u64 {
    push_by(c::chakaqel_push, arrays, told, push)
}

/// The same; start and end are relative to the clock.
#[inline]
pub fn push_relative(arrays: &mut Arrays, told: &mut [u64; 2], push: &Push) -> u64 {
    push_by(c::chakaqel_push_relative, arrays, told, push)
}

/// The same; the event ends at start + duration.
#[inline]
pub fn push_duration(arrays: &mut Arrays, told: &mut [u64; 2], push: &Push) -> u64 {
    push_by(c::chakaqel_push_duration, arrays, told, push)
}

#[inline]
fn push_by(entry: c::Push, arrays: &mut Arrays, told: &mut [u64; 2], push: &Push) -> u64 {
    let (t, l, m, n) = lent(arrays);
    let told = told.as_mut_ptr();
    let Push {
        start,
        end,
        curve,
        fade_in,
        fade_out,
        source,
        a,
        b,
        offset,
        length,
        gain,
    } = *push;
    // SAFETY: "a pointer must be valid, aligned": the arrays are lent by `&mut`, and `told`, with its two places, by another: "what
    // is written must not overlap". `entry` is one of the three pushes, which have these arguments.
    unsafe {
        entry(
            t, l, m, n, told, start, end, curve, fade_in, fade_out, source, a, b, offset, length,
            gain,
        )
    }
}

/// Gives an event another end and fade-out. Answers 0 (applied), [`PAST`] or [`STORED`]; or 8 or 9.
#[inline]
pub fn edit(arrays: &mut Arrays, number: u64, end: f64, fade_out: f64) -> u64 {
    edit_by(c::chakaqel_edit, arrays, number, end, fade_out)
}

/// The same; the end is relative to the clock.
#[inline]
pub fn edit_relative(arrays: &mut Arrays, number: u64, end: f64, fade_out: f64) -> u64 {
    edit_by(c::chakaqel_edit_relative, arrays, number, end, fade_out)
}

#[inline]
fn edit_by(entry: c::Edit, arrays: &mut Arrays, number: u64, end: f64, fade_out: f64) -> u64 {
    let (t, l, m, n) = lent(arrays);
    // SAFETY: "a pointer must be valid, aligned": the arrays, lent by `&mut`. `entry` is one of the two edits.
    unsafe { entry(t, l, m, n, number, end, fade_out) }
}

/// Moves the clock by one sample: `out` has a place for each channel, clips read from `pool`. `mark` is 0, or 1 to add the events
/// from the list's end. Answers 0, or 14, 10 or 12.
#[inline]
pub fn tick(arrays: &mut Arrays, mark: u32, pool: &[f32], out: &mut [f32]) -> u64 {
    let (t, l, m, n) = lent(arrays);
    let (pool, pool_length) = (pool.as_ptr(), pool.len());
    let (out, out_length) = (out.as_mut_ptr(), out.len());
    // SAFETY: "not null even where its length is 0": no slice's pointer is. "What is written must not overlap": arrays and output
    // are lent by `&mut`. The lengths are the slices' own.
    unsafe { c::chakaqel_tick(t, l, m, n, mark, pool, pool_length, out, out_length) }
}

/// Moves the clock by a block of 0 to 64 samples: `out` has 64 places a channel, channel after channel. Answers 0, with the counts of
/// places kept, forced and at an edge in `places`; or 14, 10, 11 or 12.
#[inline]
pub fn process(
    arrays: &mut Arrays,
    places: &mut [u64; 3],
    mark: u32,
    size: usize,
    pool: &[f32],
    out: &mut [f32],
) -> u64 {
    let (t, l, m, n) = lent(arrays);
    let places = places.as_mut_ptr();
    let (pool, pool_length) = (pool.as_ptr(), pool.len());
    let (out, out_length) = (out.as_mut_ptr(), out.len());
    // SAFETY: as of a tick; `places` has its three places and is lent by `&mut` as well.
    unsafe {
        c::chakaqel_process(
            t,
            l,
            m,
            n,
            places,
            mark,
            size,
            pool,
            pool_length,
            out,
            out_length,
        )
    }
}

/// Sets the clock to 0. Mode All: every event waits again. Mode None: every event is let go.
#[inline]
pub fn reset(arrays: &mut Arrays) {
    let (t, l, m, n) = lent(arrays);
    // SAFETY: "a pointer must be valid, aligned": the four arrays, lent by `&mut`.
    unsafe { c::chakaqel_reset(t, l, m, n) }
}

/// Sets the rate, in samples a second. Answers 0, or 2.
#[inline]
pub fn set_sample_rate(arrays: &mut Arrays, rate: f64) -> u64 {
    let (t, l, m, n) = lent(arrays);
    // SAFETY: "a pointer must be valid, aligned": the four arrays, lent by `&mut`.
    unsafe { c::chakaqel_set_sample_rate(t, l, m, n, rate) }
}

/// The clock, in seconds.
#[inline]
pub fn time(arrays: &Arrays) -> f64 {
    let (t, l, m, n) = read(arrays);
    // SAFETY: "a pointer must be valid, aligned": the four arrays, which the entry takes as `const`.
    unsafe { c::chakaqel_time(t, l, m, n) }
}

/// How many events wait, sound, are finished, and were let go.
#[inline]
pub fn counts(arrays: &Arrays) -> [u64; 4] {
    let (t, l, m, n) = read(arrays);
    let mut counts = [0; 4];
    // SAFETY: the arrays are taken as `const`; "the four places of `counts`" are this function's own.
    unsafe { c::chakaqel_counts(t, l, m, n, counts.as_mut_ptr()) }
    counts
}

/// The place in the sounding list of the event with that number, or [`NO_PLACE`].
#[inline]
pub fn place(arrays: &Arrays, number: u64) -> u64 {
    let (t, l, m, n) = read(arrays);
    // SAFETY: "a pointer must be valid, aligned": the four arrays, which the entry takes as `const`.
    unsafe { c::chakaqel_place(t, l, m, n, number) }
}

/// The sequencer whose memory the arrays are.
#[inline]
pub(crate) fn sequencer(arrays: &mut Arrays) -> &mut Sequencer {
    // SAFETY: `Sequencer` is `repr(transparent)` over `Arrays`, and "every bit pattern is an engine".
    unsafe { &mut *core::ptr::from_mut(arrays).cast() }
}
