//! FunDSP is an audio processing and synthesis library.
// The needed parts of src/lib.rs. `oracle/diff` lists the lines that the source does not have.
#![allow(dead_code)] // stand-in: the oracle uses a part of what is taken
#![allow(
    clippy::needless_range_loop,
    clippy::too_many_arguments,
)]

use core::cmp::PartialEq;
use core::marker::{Send, Sync};
use core::ops::{Add, AddAssign, Div, DivAssign, Mul, MulAssign, Neg, Sub, SubAssign};
use core::ops::BitXor; // stand-in: of a longer list

use wide::f32x8; // stand-in: of a longer list

/// Default sample rate is 44.1 kHz.
pub const DEFAULT_SR: f64 = 44_100.0;

/// Binary logarithm of maximum buffer size.
pub const MAX_BUFFER_LOG: usize = 6;

/// Maximum buffer size for block processing is 64 samples.
pub const MAX_BUFFER_SIZE: usize = 1 << MAX_BUFFER_LOG;

/// Blocks are explicitly SIMD accelerated. This is the type of a SIMD element
/// containing successive `f32` samples.
pub type F32x = f32x8;

/// Right shift for converting from samples to SIMD elements.
pub const SIMD_S: usize = 3;

/// Blocks are explicitly SIMD accelerated. This is the length of a SIMD element in `f32` samples.
pub const SIMD_N: usize = 1 << SIMD_S;

/// "SIMD mask", `SIMD_N` minus one.
pub const SIMD_M: usize = SIMD_N - 1;

/// Left shift for converting from channel number to SIMD index.
pub const SIMD_C: usize = MAX_BUFFER_LOG - SIMD_S;

/// The length of a buffer in SIMD elements.
pub const SIMD_LEN: usize = MAX_BUFFER_SIZE / SIMD_N;

/// Convert amount from samples to (full or partial) SIMD elements.
#[inline(always)]
pub fn simd_items(samples: usize) -> usize {
    (samples + SIMD_M) >> SIMD_S
}

/// Number abstraction that is also defined for SIMD items.
pub trait Num:
    Copy
    + Default
    + Send
    + Sync
    + core::fmt::Display
    + Add<Output = Self>
    + Sub<Output = Self>
    + Mul<Output = Self>
    + Div<Output = Self>
    + AddAssign
    + MulAssign
    + SubAssign
    + DivAssign
    + PartialEq
{
    fn zero() -> Self;
    fn one() -> Self;
    fn new(x: i64) -> Self;
    fn from_f64(x: f64) -> Self;
    fn from_f32(x: f32) -> Self;
    fn round(self) -> Self;
}

impl Num for f32 {
    #[inline(always)]
    fn zero() -> Self {
        0.0
    }
    #[inline(always)]
    fn one() -> Self {
        1.0
    }
    #[inline(always)]
    fn new(x: i64) -> Self {
        x as Self
    }
    #[inline(always)]
    fn from_f64(x: f64) -> Self {
        x as Self
    }
    #[inline(always)]
    fn from_f32(x: f32) -> Self {
        x as Self
    }
    #[inline(always)]
    fn round(self) -> Self {
        libm::roundf(self)
    }
}

impl Num for f64 {
    #[inline(always)]
    fn zero() -> Self {
        0.0
    }
    #[inline(always)]
    fn one() -> Self {
        1.0
    }
    #[inline(always)]
    fn new(x: i64) -> Self {
        x as Self
    }
    #[inline(always)]
    fn from_f64(x: f64) -> Self {
        x as Self
    }
    #[inline(always)]
    fn from_f32(x: f32) -> Self {
        x as Self
    }
    #[inline(always)]
    fn round(self) -> Self {
        libm::round(self)
    }
}

/// Float abstraction that also applies to SIMD items.
pub trait Float: Num + Neg<Output = Self> {
    const PI: Self;
}

impl Float for f32 {
    const PI: Self = core::f32::consts::PI;
}

impl Float for f64 {
    const PI: Self = core::f64::consts::PI;
}

pub mod audiounit;
pub mod buffer;
pub mod math;
pub mod realseq;
pub mod sequencer;

// stand-in: the crates and modules that the source uses and docs/src does not have
mod dyn_clone;
mod hashbrown;
mod libm;
pub(crate) mod shared;
pub(crate) mod signal;
pub(crate) mod thingbuf;
mod wide;
