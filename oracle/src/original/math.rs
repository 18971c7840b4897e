//! Math functions and utilities and procedural generation tools.

use super::*;

/// Rounds `x`.
#[inline]
pub fn round<T: Num>(x: T) -> T {
    x.round()
}

/// Linear de-interpolation. Recovers `t` from interpolated `x`.
///
/// ### Example
/// ```
/// use fundsp::prelude64::*;
/// assert_eq!(delerp(2.0, 4.0, 2.0), 0.0);
/// assert_eq!(delerp(2.0, 4.0, 3.0), 0.5);
/// assert_eq!(delerp(2.0, 4.0, 4.0), 1.0);
/// ```
#[inline]
pub fn delerp<T: Num>(a: T, b: T, x: T) -> T {
    (x - a) / (b - a)
}

/// Smooth 5th degree easing polynomial.
#[inline]
pub fn smooth5<T: Num>(x: T) -> T {
    ((x * T::new(6) - T::new(15)) * x + T::new(10)) * x * x * x
}

/// 90 degree sine ease.
#[inline]
pub fn sine_ease<T: Num>(x: T) -> T {
    let x = x * T::from_f64(f64::PI * 0.5);
    // Use Bhaskara's sine approximation.
    T::new(16) * x * (T::from_f64(f64::PI) - x)
        / (T::from_f64(5.0 * f64::PI * f64::PI) - T::new(4) * x * (T::from_f64(f64::PI) - x))
}

/// Pico sized hasher.
/// It is used in computing deterministic pseudorandom phase hashes.
#[derive(Default, Clone)]
pub struct AttoHash {
    state: u64,
}

impl AttoHash {
    /// Create new hasher from seed.
    #[inline]
    pub fn new(seed: u64) -> AttoHash {
        AttoHash { state: seed }
    }
    /// Generator state.
    #[inline]
    pub fn state(&self) -> u64 {
        self.state
    }
    /// Hash `data`. Consumes self and returns a new `AttoHash`.
    #[inline]
    pub fn hash(self, data: u64) -> Self {
        // Hash taken from FxHasher.
        AttoHash {
            state: self
                .state
                .rotate_left(5)
                .bitxor(data)
                .wrapping_mul(0x517cc1b727220a95),
        }
    }
}
