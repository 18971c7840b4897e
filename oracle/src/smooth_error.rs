//! Paper 10 by running: how far a curve computed in f32 is from 6x^5 - 15x^4 + 10x^3, in whole
//! numbers. Only the curve itself computes with floats; what is judged are their bits.

/// A whole number of 256 bits, `.0 * 2^128 + .1`.
#[derive(Clone, Copy, Debug, PartialEq, Eq, PartialOrd, Ord)]
pub struct Wide(pub u128, pub u128);

impl Wide {
    pub const ZERO: Wide = Wide(0, 0);
    pub const MAX: Wide = Wide(u128::MAX, u128::MAX);

    /// a * b
    fn product(a: u128, b: u128) -> Wide {
        let halves = |n: u128| (n >> 64, n & u64::MAX as u128);
        let ((a1, a0), (b1, b0)) = (halves(a), halves(b));
        let (middle, carry) = (a1 * b0).overflowing_add(a0 * b1);
        let (low, over) = (a0 * b0).overflowing_add(middle << 64);
        Wide(a1 * b1 + (middle >> 64) + ((carry as u128) << 64) + over as u128, low)
    }

    /// |self - other|
    fn gap(self, other: Wide) -> Wide {
        let (a, b) = if self < other { (other, self) } else { (self, other) };
        let (low, borrow) = a.1.overflowing_sub(b.1);
        Wide(a.0 - b.0 - borrow as u128, low)
    }
}

/// 2^-20, 2^-8 and 1 as f32 bits, and 2^-19 over 2^155.
const SMALL: u32 = 0x3580_0000;
pub const COARSE: u32 = 0x3B80_0000;
pub const ONE: u32 = 0x3F80_0000;
pub const WITHIN: Wide = Wide(1 << (155 - 19 - 128), 0);

/// The error at the phase x, given as bits, over 2^155. Below 2^-8 it is called 0 where the curve's value is from 0 to 2^-20: there
/// 6x^5 - 15x^4 + 10x^3 is at most 10x^3, less than 2^-20 too, so the two are within 2^-20.
pub fn error(curve: impl Fn(f32) -> f32, x: u32) -> Wide {
    let y = curve(f32::from_bits(x)).to_bits();
    if x < COARSE || x == 1 << 31 {
        return if y <= SMALL || y == 1 << 31 { Wide::ZERO } else { Wide::MAX };
    }
    // 2 and more, an infinity, a NaN or a negative
    if y >= 0x4000_0000 {
        return Wide::MAX;
    }
    let digits = |b: u32| ((b & 0x7F_FFFF) | ((b >> 23 != 0) as u32) << 23) as u128;
    let place = |b: u32| (b >> 23).max(1);
    // x = p / 2^31, so the polynomial is p^3 (6p^2 - 15p 2^31 + 10 2^62) / 2^155
    let p = digits(x) << (place(x) - 119);
    let exact = Wide::product(p * p * p, 6 * p * p + (10 << 62) - 15 * (p << 31));
    // y = digits * 2^(place - 150)
    Wide::product(digits(y) << 5, 1 << place(y)).gap(exact)
}

/// The largest error over the phases of these bits, with the first phase that has it.
pub fn worst(curve: impl Fn(f32) -> f32, phases: impl Iterator<Item = u32>) -> (Wide, u32) {
    let mut worst = (Wide::ZERO, 0);
    for x in phases {
        let e = error(&curve, x);
        if e > worst.0 {
            worst = (e, x);
        }
    }
    worst
}
