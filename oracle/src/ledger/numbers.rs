//! Document 01, Floats and Curves: sample index with Paper 12's word, totalOrder, the two curves.

use crate::call::Curve;
use std::cmp::Ordering;

/// Document 02, Paper 12: what the index step says beside the index.
#[derive(Clone, Copy, PartialEq, Eq, Debug)]
pub enum Word {
    /// "rounded freely"
    Free,
    /// "raised to 0 (a NaN, or a nearest whole number below 0)"
    Raised,
    /// "cut at the top (a nearest whole number above the largest index)"
    Cut,
}

/// Nearest whole number, halves away from zero; NaN and negatives give 0, large values 2^64 - 1.
pub fn index(x: f64) -> (u64, Word) {
    if x.is_nan() {
        return (0, Word::Raised);
    }
    let magnitude = x.abs();
    let below = magnitude.floor();
    let up = magnitude - below >= 0.5;
    let nearest = if up { below + 1.0 } else { below };
    if nearest == 0.0 {
        (0, Word::Free)
    } else if x < 0.0 {
        (0, Word::Raised)
    } else if nearest >= 18_446_744_073_709_551_616.0 {
        (u64::MAX, Word::Cut)
    } else {
        (nearest as u64, Word::Free)
    }
}

/// IEEE 754 totalOrder: the bits with a negative's magnitude turned round.
pub fn total_order(a: f64, b: f64) -> Ordering {
    let key = |x: f64| {
        let bits = x.to_bits();
        if x.is_sign_negative() {
            !bits
        } else {
            bits | 1 << 63
        }
    };
    key(a).cmp(&key(b))
}

pub fn narrow(x: f64) -> f32 {
    x as f32
}

pub fn curve(curve: Curve, x: f32) -> f32 {
    match curve {
        Curve::Smooth => ((x * 6.0 - 15.0) * x + 10.0) * x * x * x,
        Curve::Power => {
            let pi = f32::from_bits(0x4049_0FDB);
            let half_pi = f32::from_bits(0x3FC9_0FDB);
            let five_pi_pi = narrow(5.0 * std::f64::consts::PI * std::f64::consts::PI);
            let y = x * half_pi;
            16.0 * y * (pi - y) / (five_pi_pi - 4.0 * y * (pi - y))
        }
    }
}

#[cfg(test)]
mod tests {
    use super::*;
    use crate::generate::random::Random;

    /// rustc's `round`, its saturating cast, and wider integers for what lies beyond.
    fn by_rustc(x: f64) -> (u64, Word) {
        let nearest = x.round();
        let word = if nearest.is_nan() || (nearest as i128) < 0 {
            Word::Raised
        } else if nearest as u128 > u128::from(u64::MAX) {
            Word::Cut
        } else {
            Word::Free
        };
        (nearest as u64, word)
    }

    #[test]
    fn index_is_rustcs() {
        let mut random = Random::new(3);
        for _ in 0..1_000_000 {
            let bits = random.next();
            let near_whole = (bits >> 40) as i64 as f64 / 4.0 - 1e6;
            let exponent = 1023 + random.below(70);
            let in_range = (bits & !(0x7FF << 52)) | exponent << 52;
            for x in [f64::from_bits(bits), near_whole, f64::from_bits(in_range)] {
                for x in [x, x.next_up(), x.next_down()] {
                    assert_eq!(index(x), by_rustc(x), "{x:?}");
                }
            }
        }
    }
}
