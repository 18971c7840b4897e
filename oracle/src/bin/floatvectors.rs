//! Float vectors and rustc's own answers to them: `as f32`, `round` with `as u64`, `total_cmp`, and the vendored curves.
//! `floatvectors stdin` prints the vectors, `floatvectors stdout` the answers: the files of crates/float_vectors.
//! The index step has Paper 12's word too: `i` asks for the index, `w` for the word (0 rounded freely, 1 raised, 2 cut).
//! A vector is a letter and three patterns of 16 hexadecimal digits; an answer is a pattern of 16. Any NaN is written as 7FC00000 or 7FF8000000000000.

use oracle::generate::random::Random;
use oracle::original::math::{delerp, sine_ease, smooth5};
use std::cmp::Ordering;
use std::io::Write;

struct Vector {
    kind: char,
    words: [u64; 3],
}

fn single(x: f32) -> u64 {
    u64::from(if x.is_nan() { 0x7FC0_0000 } else { x.to_bits() })
}

fn double(x: f64) -> u64 {
    if x.is_nan() { 0x7FF8_0000_0000_0000 } else { x.to_bits() }
}

/// Any NaN equals any NaN, and comes after everything else.
fn rank(a: f64, b: f64) -> u64 {
    let order = match (a.is_nan(), b.is_nan()) {
        (false, false) => a.total_cmp(&b),
        (first, second) => first.cmp(&second),
    };
    match order {
        Ordering::Less => 0,
        Ordering::Equal => 1,
        Ordering::Greater => 2,
    }
}

/// Of a nearest whole number: 1 if it is a NaN or below 0, 2 if it is above 2^64 - 1, else 0. Both are asked of rustc's wider integers.
fn word(nearest: f64) -> u64 {
    if nearest.is_nan() || (nearest as i128) < 0 {
        1
    } else if nearest as u128 > u128::from(u64::MAX) {
        2
    } else {
        0
    }
}

impl Vector {
    fn answer(&self) -> u64 {
        let [a, b, c] = self.words.map(f64::from_bits);
        let x = f32::from_bits(self.words[0] as u32);
        match self.kind {
            'n' => single(a as f32),
            'i' => a.round() as u64,
            'w' => word(a.round()),
            't' => rank(a, b),
            's' => single(smooth5(x)),
            'p' => single(sine_ease(x)),
            _ => double(delerp(a, b, c)),
        }
    }
}

/// Patterns around which rounding, ordering and overflow turn.
fn edges() -> Vec<u64> {
    let two = |k| 2f64.powi(k);
    let largest = f64::from(f32::MAX);
    #[rustfmt::skip]
    let centres = [
        0.0, 0.5, 1.0, 1.5, 2.5, 0.1, 1e9, f64::MIN_POSITIVE, f64::MAX, f64::INFINITY,
        // half the smallest f32, the smallest, a tie above it, the smallest normal, the largest, the middle to 2^128, and that
        two(-150), two(-149), 1.5 * two(-149), two(-126), largest, largest + two(103), two(128),
        // ties between two f32: the lower even, the upper even, and a subnormal one
        1.0 + two(-24), 1.0 + 3.0 * two(-24), two(-130) * (1.0 + two(-20)),
        // where halves and then odd numbers end, and the largest indices
        two(52) - 0.5, two(52), two(53), two(63), two(64),
    ];
    let mut out = vec![1, 0x7FF0_0000_0000_0001, 0x7FF8_0000_0000_0000, 0xFFF8_0000_0000_0000];
    for x in centres {
        for delta in -2..=2 {
            let bits = x.to_bits().wrapping_add_signed(delta) & !(1 << 63);
            out.push(bits);
            out.push(bits | 1 << 63);
        }
    }
    out
}

/// Any pattern; one near the f32 range; one there that is a tie between two f32; or a multiple of a half.
fn drawn(random: &mut Random) -> u64 {
    let bits = random.next();
    let near = (bits & !(0x7FF << 52)) | ((870 + random.below(290)) << 52);
    match random.below(4) {
        0 => bits,
        1 => near,
        2 => (near & !0x1FFF_FFFF) | 0x1000_0000,
        _ => (random.below(1 << 20) as f64 / 2.0).to_bits(),
    }
}

fn vectors() -> Vec<Vector> {
    let edges = edges();
    let mut random = Random::new(1);
    let mut out = Vec::new();
    let mut add = |kind, words| out.push(Vector { kind, words });
    for a in edges.iter().copied().chain((0..500).map(|_| drawn(&mut random))) {
        add('n', [a, 0, 0]);
        add('i', [a, 0, 0]);
    }
    for _ in 0..1000 {
        let pick = |random: &mut Random| if random.chance(50) { random.pick(&edges) } else { drawn(random) };
        let a = pick(&mut random);
        let b = if random.chance(25) { a ^ random.below(2) << 63 } else { pick(&mut random) };
        add('t', [a, b, 0]);
        add('d', [a, b, pick(&mut random)]);
    }
    let phases = (0..=256).map(|k| k as f32 / 256.0);
    let odd = [-1.0, -0.0, 1.5, 2.0, 3.4e38, f32::INFINITY, f32::NEG_INFINITY, f32::NAN, f32::MIN_POSITIVE, 1e-45];
    for x in phases.chain(odd).chain((0..500).map(|_| f32::from_bits(random.next() as u32))) {
        add('s', [u64::from(x.to_bits()), 0, 0]);
        add('p', [u64::from(x.to_bits()), 0, 0]);
    }
    out
}

/// Where rounding freely, raising and cutting part, and the edges above.
fn index_vectors() -> Vec<Vector> {
    let two_64 = 2f64.powi(64);
    #[rustfmt::skip]
    let centres = [
        0.0, 0.3, 0.5, 1.0, 1.5, 2.5, 63.5, 64.0, 64.5, 1e9, 5e-324, 1e-310, f64::MIN_POSITIVE, 2f64.powi(52) - 0.5, 2f64.powi(53), 2f64.powi(63),
        two_64 - 2048.0, two_64, two_64 + 4096.0, 2f64.powi(65), 2f64.powi(127), 2f64.powi(128), 1e300, f64::MAX, f64::INFINITY,
    ];
    let mut bits = vec![f64::NAN.to_bits(), (-f64::NAN).to_bits(), 0x7FF0_0000_0000_0001, 0xFFFF_FFFF_FFFF_FFFF];
    for x in centres {
        for x in [x, x.next_up(), x.next_down()] {
            bits.extend([x.to_bits(), (-x).to_bits()]);
        }
    }
    bits.extend(edges());
    let mut random = Random::new(12);
    bits.extend((0..300).map(|_| drawn(&mut random) ^ random.below(2) << 63));
    let each = |a| ['i', 'w'].map(|kind| Vector { kind, words: [a, 0, 0] });
    bits.into_iter().flat_map(each).collect()
}

fn main() {
    let arguments: Vec<String> = std::env::args().skip(1).collect();
    let answers = arguments.last().is_some_and(|last| last == "stdout");
    let mut text = String::new();
    for v in vectors().into_iter().chain(index_vectors()) {
        let [a, b, c] = v.words;
        text += &if answers { format!("{:016X}\n", v.answer()) } else { format!("{} {a:016X} {b:016X} {c:016X}\n", v.kind) };
    }
    std::io::stdout().write_all(text.as_bytes()).expect("standard output is open");
}
