//! Random pools for a tape's clips.

use super::random::Random;
use crate::call::{Call, Source};
use crate::player::Pool;
use crate::tape::{self, Format};

/// No pool is longer, whatever a clip wants.
const LONGEST: u64 = 16_384;

/// What the samples of a pool are.
#[derive(Clone, Copy, Debug)]
enum Kind {
    Negative,
    Subnormal,
    /// One in 50 is a NaN of either sign and any payload.
    WithNans,
    /// One in 50 is an infinity.
    WithInfinities,
    AnyBits,
}

const KINDS: &[Kind] = &[
    Kind::Negative,
    Kind::Subnormal,
    Kind::WithNans,
    Kind::WithInfinities,
    Kind::AnyBits,
];

/// The pool of a tape and a seed, always the same, with a few words on it.
pub fn pool_for(tape: &[u8], seed: u64) -> (Pool, String) {
    let mut random = Random::new(seed.wrapping_mul(0x0000_0100_0000_01B3) ^ 0x706F_6F6C);
    let kind = random.pick(KINDS);
    let length = length(tape, &mut random);
    let pool = (0..length).map(|_| sample(kind, &mut random)).collect();
    (pool, format!("{kind:?}, {length} samples"))
}

/// None, one, document 01's, any, or a length about the place where a clip of the tape begins, is played, or ends.
fn length(tape: &[u8], random: &mut Random) -> u64 {
    let (calls, _) = tape::records(Format::Tape, tape);
    let mut edges = Vec::new();
    for call in &calls {
        if let Call::Push(_, push, _) = call
            && let Source::Clip { offset, length } = push.source
        {
            let (begin, length) = (u64::from(offset), u64::from(length));
            edges.extend([begin, begin + random.below(length.min(LONGEST) + 1)]);
            edges.extend([begin + length; 2]);
        }
    }
    edges.retain(|edge| *edge < LONGEST);
    match random.below(8) {
        0 => 0,
        1 => random.pick(&[1, 4096]),
        2 => random.below(LONGEST),
        _ if edges.is_empty() => random.below(4096),
        _ => (random.pick(&edges) + random.below(3)).saturating_sub(1),
    }
}

fn sample(kind: Kind, random: &mut Random) -> f32 {
    let sign = (random.below(2) as u32) << 31;
    // From 0.5 to 2, all digits in use.
    let plain = f32::from_bits(0x3F00_0000 + random.below(1 << 24) as u32);
    let fraction = random.below(1 << 23) as u32;
    let rare = random.below(50) == 0;
    match kind {
        Kind::Negative => -plain,
        Kind::Subnormal => f32::from_bits(sign | fraction),
        Kind::WithNans if rare => f32::from_bits(sign | 0x7F80_0000 | fraction.max(1)),
        Kind::WithInfinities if rare => f32::from_bits(sign | 0x7F80_0000),
        Kind::WithNans | Kind::WithInfinities => f32::from_bits(sign | plain.to_bits()),
        Kind::AnyBits => f32::from_bits(random.next() as u32),
    }
}
