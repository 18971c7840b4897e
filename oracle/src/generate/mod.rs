//! Random tapes and scripts, by profile and seed.

mod composer;
mod damage;
pub mod pools;
mod profile;
pub mod random;
mod wild;

pub use profile::{Gains, PROFILES, Profile, named};

use crate::tape;
use random::Random;

/// The tape of a profile and a seed, always the same.
pub fn generate(profile: &Profile, seed: u64) -> Vec<u8> {
    let mixed = profile.name.bytes().fold(seed, |mixed, byte| {
        mixed.wrapping_mul(0x0000_0100_0000_01B3) ^ u64::from(byte)
    });
    let mut random = Random::new(mixed);
    let mut bytes = tape::bytes(&composer::compose(profile, &mut random));
    if profile.damaged {
        damage::damage(&mut bytes, &mut random);
    }
    bytes
}
