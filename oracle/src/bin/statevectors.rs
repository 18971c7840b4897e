//! The files crates/state_trail/stdin and crates/state_trail/stdout: a tape of the beginnings of random ones, of every valid
//! profile whose gains are all 1.0, and the oracle's states behind each of its records. To make them, in the repository's root, once the oracle is
//! built:
//!     oracle/target/release/statevectors stdin > crates/state_trail/stdin
//!     oracle/target/release/statevectors stdout > crates/state_trail/stdout
//! `statevectors stdout --places` has the counts of a block's places too (document 02, Paper 12).

use oracle::generate::{Gains, PROFILES, Profile, generate};
use oracle::judge;
use oracle::listing::Detail;
use oracle::session::{TRAIL_POOL, pool};
use oracle::tape::{Format, bytes, records};
use oracle::text::from_text;
use std::io::{self, Write};

/// Records of each profile.
const EACH: usize = 40;

fn main() -> io::Result<()> {
    let tape = tape();
    let mut out = io::stdout().lock();
    match std::env::args().nth(1).as_deref() {
        Some("stdin") => out.write_all(&tape),
        Some("stdout") => {
            let places = std::env::args().nth(2).as_deref() == Some("--places");
            let detail = if places {
                Detail::Places
            } else {
                Detail::Digest
            };
            judge::play(Format::Tape, detail, &tape, &pool(TRAIL_POOL), &mut out)
        }
        _ => panic!("usage: statevectors stdin | statevectors stdout [--places]"),
    }
}

fn tape() -> Vec<u8> {
    let mut tape = from_text("create 2 all 1\n").expect("a record");
    let valid = |profile: &&Profile| {
        let of_the_original = matches!(profile.gains, Gains::None | Gains::One);
        profile.format == Format::Tape && !profile.damaged && of_the_original
    };
    for profile in PROFILES.iter().filter(valid) {
        let random = generate(profile, 1);
        let (calls, _) = records(Format::Tape, &random);
        let some: Vec<_> = calls.into_iter().skip(1).take(EACH).collect();
        tape.extend(bytes(&some));
    }
    tape
}
