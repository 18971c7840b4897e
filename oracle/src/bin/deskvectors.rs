//! The files crates/desk_trail/stdin and crates/desk_trail/stdout: a desk script with 64 queued resets, which nest, a queue
//! full of pushes and resets, and then the random scripts of every valid desk profile; and the oracle's listing of it. To
//! make them, in the repository's root, once the oracle is built:
//!     oracle/target/release/deskvectors stdin > crates/desk_trail/stdin
//!     oracle/target/release/deskvectors stdout > crates/desk_trail/stdout
//! `deskvectors stdout --places` has the counts of a block's places too (document 02, Paper 12).

use oracle::generate::{generate, named};
use oracle::judge;
use oracle::listing::Detail;
use oracle::session::{TRAIL_POOL, pool};
use oracle::tape::{Format, as_the_port_lends};
use oracle::text::from_text;
use std::io::{self, Write};

/// Kind, channels, mode and first number.
const CREATION: usize = 11;

fn main() -> io::Result<()> {
    let script = script();
    let mut out = io::stdout().lock();
    match std::env::args().nth(1).as_deref() {
        Some("stdin") => out.write_all(&script),
        Some("stdout") => {
            let places = std::env::args().nth(2).as_deref() == Some("--places");
            let detail = if places { Detail::Places } else { Detail::Digest };
            judge::play(Format::Desk, detail, &script, &pool(TRAIL_POOL), &mut out)
        }
        _ => panic!("usage: deskvectors stdin | deskvectors stdout [--places]"),
    }
}

fn script() -> Vec<u8> {
    let mut text = String::from("create 2 none 1\nrate 8\n");
    text += &"front-reset\n".repeat(64);
    text += "tick\n";
    for place in 0..32 {
        let start = f64::from(place) / 8.0;
        text += &format!("push {start} {} 0 0 smooth held 1.0\nfront-reset\n", start + 1.0);
    }
    text += "front-reset\nblock 16\nreset\n";
    let mut script = from_text(&text).expect("a script");
    for profile in ["desk-resets", "desk-full", "desk-edits", "desk-small", "desk-lent", "desk-gains-one"] {
        for seed in 1..4 {
            let random = generate(named(profile).expect("a profile"), seed);
            let random = as_the_port_lends(Format::Desk, &random);
            if script.len() + random.len() < 16_000 {
                script.extend_from_slice(&random[CREATION..]);
            }
        }
    }
    script
}
