//! The files crates/tape_vectors/stdin and crates/tape_vectors/stdout: the traps and a long random tape, and what the
//! program of that crate must print for them, from the oracle's listing and rendering. To make them, in the repository's
//! root, once the oracle is built:
//!     oracle/target/release/tapevectors stdin > crates/tape_vectors/stdin
//!     oracle/target/release/tapevectors stdout > crates/tape_vectors/stdout

use oracle::generate::{generate, named};
use oracle::digest::mixed;
use oracle::judge;
use oracle::listing::Detail;
use oracle::player::Pool;
use oracle::render::render;
use oracle::session::{TRAIL_POOL, pool};
use oracle::tape::Format;
use std::fs;
use std::io::{self, Write};
use std::path::Path;

/// The room that `render` is lent.
const ROOM: usize = 65_536;

fn main() -> io::Result<()> {
    let tapes = tapes()?;
    let mut out = io::stdout().lock();
    match std::env::args().nth(1).as_deref() {
        Some("stdin") => {
            for tape in &tapes {
                let length = u16::try_from(tape.len()).expect("a tape of 65,535 bytes at most");
                out.write_all(&length.to_le_bytes())?;
                out.write_all(tape)?;
            }
        }
        Some("stdout") => {
            let pool = pool(TRAIL_POOL);
            for tape in &tapes {
                let (records, answers) = played(tape, &pool)?;
                let mut bytes = vec![0; ROOM];
                let count = render(tape, &mut bytes, &pool);
                let digest = bytes[..count].iter().fold(0, |d, b| mixed(d, u64::from(*b)));
                writeln!(out, "{records} {answers:016x} {count} {digest:016x}")?;
            }
        }
        _ => panic!("usage: tapevectors stdin|stdout"),
    }
    Ok(())
}

/// The traps in order, then a long random tape.
fn tapes() -> io::Result<Vec<Vec<u8>>> {
    let folder = Path::new(env!("CARGO_MANIFEST_DIR")).join("traps");
    let mut paths: Vec<_> = fs::read_dir(folder)?
        .map(|entry| entry.map(|entry| entry.path()))
        .collect::<Result<_, _>>()?;
    paths.retain(|path| path.extension().is_some_and(|extension| extension == "tape"));
    paths.sort();
    let mut tapes: Vec<_> = paths.iter().map(fs::read).collect::<Result<_, _>>()?;
    tapes.push(long());
    Ok(tapes)
}

fn long() -> Vec<u8> {
    generate(named("long").expect("a profile"), 1)
}

/// How many records the listing has, and the digest of its numbers.
fn played(tape: &[u8], pool: &Pool) -> io::Result<(u64, u64)> {
    let mut text = Vec::new();
    judge::play(Format::Tape, Detail::Listing, tape, pool, &mut text)?;
    let text = String::from_utf8(text).expect("a listing is ASCII");
    let (mut records, mut digest) = (0, 0);
    for line in text.lines() {
        let words: Vec<_> = line.split_ascii_whitespace().collect();
        if words.first().is_some_and(|kind| kind.len() == 2) {
            records += 1;
            digest = mixed(digest, u64::from_str_radix(words[0], 16).expect("a kind"));
            for count in &words[1..] {
                digest = mixed(digest, count.parse().expect("a number"));
            }
        } else {
            for bits in &words {
                digest = mixed(digest, u64::from_str_radix(bits, 16).expect("a sample's bits"));
            }
        }
    }
    Ok((records, digest))
}
