//! The stored traps are what their texts and the oracle give: the original where all gains are 1.0, else the second ledger,
//! which the trap's first line says.

use oracle::engine::Engine;
use oracle::judge::{Judge, judge};
use oracle::ledger::Ledger;
use oracle::listing::{Detail, play};
use oracle::player::Player;
use oracle::session::{TRAIL_POOL, pool};
use oracle::tape::Format;
use oracle::text::from_text;
use std::fs;
use std::path::{Path, PathBuf};

fn texts() -> Vec<PathBuf> {
    let directory = Path::new(env!("CARGO_MANIFEST_DIR")).join("traps");
    let entries = fs::read_dir(directory).expect("the traps stand beside the source");
    let paths = entries.map(|entry| entry.expect("an entry").path());
    paths
        .filter(|path| path.to_string_lossy().ends_with(".tape.txt"))
        .collect()
}

fn listing<P: Player>(variant: P::Variant, tape: &[u8]) -> Vec<u8> {
    let mut text = Vec::new();
    play::<P>(
        Format::Tape,
        Detail::Listing,
        variant,
        tape,
        &pool(TRAIL_POOL),
        &mut text,
    )
    .expect("memory takes all");
    text
}

#[test]
fn stored_tapes_and_listings_are_the_oracles() {
    let texts = texts();
    assert!(texts.len() >= 40);
    for path in texts {
        let text = fs::read_to_string(&path).expect("a trap's text");
        assert!(text.starts_with("# "), "{path:?} names its trap");
        let tape_path = path.with_extension("");
        let tape = fs::read(&tape_path).expect("a trap's tape");
        assert_eq!(from_text(&text).as_ref(), Ok(&tape), "{path:?}");
        let expected = fs::read(tape_path.with_extension("listing")).expect("a trap's listing");
        let by_ledger = judge(Format::Tape, &tape) == Judge::Ledger;
        let said = text
            .lines()
            .next()
            .is_some_and(|line| line.ends_with("(by the second ledger)"));
        assert_eq!(said, by_ledger, "{path:?}");
        if !by_ledger {
            assert!(listing::<Engine>((), &tape) == expected, "{path:?}");
        }
        assert!(listing::<Ledger>(None, &tape) == expected, "{path:?}");
    }
}
