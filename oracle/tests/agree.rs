//! The ledger agrees with the original on some random tapes of every profile and on all tapes of
//! three calls. The program selfcheck does the same at length.

use oracle::agree::{Difference, Tally, agree};
use oracle::desk::Desk;
use oracle::engine::Engine;
use oracle::exhaustive::{DESK, ENGINE, exhaust};
use oracle::generate::{PROFILES, generate};
use oracle::ledger::{DeskLedger, Ledger};
use oracle::session::{TRAIL_POOL, pool};
use oracle::tape::Format;

fn compare(format: Format, tape: &[u8]) -> Result<Tally, Difference> {
    let pool = pool(TRAIL_POOL);
    match format {
        Format::Desk => agree::<Desk, DeskLedger>(format, ((), None), tape, &pool),
        _ => agree::<Engine, Ledger>(format, ((), None), tape, &pool),
    }
}

#[test]
fn on_random_tapes() {
    // Bringing the clock near its limit takes seconds; selfcheck does it.
    for profile in PROFILES.iter().filter(|profile| profile.name != "late") {
        for seed in 1_000_000..1_000_040 {
            let agreed = compare(profile.format, &generate(profile, seed));
            assert!(agreed.is_ok(), "{}, seed {seed}: {agreed:?}", profile.name);
        }
    }
}

#[test]
fn on_all_short_tapes() {
    assert!(exhaust(ENGINE, 3, |tape| compare(Format::Tape, tape)).is_ok());
    assert!(exhaust(DESK, 3, |tape| compare(Format::Desk, tape)).is_ok());
}
