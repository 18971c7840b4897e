//! Holds the proof sheet against the original and the ledger, and compares the two on full
//! states: on all short tapes and on random tapes of every profile.

use oracle::agree::{Difference, Tally, agree};
use oracle::desk::Desk;
use oracle::engine::Engine;
use oracle::exhaustive::{self, exhaust};
use oracle::generate::{PROFILES, Profile, generate};
use oracle::ledger::{DeskLedger, Ledger};
use oracle::player::Pool;
use oracle::session::{TRAIL_POOL, pool};
use oracle::sheet;
use oracle::shrink::shrink;
use oracle::tape::Format;
use oracle::text::to_text;
use std::process::ExitCode;

/// Random records that are compared when nothing else is said.
const RECORDS: u64 = 1_500_000;

/// Calls on an exhaustive tape, for engine and desk.
const LENGTHS: (u32, u32) = (4, 5);

fn main() -> ExitCode {
    let arguments: Vec<String> = std::env::args().skip(1).collect();
    let records = match &arguments[..] {
        [] => Some(RECORDS),
        [option, count] if option == "--records" => count.parse().ok(),
        _ => None,
    };
    let Some(records) = records else {
        eprintln!("usage: selfcheck [--records N]");
        return ExitCode::from(2);
    };
    // A panic is reported as a difference, with its tape.
    std::panic::set_hook(Box::new(|_| {}));
    let (all, differences) = run(records);
    print("in all", &all);
    println!(
        "selfcheck: {} tapes, {} records, {differences} differences",
        all.tapes, all.records
    );
    if differences == 0 {
        ExitCode::SUCCESS
    } else {
        ExitCode::FAILURE
    }
}

/// What was compared, and how many sets (the sheet, the short tapes, each profile) show a difference; a set ends at its first.
fn run(records: u64) -> (Tally, u64) {
    let pool = pool(TRAIL_POOL);
    let (mut all, mut differences) = (Tally::default(), 0);
    match sheet::check() {
        Ok(cases) => println!("proof sheet: {cases} cases"),
        Err(report) => {
            println!("{report}");
            differences += 1;
        }
    }
    let each = records / PROFILES.len() as u64;
    let random = |profile: &'static Profile| (profile.name, random_tapes(profile, each, &pool));
    let sets = short_tapes(&pool)
        .into_iter()
        .chain(PROFILES.iter().map(random));
    for (name, compared) in sets {
        match compared {
            Ok(tally) => {
                print(name, &tally);
                all.add(tally);
            }
            Err(report) => {
                println!("{report}");
                differences += 1;
            }
        }
    }
    (all, differences)
}

fn short_tapes(pool: &Pool) -> Vec<(&'static str, Result<Tally, String>)> {
    let (length, desk_length) = LENGTHS;
    [
        ("short", Format::Tape, exhaustive::ENGINE, length),
        ("desk-short", Format::Desk, exhaustive::DESK, desk_length),
    ]
    .map(|(name, format, letters, length)| {
        let compared = exhaust(letters, length, |tape| compare(format, tape, pool))
            .map_err(|(tape, difference)| report(name, format, &tape, &difference));
        (name, compared)
    })
    .into()
}

fn random_tapes(profile: &Profile, records: u64, pool: &Pool) -> Result<Tally, String> {
    let mut tally = Tally::default();
    let mut seed = 0;
    while tally.records < records {
        let tape = generate(profile, seed);
        match compare(profile.format, &tape, pool) {
            Ok(agreed) => tally.add(agreed),
            Err(_) => {
                let differs = |tape: &[u8]| compare(profile.format, tape, pool).is_err();
                let smallest = shrink(profile.format, &tape, differs);
                let difference = compare(profile.format, &smallest, pool).unwrap_err();
                let name = format!("{}, seed {seed}", profile.name);
                return Err(report(&name, profile.format, &smallest, &difference));
            }
        }
        seed += 1;
    }
    Ok(tally)
}

fn compare(format: Format, tape: &[u8], pool: &Pool) -> Result<Tally, Difference> {
    match format {
        Format::Desk => agree::<Desk, DeskLedger>(format, ((), None), tape, pool),
        _ => agree::<Engine, Ledger>(format, ((), None), tape, pool),
    }
}

fn report(name: &str, format: Format, tape: &[u8], difference: &Difference) -> String {
    let Difference { record, what } = difference;
    let text = to_text(format, tape);
    format!("{name}: original and ledger differ at record {record}: {what}\n{text}")
}

fn print(name: &str, tally: &Tally) {
    print!(
        "{name:14} {} tapes, {} records, refused:",
        tally.tapes, tally.records
    );
    for (refusal, count) in tally.refusals.iter().enumerate().skip(1) {
        if *count > 0 {
            print!(" {refusal}:{count}");
        }
    }
    println!();
}
