//! Prints the ledger's listing for the tape on standard input, with a deliberate fault or none.

use oracle::ledger::{DeskLedger, Ledger, Mutation};
use oracle::listing::{Detail, play};
use oracle::session::{TRAIL_POOL, pool};
use oracle::tape::Format;
use std::io::{self, BufWriter, Read, Write};
use std::process::ExitCode;

fn main() -> ExitCode {
    let arguments: Vec<String> = std::env::args().skip(1).collect();
    let mut rest = &arguments[..];
    let (mut desk, mut detail, mut mutation) = (false, Detail::Listing, None);
    loop {
        match rest {
            [] => break,
            [option, more @ ..] if option == "--desk" => {
                (desk, detail) = (true, Detail::Digest);
                rest = more;
            }
            [option, more @ ..] if option == "--digest" => {
                detail = Detail::Digest;
                rest = more;
            }
            [option, more @ ..] if option == "--places" && detail == Detail::Digest => {
                detail = Detail::Places;
                rest = more;
            }
            [option, name, more @ ..] if option == "--mutation" => {
                let Some(named) = Mutation::named(name) else {
                    return usage();
                };
                mutation = Some(named);
                rest = more;
            }
            _ => return usage(),
        }
    }
    match run(desk, detail, mutation) {
        Ok(()) => ExitCode::SUCCESS,
        Err(error) => {
            eprintln!("ledger-trail: {error}");
            ExitCode::FAILURE
        }
    }
}

fn usage() -> ExitCode {
    eprintln!("usage: ledger-trail [[--desk | --digest] [--places]] [--mutation NAME] < TAPE");
    for mutation in Mutation::ALL {
        eprintln!("  {}", mutation.name());
    }
    ExitCode::from(2)
}

fn run(desk: bool, detail: Detail, mutation: Option<Mutation>) -> io::Result<()> {
    let mut tape = Vec::new();
    // A failed read counts as the end of the tape.
    let _ = io::stdin().lock().read_to_end(&mut tape);
    let pool = pool(TRAIL_POOL);
    let mut out = BufWriter::new(io::stdout().lock());
    if desk {
        play::<DeskLedger>(Format::Desk, detail, mutation, &tape, &pool, &mut out)?;
    } else {
        play::<Ledger>(Format::Tape, detail, mutation, &tape, &pool, &mut out)?;
    }
    out.flush()
}
