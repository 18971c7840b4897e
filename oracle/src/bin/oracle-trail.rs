//! Prints what `trail` must print for the tape on standard input, by the original where all gains are 1.0, else by the second
//! ledger.
//! `--full` adds the whole state, `--digest` has it as digests in place of the listing, as the port's state_trail prints it,
//! with `--places` the counts of a block's places too;
//! `--script` takes kinds 11 to 14 too.

use oracle::judge;
use oracle::listing::Detail;
use oracle::session::{TRAIL_POOL, pool};
use oracle::tape::Format;
use std::io::{self, BufWriter, Read, Write};
use std::process::ExitCode;

fn main() -> ExitCode {
    let (mut format, mut detail) = (Format::Tape, Detail::Listing);
    for argument in std::env::args().skip(1) {
        match argument.as_str() {
            "--full" => detail = Detail::Full,
            "--digest" => detail = Detail::Digest,
            "--places" if detail == Detail::Digest => detail = Detail::Places,
            "--script" => format = Format::Script,
            _ => {
                eprintln!("usage: oracle-trail [--full | --digest [--places]] [--script] < TAPE");
                return ExitCode::from(2);
            }
        }
    }
    match run(format, detail) {
        Ok(()) => ExitCode::SUCCESS,
        Err(error) => {
            eprintln!("oracle-trail: {error}");
            ExitCode::FAILURE
        }
    }
}

fn run(format: Format, detail: Detail) -> io::Result<()> {
    let mut tape = Vec::new();
    // A failed read counts as the end of the tape.
    let _ = io::stdin().lock().read_to_end(&mut tape);
    let mut out = BufWriter::new(io::stdout().lock());
    judge::play(format, detail, &tape, &pool(TRAIL_POOL), &mut out)?;
    out.flush()
}
