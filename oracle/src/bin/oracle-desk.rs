//! Prints the listing of the desk script on standard input, with the desk's two queues, by the original where all gains
//! are 1.0, else by the second ledger.
//! `--full` adds the whole state; `--digest` has it as digests, as the port's desk_trail prints it, with `--places` the
//! counts of a block's places too.

use oracle::judge;
use oracle::listing::Detail;
use oracle::session::{TRAIL_POOL, pool};
use oracle::tape::Format;
use std::io::{self, BufWriter, Read, Write};
use std::process::ExitCode;

fn main() -> ExitCode {
    let mut detail = Detail::Queues;
    for argument in std::env::args().skip(1) {
        detail = match argument.as_str() {
            "--full" => Detail::Full,
            "--digest" => Detail::Digest,
            "--places" if detail == Detail::Digest => Detail::Places,
            _ => {
                eprintln!("usage: oracle-desk [--full | --digest [--places]] < SCRIPT");
                return ExitCode::from(2);
            }
        };
    }
    match run(detail) {
        Ok(()) => ExitCode::SUCCESS,
        Err(error) => {
            eprintln!("oracle-desk: {error}");
            ExitCode::FAILURE
        }
    }
}

fn run(detail: Detail) -> io::Result<()> {
    let mut tape = Vec::new();
    // A failed read counts as the end of the tape.
    let _ = io::stdin().lock().read_to_end(&mut tape);
    let mut out = BufWriter::new(io::stdout().lock());
    judge::play(Format::Desk, detail, &tape, &pool(TRAIL_POOL), &mut out)?;
    out.flush()
}
