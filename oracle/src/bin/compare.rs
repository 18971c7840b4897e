//! Compares a program that reads a tape on standard input with the oracle's listing: the original's where all gains of a tape
//! are 1.0, else the second ledger's.

use oracle::compare::{Compared, Options, compare, first_line};
use oracle::generate::Profile;
use oracle::judge;
use oracle::listing::Detail;
use oracle::session::{TRAIL_POOL, pool};
use oracle::tape::{Format, as_the_port_lends};
use std::io::{Read, Write};
use std::process::{Command, ExitCode, Stdio};

/// As many bytes of a tape as the port's program over states reads.
const STATE_TAPE: usize = 65_536;

const USAGE: &str = "usage: compare [--desk | --digest] [--places] [--tapes N] [--seed S] [--profile P].. \
                     --program PATH [ARGUMENT..]";

fn main() -> ExitCode {
    let arguments: Vec<String> = std::env::args().skip(1).collect();
    match run(&arguments) {
        Ok(compared) => compared.conclude("compare"),
        Err(usage) => {
            eprintln!("{usage}");
            ExitCode::from(2)
        }
    }
}

fn run(arguments: &[String]) -> Result<Compared, String> {
    let (format, mut detail, mut arguments) = match arguments {
        [first, rest @ ..] if first == "--desk" => (Format::Desk, Detail::Digest, rest),
        [first, rest @ ..] if first == "--digest" => (Format::Tape, Detail::Digest, rest),
        _ => (Format::Tape, Detail::Listing, arguments),
    };
    if let [first, rest @ ..] = arguments
        && first == "--places"
        && detail == Detail::Digest
    {
        (detail, arguments) = (Detail::Places, rest);
    }
    let usable = |profile: &Profile| profile.format == format;
    let (options, rest) = Options::read(arguments, usable)?;
    let [option, program, arguments @ ..] = rest else {
        return Err(USAGE.into());
    };
    if option != "--program" {
        return Err(USAGE.into());
    }
    let pool = pool(TRAIL_POOL);
    Ok(compare(&options, |tape, _| {
        let tape = match (format, detail) {
            (Format::Desk, _) => &as_the_port_lends(format, tape)[..],
            (_, Detail::Digest | Detail::Places) => &tape[..tape.len().min(STATE_TAPE)],
            _ => tape,
        };
        let mut expected = Vec::new();
        judge::play(format, detail, tape, &pool, &mut expected).expect("memory takes all");
        match output(program, arguments, tape) {
            Ok(got) => first_line(&expected, &got),
            Err(what) => Some(what),
        }
    }))
}

/// What the program prints for a tape. Its exit code does not matter; a signal does.
fn output(program: &str, arguments: &[String], tape: &[u8]) -> Result<Vec<u8>, String> {
    let command = Command::new(program)
        .args(arguments)
        .stdin(Stdio::piped())
        .stdout(Stdio::piped())
        .stderr(Stdio::null()) // trail says there which refusal stops a tape
        .spawn();
    let mut child = command.map_err(|error| format!("{program}: {error}"))?;
    let (stdin, stdout) = (child.stdin.take(), child.stdout.take());
    let (mut stdin, mut stdout) = stdin.zip(stdout).expect("both are piped");
    let mut text = Vec::new();
    std::thread::scope(|scope| {
        // A program that stops early closes its input; what counts is what it printed.
        scope.spawn(move || stdin.write_all(tape));
        stdout.read_to_end(&mut text)
    })
    .map_err(|error| format!("{program}: {error}"))?;
    let status = child
        .wait()
        .map_err(|error| format!("{program}: {error}"))?;
    match status.code() {
        Some(_) => Ok(text),
        None => Err(format!("{program}: {status}")),
    }
}
