//! Turns the tape on standard input into text, or with `--back` the text into a tape.
//! `--script` and `--desk` take the kinds of scripts and desk scripts too.

use oracle::tape::Format;
use oracle::text::{from_text, to_text};
use std::io::{self, Read, Write};
use std::process::ExitCode;

fn main() -> ExitCode {
    let (mut format, mut back) = (Format::Tape, false);
    for argument in std::env::args().skip(1) {
        match argument.as_str() {
            "--back" => back = true,
            "--script" => format = Format::Script,
            "--desk" => format = Format::Desk,
            _ => {
                eprintln!("usage: tapetext [--script | --desk] < TAPE | tapetext --back < TEXT");
                return ExitCode::from(2);
            }
        }
    }
    match run(format, back) {
        Ok(()) => ExitCode::SUCCESS,
        Err(what) => {
            eprintln!("tapetext: {what}");
            ExitCode::FAILURE
        }
    }
}

fn run(format: Format, back: bool) -> Result<(), String> {
    let mut input = Vec::new();
    let read = io::stdin().lock().read_to_end(&mut input);
    read.map_err(|error| error.to_string())?;
    let output = if back {
        let text = String::from_utf8(input).map_err(|error| error.to_string())?;
        from_text(&text)?
    } else {
        to_text(format, &input).into_bytes()
    };
    io::stdout()
        .write_all(&output)
        .map_err(|error| error.to_string())
}
