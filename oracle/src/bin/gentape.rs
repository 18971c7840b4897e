//! Writes the random tape or script of a profile and a seed to standard output.

use oracle::generate::{PROFILES, generate, named};
use std::io::{self, Write};
use std::process::ExitCode;

fn main() -> ExitCode {
    let arguments: Vec<String> = std::env::args().skip(1).collect();
    let arguments: Vec<&str> = arguments.iter().map(String::as_str).collect();
    if arguments == ["--list"] {
        for profile in PROFILES {
            println!("{:14} {}", profile.name, profile.about);
        }
        return ExitCode::SUCCESS;
    }
    let tape = match arguments[..] {
        [profile, seed] => named(profile).zip(seed.parse().ok()),
        _ => None,
    };
    let Some((profile, seed)) = tape else {
        eprintln!("usage: gentape PROFILE SEED | gentape --list");
        return ExitCode::from(2);
    };
    match io::stdout().write_all(&generate(profile, seed)) {
        Ok(()) => ExitCode::SUCCESS,
        Err(_) => ExitCode::FAILURE,
    }
}
