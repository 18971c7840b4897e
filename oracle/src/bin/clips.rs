//! Paper 4: `clips stdin` and `clips stdout` print the files of crates/trail_clips, the tape and what the original's lists make
//! of it from 0.5 s to 2 s; `clips compare TAPES PROGRAM` compares a program with them on random tapes, ten stretches each, some
//! with a slice of another length and most with a count of the places that are left.

use oracle::generate::random::Random;
use oracle::session::{TRAIL_POOL, pool};
use oracle::stretch::{SLICE, argument, length, played, tape, text};
use std::io::Write;
use std::process::{Command, ExitCode, Stdio};

/// The tape of the files: seed and ends of the stretch.
const SEED: u64 = 4;
const STRETCH: [&str; 2] = ["500", "2000"];

fn main() -> ExitCode {
    let arguments: Vec<String> = std::env::args().skip(1).collect();
    let words: Vec<&str> = arguments.iter().map(String::as_str).collect();
    let sample = || {
        (SEED..)
            .map(|seed| tape(&mut Random::new(seed)))
            .find(|tape| tape.len() > 8000)
    };
    match words[..] {
        ["stdin"] => print(&sample().expect("some tape is long")),
        ["stdout"] => {
            let state = played(&sample().expect("some tape is long"), &pool(TRAIL_POOL));
            print(text(&state, STRETCH[0], STRETCH[1], Some(SLICE)).as_bytes());
        }
        ["compare", tapes, program] => {
            return compare(tapes.parse().expect("a number of tapes"), program);
        }
        _ => {
            eprintln!("usage: clips stdin | stdout | compare TAPES PROGRAM");
            return ExitCode::from(2);
        }
    }
    ExitCode::SUCCESS
}

fn print(bytes: &[u8]) {
    std::io::stdout()
        .write_all(bytes)
        .expect("standard output takes all");
}

fn compare(tapes: u64, program: &str) -> ExitCode {
    let pool = pool(TRAIL_POOL);
    let (mut asked, mut found, mut lengths, mut differences) = (0u64, 0u64, 0u64, 0u64);
    for seed in 0..tapes {
        let random = &mut Random::new(seed);
        let tape = tape(random);
        let state = played(&tape, &pool);
        let mut differs = false;
        for _ in 0..10 {
            let (from, to, length) = (argument(random), argument(random), length(random));
            let expected = text(&state, &from, &to, length);
            asked += 1;
            found += expected.lines().count() as u64 - 2 - u64::from(length.is_some());
            lengths += u64::from(length.is_some_and(|length| length != SLICE));
            let got = output(program, &from, &to, length, &tape);
            if got != expected {
                if differences == 0 && !differs {
                    eprintln!(
                        "seed {seed}, from {from:?} to {to:?}, slice {length:?}: expected\n{expected}got\n{got}"
                    );
                }
                differs = true;
            }
        }
        differences += u64::from(differs);
    }
    println!(
        "clips: {tapes} tapes, {asked} stretches, {lengths} with a slice of another length, {found} clips listed, {differences} differences"
    );
    println!("{} passed, {differences} failed", tapes - differences);
    if differences == 0 {
        ExitCode::SUCCESS
    } else {
        ExitCode::FAILURE
    }
}

fn output(program: &str, from: &str, to: &str, length: Option<usize>, tape: &[u8]) -> String {
    let mut child = Command::new(program)
        .args([from, to])
        .args(length.map(|length| length.to_string()))
        .stdin(Stdio::piped())
        .stdout(Stdio::piped())
        .spawn()
        .expect("the program runs");
    let mut stdin = child.stdin.take().expect("it is piped");
    let written = stdin.write_all(tape);
    drop(stdin);
    let output = child.wait_with_output().expect("it ends");
    written.expect("the program reads the whole tape");
    String::from_utf8_lossy(&output.stdout).into_owned()
}
