//! Paper 1: `batches stdin` and `batches stdout` print the files of crates/batch_trail, a script and what the original's pushes
//! one after another make of it; `batches compare SCRIPTS PROGRAM` compares a program with them on random scripts.

use oracle::batch::{listing, script};
use oracle::generate::random::Random;
use oracle::session::{TRAIL_POOL, pool};
use std::io::Write;
use std::process::{Command, ExitCode, Stdio};

/// The script of the files: the first one of this length from this seed on.
const SEED: u64 = 1;
const LENGTH: usize = 12_000;

fn main() -> ExitCode {
    let arguments: Vec<String> = std::env::args().skip(1).collect();
    let words: Vec<&str> = arguments.iter().map(String::as_str).collect();
    let sample = || {
        (SEED..)
            .map(|seed| script(&mut Random::new(seed)))
            .find(|script| script.len() > LENGTH)
            .expect("some script is long")
    };
    match words[..] {
        ["stdin"] => print(&sample()),
        ["stdout"] => print(&listing(&sample(), &pool(TRAIL_POOL)).0),
        ["compare", scripts, program] => {
            return compare(scripts.parse().expect("a number of scripts"), program);
        }
        _ => {
            eprintln!("usage: batches stdin | stdout | compare SCRIPTS PROGRAM");
            return ExitCode::from(2);
        }
    }
    ExitCode::SUCCESS
}

fn print(bytes: &[u8]) {
    std::io::stdout()
        .write_all(bytes)
        .expect("standard output takes all");
}

fn compare(scripts: u64, program: &str) -> ExitCode {
    let pool = pool(TRAIL_POOL);
    let (mut runs, mut ended, mut differences) = (0u64, [0u64; 256], 0u64);
    for seed in 0..scripts {
        let script = script(&mut Random::new(seed));
        let (expected, ends) = listing(&script, &pool);
        for (sum, number) in ended.iter_mut().zip(ends) {
            *sum += number;
            runs += number;
        }
        let got = output(program, &script);
        if got != expected {
            if differences == 0 {
                let (expected, got) = (text(&expected), text(&got));
                let line = expected
                    .lines()
                    .zip(got.lines().chain(std::iter::repeat("")))
                    .enumerate()
                    .find(|(_, (a, b))| a != b);
                match line {
                    Some((n, (a, b))) => {
                        eprintln!("seed {seed}, line {}: expected\n{a}\ngot\n{b}", n + 1)
                    }
                    None => eprintln!("seed {seed}: more lines than expected"),
                }
            }
            differences += 1;
        }
    }
    let by_number: Vec<String> = (0..256)
        .filter(|&number| ended[number] > 0)
        .map(|number| format!("{number}: {}", ended[number]))
        .collect();
    println!("batches: ended by {}", by_number.join(", "));
    println!("batches: {scripts} scripts, {runs} runs, {differences} differences");
    println!("{} passed, {differences} failed", scripts - differences);
    if differences == 0 {
        ExitCode::SUCCESS
    } else {
        ExitCode::FAILURE
    }
}

fn text(bytes: &[u8]) -> String {
    String::from_utf8_lossy(bytes).into_owned()
}

fn output(program: &str, script: &[u8]) -> Vec<u8> {
    let mut child = Command::new(program)
        .stdin(Stdio::piped())
        .stdout(Stdio::piped())
        .spawn()
        .expect("the program runs");
    let mut stdin = child.stdin.take().expect("it is piped");
    let script = script.to_vec();
    let writer = std::thread::spawn(move || stdin.write_all(&script));
    let output = child.wait_with_output().expect("it ends");
    writer
        .join()
        .expect("the writer ends")
        .expect("the program reads the whole script");
    output.stdout
}
