//! Paper 13: `heaprises PROGRAM TRAIL` runs heap_worst_case for every n from 1 to 256: its tape against one that is written here
//! byte by byte, the listing of that tape by TRAIL against the original's, and both figures against the paper's sentences; then
//! words that are no such n, each refused as 23. `heaprises tape N` prints the tape of N pushes. `heaprises compare TAPES RISES`
//! compares the rises that trail_rises prints, and the order in which events sound, on random tapes with pops between the pushes;
//! `heaprises stdin` and `heaprises stdout` print the files of crates/trail_rises.

use oracle::generate::random::Random;
use oracle::judge;
use oracle::listing::Detail;
use oracle::rises::{self, Counts, Heap};
use oracle::session::{TRAIL_POOL, pool};
use oracle::tape::Format;
use std::ffi::OsString;
use std::io::Write;
use std::os::unix::ffi::OsStringExt;
use std::process::{Command, ExitCode, Output, Stdio};

fn main() -> ExitCode {
    let arguments: Vec<String> = std::env::args().skip(1).collect();
    let words: Vec<&str> = arguments.iter().map(String::as_str).collect();
    match words[..] {
        ["tape", n] => print(&tape(n.parse().expect("a number of pushes"))),
        ["stdin"] => print(&sample()),
        ["stdout"] => {
            print(rises::text(&sample(), &pool(TRAIL_POOL), &mut Counts::default()).as_bytes())
        }
        ["compare", tapes, program] => {
            return compare(tapes.parse().expect("a number of tapes"), program);
        }
        [program, trail] => return every_n(program, trail),
        _ => {
            eprintln!(
                "usage: heaprises PROGRAM TRAIL | compare TAPES RISES | tape N | stdin | stdout"
            );
            return ExitCode::from(2);
        }
    }
    ExitCode::SUCCESS
}

fn print(bytes: &[u8]) {
    std::io::stdout()
        .write_all(bytes)
        .expect("standard output takes all");
}

/// The tape of the files: the first long one.
fn sample() -> Vec<u8> {
    (0..)
        .map(|seed| rises::tape(&mut Random::new(seed)))
        .find(|tape| tape.len() > 15000)
        .expect("some tape is long")
}

fn compare(tapes: u64, program: &str) -> ExitCode {
    let pool = pool(TRAIL_POOL);
    let mut counts = Counts::default();
    let mut differences = 0u64;
    for seed in 0..tapes {
        let tape = rises::tape(&mut Random::new(seed));
        let expected = rises::text(&tape, &pool, &mut counts);
        let got = output(program, &[], &tape);
        if got.stdout != expected.as_bytes() {
            if differences == 0 {
                let got = text(&got.stdout);
                let line = expected
                    .lines()
                    .zip(got.lines().chain(std::iter::repeat("")))
                    .position(|(a, b)| a != b);
                eprintln!("heaprises: seed {seed}, line {line:?} (from 0) differs");
            }
            differences += 1;
        }
    }
    let Counts {
        pushes,
        risen,
        pops,
    } = counts;
    println!(
        "heaprises: {tapes} tapes, {pushes} pushes that rose {risen} levels, {pops} pops between them, {differences} differences"
    );
    println!("{} passed, {differences} failed", tapes - differences);
    if differences == 0 {
        ExitCode::SUCCESS
    } else {
        ExitCode::FAILURE
    }
}

fn every_n(program: &str, trail: &str) -> ExitCode {
    let (mut passed, mut failed) = (0, 0);
    let mut count = |good: bool, what: String| {
        if good {
            passed += 1;
        } else {
            failed += 1;
            eprintln!("heaprises: {what}");
        }
    };
    for n in 1..=256 {
        let tape = tape(n);
        let got = output(program, &[n.to_string().into()], &[]);
        count(got.stdout == tape, format!("the tape of {n}"));
        let figures = format!("{} {}\n", bound(n), risen(n));
        count(
            got.stderr == figures.as_bytes(),
            format!("the figures of {n}: {:?}", text(&got.stderr)),
        );
        count(
            output(trail, &[], &tape).stdout == listing(&tape),
            format!("the listing of {n}"),
        );
    }
    for words in refused() {
        let got = output(program, &words, &[]);
        count(
            got.stdout.is_empty() && got.stderr == b"23\n",
            format!("the words {words:?}: {:?}", text(&got.stderr)),
        );
    }
    println!("heaprises: 256 tapes, {} refused words", refused().len());
    println!("{passed} passed, {failed} failed");
    if failed == 0 {
        ExitCode::SUCCESS
    } else {
        ExitCode::FAILURE
    }
}

/// "record 00 with one channel, All, first number 1, then n pushes 01, the k-th with start n - k, end n, no fades, smooth, held
/// 1.0"
fn tape(n: u32) -> Vec<u8> {
    let mut tape = vec![0x00, 1, 0, 1, 0, 0, 0, 0, 0, 0, 0];
    for k in 1..=n {
        tape.push(0x01);
        for time in [f64::from(n - k), f64::from(n), 0.0, 0.0] {
            tape.extend(time.to_le_bytes());
        }
        tape.extend([1, 0]);
        tape.extend(1.0f32.to_le_bytes());
        tape.extend([0; 4]);
    }
    assert_eq!(tape.len() as u32, 11 + 43 * n);
    tape
}

/// "the sum over k = 1 to n of floor(log2 k)"
fn bound(n: u32) -> u32 {
    (1..=n).map(u32::ilog2).sum()
}

/// What the rises of the n pushes add up to, over a plain heap.
fn risen(n: u32) -> usize {
    let mut heap = Heap::default();
    (1..=n)
        .map(|k| heap.push((f64::from(n - k), k.into())))
        .sum()
}

/// The original's listing.
fn listing(tape: &[u8]) -> Vec<u8> {
    let mut listed = Vec::new();
    judge::play(
        Format::Tape,
        Detail::Listing,
        tape,
        &pool(TRAIL_POOL),
        &mut listed,
    )
    .expect("a list takes all");
    listed
}

/// Words that are no n "in decimal digits, no leading zero" from 1 to 256, and none and two of them.
fn refused() -> Vec<Vec<OsString>> {
    let long = "1".repeat(5000);
    let mut all: Vec<Vec<OsString>> = [
        "",
        "0",
        "257",
        "007",
        "01",
        "00",
        "0256",
        "+5",
        "-1",
        "1e2",
        "1.0",
        "5.",
        " 5",
        "5 ",
        "5\n",
        "2 5",
        "0x5",
        "five",
        "/",
        ":",
        "2/",
        "2:",
        "1,0",
        "999",
        "1000",
        "2560",
        "25600000",
        "100000000",
        "18446744073709551617",
        "18446744073709551872",
        "٣",
        "５",
        &long,
    ]
    .iter()
    .map(|word| vec![OsString::from(word)])
    .collect();
    all.push(vec![]);
    all.push(vec!["5".into(), "5".into()]);
    all.push(vec!["5".into(), "".into()]);
    all.push(vec!["".into(), "5".into()]);
    all.push(vec!["1".into(), "2".into(), "3".into()]);
    all.push(vec![OsString::from_vec(vec![0xFF, b'5'])]);
    all
}

fn output(program: &str, words: &[OsString], stdin: &[u8]) -> Output {
    let mut child = Command::new(program)
        .args(words)
        .stdin(Stdio::piped())
        .stdout(Stdio::piped())
        .stderr(Stdio::piped())
        .spawn()
        .expect("the program runs");
    let mut pipe = child.stdin.take().expect("it is piped");
    // A program that reads nothing may have ended.
    let _ = pipe.write_all(stdin);
    drop(pipe);
    child.wait_with_output().expect("it ends")
}

fn text(bytes: &[u8]) -> String {
    String::from_utf8_lossy(bytes).into_owned()
}
