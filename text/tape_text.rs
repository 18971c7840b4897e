//! Tapes as text, one record a line, and back; docs/HANDBOOK.md has the form.
//!
//! The tape's bytes are made by `tape_write` and read by `tape_read`, the proved programs of this repository, which stand beside this program or in PATH. Decimal numbers are read and written by
//! Rust's library, which rounds correctly to f64 and to f32.

use std::collections::VecDeque;
use std::env;
use std::fmt::Write as _;
use std::fs;
use std::io::{self, IsTerminal, Read, Write};
use std::path::PathBuf;
use std::process::{Command, ExitCode, Stdio};
use std::thread;

const USAGE: &str = "usage: tape_text TEXT TAPE          makes a tape of a text
       tape_text --back TAPE TEXT   makes a text of a tape
A name may be - for standard input or output. docs/HANDBOOK.md has the form of a text.
";

/// A record's arguments, 120 bytes, or up to 112 bytes as they are: what tape_write reads and tape_read writes.
const SIZE: usize = 120;

type Record = [u8; SIZE];

fn main() -> ExitCode {
    let words: Vec<String> = env::args().skip(1).collect();
    let words: Vec<&str> = words.iter().map(String::as_str).collect();
    let result = match words[..] {
        ["--back", tape, text] => back(tape, text),
        [text, tape] if !text.starts_with("--") => forth(text, tape),
        _ => {
            eprint!("{USAGE}");
            return ExitCode::from(2);
        }
    };
    match result {
        Ok(()) => ExitCode::SUCCESS,
        Err(what) => {
            eprintln!("tape_text: {what}");
            ExitCode::FAILURE
        }
    }
}

fn forth(text: &str, tape: &str) -> Result<(), String> {
    let words = String::from_utf8(load(text)?).map_err(|_| format!("{text} is no text"))?;
    let records = read_text(&words).map_err(|what| format!("{text}: {what}"))?;
    save(tape, &run("tape_write", &records)?)
}

fn back(tape: &str, text: &str) -> Result<(), String> {
    let records = run("tape_read", &load(tape)?)?;
    save(text, to_text(&records)?.as_bytes())
}

fn load(name: &str) -> Result<Vec<u8>, String> {
    let mut bytes = Vec::new();
    if name == "-" {
        if io::stdin().is_terminal() {
            eprint!("{USAGE}");
        }
        io::stdin().read_to_end(&mut bytes).map_err(|why| format!("standard input: {why}"))?;
        return Ok(bytes);
    }
    fs::read(name).map_err(|why| format!("{name}: {why}"))
}

fn save(name: &str, bytes: &[u8]) -> Result<(), String> {
    if name == "-" {
        return io::stdout().write_all(bytes).map_err(|why| format!("standard output: {why}"));
    }
    fs::write(name, bytes).map_err(|why| format!("{name}: {why}"))
}

/// What the program writes for this input. Anything on its standard error is a failure: it has no exit status.
fn run(name: &str, input: &[u8]) -> Result<Vec<u8>, String> {
    let beside = env::current_exe().ok().and_then(|me| Some(me.parent()?.join(name)));
    let program = beside.filter(|path| path.exists()).unwrap_or(PathBuf::from(name));
    let mut child = Command::new(&program)
        .stdin(Stdio::piped())
        .stdout(Stdio::piped())
        .stderr(Stdio::piped())
        .spawn()
        .map_err(|why| format!("{}: {why} (`rt run` in crates/{name} builds it, as out/{name})", program.display()))?;
    let mut stdin = child.stdin.take().expect("it is piped");
    let input = input.to_vec();
    let feeder = thread::spawn(move || stdin.write_all(&input));
    let output = child.wait_with_output().map_err(|why| format!("{name}: {why}"))?;
    let fed = feeder.join().expect("it does not panic");
    let said = String::from_utf8_lossy(&output.stderr);
    if !said.is_empty() {
        return Err(said.trim_end().to_string());
    }
    if fed.is_err() || !output.status.success() {
        return Err(format!("{name} ended before its input did"));
    }
    Ok(output.stdout)
}

// ---- arguments

fn record(kind: u64) -> Record {
    let mut r = [0; SIZE];
    put(&mut r, 0, kind);
    r
}

fn put(r: &mut Record, at: usize, n: u64) {
    r[at..at + 8].copy_from_slice(&n.to_le_bytes());
}

fn put32(r: &mut Record, at: usize, n: u32) {
    r[at..at + 4].copy_from_slice(&n.to_le_bytes());
}

fn get(r: &[u8], at: usize) -> u64 {
    u64::from_le_bytes(r[at..at + 8].try_into().expect("eight bytes"))
}

fn get32(r: &[u8], at: usize) -> u32 {
    u32::from_le_bytes(r[at..at + 4].try_into().expect("four bytes"))
}

const MODES: [&str; 2] = ["all", "none"];
const CURVES: [&str; 2] = ["power", "smooth"];
const SOURCES: [&str; 3] = ["held", "ramp", "clip"];
const PUSHES: [&str; 3] = ["push", "push-relative", "push-duration"];
const EDITS: [&str; 2] = ["edit", "edit-relative"];

// ---- text to arguments

/// A `repeat` that is not ended yet: its line, its count, and where its records begin.
struct Repeat {
    line: usize,
    times: u64,
    from: usize,
}

/// The longest input that is handed to tape_write, in records: a `repeat` of a `repeat` grows fast.
const MOST: u64 = 50_000_000;

fn read_text(text: &str) -> Result<Vec<u8>, String> {
    let mut records: Vec<u8> = Vec::new();
    let mut repeats: Vec<Repeat> = Vec::new();
    for (place, line) in text.lines().enumerate() {
        let line_number = place + 1;
        let code = line.split('#').next().unwrap_or("");
        let mut words = Words(code.split_whitespace().collect());
        let done = read_line(&mut words, line_number, &mut records, &mut repeats);
        done.and_then(|()| words.end()).map_err(|what| format!("line {line_number}: {what}"))?;
    }
    match repeats.pop() {
        Some(open) => Err(format!("line {}: this `repeat` has no `end`", open.line)),
        None => Ok(records),
    }
}

/// The words of a line that are still to be read.
struct Words<'a>(VecDeque<&'a str>);

impl<'a> Words<'a> {
    fn word(&mut self, what: &str) -> Result<&'a str, String> {
        self.0.pop_front().ok_or(format!("{what} is missing"))
    }

    fn whole(&mut self, what: &str, most: u64) -> Result<u64, String> {
        let word = self.word(what)?;
        match word.parse::<u64>() {
            Ok(n) if n <= most => Ok(n),
            _ => Err(format!("{what} is a whole number from 0 to {most}, not `{word}`")),
        }
    }

    fn double(&mut self, what: &str) -> Result<u64, String> {
        let word = self.word(what)?;
        let x: f64 = word.parse().map_err(|_| format!("{what} is a number, not `{word}`"))?;
        if x.is_infinite() && !word.to_lowercase().contains("inf") {
            return Err(format!("{what} is beyond the numbers of 64 bits: `{word}`"));
        }
        Ok(x.to_bits())
    }

    fn single(&mut self, what: &str) -> Result<u32, String> {
        let word = self.word(what)?;
        let x: f32 = word.parse().map_err(|_| format!("{what} is a number, not `{word}`"))?;
        if x.is_infinite() && !word.to_lowercase().contains("inf") {
            return Err(format!("{what} is beyond the numbers of 32 bits: `{word}`"));
        }
        Ok(x.to_bits())
    }

    fn one_of(&mut self, what: &str, names: &[&str]) -> Result<u64, String> {
        let word = self.word(what)?;
        let place = names.iter().position(|name| *name == word);
        place.map(|n| n as u64).ok_or(format!("{what} is {}, not `{word}`", names.join(" or ")))
    }

    fn end(&mut self) -> Result<(), String> {
        match self.0.front() {
            None => Ok(()),
            Some(word) => Err(format!("a word too many: `{word}`")),
        }
    }
}

fn read_line(words: &mut Words, line: usize, records: &mut Vec<u8>, repeats: &mut Vec<Repeat>) -> Result<(), String> {
    let Some(name) = words.0.pop_front() else {
        return Ok(());
    };
    let count = |records: &Vec<u8>| (records.len() / SIZE) as u64;
    match name {
        "repeat" => {
            let times = words.whole("the count of a repeat", MOST)?;
            if !words.0.is_empty() {
                // repeat N RECORD
                let from = records.len();
                read_line(words, line, records, &mut Vec::new())?;
                return again(records, from, times);
            }
            repeats.push(Repeat { line, times, from: records.len() });
            return Ok(());
        }
        "end" => {
            let open = repeats.pop().ok_or("`end` without a `repeat`")?;
            return again(records, open.from, open.times);
        }
        "bytes" => {
            let bytes: Vec<u8> = words.0.drain(..).map(byte).collect::<Result<_, _>>()?;
            for piece in bytes.chunks(112) {
                let mut r = record(256 + piece.len() as u64);
                r[8..8 + piece.len()].copy_from_slice(piece);
                records.extend(r);
            }
        }
        _ => records.extend(read_record(name, words)?),
    }
    if count(records) > MOST { Err(too_long()) } else { Ok(()) }
}

fn too_long() -> String {
    format!("the tape would have more than {MOST} records")
}

/// What stands from a place on, so many times.
fn again(records: &mut Vec<u8>, from: usize, times: u64) -> Result<(), String> {
    let body = records[from..].to_vec();
    if ((from as u64) + (body.len() as u64).saturating_mul(times)) / (SIZE as u64) > MOST {
        return Err(too_long());
    }
    records.truncate(from);
    for _ in 0..times {
        records.extend_from_slice(&body);
    }
    Ok(())
}

fn byte(word: &str) -> Result<u8, String> {
    let two = word.len() == 2 && word.bytes().all(|b| b.is_ascii_hexdigit());
    if !two {
        return Err(format!("a byte is two hexadecimal digits, not `{word}`"));
    }
    u8::from_str_radix(word, 16).map_err(|why| why.to_string())
}

fn read_record(name: &str, words: &mut Words) -> Result<Record, String> {
    if let Some(n) = PUSHES.iter().position(|push| *push == name) {
        return read_push(n as u64 + 1, words);
    }
    if let Some(n) = EDITS.iter().position(|edit| *edit == name) {
        let mut r = record(n as u64 + 4);
        put(&mut r, 24, words.whole("the event's number", u64::MAX)?);
        put(&mut r, 40, words.double("the end")?);
        put(&mut r, 56, words.double("the fade-out")?);
        return Ok(r);
    }
    match name {
        "create" => {
            let mut r = record(0);
            put(&mut r, 8, words.whole("the count of channels", 255)?);
            put(&mut r, 16, words.one_of("the mode", &MODES)?);
            put(&mut r, 24, words.whole("the first number", u64::MAX)?);
            Ok(r)
        }
        "tick" => Ok(record(6)),
        "block" => {
            let mut r = record(7);
            put(&mut r, 104, words.whole("the size of a block", 255)?);
            Ok(r)
        }
        "reset" => Ok(record(8)),
        "rate" => {
            let mut r = record(9);
            put(&mut r, 112, words.double("the rate")?);
            Ok(r)
        }
        _ => Err(format!(
            "`{name}` is no record: create, rate, push, push-relative, push-duration, edit, edit-relative, tick, block, reset, bytes, repeat, end"
        )),
    }
}

fn read_push(kind: u64, words: &mut Words) -> Result<Record, String> {
    let mut r = record(kind);
    let end = if kind == 3 { "the duration" } else { "the end" };
    for (at, what) in [(32, "the start"), (40, end), (48, "the fade-in"), (56, "the fade-out")] {
        put(&mut r, at, words.double(what)?);
    }
    put(&mut r, 64, words.one_of("the curve", &CURVES)?);
    let source = words.one_of("the source", &SOURCES)?;
    put(&mut r, 72, source);
    match source {
        0 => put32(&mut r, 80, words.single("the level")?),
        1 => {
            put32(&mut r, 80, words.single("the ramp's value")?);
            put32(&mut r, 84, words.single("the ramp's step")?);
        }
        _ => {
            put32(&mut r, 88, words.whole("the clip's offset", u32::MAX.into())? as u32);
            put32(&mut r, 92, words.whole("the clip's length", u32::MAX.into())? as u32);
        }
    }
    if words.0.front() == Some(&"gain") {
        words.0.pop_front();
        put(&mut r, 0, kind + 9);
        put32(&mut r, 96, words.single("the gain")?);
    }
    Ok(r)
}

// ---- arguments to text

fn to_text(records: &[u8]) -> Result<String, String> {
    if records.len() % SIZE != 0 {
        return Err("tape_read gave a part of a record".into());
    }
    let mut text = String::new();
    for r in records.chunks(SIZE) {
        write_record(r, &mut text).map_err(|_| "out of memory")?.ok_or("tape_read gave an unknown kind")?;
    }
    Ok(text)
}

/// Adds a record's line; none where its kind is unknown.
fn write_record(r: &[u8], text: &mut String) -> Result<Option<()>, std::fmt::Error> {
    let kind = get(r, 0);
    match kind {
        0 => write!(text, "create {} {} {}", get(r, 8), MODES[get(r, 16) as usize], get(r, 24))?,
        1..=3 | 10..=12 => {
            let name = PUSHES[(kind as usize - 1) % 9];
            let [start, end, fade_in, fade_out] = [32, 40, 48, 56].map(|at| double(r, at));
            write!(text, "{name} {start} {end} {fade_in} {fade_out} {}", CURVES[get(r, 64) as usize])?;
            match get(r, 72) {
                0 => write!(text, " held {}", single(r, 80))?,
                1 => write!(text, " ramp {} {}", single(r, 80), single(r, 84))?,
                _ => write!(text, " clip {} {}", get32(r, 88), get32(r, 92))?,
            }
            if kind >= 10 {
                write!(text, " gain {}", single(r, 96))?;
            }
        }
        4 | 5 => write!(text, "{} {} {} {}", EDITS[kind as usize - 4], get(r, 24), double(r, 40), double(r, 56))?,
        6 => text.push_str("tick"),
        7 => write!(text, "block {}", get(r, 104))?,
        8 => text.push_str("reset"),
        9 => write!(text, "rate {}", double(r, 112))?,
        256..=368 => {
            text.push_str("bytes");
            for byte in &r[8..8 + (kind as usize - 256)] {
                write!(text, " {byte:02X}")?;
            }
        }
        _ => return Ok(None),
    }
    text.push('\n');
    Ok(Some(()))
}

/// The shortest digits that read back as the same number.
fn double(r: &[u8], at: usize) -> String {
    let x = f64::from_bits(get(r, at));
    if x.is_nan() { "nan".into() } else { format!("{x:?}") }
}

fn single(r: &[u8], at: usize) -> String {
    let x = f32::from_bits(get32(r, at));
    if x.is_nan() { "nan".into() } else { format!("{x:?}") }
}
