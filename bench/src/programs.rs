//! Programs run on a tape.

use crate::clock::programs_now;
use std::fs::File;
use std::path::Path;
use std::process::{Command, Stdio};

fn on(program: &str, tape: &Path) -> Command {
    let mut command = Command::new(program);
    command.stdin(File::open(tape).expect("the tape"));
    command
}

/// What the program prints.
pub fn output(program: &str, tape: &Path) -> Vec<u8> {
    let output = on(program, tape).output().expect("the program runs");
    assert!(output.status.success(), "{program} failed");
    output.stdout
}

/// The time of so many runs, their output thrown away.
pub fn timed(program: &str, tape: &Path, rounds: u64) -> u64 {
    let start = programs_now();
    for _ in 0..rounds {
        let mut command = on(program, tape);
        let status = command.stdout(Stdio::null()).status().expect("it runs");
        assert!(status.success(), "{program} failed");
    }
    programs_now() - start
}
