//! Renders the tape in a file and prints each sample on a line of its own, as a number.
//! Usage: render TAPE

use std::process::ExitCode;

mod entry {
    unsafe extern "C" {
        fn render(tape: *const u8, tape_length: usize, out: *mut u8, out_length: usize) -> usize;
    }

    /// Writes the tape's samples to the front of `out`; how many bytes they take.
    pub fn samples(tape: &[u8], out: &mut [u8]) -> usize {
        // Safety: both slices are lent for the call, with their lengths, and do not overlap.
        unsafe { render(tape.as_ptr(), tape.len(), out.as_mut_ptr(), out.len()) }
    }
}

fn main() -> ExitCode {
    let Some(path) = std::env::args().nth(1) else {
        eprintln!("usage: render TAPE");
        return ExitCode::from(2);
    };
    let tape = match std::fs::read(&path) {
        Ok(tape) => tape,
        Err(error) => {
            eprintln!("{path}: {error}");
            return ExitCode::FAILURE;
        }
    };
    let mut out = vec![0; 65_536];
    let count = entry::samples(&tape, &mut out);
    for sample in out[..count].chunks_exact(4) {
        println!("{}", f32::from_le_bytes([sample[0], sample[1], sample[2], sample[3]]));
    }
    ExitCode::SUCCESS
}
