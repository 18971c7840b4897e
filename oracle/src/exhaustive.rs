//! All short tapes over a few calls, compared as the random ones are.

use crate::agree::{Difference, Tally};
use crate::text::from_text;

/// The calls of an engine's short tapes, after a rate of 8.
pub const ENGINE: &[&str] = &[
    "push 0 0.25 0 0 smooth held 1",
    "push 0.0625 0.5 0.125 0.25 smooth ramp 1 0.5",
    "push-relative 0.1875 inf 0.25 0 power clip 1000 5",
    "push-duration -0.125 0.1875 0 0.125 smooth held 0.25",
    "edit 1 0.1875 0.125",
    "edit 2 0 0",
    "edit-relative 1 0.0625 0.0625",
    "tick",
    "block 0",
    "block 3",
    "block 9",
    "reset",
    "rate 3",
    "rate 8",
];

/// The calls of a desk's short scripts.
pub const DESK: &[&str] = &[
    "push 0 0.25 0 0 smooth held 1",
    "push-relative 0.0625 0.1875 0 0.125 smooth ramp 1 0.5",
    "edit 1 0.1875 0.125",
    "edit-relative 2 0 0",
    "front-reset",
    "tick",
    "block 3",
    "reset",
    "rate 3",
];

/// Compare on every list of `length` calls, in both modes.
/// An error is the first tape that differs, and in what.
pub fn exhaust(
    letters: &[&str],
    length: u32,
    mut compare: impl FnMut(&[u8]) -> Result<Tally, Difference>,
) -> Result<Tally, (Vec<u8>, Difference)> {
    let records: Vec<Vec<u8>> = letters
        .iter()
        .map(|text| from_text(text).expect("a letter is a record"))
        .collect();
    let mut tally = Tally::default();
    for mode in ["all", "none"] {
        let head = from_text(&format!("create 1 {mode} 1\nrate 8\n")).expect("two records");
        for word in 0..letters.len().pow(length) {
            let mut tape = head.clone();
            let mut left = word;
            for _ in 0..length {
                tape.extend(&records[left % letters.len()]);
                left /= letters.len();
            }
            match compare(&tape) {
                Ok(agreed) => tally.add(agreed),
                Err(difference) => return Err((tape, difference)),
            }
        }
    }
    Ok(tally)
}
