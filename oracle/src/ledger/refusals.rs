//! Document 01, Turned down, and document 02's 18: each check by its number, the first that is true in front.

use super::engine::Ledger;
use crate::call::{Edit, Mode, Push, Source};
use crate::player::Answer;

const LIMIT: f64 = 1e9;

/// The number of the first check that is true.
pub fn first(checks: &[(u8, bool)]) -> Option<Answer> {
    let check = checks.iter().find(|(_, refused)| *refused)?;
    Some(Answer::Refused(check.0))
}

pub fn creation(channels: u8, _mode: Mode, number: u64) -> bool {
    channels < 1 || channels > 8 || number == 0
}

pub fn rate(r: f64) -> bool {
    r.is_nan() || r < 1.0 || r > 1e6
}

/// Breaks 3's limits, for anything but an end or duration.
fn beyond(x: f64) -> bool {
    x.is_nan() || x > LIMIT || x < -LIMIT
}

/// Breaks 3's limits, for an end or duration.
fn end_beyond(x: f64) -> bool {
    beyond(x) && x != f64::INFINITY
}

/// Refusals 3 to 7, 18 directly after 5, of a push that ends at `end`, with `held` events counted.
pub fn push(push: &Push, end: f64, held: usize, spent: bool) -> [(u8, bool); 6] {
    let length = end - push.start;
    let infinite = match push.source {
        Source::Held { level } => !level.is_finite(),
        Source::Ramp { value, step } => !value.is_finite() || !step.is_finite(),
        Source::Clip { .. } => false,
    };
    let beyond_limits =
        beyond(push.start) || end_beyond(push.end) || beyond(push.fade_in) || beyond(push.fade_out);
    [
        (3, beyond_limits),
        (4, push.fade_in > length || push.fade_out > length),
        (5, infinite),
        (18, push.gain().is_nan() || push.gain().is_infinite()),
        (6, held >= 256),
        (7, spent),
    ]
}

pub fn edit(edit: &Edit) -> bool {
    end_beyond(edit.end) || beyond(edit.fade_out)
}

/// Refusals 10 and 12 of a tick.
pub fn tick(ledger: &Ledger, output: usize) -> [(u8, bool); 2] {
    [
        (10, output != ledger.channels),
        (12, beyond(ledger.t + ledger.d)),
    ]
}

/// Refusals 10 to 12 of a block. Paper 7: "A block now gets 64 scratch samples in place of 64 for every channel, and where they
/// are lent, 10 asks for 64."
pub fn block(ledger: &Ledger, n: usize, output: usize, scratch: Option<usize>) -> [(u8, bool); 3] {
    let lent_otherwise = output != 64 * ledger.channels || !matches!(scratch, None | Some(64));
    [
        (10, lent_otherwise),
        (11, n > 64),
        (12, beyond(ledger.t + ledger.d * n as f64)),
    ]
}
