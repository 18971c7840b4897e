//! What a tape is measured by. Document 02, Paper 5: the Rust has no gain, so it is the measure where all gains of a tape are
//! 1.0; for other gains it is the ledger, with the gain's multiplication written in. Paper 9: nor has it a mark, so for marked
//! calls it is the ledger too, unless every contribution qualifies: there the mark is without consequence.

use crate::beside::Beside;
use crate::call::{Call, Push, Source};
use crate::desk::Desk;
use crate::engine::Engine;
use crate::ledger::{DeskLedger, Ledger};
use crate::listing::{self, Detail};
use crate::player::Pool;
use crate::tape::{self, Format};
use std::io::{self, Write};

#[derive(Clone, Copy, PartialEq, Eq, Debug)]
pub enum Judge {
    Original,
    /// The second ledger.
    Ledger,
}

pub fn is_marked(call: &Call) -> bool {
    matches!(call, Call::MarkedTick | Call::MarkedBlock(_))
}

/// "Multiples of 1/32768 within -1 and 1."
fn is_multiple(x: f32) -> bool {
    x.abs() <= 1.0 && (x * 32_768.0).fract() == 0.0
}

/// Whether no push or edit of a list lets a fade act, and every source gives such multiples, as those of `trail`'s pool are.
pub fn qualifies(calls: &[Call]) -> bool {
    let push = |push: &Push| {
        let source = match push.source {
            Source::Held { level } => is_multiple(level),
            Source::Ramp { value, step } => is_multiple(value) && step == 0.0,
            Source::Clip { .. } => true,
        };
        source && push.gain() == 1.0 && push.fade_in <= 0.0 && push.fade_out <= 0.0
    };
    calls.iter().all(|call| match call {
        Call::Push(_, pushed, _) => push(pushed),
        Call::Edit(_, edit) => edit.fade_out <= 0.0,
        _ => true,
    })
}

/// The judge of a tape. A gain that is refused is not 1.0 either.
pub fn judge(format: Format, tape: &[u8]) -> Judge {
    let (calls, _) = tape::records(format, tape);
    let is_one = |call: &Call| match call {
        Call::Push(_, push, _) => push.gain() == 1.0,
        _ => true,
    };
    let is_marked = calls.iter().any(is_marked) && !qualifies(&calls);
    if calls.iter().all(is_one) && !is_marked {
        Judge::Original
    } else {
        Judge::Ledger
    }
}

/// Print a tape's listing by its judge. The Rust counts no places: those are the ledger's, whatever else is the original's.
pub fn play(
    format: Format,
    detail: Detail,
    tape: &[u8],
    pool: &Pool,
    out: &mut impl Write,
) -> io::Result<()> {
    if detail == Detail::Places && judge(format, tape) == Judge::Original {
        let variants = ((), None);
        return match format {
            Format::Desk => {
                type Both = Beside<Desk, DeskLedger>;
                listing::play::<Both>(format, detail, variants, tape, pool, out)
            }
            _ => {
                type Both = Beside<Engine, Ledger>;
                listing::play::<Both>(format, detail, variants, tape, pool, out)
            }
        };
    }
    match (judge(format, tape), format) {
        (Judge::Original, Format::Desk) => {
            listing::play::<Desk>(format, detail, (), tape, pool, out)
        }
        (Judge::Original, _) => listing::play::<Engine>(format, detail, (), tape, pool, out),
        (Judge::Ledger, Format::Desk) => {
            listing::play::<DeskLedger>(format, detail, None, tape, pool, out)
        }
        (Judge::Ledger, _) => listing::play::<Ledger>(format, detail, None, tape, pool, out),
    }
}
