//! What the port's C-callable entry must write for a tape.

use crate::engine::Engine;
use crate::judge::{Judge, judge};
use crate::ledger::Ledger;
use crate::player::{Player, Pool};
use crate::session::Session;
use crate::state::sample_bits;
use crate::tape::{self, Format};

/// Render a tape into a byte slice; the count of bytes written.
pub fn render(tape: &[u8], out: &mut [u8], pool: &Pool) -> usize {
    let ends = render_ends(tape, out, pool);
    ends.last().copied().unwrap_or(0)
}

/// Render a tape into a byte slice; where the bytes of each tick and block that fit end.
pub fn render_ends(tape: &[u8], out: &mut [u8], pool: &Pool) -> Vec<usize> {
    match judge(Format::Tape, tape) {
        Judge::Original => ends_by::<Engine>(tape, out, pool),
        Judge::Ledger => ends_by::<Ledger>(tape, out, pool),
    }
}

fn ends_by<P: Player>(tape: &[u8], out: &mut [u8], pool: &Pool) -> Vec<usize> {
    let (calls, _) = tape::records(Format::Tape, tape);
    let Some((creation, calls)) = calls.split_first() else {
        return Vec::new();
    };
    let (mut session, answer) = Session::<P>::create(P::Variant::default(), creation, pool);
    if answer.refusal() != 0 {
        return Vec::new();
    }
    let mut at = 0;
    let mut ends = Vec::new();
    for call in calls {
        let Some(count) = session.step(call).samples else {
            continue;
        };
        let channels = session.player.channels();
        if 4 * count * channels > out.len() - at {
            break;
        }
        for channel in 0..channels {
            for sample in session.samples(channel, count) {
                out[at..at + 4].copy_from_slice(&sample_bits(*sample).to_le_bytes());
                at += 4;
            }
        }
        ends.push(at);
    }
    ends
}
