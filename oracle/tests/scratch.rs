//! Document 02, Paper 7: a block's scratch, where it is lent, has 64 samples, whatever the channels; else 10, before 11 and 12.

use oracle::call::{Curve, MixOrder, Mode, Push, PushKind, Source};
use oracle::desk::Desk;
use oracle::engine::Engine;
use oracle::ledger::{DeskLedger, Ledger};
use oracle::player::{Answer, BLOCK, Player};
use oracle::session::pool;

const PUSH: Push = Push {
    start: 0.25,
    end: 0.75,
    fade_in: 0.0,
    fade_out: 0.0,
    curve: Curve::Smooth,
    source: Source::Ramp {
        value: 1.0,
        step: 1.0,
    },
    written_gain: None,
};

/// A block of this size with a scratch of this length, on a player with one clip; its answer and the scratch.
fn block<P: Player>(channels: u8, size: usize, length: usize) -> (Answer, Vec<f32>) {
    let (mut player, _) = P::create(P::Variant::default(), channels, Mode::All, 1);
    player.rate(8.0);
    player.push(PushKind::Absolute, &PUSH);
    let mut output = vec![-1.0; BLOCK * usize::from(channels)];
    let mut scratch = vec![-2.0; length];
    let answer = player.block(
        MixOrder::Forward,
        size,
        &mut output,
        Some(&mut scratch),
        &pool(0),
    );
    if answer == Answer::Done {
        let silent = |samples: &[f32]| samples.iter().all(|sample| *sample == 0.0);
        for channel in output.chunks(BLOCK) {
            assert!(silent(&channel[..2]) && silent(&channel[6..8]));
            assert_eq!(channel[2..6], [1.0, 2.0, 3.0, 4.0]);
        }
    }
    (answer, scratch)
}

fn asks_for_64<P: Player>() {
    for channels in 1..=8 {
        let (answer, scratch) = block::<P>(channels, 8, BLOCK);
        assert_eq!(answer, Answer::Done, "{channels} channels");
        assert_eq!(scratch[..4], [1.0, 2.0, 3.0, 4.0]);
        for length in [0, 63, 65, 128, BLOCK * usize::from(channels)] {
            if length != BLOCK {
                for size in [8, 65] {
                    let refused = (Answer::Refused(10), vec![-2.0; length]);
                    assert_eq!(block::<P>(channels, size, length), refused, "{length}");
                }
            }
        }
        assert_eq!(block::<P>(channels, 65, BLOCK).0, Answer::Refused(11));
    }
}

#[test]
fn of_the_original() {
    asks_for_64::<Engine>();
    asks_for_64::<Desk>();
}

#[test]
fn of_the_ledger() {
    asks_for_64::<Ledger>();
    asks_for_64::<DeskLedger>();
}
