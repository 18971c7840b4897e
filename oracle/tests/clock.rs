//! Refusal 12 on the desk: the clock is read before a queued reset is handled.

use oracle::call::{MixOrder, Mode};
use oracle::desk::Desk;
use oracle::ledger::DeskLedger;
use oracle::player::{Answer, BLOCK, Player};
use oracle::session::pool;

/// Blocks of 64 at rate 1 that bring the clock to its limit.
const BLOCKS: u32 = 1_000_000_000 / 64;

fn at_the_limit<P: Player>() {
    let pool = pool(0);
    let (mut desk, _) = P::create(P::Variant::default(), 1, Mode::All, 1);
    let mut output = [0.0; BLOCK];
    desk.rate(1.0);
    for _ in 0..BLOCKS {
        assert_eq!(
            desk.block(MixOrder::Forward, BLOCK, &mut output, None, &pool),
            Answer::Done
        );
    }
    assert_eq!(desk.front_reset(), Answer::Queued);
    assert_eq!(
        desk.tick(MixOrder::Forward, &mut output[..1], &pool),
        Answer::Refused(12)
    );
    assert_eq!(desk.state().messages.len(), 1);
    assert_eq!(
        desk.block(MixOrder::Forward, 0, &mut output, None, &pool),
        Answer::Done
    );
    assert_eq!(
        desk.tick(MixOrder::Forward, &mut output[..1], &pool),
        Answer::Done
    );
}

#[test]
fn of_the_original() {
    at_the_limit::<Desk>();
}

#[test]
fn of_the_ledger() {
    at_the_limit::<DeskLedger>();
}
