//! Document 02, Paper 5: the Rust is the measure where all gains are 1.0, else the second ledger.

use oracle::call::Call;
use oracle::generate::{Gains, PROFILES, generate};
use oracle::judge::{Judge, judge};
use oracle::tape::{Format, bytes, records};
use oracle::text::from_text;

fn judge_of(push: &str) -> Judge {
    let text = format!("create 1 all 1\npush 0 1 0 0 smooth held 1\n{push}\ntick\n");
    judge(Format::Tape, &from_text(&text).unwrap())
}

#[test]
fn one_is_the_originals() {
    assert_eq!(judge_of(""), Judge::Original);
    assert_eq!(
        judge_of("push 0 1 0 0 smooth held 1 gain 1"),
        Judge::Original
    );
    for gain in ["0", "-1", "0.99999994", "1.0000001", "inf", "bits:7FC00000"] {
        let push = format!("push-duration 0 1 0 0 smooth held 1 gain {gain}");
        assert_eq!(judge_of(&push), Judge::Ledger, "{gain}");
    }
}

#[test]
fn what_is_not_read_is_not_judged() {
    let behind_a_stop = "bytes FF\npush 0 1 0 0 smooth held 1 gain 0";
    assert_eq!(judge_of(behind_a_stop), Judge::Original);
}

/// Document 02, Paper 9: a tape with marks is the ledger's, unless every contribution qualifies.
#[test]
fn marks_are_the_ledgers() {
    let judge_of = |lines: &str| {
        let text = format!("create 1 all 1\n{lines}\ntick-marked\nblock-marked 8\n");
        judge(Format::Desk, &from_text(&text).unwrap())
    };
    for push in [
        "held 1",
        "held -0.000030517578125",
        "ramp 0.5 0",
        "clip 7 9",
    ] {
        let push = format!("push 0 1 0 0 smooth {push}");
        assert_eq!(judge_of(&push), Judge::Original, "{push}");
    }
    for line in [
        "push 0 1 0 0 smooth held 1.000030517578125",
        "push 0 1 0 0 smooth held 0.0000152587890625",
        "push 0 1 0 0 smooth ramp 0 0.5",
        "push 0 1 0.5 0 smooth held 1",
        "push 0 1 0 0.5 smooth held 1",
        "push 0 1 0 0 smooth held 1 gain 0.5",
        "edit 1 2 0.5",
    ] {
        assert_eq!(judge_of(line), Judge::Ledger, "{line}");
    }
}

/// Tapes of gain 1.0 have both forms of push; the other profiles with gains are the ledger's, and those with marks.
#[test]
fn profiles_have_their_gains() {
    for profile in PROFILES.iter().filter(|profile| !profile.damaged) {
        let (mut plain, mut with_gain, mut by_ledger) = (0, 0, 0);
        for seed in 0..20 {
            let tape = generate(profile, seed);
            by_ledger += u32::from(judge(profile.format, &tape) == Judge::Ledger);
            for call in records(profile.format, &tape).0 {
                match call {
                    Call::Push(_, push, _) if push.written_gain.is_some() => with_gain += 1,
                    Call::Push(..) => plain += 1,
                    _ => {}
                }
            }
        }
        assert!(plain > 0, "{}", profile.name);
        assert_eq!(
            with_gain > 0,
            profile.gains != Gains::None,
            "{}",
            profile.name
        );
        let other = matches!(profile.gains, Gains::Finite | Gains::Any)
            || profile.marks > 0 && !profile.multiples;
        assert_eq!(by_ledger > 10, other, "{}", profile.name);
        assert_eq!(by_ledger > 0, other, "{}", profile.name);
    }
}

/// A gain of 1.0 in a record of its own changes nothing that is printed but the kind.
#[test]
fn written_or_not_1_is_1() {
    for profile in PROFILES
        .iter()
        .filter(|profile| profile.gains == Gains::One)
    {
        for seed in 0..20 {
            let tape = generate(profile, seed);
            let plain: Vec<Call> = records(profile.format, &tape)
                .0
                .into_iter()
                .map(|call| match call {
                    Call::Push(kind, mut push, unused) => {
                        push.written_gain = None;
                        Call::Push(kind, push, unused)
                    }
                    call => call,
                })
                .collect();
            let listing = |tape: &[u8]| {
                let pool = oracle::session::pool(oracle::session::TRAIL_POOL);
                let mut text = Vec::new();
                let detail = oracle::listing::Detail::Digest;
                oracle::judge::play(profile.format, detail, tape, &pool, &mut text).unwrap();
                String::from_utf8(text).unwrap()
            };
            // a digest's kind is in small letters
            let renamed = |mut text: String| {
                for (kind, plain) in [("0A", "01"), ("0B", "02"), ("0C", "03")] {
                    for kind in [kind.to_string(), kind.to_lowercase()] {
                        text = text.replace(&format!("\n{kind} "), &format!("\n{plain} "));
                    }
                }
                text
            };
            assert_eq!(renamed(listing(&tape)), listing(&bytes(&plain)));
        }
    }
}
