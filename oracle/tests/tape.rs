//! Where the reader stops: refusals 14 and 15.

use oracle::call::Call;
use oracle::generate::{PROFILES, generate};
use oracle::tape::{Format, Stop, read, records, write};
use oracle::text::from_text;

/// Pushes of kinds 01 and 0A as bytes.
fn pushes() -> [Vec<u8>; 2] {
    let text = "push 0 1 0 0 smooth held 1";
    [text.into(), format!("{text} gain 0.5")].map(|text| from_text(&text).unwrap())
}

fn refusal(tape: &[u8], first: bool) -> u8 {
    match read(Format::Tape, tape, first) {
        Ok(_) => 0,
        Err(Stop { refusal, .. }) => refusal,
    }
}

#[test]
fn every_cut_of_a_record_is_15() {
    for (tape, whole) in pushes().into_iter().zip([43, 47]) {
        assert_eq!(tape.len(), whole);
        for length in 1..whole {
            assert_eq!(refusal(&tape[..length], false), 15, "{length} bytes");
        }
        assert_eq!(refusal(&tape, false), 0);
    }
}

#[test]
fn an_unknown_byte_is_14_once_it_is_there() {
    for (place, unknown) in [(33, 2), (34, 3)] {
        for mut tape in pushes() {
            tape[place] = unknown;
            for length in 1..=tape.len() {
                let expected = if length > place { 14 } else { 15 };
                assert_eq!(refusal(&tape[..length], false), expected, "{length} bytes");
            }
        }
    }
    assert_eq!(refusal(&[0x00, 9], true), 15);
    assert_eq!(refusal(&[0x00, 9, 2], true), 14);
}

#[test]
fn kinds_have_their_place() {
    for kind in 0..=255 {
        let known = kind <= 0x0C;
        assert_eq!(refusal(&[kind], true), if kind == 0 { 15 } else { 14 });
        let bare = matches!(kind, 6 | 8);
        let expected = if kind == 0 || !known {
            14
        } else if bare {
            0
        } else {
            15
        };
        assert_eq!(refusal(&[kind], false), expected, "kind {kind}");
    }
}

#[test]
fn scripts_have_further_kinds() {
    for (kind, script, desk) in [
        (0x10, 14, 0),
        (0x11, 15, 15),
        (0x12, 15, 15),
        (0x13, 15, 15),
        (0x14, 15, 14),
    ] {
        let refusal = |format| read(format, &[kind], false).map_or_else(|stop| stop.refusal, |_| 0);
        assert_eq!(
            [
                refusal(Format::Tape),
                refusal(Format::Script),
                refusal(Format::Desk)
            ],
            [14, script, desk]
        );
    }
}

#[test]
fn records_are_written_as_they_are_read() {
    for profile in PROFILES {
        for seed in 0..20 {
            let tape = generate(profile, seed);
            let (calls, stop) = records(profile.format, &tape);
            let mut again = Vec::new();
            calls.iter().for_each(|call: &Call| write(&mut again, call));
            again.extend(stop.map_or(&[][..], |(_, rest)| rest));
            assert_eq!(again, tape);
        }
    }
}
