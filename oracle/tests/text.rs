//! Text and tape turn into each other.

use oracle::generate::{PROFILES, generate};
use oracle::text::{from_text, to_text};

#[test]
fn every_tape_comes_back() {
    for profile in PROFILES {
        for seed in 0..100 {
            let tape = generate(profile, seed);
            let text = to_text(profile.format, &tape);
            assert_eq!(
                from_text(&text).as_ref(),
                Ok(&tape),
                "{}, seed {seed}",
                profile.name
            );
        }
    }
}

#[test]
fn the_example_reads_as_in_document_01() {
    let text =
        "create 1 all 1 # the example\nrate 8\n\npush 0 0.125 0 0 smooth held 1\nblock 2\ntick\n";
    let mut tape = vec![0x00, 1, 0, 1, 0, 0, 0, 0, 0, 0, 0, 0x09];
    tape.extend(8.0f64.to_le_bytes());
    tape.push(0x01);
    for time in [0.0, 0.125, 0.0, 0.0] {
        tape.extend(f64::to_le_bytes(time));
    }
    tape.extend([1, 0]);
    tape.extend(1.0f32.to_le_bytes());
    tape.extend([0, 0, 0, 0, 0x07, 2, 0x06]);
    assert_eq!(from_text(text), Ok(tape));
}

/// Document 02, Paper 5: kinds 0A to 0C are 01 to 03 with four gain bytes at the end of the body.
#[test]
fn a_gain_stands_at_the_end() {
    for (name, kind) in [("push", 1), ("push-relative", 2), ("push-duration", 3)] {
        for source in ["held 1", "held 1 7", "ramp 1 2", "clip 3 4"] {
            let plain = format!("{name} 0 1 0 0 power {source}");
            let mut tape = from_text(&plain).unwrap();
            assert_eq!(tape[0], kind);
            tape[0] = kind + 9;
            tape.extend(0.75f32.to_le_bytes());
            assert_eq!(from_text(&format!("{plain} gain 0.75")), Ok(tape));
        }
    }
}

#[test]
fn bad_lines_are_named() {
    for text in [
        "tock",
        "block",
        "block 256",
        "tick 1",
        "push 0 1 0 0 smooth held",
        "push 0 1 0 0 smooth held 1 gain",
        "push 0 1 0 0 smooth held 1 gain 1 1",
        "bytes G0",
    ] {
        let error = from_text(&format!("create 1 all 1\n{text}\n")).unwrap_err();
        assert!(error.starts_with("line 2: "), "{error}");
    }
}
