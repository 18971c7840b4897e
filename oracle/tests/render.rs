//! What the C entry must write: the listing's samples as bytes, cut where they do not fit.

use oracle::engine::Engine;
use oracle::generate::{PROFILES, generate};
use oracle::listing::{Detail, play};
use oracle::render::render;
use oracle::session::{TRAIL_POOL, pool};
use oracle::tape::Format;
use oracle::text::from_text;

/// The bytes of a listing's sample lines: those whose words have eight digits.
fn listed_bytes(tape: &[u8]) -> Vec<u8> {
    let mut text = Vec::new();
    play::<Engine>(
        Format::Tape,
        Detail::Listing,
        (),
        tape,
        &pool(TRAIL_POOL),
        &mut text,
    )
    .expect("memory takes all");
    let text = String::from_utf8(text).expect("a listing is text");
    let lines = text
        .lines()
        .filter(|line| line.find(' ').unwrap_or(line.len()) == 8);
    let words = lines.flat_map(|line| line.split(' '));
    words
        .flat_map(|word| u32::from_str_radix(word, 16).expect("bits").to_le_bytes())
        .collect()
}

#[test]
fn bytes_are_the_listings() {
    let pool = pool(TRAIL_POOL);
    for profile in PROFILES
        .iter()
        .filter(|profile| profile.format == Format::Tape)
    {
        for seed in 0..20 {
            let tape = generate(profile, seed);
            let expected = listed_bytes(&tape);
            let mut out = vec![0xA5; expected.len() + 7];
            let count = render(&tape, &mut out, &pool);
            assert_eq!(out[..count], expected);
            assert_eq!(out[count..], [0xA5; 7]);
        }
    }
}

#[test]
fn it_stops_before_what_does_not_fit() {
    let pool = pool(TRAIL_POOL);
    let tape = "create 2 all 1\nrate 8\npush 0 inf 0 0 smooth ramp 1 1\n\
                tick\nblock 65\nblock 0\nblock 3\nblock 0\ntick\n";
    let tape = from_text(tape).unwrap();
    for (length, count) in [
        (0, 0),
        (7, 0),
        (8, 8),
        (31, 8),
        (32, 32),
        (39, 32),
        (40, 40),
        (99, 40),
    ] {
        let mut out = vec![0xA5; length];
        assert_eq!(render(&tape, &mut out, &pool), count, "{length} bytes lent");
        assert!(out[count..].iter().all(|byte| *byte == 0xA5));
    }
}
