//! Document 02, Paper 12: how the places of a block came, in the states that are listed. The figures are worked out by hand.

use oracle::judge;
use oracle::listing::Detail;
use oracle::session::{TRAIL_POOL, pool};
use oracle::tape::Format;
use oracle::text::from_text;

/// The answers of a tape's or script's blocks.
fn answers(format: Format, detail: Detail, text: &str) -> Vec<String> {
    let tape = from_text(text).expect("a tape");
    let mut out = Vec::new();
    judge::play(format, detail, &tape, &pool(TRAIL_POOL), &mut out).expect("memory takes all");
    let out = String::from_utf8(out).expect("states are text");
    let lines = out.lines().filter(|line| line.starts_with("07 answer="));
    let words = lines.filter_map(|line| line.split(' ').nth(1));
    words
        .map(|word| word.trim_start_matches("answer=").into())
        .collect()
}

fn blocks(text: &str) -> Vec<String> {
    answers(Format::Tape, Detail::Places, text)
}

#[test]
fn edges_are_set_without_the_index_step() {
    // s at the clock, z at e; both fades' places at the edge too
    let held = "create 1 all 1\nrate 8\npush 0 inf 0 0 smooth held 1\nblock 8\nblock 0\n";
    assert_eq!(blocks(held), ["rendered:0:0:2", "rendered:0:0:2"]);
    let fades =
        "create 3 all 1\nrate 8\npush 0 2 2 2 smooth held 1\nblock 8\ntick\nblock 8\nblock 64\n";
    // the second block: z and the fade-in's end are 7, rounded; the last: the clip is finished before it sounds
    let expected = ["rendered:0:0:4", "rendered:2:0:2", "rendered:0:0:0"];
    assert_eq!(blocks(fades), expected);
}

#[test]
fn rounded_places_are_kept() {
    // s 4 and z 12 of 16; fade-in's end 6 and fade-out's begin 10
    let text = "create 1 all 1\nrate 8\npush 0.5 1.5 0.25 0.25 smooth held 1\nblock 16\n";
    assert_eq!(blocks(text), ["rendered:4:0:0"]);
    // a fade-in's end below s (2 and 1) is kept, and a fade's place that covers nothing counts
    let text = "create 1 all 1\nrate 5\npush 0.3 inf 1e-17 0 smooth held 1\nblock 8\n";
    assert_eq!(blocks(text), ["rendered:2:0:1"]);
    // a fade-out after z
    let text = "create 1 all 1\nrate 7\npush 0 0.3571428571428571 0 1e-17 smooth held 1\nblock 8\n";
    assert_eq!(blocks(text), ["rendered:2:0:1"]);
}

#[test]
fn silent_events_count_s_and_z_alone() {
    // rate 10, start 0.15: it sounds in a block of 2 with s 2 and z 2
    let text = "create 1 all 1\nrate 10\npush 0.15 inf 1 0 smooth held 1\nblock 2\nblock 2\n";
    assert_eq!(blocks(text), ["rendered:1:0:1", "rendered:0:0:3"]);
}

#[test]
fn a_raise_to_s_forces_a_rounded_place() {
    let text = |fade_out| {
        format!(
            "create 1 all 1\nrate 8\npush 1 3 0 0 smooth held 1\nedit 1 2.5 {fade_out}\nblock 16\n"
        )
    };
    // s 8 is kept, z is an edge; the fade-out begins at 4 of the block, at 8, at 12, at the clock and before it
    assert_eq!(blocks(&text("2")), ["rendered:1:1:1"]);
    assert_eq!(blocks(&text("1.5")), ["rendered:2:0:1"]);
    assert_eq!(blocks(&text("1")), ["rendered:2:0:1"]);
    assert_eq!(blocks(&text("2.5")), ["rendered:1:0:2"]);
    assert_eq!(blocks(&text("4")), ["rendered:1:0:2"]);
    // over a whole clip, one place before s: rate 5, start 0.7 has s 4 and place 3; and one after it
    let before = "create 1 all 1\nrate 5\npush 0.7 1.4 0 0.7 smooth held 1\nblock 16\n";
    assert_eq!(blocks(before), ["rendered:2:1:0"]);
    let after = "create 1 all 1\nrate 7\n\
                 push 0.9285714285714285 1.857142857142857 0 0.9285714285714285 smooth held 1\nblock 16\n";
    assert_eq!(blocks(after), ["rendered:3:0:0"]);
}

#[test]
fn refused_blocks_and_ticks_report_nothing() {
    let text =
        "create 1 all 1\nrate 8\npush 0 1 0 0 smooth held 1 gain 0.5\nblock 65\nblock 4\ntick\n";
    assert_eq!(blocks(text), ["refused:11", "rendered:0:0:2"]);
    let plain = answers(Format::Tape, Detail::Digest, text);
    assert_eq!(plain, ["refused:11", "done"]);
}

#[test]
fn a_desks_back_block_counts_after_draining() {
    let text = "create 1 none 1\nrate 8\npush 0.25 inf 0 0 smooth held 1\nblock 8\nblock 8\n";
    let expected = ["rendered:1:0:1", "rendered:0:0:2"];
    assert_eq!(answers(Format::Desk, Detail::Places, text), expected);
}
