//! Each mutated ledger is caught by the driver within 200 tapes of a fitting profile, and where states are compared the driver
//! names the parts that differ.

use oracle::text::from_text;
use std::io::Write;
use std::process::{Command, Output, Stdio};

/// What is compared: listings, an engine's states, or a desk's listings and states.
const LISTING: &[&str] = &[];
const STATES: &[&str] = &["--digest"];
const DESK: &[&str] = &["--desk"];
/// States with the counts of a block's places.
const PLACES: &[&str] = &["--digest", "--places"];
const DESK_PLACES: &[&str] = &["--desk", "--places"];

fn compare(what: &[&str], profile: &str, mutation: Option<&str>) -> Output {
    let mut command = Command::new(env!("CARGO_BIN_EXE_compare"));
    command.args(what);
    command.args(["--tapes", "200", "--profile", profile, "--program"]);
    command.arg(env!("CARGO_BIN_EXE_ledger-trail"));
    command.args(what);
    if let Some(name) = mutation {
        command.args(["--mutation", name]);
    }
    command.output().expect("the driver runs")
}

/// The driver fails and shows a small tape; its report.
fn caught(what: &[&str], profile: &str, mutation: &str) -> String {
    let output = compare(what, profile, Some(mutation));
    let report = String::from_utf8(output.stderr).expect("a report is text");
    assert!(!output.status.success(), "{mutation} is not caught");
    let smallest = report
        .split("smallest tape:\n")
        .nth(1)
        .expect("a smallest tape");
    let records = smallest
        .lines()
        .take_while(|line| !line.starts_with("line "))
        .count();
    assert!(records <= 20, "{mutation}: {records} records\n{report}");
    println!("{mutation}:\n{report}");
    report
}

/// The driver says in which parts the states on the smallest tape differ.
fn named(what: &[&str], profile: &str, mutation: &str, parts: &str) {
    let report = caught(what, profile, mutation);
    let last = report.lines().rfind(|line| line.starts_with("line "));
    let names = last.and_then(|line| line.split(", in ").nth(1));
    assert_eq!(names, Some(parts), "{report}");
}

#[test]
fn the_ledger_itself_passes() {
    for profile in [
        "small",
        "swaps",
        "fades",
        "edits",
        "modes",
        "blocks",
        "gains-one",
        "gains",
    ] {
        for what in [LISTING, STATES, PLACES] {
            let output = compare(what, profile, None);
            assert!(output.status.success(), "{output:?}");
        }
    }
    for what in [DESK, DESK_PLACES] {
        assert!(compare(what, "desk-resets", None).status.success());
        assert!(compare(what, "desk-marks", None).status.success());
    }
}

#[test]
fn swap_order_ignored() {
    caught(LISTING, "swaps", "swap-order-ignored");
    named(STATES, "swaps", "swap-order-ignored", "sounding, index");
}

#[test]
fn moved_event_skipped() {
    caught(LISTING, "swaps", "moved-event-skipped");
    named(STATES, "swaps", "moved-event-skipped", "sounding");
}

#[test]
fn fade_counted_by_rate() {
    caught(LISTING, "fades", "fade-by-rate");
}

#[test]
fn fade_counted_from_the_edge() {
    caught(LISTING, "fades", "fade-from-edge");
}

#[test]
fn gain_after_the_fades() {
    caught(LISTING, "gains", "gain-after-fades");
}

#[test]
fn ramp_goes_on_with_the_gain() {
    caught(LISTING, "gains", "ramp-with-gain");
    named(STATES, "gains", "ramp-with-gain", "sounding");
}

#[test]
fn gain_0_holds_the_source() {
    named(STATES, "gains", "gain-zero-holds", "sounding");
}

#[test]
fn edge_raised_counts_as_forced() {
    named(PLACES, "edits", "edge-raised-is-forced", "answer");
}

#[test]
fn silent_not_counted() {
    named(PLACES, "blocks", "silent-not-counted", "answer");
    named(DESK_PLACES, "desk-small", "silent-not-counted", "answer");
}

#[test]
fn push_takes_an_edit() {
    caught(LISTING, "edits", "push-takes-edit");
    named(STATES, "edits", "push-takes-edit", "sounding, edits");
}

#[test]
fn reset_empties_edits() {
    caught(LISTING, "modes", "reset-empties-edits");
    named(STATES, "modes", "reset-empties-edits", "edits");
}

#[test]
fn block_as_n_ticks() {
    caught(LISTING, "blocks", "block-as-ticks");
    named(STATES, "blocks", "block-as-ticks", "clock, threshold");
}

/// Document 02, Paper 3: the slip shows in the example tape, whose block leaves the clip sounding, while two ticks leave it
/// finished.
#[test]
fn block_as_n_ticks_in_the_example() {
    let tape = "create 1 all 1\nrate 8\npush 0 0.125 0 0 smooth held 1\nblock 2\n";
    let block = |arguments: &[&str]| {
        let mut child = Command::new(env!("CARGO_BIN_EXE_ledger-trail"))
            .args(arguments)
            .stdin(Stdio::piped())
            .stdout(Stdio::piped())
            .spawn()
            .expect("the ledger runs");
        let mut stdin = child.stdin.take().expect("it is piped");
        stdin
            .write_all(&from_text(tape).expect("a tape"))
            .expect("it reads");
        drop(stdin);
        let listing = child.wait_with_output().expect("it ends").stdout;
        let listing = String::from_utf8(listing).expect("a listing is text");
        listing.lines().nth(3).map(String::from)
    };
    assert_eq!(block(&[]).as_deref(), Some("07 0 0 1 0 0"));
    let mutated = block(&["--mutation", "block-as-ticks"]);
    assert_eq!(mutated.as_deref(), Some("07 0 0 0 1 0"));
}

/// Document 02, Paper 9: a marked call adds from the end of the list as the call leaves it.
#[test]
fn mark_ignored() {
    caught(DESK, "desk-marks", "mark-ignored");
}

#[test]
fn mark_before_moves() {
    caught(DESK, "desk-marks", "mark-before-moves");
}

/// Where every contribution qualifies the mark is without consequence, and the Rust, which has none, is the judge.
#[test]
fn marks_without_consequence() {
    for mutation in [None, Some("mark-ignored"), Some("mark-before-moves")] {
        let output = compare(DESK_PLACES, "desk-marks-alike", mutation);
        assert!(output.status.success(), "{output:?}");
        let counts = String::from_utf8(output.stdout).expect("counts are text");
        assert!(counts.contains("by the original: 200 tapes"), "{counts}");
    }
}

#[test]
fn queue_handled_flat() {
    named(DESK, "desk-resets", "queue-flat", "edits");
}
