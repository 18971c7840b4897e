//! A record's answer and the whole state behind it as one line of named parts, as the port's crate state_listing prints it.
//! A list is its count and a digest of all its fields, a float its bits. The waiting events and the stored edits are sets:
//! no order changes their digests.

use crate::call::{Curve, Source};
use crate::player::{Answer, Places};
use crate::state::{EditState, EventState, MessageState, State};
use std::io::{self, Write};

/// A digest with one more number in it.
pub fn mixed(digest: u64, value: u64) -> u64 {
    ((digest << 7) ^ (digest >> 57)).wrapping_add(value)
}

/// Of numbers in their order.
fn ordered(words: impl IntoIterator<Item = u64>) -> u64 {
    words.into_iter().fold(0, mixed)
}

/// Of things that have no order, each given in numbers.
fn unordered(things: impl Iterator<Item = Vec<u64>>) -> u64 {
    things.map(ordered).fold(0, u64::wrapping_add)
}

/// The line of a record. A desk's queues are listed too, and an accepted block's places where they are given.
pub fn line(
    out: &mut impl Write,
    kind: u8,
    answer: Answer,
    places: Option<Places>,
    channels: usize,
    state: &State,
    desk: bool,
) -> io::Result<()> {
    let answer = match places {
        Some(Places { kept, forced, edge }) => format!("rendered:{kept}:{forced}:{edge}"),
        None => answer_text(answer),
    };
    write!(out, "{kind:02X} answer={answer}")?;
    let waiting = unordered(state.waiting.iter().map(event_words));
    let sounding = ordered(state.sounding.iter().flat_map(event_words));
    let finished = ordered(state.finished.iter().flat_map(event_words));
    let edits = unordered(state.edits.iter().map(edit_words));
    let index = ordered(numbers_by_place(&state.index));
    for (name, count, digest) in [
        ("waiting", state.waiting.len(), waiting),
        ("sounding", state.sounding.len(), sounding),
        ("finished", state.finished.len(), finished),
        ("edits", state.edits.len(), edits),
        ("index", state.index.len(), index),
    ] {
        write!(out, " {name}={count}:{digest:016X}")?;
    }
    for (name, bits) in [
        ("clock", state.clock),
        ("threshold", state.threshold),
        ("rate", state.rate),
        ("duration", state.duration),
    ] {
        write!(out, " {name}={bits:016X}")?;
    }
    let (next, gone) = (state.next, state.let_go);
    write!(out, " channels={channels} next={next} gone={gone}")?;
    if desk {
        let messages = ordered(state.messages.iter().flat_map(message_words));
        let returned = ordered(state.returned.iter().copied());
        let (queued, back) = (state.messages.len(), state.returned.len());
        write!(out, " messages={queued}:{messages:016X}")?;
        write!(out, " returned={back}:{returned:016X}")?;
    }
    writeln!(out)
}

fn answer_text(answer: Answer) -> String {
    match answer {
        Answer::Refused(number) => format!("refused:{number}"),
        Answer::Done => "done".into(),
        Answer::Number(number) => format!("number:{number}"),
        Answer::Applied => "applied".into(),
        Answer::Past => "past".into(),
        Answer::Stored => "stored".into(),
        Answer::Queued => "queued".into(),
    }
}

/// The index as a list: at each place the number that is said to sound there.
fn numbers_by_place(index: &[(u64, usize)]) -> Vec<u64> {
    let mut numbers = vec![u64::MAX; index.len()];
    for (number, place) in index {
        if let Some(at) = numbers.get_mut(*place) {
            *at = *number;
        }
    }
    numbers
}

/// Number, times, fades, gain, curve, source and its place.
fn event_words(event: &EventState) -> Vec<u64> {
    let curve = match event.curve {
        Curve::Power => 0,
        Curve::Smooth => 1,
    };
    let (source, word, other) = match event.source {
        Source::Held { level } => (0, level.to_bits(), 0),
        Source::Ramp { value, step } => (1, value.to_bits(), step.to_bits()),
        Source::Clip { offset, length } => (2, offset, length),
    };
    let times = [event.start, event.end, event.fade_in, event.fade_out];
    let mut words = vec![event.number];
    words.extend(times);
    words.extend([u64::from(event.gain), curve, source]);
    words.extend([word, other, event.value, event.place].map(u64::from));
    words
}

fn edit_words(edit: &EditState) -> Vec<u64> {
    vec![edit.number, edit.end, edit.fade_out]
}

fn message_words(message: &MessageState) -> Vec<u64> {
    let (kind, words) = match message {
        MessageState::Reset => (0, Vec::new()),
        MessageState::Push(pushed) => (1, event_words(pushed)),
        MessageState::PushRelative(pushed) => (2, event_words(pushed)),
        MessageState::Edit(edited) => (3, edit_words(edited)),
        MessageState::EditRelative(edited) => (4, edit_words(edited)),
    };
    std::iter::once(kind).chain(words).collect()
}

/// The names of the parts in which two such lines differ; none where one of them is another kind of line.
pub fn parts(expected: &str, got: &str) -> Option<String> {
    let named = |line: &str| line.split(' ').skip(1).all(|word| word.contains('='));
    let (expected_words, got_words) = (expected.split(' '), got.split(' '));
    if !named(expected) || !named(got) || expected_words.clone().count() < 2 {
        return None;
    }
    let names = expected_words
        .zip(got_words)
        .filter(|(expected, got)| expected != got)
        .map(|(expected, _)| expected.split('=').next().unwrap_or(expected));
    Some(names.collect::<Vec<_>>().join(", "))
}
