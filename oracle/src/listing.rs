//! The text of a played tape: what `trail` prints, with or without the whole state.

use crate::call::{Call, Curve, Mode, Source};
use crate::digest;
use crate::player::{Answer, Places, Player, Pool};
use crate::session::{Session, Step};
use crate::state::{Counts, EditState, EventState, MessageState, State, sample_bits};
use crate::tape::{self, Format};
use std::io::{self, Write};

/// What is printed after each record.
#[derive(Clone, Copy, PartialEq, Eq, Debug)]
pub enum Detail {
    /// `trail`'s lines.
    Listing,
    /// The desk's two queues too.
    Queues,
    /// The whole state as digests of named parts (src/digest.rs), for a program without decimal floats: of an engine in place
    /// of `trail`'s lines, of a desk behind them.
    Digest,
    /// The same, with the counts of an accepted block's places as its answer (document 02, Paper 12).
    Places,
    /// Answer, numbers, clock, lists, edits, index, whole output and scratch too.
    Full,
}

/// Play a tape and print its listing.
pub fn play<P: Player>(
    format: Format,
    detail: Detail,
    variant: P::Variant,
    tape: &[u8],
    pool: &Pool,
    out: &mut impl Write,
) -> io::Result<()> {
    let mut session: Option<Session<P>> = None;
    let mut rest = tape;
    while !rest.is_empty() {
        let (call, length) = match tape::read(format, rest, session.is_none()) {
            Ok(read) => read,
            Err(stop) => {
                if states_only(format, detail) {
                    let answer = Answer::Refused(stop.refusal);
                    // Before the first record stands a fresh engine of one channel.
                    let fresh = || P::create(variant, 1, Mode::All, 1).0;
                    let player = session.map_or_else(fresh, |session| session.player);
                    return state(out, format, stop.kind, answer, None, &player);
                }
                let counts = session.as_ref().map(|session| session.player.counts());
                return line(out, stop.kind, stop.refusal, counts.unwrap_or_default());
            }
        };
        rest = &rest[length..];
        let step = match &mut session {
            Some(session) => session.step(&call),
            None => {
                let (created, answer) = Session::create(variant, &call, pool);
                if answer.refusal() != 0 {
                    if states_only(format, detail) {
                        return state(out, format, call.kind(), answer, None, &created.player);
                    }
                    return line(out, call.kind(), answer.refusal(), Counts::default());
                }
                session = Some(created);
                Step {
                    answer,
                    samples: None,
                }
            }
        };
        if let Some(session) = &session {
            record(out, format, detail, &call, step, session)?;
        }
    }
    Ok(())
}

fn line(out: &mut impl Write, kind: u8, refusal: u8, counts: Counts) -> io::Result<()> {
    let Counts {
        waiting,
        sounding,
        finished,
        let_go,
    } = counts;
    writeln!(
        out,
        "{kind:02X} {refusal} {waiting} {sounding} {finished} {let_go}"
    )
}

/// An engine's digests stand alone.
fn states_only(format: Format, detail: Detail) -> bool {
    matches!(detail, Detail::Digest | Detail::Places) && format != Format::Desk
}

fn state<P: Player>(
    out: &mut impl Write,
    format: Format,
    kind: u8,
    answer: Answer,
    places: Option<Places>,
    player: &P,
) -> io::Result<()> {
    let (desk, channels) = (format == Format::Desk, player.channels());
    digest::line(out, kind, answer, places, channels, &player.state(), desk)
}

/// The counts of an accepted block's places, where they are asked for.
fn places<P: Player>(detail: Detail, call: &Call, step: Step, player: &P) -> Option<Places> {
    let block = matches!(
        call,
        Call::Block(_) | Call::BlockLent(..) | Call::MarkedBlock(_)
    );
    if detail == Detail::Places && block && step.samples.is_some() {
        player.places()
    } else {
        None
    }
}

fn record<P: Player>(
    out: &mut impl Write,
    format: Format,
    detail: Detail,
    call: &Call,
    step: Step,
    session: &Session<P>,
) -> io::Result<()> {
    let player = &session.player;
    let places = places(detail, call, step, player);
    if states_only(format, detail) {
        return state(out, format, call.kind(), step.answer, places, player);
    }
    line(out, call.kind(), step.answer.refusal(), player.counts())?;
    if let Some(count) = step.samples {
        for channel in 0..player.channels() {
            samples(out, session.samples(channel, count))?;
        }
    }
    match detail {
        Detail::Listing => Ok(()),
        Detail::Queues => queues(out, &player.state()),
        Detail::Digest | Detail::Places => {
            state(out, format, call.kind(), step.answer, places, player)
        }
        Detail::Full => {
            full(out, step.answer, &player.state())?;
            whole(out, "output", &session.output)?;
            whole(out, "scratch", &session.scratch)
        }
    }
}

/// A line of samples' bits.
fn samples(out: &mut impl Write, samples: &[f32]) -> io::Result<()> {
    let mut text = Vec::with_capacity(9 * samples.len() + 1);
    for (place, sample) in samples.iter().enumerate() {
        if place > 0 {
            text.push(b' ');
        }
        let bits = sample_bits(*sample);
        for digit in (0..8).rev() {
            let digit = bits >> (4 * digit) & 0xF;
            text.push(b"0123456789ABCDEF"[digit as usize]);
        }
    }
    text.push(b'\n');
    out.write_all(&text)
}

/// All of what was lent, if anything was.
fn whole(out: &mut impl Write, name: &str, memory: &[f32]) -> io::Result<()> {
    if memory.is_empty() {
        return Ok(());
    }
    write!(out, "  {name} ")?;
    samples(out, memory)
}

fn queues(out: &mut impl Write, state: &State) -> io::Result<()> {
    writeln!(out, "  messages {}", state.messages.len())?;
    for message in &state.messages {
        match message {
            MessageState::Reset => writeln!(out, "    reset")?,
            MessageState::Push(pushed) => event(out, "push", pushed)?,
            MessageState::PushRelative(pushed) => event(out, "push-relative", pushed)?,
            MessageState::Edit(edited) => edit(out, "edit", edited)?,
            MessageState::EditRelative(edited) => edit(out, "edit-relative", edited)?,
        }
    }
    write!(out, "  returned {}:", state.returned.len())?;
    for number in &state.returned {
        write!(out, " {number}")?;
    }
    writeln!(out)
}

fn full(out: &mut impl Write, answer: Answer, state: &State) -> io::Result<()> {
    match answer {
        Answer::Refused(number) => writeln!(out, "  answer refused {number}")?,
        Answer::Done => writeln!(out, "  answer done")?,
        Answer::Number(number) => writeln!(out, "  answer number {number}")?,
        Answer::Applied => writeln!(out, "  answer applied")?,
        Answer::Past => writeln!(out, "  answer past")?,
        Answer::Stored => writeln!(out, "  answer stored")?,
        Answer::Queued => writeln!(out, "  answer queued")?,
    }
    let float = f64::from_bits;
    writeln!(
        out,
        "  clock {:?} threshold {:?} rate {:?} duration {:?} next {}",
        float(state.clock),
        float(state.threshold),
        float(state.rate),
        float(state.duration),
        state.next,
    )?;
    for (name, events) in [
        ("waiting", &state.waiting),
        ("sounding", &state.sounding),
        ("finished", &state.finished),
    ] {
        for listed in events {
            event(out, name, listed)?;
        }
    }
    for stored in &state.edits {
        edit(out, "stored edit", stored)?;
    }
    write!(out, "  index")?;
    for (number, place) in &state.index {
        write!(out, " {number}:{place}")?;
    }
    writeln!(out)?;
    queues(out, state)
}

fn event(out: &mut impl Write, name: &str, event: &EventState) -> io::Result<()> {
    let float = f64::from_bits;
    let curve = match event.curve {
        Curve::Power => "power",
        Curve::Smooth => "smooth",
    };
    write!(
        out,
        "    {name} {} start {:?} end {:?} fade-in {:?} fade-out {:?} gain {:?} {curve} ",
        event.number,
        float(event.start),
        float(event.end),
        float(event.fade_in),
        float(event.fade_out),
        f32::from_bits(event.gain),
    )?;
    match event.source {
        Source::Held { level } => writeln!(out, "held {level:?}"),
        Source::Ramp { value, step } => {
            let next = f32::from_bits(event.value);
            writeln!(out, "ramp {value:?} {step:?} next {next:?}")
        }
        Source::Clip { offset, length } => {
            writeln!(out, "clip {offset} {length} place {}", event.place)
        }
    }
}

fn edit(out: &mut impl Write, name: &str, edit: &EditState) -> io::Result<()> {
    let (end, fade_out) = (f64::from_bits(edit.end), f64::from_bits(edit.fade_out));
    writeln!(
        out,
        "    {name} {} end {end:?} fade-out {fade_out:?}",
        edit.number
    )
}
