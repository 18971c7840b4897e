//! Tapes as readable text, one record a line, and back. README.md gives the format.

use crate::call::{Call, Curve, Edit, Mode, Push, PushKind, Source, Timing};
use crate::tape::{self, Format};
use std::fmt::Write;
use std::str::{FromStr, SplitWhitespace};

/// The text of a tape. Bytes that are no whole record stand on a last line of their own.
pub fn to_text(format: Format, tape: &[u8]) -> String {
    let (calls, stop) = tape::records(format, tape);
    let mut text = String::new();
    for call in &calls {
        text += &line(call);
        text.push('\n');
    }
    if let Some((_, rest)) = stop {
        text += "bytes";
        for byte in rest {
            write!(text, " {byte:02X}").expect("a string takes all");
        }
        text.push('\n');
    }
    text
}

fn line(call: &Call) -> String {
    match *call {
        Call::Create {
            channels,
            mode,
            first,
        } => {
            let mode = match mode {
                Mode::All => "all",
                Mode::None => "none",
            };
            format!("create {channels} {mode} {first}")
        }
        Call::Push(kind, push, unused) => push_line(kind, &push, unused),
        Call::Edit(timing, edit) => {
            let name = match timing {
                Timing::Absolute => "edit",
                Timing::Relative => "edit-relative",
            };
            let (end, fade_out) = (double(edit.end), double(edit.fade_out));
            format!("{name} {} {end} {fade_out}", edit.number)
        }
        Call::Tick => "tick".into(),
        Call::Block(size) => format!("block {size}"),
        Call::Reset => "reset".into(),
        Call::Rate(rate) => format!("rate {}", double(rate)),
        Call::FrontReset => "front-reset".into(),
        Call::TickLent(output) => format!("tick-lent {output}"),
        Call::BlockLent(size, output, None) => format!("block-lent {size} {output} none"),
        Call::BlockLent(size, output, Some(scratch)) => {
            format!("block-lent {size} {output} {scratch}")
        }
        Call::Pool(length) => format!("pool {length}"),
        Call::Spin(blocks) => format!("spin {blocks}"),
        Call::MarkedTick => "tick-marked".into(),
        Call::MarkedBlock(size) => format!("block-marked {size}"),
    }
}

fn push_line(kind: PushKind, push: &Push, unused: u32) -> String {
    let name = match kind {
        PushKind::Absolute => "push",
        PushKind::Relative => "push-relative",
        PushKind::Duration => "push-duration",
    };
    let curve = match push.curve {
        Curve::Power => "power",
        Curve::Smooth => "smooth",
    };
    let source = match push.source {
        Source::Held { level } if unused == 0 => format!("held {}", single(level)),
        Source::Held { level } => format!("held {} {unused}", single(level)),
        Source::Ramp { value, step } => format!("ramp {} {}", single(value), single(step)),
        Source::Clip { offset, length } => format!("clip {offset} {length}"),
    };
    let [start, end, fade_in, fade_out] =
        [push.start, push.end, push.fade_in, push.fade_out].map(double);
    let gain = match push.written_gain {
        Some(gain) => format!(" gain {}", single(gain)),
        None => String::new(),
    };
    format!("{name} {start} {end} {fade_in} {fade_out} {curve} {source}{gain}")
}

/// Shortest digits that read back as the same number; a NaN by its bits.
fn double(x: f64) -> String {
    if x.is_nan() {
        format!("bits:{:016X}", x.to_bits())
    } else {
        format!("{x:?}")
    }
}

fn single(x: f32) -> String {
    if x.is_nan() {
        format!("bits:{:08X}", x.to_bits())
    } else {
        format!("{x:?}")
    }
}

/// The tape of a text. A `#` begins a comment.
pub fn from_text(text: &str) -> Result<Vec<u8>, String> {
    let mut tape = Vec::new();
    for (place, line) in text.lines().enumerate() {
        let code = line.split('#').next().unwrap_or("");
        let mut words = Words(code.split_whitespace());
        let Some(name) = words.0.next() else {
            continue;
        };
        let result = read_line(name, &mut words, &mut tape);
        let result = result.and_then(|()| words.end());
        result.map_err(|what| format!("line {}: {what}: {line}", place + 1))?;
    }
    Ok(tape)
}

/// The words of a line that are still to be read.
struct Words<'a>(SplitWhitespace<'a>);

impl<'a> Words<'a> {
    fn word(&mut self) -> Result<&'a str, String> {
        self.0.next().ok_or("a word is missing".into())
    }

    /// Whether there is a next word, and it is such a one.
    fn next_is(&self, such: impl Fn(&str) -> bool) -> bool {
        self.0.clone().next().is_some_and(such)
    }

    fn number<T: FromStr>(&mut self) -> Result<T, String> {
        let word = self.word()?;
        word.parse().map_err(|_| format!("bad number {word}"))
    }

    fn double(&mut self) -> Result<f64, String> {
        let word = self.word()?;
        match word.strip_prefix("bits:") {
            Some(bits) => u64::from_str_radix(bits, 16).ok().map(f64::from_bits),
            None => word.parse().ok(),
        }
        .ok_or(format!("bad number {word}"))
    }

    fn single(&mut self) -> Result<f32, String> {
        let word = self.word()?;
        match word.strip_prefix("bits:") {
            Some(bits) => u32::from_str_radix(bits, 16).ok().map(f32::from_bits),
            None => word.parse().ok(),
        }
        .ok_or(format!("bad number {word}"))
    }

    fn one_of<T: Copy>(&mut self, choices: &[(&str, T)]) -> Result<T, String> {
        let word = self.word()?;
        let choice = choices.iter().find(|(name, _)| *name == word);
        choice
            .map(|(_, value)| *value)
            .ok_or(format!("unknown word {word}"))
    }

    fn end(&mut self) -> Result<(), String> {
        match self.0.next() {
            None => Ok(()),
            Some(word) => Err(format!("a word too many: {word}")),
        }
    }
}

fn read_line(name: &str, words: &mut Words, tape: &mut Vec<u8>) -> Result<(), String> {
    if name == "bytes" {
        for word in words.0.by_ref() {
            let byte = u8::from_str_radix(word, 16);
            tape.push(byte.map_err(|_| format!("bad byte {word}"))?);
        }
        return Ok(());
    }
    let call = match name {
        "create" => Call::Create {
            channels: words.number()?,
            mode: words.one_of(&[("all", Mode::All), ("none", Mode::None)])?,
            first: words.number()?,
        },
        "push" => read_push(PushKind::Absolute, words)?,
        "push-relative" => read_push(PushKind::Relative, words)?,
        "push-duration" => read_push(PushKind::Duration, words)?,
        "edit" => Call::Edit(Timing::Absolute, read_edit(words)?),
        "edit-relative" => Call::Edit(Timing::Relative, read_edit(words)?),
        "tick" => Call::Tick,
        "tick-marked" => Call::MarkedTick,
        "block-marked" => Call::MarkedBlock(words.number()?),
        "block" => Call::Block(words.number()?),
        "reset" => Call::Reset,
        "rate" => Call::Rate(words.double()?),
        "front-reset" => Call::FrontReset,
        "tick-lent" => Call::TickLent(words.number()?),
        "block-lent" => {
            let (size, output) = (words.number()?, words.number()?);
            let scratch = match words.word()? {
                "none" => None,
                word => Some(word.parse().map_err(|_| format!("bad number {word}"))?),
            };
            Call::BlockLent(size, output, scratch)
        }
        "pool" => Call::Pool(words.number()?),
        "spin" => Call::Spin(words.number()?),
        _ => return Err(format!("unknown word {name}")),
    };
    tape::write(tape, &call);
    Ok(())
}

fn read_push(kind: PushKind, words: &mut Words) -> Result<Call, String> {
    let (start, end) = (words.double()?, words.double()?);
    let (fade_in, fade_out) = (words.double()?, words.double()?);
    let curve = words.one_of(&[("power", Curve::Power), ("smooth", Curve::Smooth)])?;
    let mut unused = 0;
    let source = match words.word()? {
        "held" => {
            let level = words.single()?;
            if words.next_is(|word| word != "gain") {
                unused = words.number()?;
            }
            Source::Held { level }
        }
        "ramp" => Source::Ramp {
            value: words.single()?,
            step: words.single()?,
        },
        "clip" => Source::Clip {
            offset: words.number()?,
            length: words.number()?,
        },
        word => return Err(format!("unknown source {word}")),
    };
    let mut written_gain = None;
    if words.next_is(|word| word == "gain") {
        words.word()?;
        written_gain = Some(words.single()?);
    }
    let push = Push {
        start,
        end,
        fade_in,
        fade_out,
        curve,
        source,
        written_gain,
    };
    Ok(Call::Push(kind, push, unused))
}

fn read_edit(words: &mut Words) -> Result<Edit, String> {
    Ok(Edit {
        number: words.number()?,
        end: words.double()?,
        fade_out: words.double()?,
    })
}
