//! Each refusal: the call that answers it, that this call changes nothing, and its number and words.

use chakaqel::{
    Arrays, EventId, Fade, MAX_CHANNELS, MAX_EDITS, MAX_EVENTS, Refusal, ReplayMode, Sequencer,
    Source, entries,
};

const LEVEL: Source = Source::Held(1.0);
const TOO_FAR: f64 = 1_000_000_001.0;
/// Where crates/memory/src/lib.rt has the clock among the times.
const CLOCK: usize = 3072;

fn engine(channels: usize) -> Sequencer {
    Sequencer::new(channels, ReplayMode::None, 1).unwrap()
}

/// The call is refused so, and the engine is as before.
fn refused<T: std::fmt::Debug>(
    sequencer: &mut Sequencer,
    refusal: Refusal,
    call: impl FnOnce(&mut Sequencer) -> Result<T, Refusal>,
) {
    let before = sequencer.clone();
    assert_eq!(call(sequencer).unwrap_err(), refusal);
    assert!(sequencer.as_arrays().same_bits(before.as_arrays()));
}

/// The three pushes are refused so.
fn pushes_refused(
    sequencer: &mut Sequencer,
    refusal: Refusal,
    [start, end, fade_in, fade_out]: [f64; 4],
    source: Source,
    gain: f32,
) {
    let fade = Fade::Smooth;
    refused(sequencer, refusal, |s| {
        s.push(start, end, fade, fade_in, fade_out, source, gain)
    });
    refused(sequencer, refusal, |s| {
        s.push_relative(start, end, fade, fade_in, fade_out, source, gain)
    });
    refused(sequencer, refusal, |s| {
        s.push_duration(start, end, fade, fade_in, fade_out, source, gain)
    });
}

#[test]
fn creations() {
    for (channels, first) in [(0, 1), (MAX_CHANNELS + 1, 1), (usize::MAX, 1), (1, 0)] {
        let mode = ReplayMode::None;
        let new = Sequencer::new(channels, mode, first);
        assert_eq!(new.unwrap_err(), Refusal::Creation);
        // In place it leaves an empty engine of one channel, first number 1.
        let mut sequencer = engine(8);
        let again = sequencer.create(channels, mode, first);
        assert_eq!(again, Err(Refusal::Creation));
        sequencer.tick(&[], &mut [0.0]).unwrap();
        let pushed = sequencer.push(0.0, 1.0, Fade::Power, 0.0, 0.0, LEVEL, 1.0);
        assert_eq!(pushed.unwrap().id, EventId::from_number(1));
    }
}

#[test]
fn rates() {
    for rate in [0.999, 1_000_001.0, -8.0, 0.0, f64::NAN, f64::INFINITY] {
        refused(&mut engine(1), Refusal::Rate, |s| s.set_sample_rate(rate));
    }
    for rate in [1.0, 1_000_000.0] {
        engine(1).set_sample_rate(rate).unwrap();
    }
}

#[test]
fn pushes() {
    let mut s = engine(1);
    let mut times = |refusal, times| pushes_refused(&mut s, refusal, times, LEVEL, 1.0);
    times(Refusal::Time, [f64::NAN, 1.0, 0.0, 0.0]);
    times(Refusal::Time, [0.0, f64::NAN, 0.0, 0.0]);
    times(Refusal::Time, [0.0, 1.0, f64::INFINITY, 0.0]);
    times(Refusal::Time, [0.0, 1.0, 0.0, -TOO_FAR]);
    times(Refusal::Time, [0.0, f64::NEG_INFINITY, 0.0, 0.0]);
    times(Refusal::LongFade, [0.0, 1.0, 1.01, 0.0]);
    times(Refusal::LongFade, [0.0, 1.0, 0.0, 1.01]);
    let times = [0.0, 1.0, 1.0, 1.0];
    let ramp = |value, step| Source::Ramp { value, step };
    for source in [
        Source::Held(f32::NAN),
        ramp(f32::INFINITY, 0.0),
        ramp(0.0, f32::NAN),
    ] {
        pushes_refused(&mut s, Refusal::Source, times, source, f32::NAN);
    }
    for gain in [f32::NAN, f32::INFINITY, f32::NEG_INFINITY] {
        pushes_refused(&mut s, Refusal::Gain, times, LEVEL, gain);
    }
    for _ in 0..MAX_EVENTS {
        s.push(0.0, 1.0, Fade::Power, 0.0, 0.0, LEVEL, 1.0).unwrap();
    }
    pushes_refused(&mut s, Refusal::Full, times, LEVEL, 1.0);
}

#[test]
fn the_last_number() {
    let mut s = Sequencer::new(1, ReplayMode::None, u64::MAX).unwrap();
    let pushed = s.push(0.0, 1.0, Fade::Power, 0.0, 0.0, LEVEL, 1.0);
    assert_eq!(pushed.unwrap().id.number(), u64::MAX);
    let times = [0.0, 1.0, 0.0, 0.0];
    pushes_refused(&mut s, Refusal::Numbers, times, LEVEL, 1.0);
}

#[test]
fn edits() {
    let mut s = engine(1);
    let id = EventId::from_number(1);
    for (end, fade) in [(f64::NAN, 0.0), (TOO_FAR, 0.0), (1.0, f64::INFINITY)] {
        refused(&mut s, Refusal::EditTime, |s| s.edit(id, end, fade));
        refused(&mut s, Refusal::EditTime, |s| {
            s.edit_relative(id, end, fade)
        });
    }
    for number in 1..=MAX_EDITS as u64 {
        s.edit(EventId::from_number(number), 1.0, 0.0).unwrap();
    }
    let other = EventId::from_number(1000);
    refused(&mut s, Refusal::EditsFull, |s| s.edit(other, 1.0, 0.0));
    refused(&mut s, Refusal::EditsFull, |s| {
        s.edit_relative(other, 1.0, 0.0)
    });
    s.edit(id, 2.0, 0.0).unwrap();
}

#[test]
fn ticks_and_blocks() {
    let mut s = engine(2);
    let mut out = [-1.0; 192];
    for length in [0, 1, 3, 128] {
        refused(&mut s, Refusal::OutputLength, |s| {
            s.tick(&[], &mut out[..length])
        });
    }
    for length in [0, 2, 64, 127, 129] {
        refused(&mut s, Refusal::OutputLength, |s| {
            s.process(99, &[], &mut out[..length])
        });
    }
    for size in [65, usize::MAX] {
        refused(&mut s, Refusal::BlockSize, |s| {
            s.process(size, &[], &mut out[..128])
        });
    }
    // The clock at its limit, at one sample a second.
    s.set_sample_rate(1.0).unwrap();
    s.as_arrays_mut().times[CLOCK] = 1_000_000_000.0;
    assert_eq!(s.time(), 1_000_000_000.0);
    refused(&mut s, Refusal::Clock, |s| s.tick(&[], &mut out[..2]));
    refused(&mut s, Refusal::Clock, |s| {
        s.process(1, &[], &mut out[..128])
    });
    assert_eq!(out, [-1.0; 192]);
}

/// The entries refuse numbers that name nothing; the types leave no such number to say.
#[test]
fn numbers_of_no_kind() {
    let mut arrays = Arrays::zeroed();
    assert_eq!(entries::create(&mut arrays, 1, 0, 1), 0);
    let before = arrays.clone();
    let push = entries::Push {
        start: 0.0,
        end: 1.0,
        curve: 0,
        fade_in: 0.0,
        fade_out: 0.0,
        source: 0,
        a: 1.0,
        b: 0.0,
        offset: 0,
        length: 0,
        gain: 1.0,
    };
    let (mut told, mut places, mut out) = ([77; 2], [77; 3], [-1.0; 64]);
    let codes = [
        entries::create(&mut arrays, 1, 2, 1),
        entries::push(&mut arrays, &mut told, &entries::Push { curve: 2, ..push }),
        entries::push_relative(&mut arrays, &mut told, &entries::Push { source: 3, ..push }),
        entries::push_duration(&mut arrays, &mut told, &entries::Push { source: 9, ..push }),
        entries::tick(&mut arrays, 2, &[], &mut out[..1]),
        entries::process(&mut arrays, &mut places, u32::MAX, 8, &[], &mut out),
    ];
    assert_eq!(codes, [u64::from(Refusal::Unknown.number()); 6]);
    assert!(arrays.same_bits(&before));
    assert_eq!((told, places, out), ([77; 2], [77; 3], [-1.0; 64]));
}

#[test]
fn numbers_and_words() {
    let table = [
        (1, "channels are not 1 to 8, or the first number is 0"),
        (2, "a rate is not from 1 to 1,000,000"),
        (3, "a time or fade is NaN or beyond 1,000,000,000"),
        (4, "a fade is longer than the event"),
        (5, "a level, ramp value or step is not finite"),
        (6, "256 events are held"),
        (7, "the last event number has been given"),
        (8, "an edit's end or fade is NaN or beyond 1,000,000,000"),
        (9, "256 edits are stored"),
        (10, "the output's length is not that of the call"),
        (11, "the block's size is above 64"),
        (12, "the clock would pass 1,000,000,000"),
        (13, "64 messages are queued"),
        (14, "a mode, curve, source or mark of no such number"),
        (15, "a tape ends inside a record"),
        (18, "a gain is not finite"),
    ];
    assert_eq!(table.len(), Refusal::ALL.len());
    for ((number, words), refusal) in table.into_iter().zip(Refusal::ALL) {
        assert_eq!(refusal.number(), number);
        assert_eq!(refusal.words(), words);
        assert_eq!(refusal.to_string(), format!("refusal {number}: {words}"));
        assert_eq!(Refusal::from_number(number.into()), Some(refusal));
    }
    for number in [0, 16, 17, 19, 256, 257, u64::MAX] {
        assert_eq!(Refusal::from_number(number), None);
    }
}

/// A refusal goes through `?` like every error.
#[test]
fn an_error_of_the_standard_library() {
    fn new() -> Result<Sequencer, Box<dyn std::error::Error + Send + Sync>> {
        Ok(Sequencer::new(0, ReplayMode::All, 1)?)
    }
    let words = "refusal 1: channels are not 1 to 8, or the first number is 0";
    assert_eq!(new().unwrap_err().to_string(), words);
}
