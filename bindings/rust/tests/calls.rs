//! Every call: what it answers, the samples it gives, and what it leaves.

use chakaqel::{Counts, Edited, EventId, Fade, MixOrder, Places, ReplayMode, Sequencer, Source};

const LEVEL: Source = Source::Held(1.0);

/// An empty engine at 8 samples a second, as the proof sheet has it.
fn at_eight(channels: usize, mode: ReplayMode) -> Sequencer {
    let mut sequencer = Sequencer::new(channels, mode, 1).unwrap();
    sequencer.set_sample_rate(8.0).unwrap();
    sequencer
}

/// Pushes an event without fades, of gain 1.0.
fn plain(sequencer: &mut Sequencer, start: f64, end: f64, source: Source) -> EventId {
    let pushed = sequencer.push(start, end, Fade::Power, 0.0, 0.0, source, 1.0);
    pushed.unwrap().id
}

/// The first samples of a block on one channel.
fn block(sequencer: &mut Sequencer, size: usize, pool: &[f32]) -> Vec<f32> {
    let mut out = [-1.0; 64];
    sequencer.process(size, pool, &mut out).unwrap();
    out[..size].to_vec()
}

fn counts(waiting: u64, sounding: u64, finished: u64, let_go: u64) -> Counts {
    Counts {
        waiting,
        sounding,
        finished,
        let_go,
    }
}

#[test]
fn a_new_engine_is_empty() {
    for channels in 1..=8 {
        let mut sequencer = Sequencer::new(channels, ReplayMode::All, 9).unwrap();
        assert_eq!(sequencer.counts(), Counts::default());
        assert_eq!(sequencer.time(), 0.0);
        let mut out = vec![-1.0; channels];
        sequencer.tick(&[], &mut out).unwrap();
        assert_eq!(out, vec![0.0; channels]);
        assert_eq!(sequencer.time(), 1.0 / 44_100.0);
    }
}

#[test]
fn a_push_answers_its_number_and_its_rise() {
    let mut sequencer = Sequencer::new(1, ReplayMode::None, 7).unwrap();
    for (start, number, rise) in [(9.0, 7, 0), (8.0, 8, 1), (7.0, 9, 1), (6.0, 10, 2)] {
        let pushed = sequencer.push(start, 10.0, Fade::Power, 0.0, 0.0, LEVEL, 1.0);
        let pushed = pushed.unwrap();
        assert_eq!((pushed.id.number(), pushed.rise), (number, rise));
        assert_eq!(sequencer.place(pushed.id), None);
    }
    assert_eq!(sequencer.counts(), counts(4, 0, 0, 0));
}

#[test]
fn the_three_pushes_end_where_they_say() {
    let ends = |push: fn(&mut Sequencer)| {
        let mut sequencer = at_eight(1, ReplayMode::None);
        block(&mut sequencer, 8, &[]);
        push(&mut sequencer);
        block(&mut sequencer, 24, &[])
            .iter()
            .map(|x| *x as usize)
            .sum::<usize>()
    };
    // Heard from the clock, 1.0, on: until 2.0, until 0.5 + 2.0, and until 1.0 + 2.0.
    assert_eq!(ends(|s| _ = plain(s, 0.0, 2.0, LEVEL)), 8);
    assert_eq!(
        ends(|s| {
            s.push_duration(0.5, 2.0, Fade::Power, 0.0, 0.0, LEVEL, 1.0)
                .unwrap();
        }),
        12
    );
    assert_eq!(
        ends(|s| {
            s.push_relative(0.0, 2.0, Fade::Power, 0.0, 0.0, LEVEL, 1.0)
                .unwrap();
        }),
        16
    );
}

#[test]
fn sources_and_gains() {
    let samples = |source, gain| {
        let mut sequencer = at_eight(1, ReplayMode::None);
        let end = f64::INFINITY;
        let pushed = sequencer.push(0.0, end, Fade::Smooth, 0.0, 0.0, source, gain);
        pushed.unwrap();
        block(&mut sequencer, 4, &[0.0, 0.5, 0.25])
    };
    assert_eq!(samples(Source::Held(0.75), 1.0), [0.75; 4]);
    assert_eq!(samples(Source::Held(0.75), 2.0), [1.5; 4]);
    let ramp = Source::Ramp {
        value: 1.0,
        step: 0.5,
    };
    assert_eq!(samples(ramp, -0.5), [-0.5, -0.75, -1.0, -1.25]);
    let clip = |offset, length| Source::Clip { offset, length };
    assert_eq!(samples(clip(0, 2), 1.0), [0.0, 0.5, 0.0, 0.0]);
    assert_eq!(samples(clip(1, 9), 1.0), [0.5, 0.25, 0.0, 0.0]);
    assert_eq!(samples(clip(3, 9), 1.0), [0.0; 4]);
}

#[test]
fn curves() {
    let gain = |fade| {
        let mut sequencer = at_eight(1, ReplayMode::None);
        sequencer
            .push(0.0, 1.0, fade, 0.5, 0.0, LEVEL, 1.0)
            .unwrap();
        block(&mut sequencer, 4, &[])[1]
    };
    assert_eq!(gain(Fade::Smooth), 0.103515625);
    assert!(gain(Fade::Power) > 0.3);
    assert_eq!(Fade::default(), Fade::Smooth);
}

#[test]
fn edits() {
    let mut sequencer = at_eight(1, ReplayMode::None);
    let sounds = plain(&mut sequencer, 0.0, f64::INFINITY, LEVEL);
    let waits = plain(&mut sequencer, 5.0, 6.0, LEVEL);
    block(&mut sequencer, 8, &[]);
    assert_eq!(sequencer.edit(sounds, 1.5, 0.0), Ok(Edited::Applied));
    assert_eq!(sequencer.edit(waits, 0.5, 0.0), Ok(Edited::Past));
    assert_eq!(sequencer.edit(waits, 5.5, 0.0), Ok(Edited::Stored));
    let unknown = EventId::from_number(99);
    assert_eq!(sequencer.edit(unknown, 5.5, 0.0), Ok(Edited::Stored));
    // From the clock, 1.0, on.
    assert_eq!(
        sequencer.edit_relative(waits, 4.25, 0.0),
        Ok(Edited::Stored)
    );
    assert_eq!(sequencer.edit_relative(waits, -0.5, 0.0), Ok(Edited::Past));
    assert_eq!(
        sequencer.edit_relative(sounds, 0.25, 0.0),
        Ok(Edited::Applied)
    );
    let heard = |samples: Vec<f32>| samples.iter().sum::<f32>();
    assert_eq!(heard(block(&mut sequencer, 32, &[])), 2.0);
    assert_eq!(heard(block(&mut sequencer, 32, &[])), 2.0);
}

#[test]
fn ticks_feed_every_channel() {
    let mut sequencer = at_eight(3, ReplayMode::None);
    plain(&mut sequencer, 0.0, 1.0, LEVEL);
    plain(&mut sequencer, 0.0, 1.0, Source::Held(0.5));
    let mut out = [-1.0; 3];
    sequencer.tick(&[], &mut out).unwrap();
    assert_eq!(out, [1.5; 3]);
    assert_eq!(sequencer.time(), 0.125);
}

#[test]
fn marked_calls_add_from_the_end() {
    let mut sequencer = at_eight(1, ReplayMode::None);
    // Forward (2^25 - 2^25) + 1, backward (1 - 2^25) + 2^25, in which the 1 is lost.
    for level in [33_554_432.0, -33_554_432.0, 1.0] {
        plain(&mut sequencer, 0.0, 900.0, Source::Held(level));
    }
    let mut out = [0.0; 64];
    for (order, sum) in [(MixOrder::Forward, 1.0), (MixOrder::Backward, 0.0)] {
        sequencer.tick_in_order(order, &[], &mut out[..1]).unwrap();
        assert_eq!(out[0], sum);
        sequencer.process_in_order(order, 8, &[], &mut out).unwrap();
        assert_eq!(out[..8], [sum; 8]);
    }
    assert_eq!(MixOrder::default(), MixOrder::Forward);
}

#[test]
fn a_block_writes_groups_of_eight_and_counts_its_places() {
    let mut sequencer = at_eight(2, ReplayMode::None);
    plain(&mut sequencer, 0.25, 1.0, LEVEL);
    let mut out = [-1.0; 128];
    let places = sequencer.process(9, &[], &mut out).unwrap();
    let kept = |kept, forced, edge| Places { kept, forced, edge };
    assert_eq!(places, kept(2, 0, 0));
    for channel in out.chunks(64) {
        assert_eq!(channel[..2], [0.0; 2]);
        assert_eq!(channel[2..8], [1.0; 6]);
        assert_eq!(channel[8..16], [0.0; 8]);
        assert_eq!(channel[16..], [-1.0; 48]);
    }
    plain(&mut sequencer, 0.0, 900.0, LEVEL);
    assert_eq!(sequencer.process(4, &[], &mut out), Ok(kept(0, 0, 2)));
    // A block of no sample writes nothing.
    let before = out;
    sequencer.process(0, &[], &mut out).unwrap();
    assert_eq!(out, before);
}

#[test]
fn places_counts_and_both_resets() {
    for (mode, after) in [
        (ReplayMode::All, counts(3, 0, 0, 0)),
        (ReplayMode::None, counts(0, 0, 0, 3)),
    ] {
        let mut sequencer = at_eight(1, mode);
        let ids = [
            plain(&mut sequencer, 0.0, 0.5, LEVEL),
            plain(&mut sequencer, 0.0, 9.0, LEVEL),
            plain(&mut sequencer, 5.0, 9.0, LEVEL),
        ];
        assert_eq!(sequencer.counts(), counts(3, 0, 0, 0));
        block(&mut sequencer, 8, &[]);
        assert_eq!(ids.map(|id| sequencer.place(id)), [Some(0), Some(1), None]);
        assert_eq!(sequencer.counts(), counts(1, 2, 0, 0));
        block(&mut sequencer, 8, &[]);
        assert_eq!(ids.map(|id| sequencer.place(id)), [None, Some(0), None]);
        assert_eq!(sequencer.counts(), counts(1, 1, 1, 0));
        assert_eq!(sequencer.time(), 2.0);
        sequencer.reset();
        assert_eq!(sequencer.counts(), after);
        assert_eq!(sequencer.time(), 0.0);
    }
}

#[test]
fn another_rate_sends_every_event_to_wait() {
    let mut sequencer = at_eight(1, ReplayMode::None);
    plain(&mut sequencer, 0.0, 9.0, LEVEL);
    block(&mut sequencer, 8, &[]);
    sequencer.set_sample_rate(8.0).unwrap();
    assert_eq!(sequencer.counts(), counts(0, 1, 0, 0));
    sequencer.set_sample_rate(16.0).unwrap();
    assert_eq!(sequencer.counts(), counts(1, 0, 0, 0));
    block(&mut sequencer, 8, &[]);
    assert_eq!(sequencer.time(), 1.5);
}

#[test]
fn an_engine_prints_its_clock_and_counts() {
    let sequencer = at_eight(1, ReplayMode::None);
    let words = "Sequencer { time: 0.0, counts: Counts { waiting: 0, sounding: 0, finished: 0, let_go: 0 }, .. }";
    assert_eq!(format!("{sequencer:?}"), words);
}
