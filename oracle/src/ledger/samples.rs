//! Document 01, Tick samples and Block samples, and document 02, Papers 3, 5 and 12: one event's part.

use super::event::Event;
use super::mutation::Mutation;
use super::numbers::{Word, curve, index, narrow};
use crate::player::Places;

/// Clock, sample duration and rate at the beginning of a step, and the clock at its end.
#[derive(Clone, Copy)]
pub struct Times {
    pub t: f64,
    pub d: f64,
    pub r: f64,
    pub e: f64,
}

/// An event's contribution to a tick.
pub fn tick(event: &mut Event, times: Times, pool: &[f32], mutation: Option<Mutation>) -> f32 {
    let t = times.t;
    let mut sample = event.give_with_gain(pool, mutation);
    if event.fade_in > 0.0 {
        let full = event.start + event.fade_in;
        let phase = narrow((t - event.start) / (full - event.start));
        if phase < 1.0 {
            sample *= curve(event.curve, phase);
        }
    }
    if event.fade_out > 0.0 {
        let begin = event.end - event.fade_out;
        let phase = narrow((t - begin) / (event.end - begin));
        if phase > 0.0 {
            sample *= curve(event.curve, 1.0 - phase);
        }
    }
    if mutation == Some(Mutation::GainAfterFades) {
        sample *= event.gain;
    }
    sample
}

/// How a place came.
#[derive(Clone, Copy, PartialEq, Eq, Debug)]
enum Came {
    Kept,
    Forced,
    Edge,
}

/// A place in a block, and how it came.
#[derive(Clone, Copy, PartialEq, Eq, Debug)]
struct Place {
    at: usize,
    came: Came,
}

impl Place {
    /// Set without the index step.
    fn edge(at: usize) -> Self {
        Place {
            at,
            came: Came::Edge,
        }
    }

    /// By the index step, at most `limit`: forced if the step or the limit changed it.
    fn rounded(x: f64, limit: usize) -> Self {
        let (index, word) = index(x);
        let at = index.min(limit as u64);
        let kept = word == Word::Free && at == index;
        Place {
            at: at as usize,
            came: if kept { Came::Kept } else { Came::Forced },
        }
    }

    fn count(self, places: &mut Places) {
        match self.came {
            Came::Kept => places.kept += 1,
            Came::Forced => places.forced += 1,
            Came::Edge => places.edge += 1,
        }
    }
}

/// An event's contribution to a block of n samples: its faded run and the place s of its first. Its places are counted.
pub fn block(
    event: &mut Event,
    n: usize,
    times: Times,
    pool: &[f32],
    mutation: Option<Mutation>,
    places: &mut Places,
) -> (Vec<f32>, usize) {
    let Times { t, r, e, .. } = times;
    let s = if event.start <= t {
        Place::edge(0)
    } else {
        Place::rounded((event.start - t) * r, n)
    };
    let z = if event.end >= e {
        Place::edge(n)
    } else {
        Place::rounded((event.end - t) * r, n)
    };
    let silent = z.at <= s.at;
    if !(silent && mutation == Some(Mutation::SilentNotCounted)) {
        s.count(places);
        z.count(places);
    }
    let (s, z) = (s.at, z.at);
    if silent {
        return (Vec::new(), s);
    }
    let mut run: Vec<f32> = (s..z)
        .map(|_| event.give_with_gain(pool, mutation))
        .collect();
    fade_in(event, &mut run, s, z, times, mutation, places);
    fade_out(event, &mut run, s, z, times, mutation, places);
    if mutation == Some(Mutation::GainAfterFades) {
        run.iter_mut().for_each(|sample| *sample *= event.gain);
    }
    (run, s)
}

/// A fade's place in the block, counted from the clock.
fn fade_place(time: f64, times: Times, mutation: Option<Mutation>) -> Place {
    let distance = time - times.t;
    let samples = if mutation == Some(Mutation::FadeByRate) {
        distance * times.r
    } else {
        distance / times.d
    };
    Place::rounded(samples, 64)
}

/// "The fade-in covers scratch places below its end place minus s, and none if that is negative."
fn fade_in(
    event: &Event,
    run: &mut [f32],
    s: usize,
    z: usize,
    times: Times,
    mutation: Option<Mutation>,
    places: &mut Places,
) {
    let Times { t, d, e, .. } = times;
    let full = event.start + event.fade_in;
    if !(event.fade_in > 0.0 && full > t) {
        return;
    }
    let end_place = if full >= e {
        Place::edge(z)
    } else {
        fade_place(full, times, mutation)
    };
    end_place.count(places);
    let from_edge = mutation == Some(Mutation::FadeFromEdge);
    let below = end_place.at as i64 - if from_edge { 0 } else { s as i64 };
    let mut phase = narrow((t + s as f64 * d - event.start) / (full - event.start));
    let step = narrow(d / event.fade_in);
    for (place, sample) in (0..).zip(run) {
        if place >= below {
            break;
        }
        *sample *= curve(event.curve, phase);
        phase += step;
    }
}

/// "The fade-out begins at block place max(its place, s), with the phase of that place, and touches scratch from there minus s
/// up to z minus s." Of a place that is raised so, Paper 12 says forced if it was rounded; set at the edge it stays an edge.
fn fade_out(
    event: &Event,
    run: &mut [f32],
    s: usize,
    z: usize,
    times: Times,
    mutation: Option<Mutation>,
    places: &mut Places,
) {
    let Times { t, d, e, .. } = times;
    let begin = event.end - event.fade_out;
    if !(event.fade_out > 0.0 && begin < e) {
        return;
    }
    let mut place = if begin <= t {
        Place::edge(0)
    } else {
        fade_place(begin, times, mutation)
    };
    let s = if mutation == Some(Mutation::FadeFromEdge) {
        0
    } else {
        s
    };
    if place.at < s {
        let stays = place.came == Came::Edge && mutation != Some(Mutation::EdgeRaisedIsForced);
        place = Place {
            at: s,
            came: if stays { Came::Edge } else { Came::Forced },
        };
    }
    place.count(places);
    let first = place.at;
    let mut phase = narrow((t + first as f64 * d - begin) / (event.end - begin));
    let step = narrow(d / event.fade_out);
    for (place, sample) in (s..z).zip(run) {
        if place >= first {
            *sample *= curve(event.curve, 1.0 - phase);
            phase += step;
        }
    }
}

/// What no list of accepted calls reaches: indices that are raised to 0 or cut.
#[cfg(test)]
mod tests {
    use super::*;
    use crate::call::{Curve, Push, Source};

    #[test]
    fn rounded_places() {
        let two_64 = 18_446_744_073_709_551_616.0;
        for (x, at, came) in [
            (7.4, 7, Came::Kept),
            (7.5, 8, Came::Kept),
            (8.4, 8, Came::Kept),
            (8.5, 8, Came::Forced),
            (0.0, 0, Came::Kept),
            (-0.3, 0, Came::Kept),
            (-0.49999999999999994, 0, Came::Kept),
            (-0.5, 0, Came::Forced),
            (f64::NAN, 0, Came::Forced),
            (f64::NEG_INFINITY, 0, Came::Forced),
            (two_64 - 2048.0, 8, Came::Forced),
            (two_64, 8, Came::Forced),
            (f64::INFINITY, 8, Came::Forced),
        ] {
            assert_eq!(Place::rounded(x, 8), Place { at, came }, "{x}");
        }
    }

    /// Kept, forced and edge of a block of 8 at rate 8, clock 0, that ends at e.
    fn counted(start: f64, end: f64, fade_in: f64, fade_out: f64, e: f64) -> [u64; 3] {
        let push = Push {
            start,
            end,
            fade_in,
            fade_out,
            curve: Curve::Smooth,
            source: Source::Held { level: 1.0 },
            written_gain: None,
        };
        let times = Times {
            t: 0.0,
            d: 0.125,
            r: 8.0,
            e,
        };
        let mut places = Places::default();
        block(
            &mut Event::new(&push, end, 1),
            8,
            times,
            &[],
            None,
            &mut places,
        );
        [places.kept, places.forced, places.edge]
    }

    #[test]
    fn forced_by_index_step_and_cuts() {
        // a NaN start, a start behind the block, an end before the clock, one behind the block's size
        assert_eq!(counted(f64::NAN, 2.0, 0.0, 0.0, 1.0), [0, 1, 1]);
        assert_eq!(counted(3.0, 4.0, 0.0, 0.0, 1.0), [0, 1, 1]);
        assert_eq!(counted(0.0, -1.0, 0.0, 0.0, 1.0), [0, 1, 1]);
        assert_eq!(counted(0.0, 2.0, 0.0, 0.0, 5.0), [0, 1, 1]);
        // fade places above 64, with e far behind the block's 8 samples
        assert_eq!(counted(0.0, 100.0, 9.0, 90.0, 50.0), [0, 2, 2]);
    }
}
