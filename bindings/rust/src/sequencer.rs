//! The sequencer: the entries with types of their own.

use crate::arrays::Arrays;
use crate::entries;
use crate::event::{Counts, Edited, EventId, Fade, MixOrder, Places, Pushed, ReplayMode, Source};
use crate::refusal::Refusal;
use core::fmt;

/// Places a channel of a block's output, and the most samples of a block.
pub const BLOCK: usize = 64;
/// The most channels.
pub const MAX_CHANNELS: usize = 8;
/// The most events that are held: waiting, sounding and finished.
pub const MAX_EVENTS: usize = 256;
/// The most edits that are stored.
pub const MAX_EDITS: usize = 256;

/// Mixes scheduled events: fundsp's `Sequencer`, an engine of 63,584 bytes in place.
///
/// A refused call changes nothing: neither the engine nor what it was lent.
#[repr(transparent)]
pub struct Sequencer {
    arrays: Arrays,
}

impl Sequencer {
    /// An empty engine of 1 to 8 channels at 44,100 samples a second. `first` is the first event's number, not 0. Refused with 1.
    pub fn new(channels: usize, mode: ReplayMode, first: u64) -> Result<Self, Refusal> {
        let mut sequencer = Self::from_arrays(Arrays::zeroed());
        sequencer.create(channels, mode, first)?;
        Ok(sequencer)
    }

    /// Makes an empty engine of this memory, whatever it held: [`new`](Self::new) in place. Refused with 1, and then, unlike after
    /// other refusals, it is an empty engine of one channel, mode All, first number 1.
    ///
    /// ```
    /// use chakaqel::{Arrays, ReplayMode, Sequencer};
    ///
    /// let mut sequencer = Box::new(Sequencer::from_arrays(Arrays::zeroed()));
    /// sequencer.create(2, ReplayMode::All, 1)?;
    /// # Ok::<(), chakaqel::Refusal>(())
    /// ```
    pub fn create(&mut self, channels: usize, mode: ReplayMode, first: u64) -> Result<(), Refusal> {
        done(entries::create(
            &mut self.arrays,
            channels,
            mode.number(),
            first,
        ))
    }

    /// The engine that the arrays hold: a snapshot that was stored, or any bits.
    pub const fn from_arrays(arrays: Arrays) -> Self {
        Self { arrays }
    }

    /// The arrays, to store them.
    pub const fn as_arrays(&self) -> &Arrays {
        &self.arrays
    }

    /// The arrays, to be written to.
    pub const fn as_arrays_mut(&mut self) -> &mut Arrays {
        &mut self.arrays
    }

    /// The engine in memory that is lent, which may hold any bits. Nothing is copied.
    ///
    /// ```
    /// use chakaqel::{Arrays, ReplayMode, Sequencer};
    ///
    /// let mut memory = Arrays::zeroed();
    /// let sequencer = Sequencer::lend(&mut memory);
    /// sequencer.create(1, ReplayMode::None, 1)?;
    /// sequencer.tick(&[], &mut [0.0])?;
    /// # Ok::<(), chakaqel::Refusal>(())
    /// ```
    pub fn lend(arrays: &mut Arrays) -> &mut Self {
        entries::sequencer(arrays)
    }

    /// Schedules an event from `start_time` to `end_time`, which may be infinite, with fades of that many seconds. `gain` multiplies
    /// the source's samples: 1.0 leaves them. Refused with 3, 4, 5, 18, 6 or 7, the first that applies.
    #[allow(clippy::too_many_arguments)]
    #[inline]
    pub fn push(
        &mut self,
        start_time: f64,
        end_time: f64,
        fade: Fade,
        fade_in: f64,
        fade_out: f64,
        source: Source,
        gain: f32,
    ) -> Result<Pushed, Refusal> {
        let times = [start_time, end_time, fade_in, fade_out];
        pushed(|told| {
            let push = in_numbers(times, fade, source, gain);
            entries::push(&mut self.arrays, told, &push)
        })
    }

    /// [`push`](Self::push) with start and end relative to the clock.
    #[allow(clippy::too_many_arguments)]
    #[inline]
    pub fn push_relative(
        &mut self,
        start_time: f64,
        end_time: f64,
        fade: Fade,
        fade_in: f64,
        fade_out: f64,
        source: Source,
        gain: f32,
    ) -> Result<Pushed, Refusal> {
        let times = [start_time, end_time, fade_in, fade_out];
        pushed(|told| {
            let push = in_numbers(times, fade, source, gain);
            entries::push_relative(&mut self.arrays, told, &push)
        })
    }

    /// [`push`](Self::push) of an event that ends at `start_time + duration`.
    #[allow(clippy::too_many_arguments)]
    #[inline]
    pub fn push_duration(
        &mut self,
        start_time: f64,
        duration: f64,
        fade: Fade,
        fade_in: f64,
        fade_out: f64,
        source: Source,
        gain: f32,
    ) -> Result<Pushed, Refusal> {
        let times = [start_time, duration, fade_in, fade_out];
        pushed(|told| {
            let push = in_numbers(times, fade, source, gain);
            entries::push_duration(&mut self.arrays, told, &push)
        })
    }

    /// Gives an event another end and fade-out: at once if it sounds, otherwise when it starts. Refused with 8 or 9.
    #[inline]
    pub fn edit(&mut self, id: EventId, end_time: f64, fade_out: f64) -> Result<Edited, Refusal> {
        let code = entries::edit(&mut self.arrays, id.number(), end_time, fade_out);
        edited(code)
    }

    /// [`edit`](Self::edit) with the end relative to the clock.
    #[inline]
    pub fn edit_relative(
        &mut self,
        id: EventId,
        end_time: f64,
        fade_out: f64,
    ) -> Result<Edited, Refusal> {
        let code = entries::edit_relative(&mut self.arrays, id.number(), end_time, fade_out);
        edited(code)
    }

    /// Moves the clock by one sample. `out` has a place for each channel, and each gets the sum of what sounds; clips read from
    /// `pool`, of any length. Refused with 10 or 12.
    #[inline]
    pub fn tick(&mut self, pool: &[f32], out: &mut [f32]) -> Result<(), Refusal> {
        self.tick_in_order(MixOrder::Forward, pool, out)
    }

    /// [`tick`](Self::tick), adding the events in that order.
    #[inline]
    pub fn tick_in_order(
        &mut self,
        order: MixOrder,
        pool: &[f32],
        out: &mut [f32],
    ) -> Result<(), Refusal> {
        done(entries::tick(&mut self.arrays, order.number(), pool, out))
    }

    /// Moves the clock by a block of `size` samples, 0 to 64. `out` has 64 places a channel, channel after channel, of which the
    /// first 8 * ceil(size / 8) of each are written. Refused with 10, 11 or 12.
    #[inline]
    pub fn process(
        &mut self,
        size: usize,
        pool: &[f32],
        out: &mut [f32],
    ) -> Result<Places, Refusal> {
        self.process_in_order(MixOrder::Forward, size, pool, out)
    }

    /// [`process`](Self::process), adding the events in that order.
    #[inline]
    pub fn process_in_order(
        &mut self,
        order: MixOrder,
        size: usize,
        pool: &[f32],
        out: &mut [f32],
    ) -> Result<Places, Refusal> {
        let mut places = [0; 3];
        let arrays = &mut self.arrays;
        let code = entries::process(arrays, &mut places, order.number(), size, pool, out);
        let [kept, forced, edge] = places;
        done(code).map(|()| Places { kept, forced, edge })
    }

    /// Sets the clock to 0. Mode All: every event waits again, its source at its beginning. Mode None: every event is let go, and no
    /// edit remains.
    #[inline]
    pub fn reset(&mut self) {
        entries::reset(&mut self.arrays);
    }

    /// Sets the rate, in samples a second. Where it differs every event waits again, its source where it was. Refused with 2.
    #[inline]
    pub fn set_sample_rate(&mut self, rate: f64) -> Result<(), Refusal> {
        done(entries::set_sample_rate(&mut self.arrays, rate))
    }

    /// The clock, in seconds.
    #[inline]
    pub fn time(&self) -> f64 {
        entries::time(&self.arrays)
    }

    /// How many events wait, sound, are finished, and were let go.
    #[inline]
    pub fn counts(&self) -> Counts {
        let [waiting, sounding, finished, let_go] = entries::counts(&self.arrays);
        Counts {
            waiting,
            sounding,
            finished,
            let_go,
        }
    }

    /// The event's place in the sounding list, or none where it does not sound.
    #[inline]
    pub fn place(&self, id: EventId) -> Option<usize> {
        match entries::place(&self.arrays, id.number()) {
            entries::NO_PLACE => None,
            place => Some(place as usize),
        }
    }
}

/// A snapshot: a copy of the memory. `clone_from` copies in place.
impl Clone for Sequencer {
    fn clone(&self) -> Self {
        Self::from_arrays(self.arrays.clone())
    }

    fn clone_from(&mut self, source: &Self) {
        self.arrays.clone_from(&source.arrays);
    }
}

/// The clock and the counts.
impl fmt::Debug for Sequencer {
    fn fmt(&self, f: &mut fmt::Formatter) -> fmt::Result {
        f.debug_struct("Sequencer")
            .field("time", &self.time())
            .field("counts", &self.counts())
            .finish_non_exhaustive()
    }
}

/// The answer of an entry that has nothing more to say.
#[inline]
fn done(code: u64) -> Result<(), Refusal> {
    match code {
        0 => Ok(()),
        code => Err(Refusal::of(code)),
    }
}

/// The answer of a push, which puts its number and rise into what it is lent.
#[inline]
fn pushed(push: impl FnOnce(&mut [u64; 2]) -> u64) -> Result<Pushed, Refusal> {
    let mut told = [0; 2];
    done(push(&mut told))?;
    Ok(Pushed {
        id: EventId::from_number(told[0]),
        rise: told[1],
    })
}

/// The answer of an edit.
#[inline]
fn edited(code: u64) -> Result<Edited, Refusal> {
    match code {
        entries::PAST => Ok(Edited::Past),
        entries::STORED => Ok(Edited::Stored),
        code => done(code).map(|()| Edited::Applied),
    }
}

/// A push as the entries take it: start, end or duration, fade-in and fade-out, and the rest.
#[inline]
fn in_numbers(times: [f64; 4], fade: Fade, source: Source, gain: f32) -> entries::Push {
    let [start, end, fade_in, fade_out] = times;
    let (source, a, b, offset, length) = match source {
        Source::Held(level) => (0, level, 0.0, 0, 0),
        Source::Ramp { value, step } => (1, value, step, 0, 0),
        Source::Clip { offset, length } => (2, 0.0, 0.0, offset, length),
    };
    entries::Push {
        start,
        end,
        curve: fade.number(),
        fade_in,
        fade_out,
        source,
        a,
        b,
        offset,
        length,
        gain,
    }
}
