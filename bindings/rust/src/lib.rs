//! The sequencer of fundsp 0.23.0, proved, from Rust: safe calls over the live engine's C library (`include/chakaqel.h`).
//!
//! A [`Sequencer`] mixes scheduled events into one to eight channels with sample accurate timing. It is plain memory, 63,584
//! bytes: a value, a field, a `static` or the content of a `Box`. No call allocates, locks, copies the engine or keeps anything
//! elsewhere, and each needs less than 4 KB of stack, so that an audio callback may make every call. A clone is a snapshot.
//!
//! What each call does is proved of the library's code: docs/01-scope.md says what it does, docs/PROOF.md what is proved. This
//! crate is the layer above, which is not proved: it hands the arguments on as numbers, and tests compare it with the Rust original.
//!
//! The names are fundsp's, with these differences: a source is a [`Source`] and not a unit, every push takes a gain, clips read
//! from a pool that is lent to each call, and a call that the Rust would panic on, or that breaks a limit, answers a [`Refusal`]
//! and changes nothing. Times are in seconds on the engine's clock.
//!
//! ```
//! use chakaqel::{Edited, Fade, Refusal, ReplayMode, Sequencer, Source};
//!
//! # fn main() -> Result<(), Refusal> {
//! let mut sequencer = Sequencer::new(1, ReplayMode::None, 1)?;
//! sequencer.set_sample_rate(8.0)?;
//! let level = Source::Held(1.0);
//! let event = sequencer.push(0.0, 1.0, Fade::Smooth, 0.0, 0.5, level, 1.0)?.id;
//!
//! // A block of 16 samples; no clip is pushed, so that the pool may be empty.
//! let mut out = [0.0; 64];
//! sequencer.process(16, &[], &mut out)?;
//! assert_eq!(out[..5], [1.0; 5]);
//! assert_eq!(out[5..9], [0.896484375, 0.5, 0.103515625, 0.0]);
//! assert_eq!(sequencer.time(), 2.0);
//!
//! // It sounds until a later block finds that it has ended.
//! assert_eq!(sequencer.place(event), Some(0));
//! assert_eq!(sequencer.edit(event, 3.0, 0.0)?, Edited::Applied);
//!
//! // A refused call says why, and changes nothing.
//! let refused = sequencer.push(0.0, 1.0, Fade::Smooth, 0.0, 1.5, level, 1.0);
//! assert_eq!(refused, Err(Refusal::LongFade));
//! assert_eq!(Refusal::LongFade.to_string(), "refusal 4: a fade is longer than the event");
//! # Ok(())
//! # }
//! ```

#![no_std]

mod arrays;
pub mod entries;
mod event;
mod refusal;
mod sequencer;

pub use arrays::Arrays;
pub use event::{Counts, Edited, EventId, Fade, MixOrder, Places, Pushed, ReplayMode, Source};
pub use refusal::Refusal;
pub use sequencer::{BLOCK, MAX_CHANNELS, MAX_EDITS, MAX_EVENTS, Sequencer};

/// The example in README.md runs with those of the documentation.
#[cfg(doctest)]
#[doc = include_str!("../README.md")]
struct Readme;
