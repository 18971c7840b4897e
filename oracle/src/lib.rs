//! The fundsp 0.23.0 sequencer as the judge of its port. README.md says what is where.

pub mod agree;
pub mod batch;
mod beside;
pub mod call;
pub mod compare;
pub mod desk;
pub mod digest;
pub mod engine;
pub mod exhaustive;
pub mod generate;
pub mod judge;
pub mod ledger;
pub mod listing;
pub mod lodge;
#[rustfmt::skip] // laid out as the source is
pub mod original;
pub mod peak;
pub mod player;
mod refusal;
pub mod render;
pub mod rises;
pub mod session;
pub mod sheet;
pub mod shrink;
pub mod smooth_error;
pub mod state;
pub mod stretch;
pub mod tape;
pub mod text;
mod units;
