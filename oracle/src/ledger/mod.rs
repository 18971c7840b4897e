//! Document 01's plain ledger, written from its text, as a second judge.

mod desk;
mod engine;
mod event;
mod mutation;
pub(crate) mod numbers;
mod refusals;
mod samples;

pub use desk::DeskLedger;
pub use engine::Ledger;
pub use mutation::Mutation;
