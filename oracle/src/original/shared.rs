//! Stand-in for src/shared.rs: the generator of event numbers.
//! Difference 2: it gives the number that the caller has set.

use std::cell::Cell;

thread_local! {
    static NEXT: Cell<u64> = const { Cell::new(0) };
}

pub struct IdGenerator;

impl IdGenerator {
    pub const fn new() -> Self {
        Self
    }

    pub fn get_id(&self) -> u64 {
        NEXT.get()
    }
}

/// Set the number of the next event.
pub fn set_next_id(number: u64) {
    NEXT.set(number);
}
