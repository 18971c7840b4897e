//! Stand-in for the crate hashbrown: the standard library's map.

pub use std::collections::HashMap;
