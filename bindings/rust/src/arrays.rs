//! The memory of an engine.

/// The four arrays of an engine, `chakaqel_engine` of the header: 63,584 bytes.
///
/// Every bit pattern is an engine, so that memory from anywhere can be lent ([`Sequencer::lend`](crate::Sequencer::lend)). What lies
/// where is said in crates/memory/src/lib.rt; only the entries need to know.
#[repr(C)]
pub struct Arrays {
    /// The events' times, the clock, and the stored edits' times.
    pub times: [f64; 3588],
    /// The events' gains and sources.
    pub levels: [f32; 3072],
    /// The events' kinds of source, curves and clips.
    pub marks: [u32; 3072],
    /// The events' numbers, the index, and the counts.
    pub numbers: [u64; 1288],
}

// The size that the header states: no bytes between the arrays or after them.
const _: () = assert!(size_of::<Arrays>() == 63_584);

impl Arrays {
    /// Arrays of zeros: an engine without a channel, until [`Sequencer::create`](crate::Sequencer::create) makes one of them.
    pub const fn zeroed() -> Self {
        Self {
            times: [0.0; 3588],
            levels: [0.0; 3072],
            marks: [0; 3072],
            numbers: [0; 1288],
        }
    }

    /// Whether both hold the same bits. Unlike `==` of floats it tells 0.0 from -0.0, and a NaN is the same as itself.
    pub fn same_bits(&self, other: &Self) -> bool {
        let times = self.times.iter().zip(&other.times);
        let levels = self.levels.iter().zip(&other.levels);
        times.into_iter().all(|(x, y)| x.to_bits() == y.to_bits())
            && levels.into_iter().all(|(x, y)| x.to_bits() == y.to_bits())
            && self.marks == other.marks
            && self.numbers == other.numbers
    }
}

/// A copy of the bits. `clone_from` copies in place: nothing goes over the stack.
impl Clone for Arrays {
    fn clone(&self) -> Self {
        Self {
            times: self.times,
            levels: self.levels,
            marks: self.marks,
            numbers: self.numbers,
        }
    }

    fn clone_from(&mut self, source: &Self) {
        self.times.copy_from_slice(&source.times);
        self.levels.copy_from_slice(&source.levels);
        self.marks.copy_from_slice(&source.marks);
        self.numbers.copy_from_slice(&source.numbers);
    }
}
