//! Document 02, Paper 8, by its sentences: the whole history is kept, and each answer looks at the last `window` samples of it.
//! Of the lent row only its length matters: a row shorter than the window is refused as 20, unless the window is 1 (DECISIONS, 61).

pub struct Peak {
    pub window: usize,
    history: Vec<u32>,
}

/// The bits without the sign; every NaN counts as 7FC00000.
fn magnitude(x: f32) -> u32 {
    if x.is_nan() { 0x7fc0_0000 } else { x.to_bits() & 0x7fff_ffff }
}

impl Peak {
    /// A fresh one, and the refusal or 0. The row has `words` words.
    pub fn new(window: usize, words: usize) -> (Peak, u64) {
        let good = (1..=4096).contains(&window) && window <= words;
        let window = if good { window } else { 1 };
        (Peak { window, history: Vec::new() }, if good { 0 } else { 20 })
    }

    fn refuses(&self, words: usize) -> bool {
        self.window > 1 && words < self.window
    }

    /// The refusal or 0.
    pub fn feed(&mut self, samples: &[f32], words: usize) -> u64 {
        if self.refuses(words) {
            return 20;
        }
        self.history.extend(samples.iter().map(|&x| magnitude(x)));
        0
    }

    /// The greatest magnitude, or the refusal.
    pub fn peak(&self, words: usize) -> Result<u32, u64> {
        if self.refuses(words) {
            return Err(20);
        }
        Ok(self.history.iter().rev().take(self.window).copied().max().unwrap_or(0))
    }

    /// How many samples were fed.
    pub fn count(&self) -> usize {
        self.history.len()
    }
}
