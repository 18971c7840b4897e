//! Previews of Paper 14 and the Rust's own answers to them: `previewvectors stdin` prints the vectors, `previewvectors stdout`
//! the answers, the files of crates/preview_vectors. An answer is worked out from the paper's text with the original's smooth5.

use oracle::generate::random::Random;
use oracle::original::math::smooth5;
use std::io::Write;

struct Preview {
    first: u32,
    rising: bool,
    run: Vec<f32>,
}

impl Preview {
    /// First entry, direction, count and 64 samples, little-endian.
    fn bytes(&self) -> Vec<u8> {
        let mut out = self.first.to_le_bytes().to_vec();
        out.extend([self.rising as u8, self.run.len() as u8]);
        for i in 0..64 {
            out.extend(self.run.get(i).copied().unwrap_or(0.0).to_le_bytes());
        }
        out
    }

    /// The factor at entry k: smooth5 at k/1024, falling at (1024 - k)/1024; after the last entry 1 or 0.
    fn gain(&self, k: u32) -> f32 {
        match (k <= 1024, self.rising) {
            (true, true) => smooth5(k as f32 / 1024.0),
            (true, false) => smooth5((1024 - k) as f32 / 1024.0),
            (false, true) => 1.0,
            (false, false) => 0.0,
        }
    }

    fn answer(&self) -> String {
        let refused = self.first > 1024;
        let sample = |(&x, k): (&f32, u32)| {
            let y = if refused { x } else { x * self.gain(k) };
            format!("{:08X}", if y.is_nan() { 0x7FC0_0000 } else { y.to_bits() })
        };
        let line: Vec<_> = self.run.iter().zip(self.first..).map(sample).collect();
        format!("{} {}\n", if refused { 24 } else { 0 }, line.join(" "))
    }
}

/// All 1,025 entries both ways on runs of 1.0; every edge at the table's end; random runs of any bits.
fn previews() -> Vec<Preview> {
    let mut random = Random::new(14);
    let mut out = Vec::new();
    for rising in [true, false] {
        for first in (0..=1024).step_by(64) {
            out.push(Preview { first, rising, run: vec![1.0; 64] });
        }
        let odd = [1.0, -1.0, -0.0, f32::INFINITY, f32::NEG_INFINITY, f32::NAN, f32::MAX, 1e-45];
        for first in [0, 1, 512, 1016, 1023, 1024, 1025, 1026, 65535, 65536, u32::MAX] {
            for length in [0, 1, 2, 8] {
                out.push(Preview { first, rising, run: odd[..length].to_vec() });
            }
        }
    }
    for _ in 0..300 {
        let first = if random.chance(80) { random.below(1030) } else { random.next() % (1 << 32) } as u32;
        let rising = random.chance(50);
        let length = random.below(65);
        let near = random.chance(70);
        let run = (0..length).map(|_| {
            let bits = random.next() as u32;
            f32::from_bits(if near { bits & 0x807F_FFFF | (110 + bits % 40) << 23 } else { bits })
        });
        out.push(Preview { first, rising, run: run.collect() });
    }
    out
}

fn main() {
    let answers = std::env::args().nth(1).as_deref() == Some("stdout");
    let mut out = std::io::stdout().lock();
    for p in previews() {
        let bytes = if answers { p.answer().into_bytes() } else { p.bytes() };
        out.write_all(&bytes).expect("standard output is open");
    }
}
