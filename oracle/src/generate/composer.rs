//! Composing a random tape: calls whose numbers cluster round the clock.

use super::profile::{Gains, Opening, Profile};
use super::random::Random;
use super::wild;
use crate::call::{Call, Curve, Edit, Mode, Push, PushKind, Source, Timing};
use crate::tape::Format;

/// Plain levels, steps and values of sources.
const LEVELS: &[f32] = &[1.0, 1.0, 0.5, -1.0, 0.1, 3.0, 1e-3, 0.0];

/// Finite gains: plain ones, both zeros, below 0, subnormal, and such as let products overflow and vanish.
const GAINS: &[f32] = &[
    1.0,
    1.0,
    0.5,
    0.1,
    0.7079458,
    2.0,
    -1.0,
    -0.3,
    0.0,
    -0.0,
    1e-45,
    -1e-45,
    1e-40,
    f32::MIN_POSITIVE,
    1e-38,
    1e38,
    f32::MAX,
    f32::MIN,
];

/// The first of some numbers that no push is given.
const UNKNOWN: u64 = 10_000;

struct Composer<'a> {
    random: &'a mut Random,
    profile: &'a Profile,
    calls: Vec<Call>,
    channels: u16,
    /// The first number, and the next one if all pushes were accepted.
    first: u64,
    next: u64,
    /// The clock and rate if all calls were accepted.
    clock: f64,
    rate: f64,
}

/// The calls of a random tape.
pub fn compose(profile: &Profile, random: &mut Random) -> Vec<Call> {
    let mut composer = Composer {
        random,
        profile,
        calls: Vec::new(),
        channels: 1,
        first: 1,
        next: 1,
        clock: 0.0,
        rate: 44_100.0,
    };
    composer.creation();
    composer.opening();
    let (fewest, most) = profile.calls;
    for _ in 0..composer.random.between(fewest, most) {
        composer.call();
    }
    composer.calls
}

impl Composer<'_> {
    fn wild(&mut self) -> bool {
        self.random.chance(self.profile.wild)
    }

    fn creation(&mut self) {
        self.channels = self.random.pick(&[1, 1, 1, 1, 1, 2, 2, 3, 4, 5, 6, 7, 8]);
        self.first = if self.profile.last_numbers {
            u64::MAX - self.random.below(20)
        } else {
            self.random.pick(&[1, 1, 1, 2, 1000, 1 << 32, 1 << 63])
        };
        let mut channels = self.channels as u8;
        if self.wild() && self.random.chance(20) {
            channels = self.random.pick(&[0, 9, 255]);
        }
        if self.wild() && self.random.chance(20) {
            self.first = 0;
        }
        self.next = self.first;
        let mode = if self.random.chance(self.profile.mode_none) {
            Mode::None
        } else {
            Mode::All
        };
        let first = self.first;
        self.calls.push(Call::Create {
            channels,
            mode,
            first,
        });
        if self.random.chance(75) {
            self.rate();
        }
    }

    fn opening(&mut self) {
        match self.profile.opening {
            Opening::None => {}
            Opening::Chord => {
                for _ in 0..self.random.between(3, 12) {
                    self.push();
                }
            }
            Opening::Late => {
                let short = self.random.pick(&[20, 2_000, 20_000]);
                let blocks = 15_625_000 - self.random.below(short) as u32;
                self.calls.push(Call::Rate(1.0));
                self.calls.push(Call::Spin(blocks));
                self.clock = 64.0 * f64::from(blocks);
                self.rate();
            }
            Opening::Crowd => {
                for _ in 0..self.random.between(235, 270) {
                    self.push();
                }
            }
            Opening::Edits => {
                if self.random.chance(40) {
                    for unknown in 0..self.random.below(14) + 250 {
                        self.edit(UNKNOWN + unknown);
                        self.drain_sometimes();
                    }
                }
            }
        }
    }

    /// On a desk, a tick now and then, so that the queue has room.
    fn drain_sometimes(&mut self) {
        if self.profile.format == Format::Desk && self.random.chance(5) {
            self.tick();
        }
    }

    fn call(&mut self) {
        let weights = self.profile.weights;
        let weights = [
            weights.push,
            weights.edit,
            weights.tick,
            weights.block,
            weights.reset,
            weights.rate,
            weights.front_reset,
            weights.lent,
        ];
        match self.random.weighted(&weights) {
            0 => self.push(),
            1 => {
                let number = self.number();
                self.edit(number);
            }
            2 => self.tick(),
            3 => self.block(),
            4 => self.reset(Call::Reset),
            5 => self.rate(),
            6 => self.reset(Call::FrontReset),
            _ => self.lent(),
        }
    }

    fn reset(&mut self, call: Call) {
        self.clock = 0.0;
        self.calls.push(call);
    }

    fn rate(&mut self) {
        let mut rate = self.random.pick(self.profile.rates);
        if self.wild() {
            rate = self.random.pick(wild::RATES);
        }
        if (1.0..=1e6).contains(&rate) {
            self.rate = rate;
        }
        self.calls.push(Call::Rate(rate));
    }

    fn advance(&mut self, samples: f64) {
        self.clock += samples / self.rate;
    }

    /// Whether the next tick or block has the mark.
    fn marked(&mut self) -> bool {
        self.profile.marks > 0 && self.random.chance(self.profile.marks)
    }

    fn tick(&mut self) {
        self.advance(1.0);
        let marked = self.marked();
        self.calls
            .push(if marked { Call::MarkedTick } else { Call::Tick });
    }

    fn block_size(&mut self) -> u8 {
        let (greatest, larger) = self.profile.blocks;
        if self.random.chance(larger) {
            return self.random.between(65, 255) as u8;
        }
        match self.random.below(8) {
            0 => self.random.pick(&[0, 1, 7, 8, 9, 15, 16, 17, 63, 64]),
            1 => self.random.between(0, 4) as u8,
            _ => self.random.between(0, greatest) as u8,
        }
    }

    fn block(&mut self) {
        let size = self.block_size();
        if size <= 64 {
            self.advance(size.into());
        }
        let marked = self.marked();
        self.calls.push(if marked {
            Call::MarkedBlock(size)
        } else {
            Call::Block(size)
        });
    }

    fn lent(&mut self) {
        let channels = self.channels;
        let call = match self.random.below(5) {
            0 => Call::TickLent(self.random.pick(&[
                channels,
                channels,
                0,
                channels + 1,
                channels - 1,
            ])),
            1 => {
                let length = self.random.below(5000) as u16;
                Call::Pool(self.random.pick(&[0, 1, 100, 4095, 4096, 4097, length]))
            }
            _ => {
                let whole = 64 * channels;
                let size = self.block_size();
                let output =
                    self.random
                        .pick(&[whole, whole, whole, whole, 0, whole - 1, whole + 64]);
                let scratch = self.random.pick(&[
                    Some(64),
                    Some(64),
                    None,
                    None,
                    Some(0),
                    Some(whole),
                    Some(65),
                ]);
                let size = if self.random.chance(10) { 65 } else { size };
                Call::BlockLent(size, output, scratch)
            }
        };
        match call {
            Call::TickLent(output) if output == channels => self.advance(1.0),
            Call::BlockLent(size, output, _) if size <= 64 && output == 64 * channels => {
                self.advance(size.into())
            }
            _ => {}
        }
        self.calls.push(call);
    }

    /// A length of time in half samples, rounded in one way or another.
    fn half_samples(&mut self, count: i64) -> f64 {
        let count = count as f64;
        let length = match self.random.below(3) {
            0 => count * 0.5 / self.rate,
            1 => count * (0.5 * (1.0 / self.rate)),
            _ => count / (2.0 * self.rate),
        };
        self.nudge(length)
    }

    /// A neighbour of a number, sometimes.
    fn nudge(&mut self, x: f64) -> f64 {
        match self.random.below(16) {
            0 => x.next_up(),
            1 => x.next_down(),
            2 => x + self.random.below(1000) as f64 / 1000.0 / self.rate,
            _ => x,
        }
    }

    /// A start, relative to the clock.
    fn start(&mut self) -> f64 {
        let count = match self.random.below(8) {
            0 => 0,
            1 => self.random.between(-4, 4),
            2 => self.random.between(-60, 0),
            3 | 4 => self.random.between(0, 20),
            5 | 6 => self.random.between(0, 128),
            _ => self.random.between(0, 600),
        };
        self.half_samples(count)
    }

    fn duration(&mut self) -> f64 {
        let longest = self.profile.longest;
        match self.random.below(12) {
            0 => f64::INFINITY,
            1 => self.half_samples(longest * 4),
            2 => {
                let count = self.random.between(0, 4);
                self.half_samples(count)
            }
            _ => {
                let count = self.random.between(1, longest);
                self.half_samples(count)
            }
        }
    }

    /// A fade that an event of this duration may have.
    fn fade(&mut self, duration: f64) -> f64 {
        if self.profile.multiples {
            return self.random.pick(&[0.0, 0.0, -0.0, -1.0]);
        }
        let fade = match self.random.below(10) {
            0..=2 => 0.0,
            3 => duration,
            4 => duration * 0.5,
            5 => self
                .random
                .pick(&[5e-324, 1e-300, 1e-20, 1e-17, -1.0, -0.0]),
            _ => {
                let count = self.random.between(1, 12);
                self.half_samples(count)
            }
        };
        if fade <= duration && fade.is_finite() {
            fade
        } else {
            0.0
        }
    }

    /// A source of multiples of 1/32768 within -1 and 1; those of the pool are.
    fn multiples(&mut self) -> Source {
        let level = match self.random.below(6) {
            0 => self.random.pick(&[1.0, -1.0, 0.0, -0.0]),
            _ => self.random.between(-32_768, 32_768) as f32 / 32_768.0,
        };
        match self.random.below(4) {
            0 => Source::Clip {
                offset: self.random.below(4096) as u32,
                length: self.random.below(300) as u32,
            },
            1 => Source::Ramp {
                value: level,
                step: 0.0,
            },
            _ => Source::Held { level },
        }
    }

    fn source(&mut self) -> Source {
        if self.profile.multiples {
            return self.multiples();
        }
        let level = |composer: &mut Self| {
            if composer.wild() {
                composer.random.pick(wild::SAMPLES)
            } else {
                composer.random.pick(LEVELS)
            }
        };
        match self.random.below(3) {
            0 => Source::Held { level: level(self) },
            1 => Source::Ramp {
                value: level(self),
                step: level(self),
            },
            _ => {
                let anywhere = self.random.below(4096) as u32;
                let short = self.random.below(70) as u32;
                Source::Clip {
                    offset: self.random.pick(&[
                        0,
                        1,
                        anywhere,
                        anywhere,
                        4090,
                        4095,
                        4096,
                        u32::MAX,
                    ]),
                    length: self.random.pick(&[0, 1, short, short, 4096, u32::MAX]),
                }
            }
        }
    }

    /// The gain as the record has it.
    fn gain(&mut self) -> Option<f32> {
        match self.profile.gains {
            Gains::None => None,
            Gains::One => self.random.chance(50).then_some(1.0),
            Gains::Any if self.random.chance(12) => Some(self.random.pick(wild::GAINS)),
            Gains::Finite | Gains::Any => {
                let drawn = f32::from_bits(self.random.next() as u32);
                match self.random.below(10) {
                    0 | 1 => None,
                    2 if drawn.is_finite() => Some(drawn),
                    _ => Some(self.random.pick(GAINS)),
                }
            }
        }
    }

    fn push(&mut self) {
        let kind = self.random.pick(&[
            PushKind::Absolute,
            PushKind::Absolute,
            PushKind::Relative,
            PushKind::Duration,
        ]);
        let offset = self.start();
        let mut start = match kind {
            PushKind::Relative => offset,
            _ => self.clock + offset,
        };
        if self.random.chance(4) {
            start = self.random.pick(&[0.0, -0.0, -1.0]);
        }
        if self.random.chance(15) {
            start = self.earlier_start().unwrap_or(start);
        }
        let duration = self.duration();
        let mut end = match kind {
            PushKind::Duration => duration,
            _ => start + duration,
        };
        let length = match kind {
            PushKind::Duration => (start + duration) - start,
            _ => end - start,
        };
        let (mut fade_in, mut fade_out) = (self.fade(length), self.fade(length));
        if self.wild() {
            let value = self.random.pick(wild::TIMES);
            match self.random.below(4) {
                0 => start = value,
                1 => end = value,
                2 => fade_in = value,
                _ => fade_out = value,
            }
        }
        if self.random.chance(1) && !self.profile.multiples {
            fade_in = length.next_up();
        }
        let curve = self.random.pick(&[Curve::Power, Curve::Smooth]);
        let source = self.source();
        let unused = match source {
            Source::Held { .. } => self.random.pick(&[0, 0, 0, 0x7FC0_0000, u32::MAX]),
            _ => 0,
        };
        let push = Push {
            start,
            end,
            fade_in,
            fade_out,
            curve,
            source,
            written_gain: self.gain(),
        };
        self.next = self.next.saturating_add(1);
        self.calls.push(Call::Push(kind, push, unused));
    }

    /// The start of one of the last pushes, so that starts are equal.
    fn earlier_start(&mut self) -> Option<f64> {
        let back = self.random.below(6) as usize;
        let mut calls = self.calls.iter().rev();
        match calls.nth(back) {
            Some(Call::Push(_, push, _)) => Some(push.start),
            _ => None,
        }
    }

    fn number(&mut self) -> u64 {
        let given = self.next - self.first;
        match self.random.below(10) {
            0 => self.next.saturating_add(self.random.below(4)),
            1 => self.random.pick(&[0, 1, u64::MAX, 1 << 63]),
            2 if self.profile.opening == Opening::Edits => UNKNOWN + self.random.below(300),
            3..=6 => self.next.saturating_sub(self.random.below(8) + 1),
            _ => self.first + self.random.below(given + 1),
        }
    }

    fn edit(&mut self, number: u64) {
        let timing = self
            .random
            .pick(&[Timing::Absolute, Timing::Absolute, Timing::Relative]);
        let offset = match self.random.below(6) {
            0 => f64::INFINITY,
            1 => {
                let count = self.random.between(-20, 2);
                self.half_samples(count)
            }
            _ => {
                let count = self.random.between(0, self.profile.longest);
                self.half_samples(count)
            }
        };
        let mut end = match timing {
            Timing::Absolute => self.clock + offset,
            Timing::Relative => offset,
        };
        let mut fade_out = self.fade(f64::INFINITY);
        if self.wild() {
            let value = self.random.pick(wild::TIMES);
            if self.random.chance(50) {
                end = value;
            } else {
                fade_out = value;
            }
        }
        let edit = Edit {
            number,
            end,
            fade_out,
        };
        self.calls.push(Call::Edit(timing, edit));
    }
}
