//! Playing a tape's records on a player, with the memory that is lent to each call.

use crate::call::{Call, MixOrder};
use crate::player::{Answer, BLOCK, Player, Pool};

/// The length of `trail`'s pool.
pub const TRAIL_POOL: u16 = 4096;

/// `trail`'s pool at any length: sample k is k/4096.
pub fn pool(length: u16) -> Pool {
    (0..length)
        .map(|k| f32::from(k) / f32::from(TRAIL_POOL))
        .collect()
}

/// What lent memory holds before a call, so that untouched places show.
fn numbered(length: usize) -> Vec<f32> {
    (0..length).map(|place| -1.0 - place as f32).collect()
}

pub struct Session<P> {
    pub player: P,
    pool: Pool,
    /// The output lent to the last call, as it came back; empty if none was.
    pub output: Vec<f32>,
    /// The scratch lent to the last call, as it came back; empty if none was.
    pub scratch: Vec<f32>,
}

/// What a call did: its answer and how many samples per channel it gave.
#[derive(Clone, Copy, PartialEq, Eq, Debug)]
pub struct Step {
    pub answer: Answer,
    /// None for anything but an accepted tick or block.
    pub samples: Option<usize>,
}

impl<P: Player> Session<P> {
    /// Play the first record, a creation. The pool is `trail`'s.
    pub fn create(variant: P::Variant, call: &Call, pool: &Pool) -> (Self, Answer) {
        let Call::Create {
            channels,
            mode,
            first,
        } = *call
        else {
            unreachable!("the reader stops at any other first record")
        };
        let (player, answer) = P::create(variant, channels, mode, first);
        let session = Self {
            player,
            pool: pool.clone(),
            output: Vec::new(),
            scratch: Vec::new(),
        };
        (session, answer)
    }

    /// Play a later record.
    pub fn step(&mut self, call: &Call) -> Step {
        self.output.clear();
        self.scratch.clear();
        let channels = self.player.channels();
        let answer = match *call {
            Call::Create { .. } => unreachable!("the reader stops at a later creation"),
            Call::Push(kind, ref push, _) => self.player.push(kind, push),
            Call::Edit(timing, ref edit) => self.player.edit(timing, edit),
            Call::Tick => return self.tick(MixOrder::Forward, channels),
            Call::MarkedTick => return self.tick(MixOrder::Backward, channels),
            Call::Block(size) => {
                let scratch = Some(BLOCK);
                return self.block(MixOrder::Forward, size.into(), BLOCK * channels, scratch);
            }
            Call::MarkedBlock(size) => {
                return self.block(MixOrder::Backward, size.into(), BLOCK * channels, None);
            }
            Call::Reset => self.player.reset(),
            Call::Rate(rate) => self.player.rate(rate),
            Call::FrontReset => self.player.front_reset(),
            Call::TickLent(output) => return self.tick(MixOrder::Forward, output.into()),
            Call::BlockLent(size, output, scratch) => {
                let scratch = scratch.map(usize::from);
                return self.block(MixOrder::Forward, size.into(), output.into(), scratch);
            }
            Call::Pool(length) => {
                self.pool = pool(length);
                Answer::Done
            }
            Call::Spin(blocks) => self.spin(blocks),
        };
        Step {
            answer,
            samples: None,
        }
    }

    fn tick(&mut self, order: MixOrder, output: usize) -> Step {
        self.output = numbered(output);
        let answer = self.player.tick(order, &mut self.output, &self.pool);
        given(answer, 1)
    }

    fn block(
        &mut self,
        order: MixOrder,
        size: usize,
        output: usize,
        scratch: Option<usize>,
    ) -> Step {
        self.output = numbered(output);
        self.scratch = numbered(scratch.unwrap_or(0));
        let lent = scratch.map(|_| &mut self.scratch[..]);
        let answer = self
            .player
            .block(order, size, &mut self.output, lent, &self.pool);
        given(answer, size)
    }

    fn spin(&mut self, blocks: u32) -> Answer {
        let mut output = vec![0.0; BLOCK * self.player.channels()];
        for _ in 0..blocks {
            let order = MixOrder::Forward;
            let answer = self
                .player
                .block(order, BLOCK, &mut output, None, &self.pool);
            if answer.refusal() != 0 {
                return answer;
            }
        }
        Answer::Done
    }

    /// The samples of one channel of an accepted tick or block.
    pub fn samples(&self, channel: usize, count: usize) -> &[f32] {
        let stride = self.output.len() / self.player.channels();
        &self.output[channel * stride..][..count]
    }
}

fn given(answer: Answer, size: usize) -> Step {
    Step {
        answer,
        samples: (answer.refusal() == 0).then_some(size),
    }
}
