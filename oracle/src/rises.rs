//! Document 02, Paper 13, by its sentences: the rises of a tape's pushes over a plain heap of starts and numbers, which the
//! original's counts tell when to push and when to pop; and tapes of many pushes with ticks and blocks between them.

use crate::call::Call;
use crate::engine::Engine;
use crate::generate::random::Random;
use crate::player::{Answer, Player, Pool};
use crate::session::Session;
use crate::state::{EventState, State};
use crate::tape::{self, Format};
use std::cmp::Ordering;
use std::fmt::Write;

/// A start and a number.
type Key = (f64, u64);

/// Whether `a` comes after `b` "in the heap's order": by start, then by number.
fn after(a: Key, b: Key) -> bool {
    a.0.total_cmp(&b.0).then(a.1.cmp(&b.1)) == Ordering::Greater
}

/// A plain binary heap, the first on top.
#[derive(Default)]
pub struct Heap(Vec<Key>);

impl Heap {
    /// "the number of events, on the way from the heap's first free place before the push up to the top, that come after the
    /// new one in the heap's order"
    pub fn push(&mut self, key: Key) -> usize {
        let mut risen = 0;
        let mut place = self.0.len();
        while place > 0 {
            place = (place - 1) / 2;
            risen += usize::from(after(self.0[place], key));
        }
        self.0.push(key);
        let mut place = self.0.len() - 1;
        while place > 0 && after(self.0[(place - 1) / 2], self.0[place]) {
            self.0.swap(place, (place - 1) / 2);
            place = (place - 1) / 2;
        }
        risen
    }

    /// The last goes to the top and sinks, past every child that comes before it.
    pub fn pop(&mut self) -> Option<Key> {
        let last = self.0.pop()?;
        if self.0.is_empty() {
            return Some(last);
        }
        let first = std::mem::replace(&mut self.0[0], last);
        let mut place = 0;
        loop {
            let children = [2 * place + 1, 2 * place + 2];
            let least = children
                .into_iter()
                .filter(|&child| child < self.0.len())
                .fold(
                    place,
                    |a, b| if after(self.0[a], self.0[b]) { b } else { a },
                );
            if least == place {
                return Some(first);
            }
            self.0.swap(place, least);
            place = least;
        }
    }

    pub fn len(&self) -> usize {
        self.0.len()
    }

    pub fn is_empty(&self) -> bool {
        self.0.is_empty()
    }
}

/// What a tape's pushes were.
#[derive(Default)]
pub struct Counts {
    pub pushes: u64,
    pub risen: u64,
    pub pops: u64,
}

/// What `trail_rises` prints for a tape of whole records that `tape` makes. Records that arrange the heap anew, a reset in mode
/// All and a later rate, are not on it.
pub fn text(tape: &[u8], pool: &Pool, counts: &mut Counts) -> String {
    let (creation, length) = tape::read(Format::Tape, tape, true).expect("a creation");
    let (mut session, answer) = Session::<Engine>::create((), &creation, pool);
    assert_eq!(answer.refusal(), 0, "the creation is accepted");
    let mut rest = &tape[length..];
    let mut heap = Heap::default();
    let mut text = String::new();
    while !rest.is_empty() {
        let (call, length) = tape::read(Format::Tape, rest, false).expect("a whole record");
        rest = &rest[length..];
        let step = session.step(&call);
        let state = session.player.state();
        if let Call::Push(..) = call {
            let rise = match step.answer {
                Answer::Number(number) => entered(&mut heap, &state, number),
                _ => 0,
            };
            counts.pushes += 1;
            counts.risen += rise as u64;
            writeln!(text, "rise {rise}").unwrap();
        } else {
            counts.pops += left(&mut heap, &state);
        }
        if let Call::Tick | Call::Block(_) = call {
            text += "sounds";
            for event in &state.sounding {
                write!(text, " {}", event.number).unwrap();
            }
            text += "\n";
        }
    }
    text
}

fn key(event: &EventState) -> Key {
    (f64::from_bits(event.start), event.number)
}

/// An accepted push: its event waits, or it went "straight to S".
fn entered(heap: &mut Heap, state: &State, number: u64) -> usize {
    let found = state.waiting.iter().find(|event| event.number == number);
    match found {
        Some(event) => heap.push(key(event)),
        None => 0,
    }
}

/// The events that wait no more leave the heap: they are its first ones.
fn left(heap: &mut Heap, state: &State) -> u64 {
    let mut pops = 0;
    while heap.len() > state.waiting.len() {
        let (_, number) = heap.pop().expect("it is longer");
        assert!(
            state.waiting.iter().all(|event| event.number != number),
            "the first of the plain heap still waits"
        );
        pops += 1;
    }
    pops
}

/// A tape at 8 samples a second: pushes of each kind whose starts are on a grid of 125 ms, some before the clock, some refused;
/// ticks and blocks between them, so that the heap fills and empties in turn; in mode None resets, which empty it.
pub fn tape(random: &mut Random) -> Vec<u8> {
    let none = random.chance(70);
    let mut bytes = vec![0, 1, u8::from(none)];
    bytes.extend(random.pick(&[1u64, 1000, 1 << 40]).to_le_bytes());
    bytes.push(9);
    bytes.extend(8f64.to_le_bytes());
    let records = random.pick(&[40, 200, 600, 1200]);
    let phase = random.pick(&[16, 64, 256]);
    let far = random.pick(&[1, 8, 64, 400]);
    let mut clock = 0.0;
    for record in 0..records {
        let pushes = if record / phase % 2 == 0 { 90 } else { 35 };
        if random.chance(pushes) {
            push(random, &mut bytes, clock, far);
        } else if none && random.chance(1) {
            bytes.push(8);
            clock = 0.0;
        } else if random.chance(50) {
            bytes.push(6);
            clock += 0.125;
        } else {
            let size = random.below(33) as u8;
            bytes.extend([7, size]);
            clock += f64::from(size) * 0.125;
        }
    }
    bytes
}

fn push(random: &mut Random, bytes: &mut Vec<u8>, clock: f64, far: i64) {
    let kind = random.pick(&[1, 1, 2, 3]);
    let base = if kind == 2 { 0.0 } else { clock };
    let mut start = base + random.between(-4, far) as f64 * 0.125;
    if start == 0.0 && random.chance(50) {
        start = -0.0;
    }
    let lasts = match random.below(50) {
        0 => f64::INFINITY,
        _ => random.between(1, 16) as f64 * 0.125,
    };
    if random.chance(2) {
        start = f64::NAN;
    }
    let end = if kind == 3 { lasts } else { start + lasts };
    bytes.push(kind);
    for time in [start, end, 0.0, 0.0] {
        bytes.extend(time.to_le_bytes());
    }
    bytes.extend([1, 0]);
    bytes.extend(1f32.to_le_bytes());
    bytes.extend([0; 4]);
}
