//! Document 01, The plain ledger: sorted list, ordered lists, edits, and the calls on them.

use super::event::{Event, edit_state};
use super::mutation::Mutation;
use super::numbers::total_order;
use super::refusals;
use super::samples::{self, Times};
use crate::call::{Edit, MixOrder, Mode, Push, PushKind, Timing};
use crate::player::{Answer, Places, Player, Pool};
use crate::state::{Counts, State};
use std::cmp::Ordering;

pub struct Ledger {
    pub mutation: Option<Mutation>,
    pub channels: usize,
    pub mode: Mode,
    /// W, by start then number.
    pub waiting: Vec<Event>,
    /// S.
    pub sounding: Vec<Event>,
    /// F.
    pub finished: Vec<Event>,
    /// E, one per number.
    pub edits: Vec<Edit>,
    /// G, the numbers let go.
    pub let_go: Vec<u64>,
    pub t: f64,
    pub threshold: f64,
    pub r: f64,
    pub d: f64,
    /// The next number, 0 after 2^64 - 1 has been given.
    pub next: u64,
    /// Samples that the event added last gave to the scratch in the last block.
    given: usize,
    /// How the last block's places came.
    places: Places,
}

/// W's order: by start, then by number.
fn order(a: &Event, b: &Event) -> Ordering {
    total_order(a.start, b.start).then(a.number.cmp(&b.number))
}

/// The end of a push before any clock is added.
pub fn push_end(kind: PushKind, push: &Push) -> f64 {
    match kind {
        PushKind::Duration => push.start + push.end,
        _ => push.end,
    }
}

impl Ledger {
    pub fn new(mutation: Option<Mutation>, channels: usize, mode: Mode, first: u64) -> Self {
        Ledger {
            mutation,
            channels,
            mode,
            waiting: Vec::new(),
            sounding: Vec::new(),
            finished: Vec::new(),
            edits: Vec::new(),
            let_go: Vec::new(),
            t: 0.0,
            threshold: f64::NEG_INFINITY,
            r: 44_100.0,
            d: 1.0 / 44_100.0,
            next: first,
            given: 0,
            places: Places::default(),
        }
    }

    pub fn held(&self) -> usize {
        self.waiting.len() + self.sounding.len() + self.finished.len()
    }

    /// The next event number; after 2^64 - 1 none is left.
    pub fn take_number(&mut self) -> u64 {
        let number = self.next;
        self.next = number.checked_add(1).unwrap_or(0);
        number
    }

    fn wait(&mut self, event: Event) {
        let place = self
            .waiting
            .partition_point(|other| order(other, &event) == Ordering::Less);
        self.waiting.insert(place, event);
    }

    fn take_stored_edit(&mut self, event: &mut Event) {
        if let Some(place) = self
            .edits
            .iter()
            .position(|edit| edit.number == event.number)
        {
            event.take_edit(&self.edits.remove(place));
        }
    }

    /// An accepted push. A relative one adds the clock here.
    pub fn accept(&mut self, timing: Timing, mut event: Event) {
        if timing == Timing::Relative {
            event.start += self.t;
            event.end += self.t;
        }
        if event.start < self.threshold {
            if self.mutation == Some(Mutation::PushTakesEdit) {
                self.take_stored_edit(&mut event);
            }
            self.sounding.push(event);
        } else {
            self.wait(event);
        }
    }

    /// An edit within 3's limits: its answer, and where it acts.
    pub fn accept_edit(&mut self, timing: Timing, edit: &Edit) -> Answer {
        let mut edit = *edit;
        if timing == Timing::Relative {
            edit.end += self.t;
        }
        if let Some(event) = self
            .sounding
            .iter_mut()
            .find(|event| event.number == edit.number)
        {
            event.take_edit(&edit);
            return Answer::Applied;
        }
        if edit.end < self.threshold {
            return Answer::Past;
        }
        if let Some(stored) = self
            .edits
            .iter_mut()
            .find(|stored| stored.number == edit.number)
        {
            *stored = edit;
            return Answer::Stored;
        }
        if self.edits.len() >= 256 {
            return Answer::Refused(9);
        }
        self.edits.push(edit);
        Answer::Stored
    }

    /// The beginning of a tick or block that ends at `e`: letting go and waking.
    fn begin(&mut self, e: f64) {
        if self.mode == Mode::None {
            self.let_go
                .extend(self.finished.drain(..).map(|event| event.number));
        }
        self.threshold = e - self.d * 0.5;
        while self
            .waiting
            .first()
            .is_some_and(|event| event.start < self.threshold)
        {
            let mut event = self.waiting.remove(0);
            self.take_stored_edit(&mut event);
            self.sounding.push(event);
        }
    }

    /// Finish or sound each event of S in order; `sound` gets those that sound.
    fn sweep(&mut self, mut sound: impl FnMut(&mut Event)) {
        let bound = self.t + 0.5 * self.d;
        let mut i = 0;
        while i < self.sounding.len() {
            if self.sounding[i].end <= bound {
                let event = if self.mutation == Some(Mutation::SwapOrderIgnored) {
                    self.sounding.remove(i)
                } else {
                    self.sounding.swap_remove(i)
                };
                self.finished.push(event);
                if self.mutation == Some(Mutation::MovedEventSkipped) {
                    i += 1;
                }
            } else {
                sound(&mut self.sounding[i]);
                i += 1;
            }
        }
    }

    fn times(&self, e: f64) -> Times {
        Times {
            t: self.t,
            d: self.d,
            r: self.r,
            e,
        }
    }

    /// Document 02, Paper 9: the contributions of the sounding events, which come in S order, as they are added.
    fn in_order<T>(&self, order: MixOrder, mut contributions: Vec<T>, before: &[u64]) -> Vec<T> {
        if order == MixOrder::Forward || self.mutation == Some(Mutation::MarkIgnored) {
            return contributions;
        }
        if self.mutation == Some(Mutation::MarkBeforeMoves) {
            let numbers: Vec<u64> = self.sounding.iter().map(|event| event.number).collect();
            let mut numbered: Vec<(u64, T)> = numbers.into_iter().zip(contributions).collect();
            numbered.sort_by_key(|(number, _)| before.iter().rposition(|other| other == number));
            contributions = numbered.into_iter().map(|(_, part)| part).collect();
        }
        contributions.reverse();
        contributions
    }

    /// An accepted tick.
    pub fn tick_samples(&mut self, order: MixOrder, output: &mut [f32], pool: &[f32]) {
        let e = self.t + self.d;
        self.begin(e);
        output.fill(0.0);
        let before: Vec<u64> = self.sounding.iter().map(|event| event.number).collect();
        let (times, mutation) = (self.times(e), self.mutation);
        let mut contributions = Vec::new();
        self.sweep(|event| contributions.push(samples::tick(event, times, pool, mutation)));
        for sample in self.in_order(order, contributions, &before) {
            for place in output.iter_mut() {
                *place += sample;
            }
        }
        self.t = e;
    }

    /// An accepted block of n samples.
    pub fn block_samples(
        &mut self,
        order: MixOrder,
        n: usize,
        output: &mut [f32],
        mut scratch: Option<&mut [f32]>,
        pool: &[f32],
    ) {
        for channel in output.chunks_exact_mut(64) {
            channel[..8 * n.div_ceil(8)].fill(0.0);
        }
        self.given = 0;
        self.places = Places::default();
        if self.mutation == Some(Mutation::BlockAsTicks) {
            return self.block_as_ticks(n, output, pool);
        }
        let e = self.t + self.d * n as f64;
        self.begin(e);
        let before: Vec<u64> = self.sounding.iter().map(|event| event.number).collect();
        let (times, mutation) = (self.times(e), self.mutation);
        let (mut given, mut places) = (0, Places::default());
        let mut contributions = Vec::new();
        self.sweep(|event| {
            contributions.push(samples::block(event, n, times, pool, mutation, &mut places));
        });
        for (run, s) in self.in_order(order, contributions, &before) {
            if run.is_empty() {
                continue;
            }
            given = run.len();
            for channel in output.chunks_exact_mut(64) {
                for (place, sample) in channel[s..].iter_mut().zip(&run) {
                    *place += sample;
                }
            }
            if let Some(scratch) = &mut scratch {
                scratch[..run.len()].copy_from_slice(&run);
            }
        }
        (self.given, self.places) = (given, places);
        self.t = e;
    }

    fn block_as_ticks(&mut self, n: usize, output: &mut [f32], pool: &[f32]) {
        let mut frame = vec![0.0; self.channels];
        for place in 0..n {
            self.tick_samples(MixOrder::Forward, &mut frame, pool);
            for (channel, sample) in frame.iter().enumerate() {
                output[64 * channel + place] = *sample;
            }
        }
    }

    /// Everything held goes to W.
    fn all_wait(&mut self) {
        let events: Vec<Event> = self
            .sounding
            .drain(..)
            .chain(self.finished.drain(..))
            .collect();
        for event in events {
            self.wait(event);
        }
    }

    /// An accepted rate.
    pub fn accept_rate(&mut self, rate: f64) {
        if rate != self.r {
            self.r = rate;
            self.d = 1.0 / rate;
            self.all_wait();
            self.threshold = f64::NEG_INFINITY;
        }
    }

    pub fn accept_reset(&mut self) {
        match self.mode {
            Mode::All => {
                self.all_wait();
                for event in &mut self.waiting {
                    event.rewind();
                }
                if self.mutation == Some(Mutation::ResetEmptiesEdits) {
                    self.edits.clear();
                }
            }
            Mode::None => {
                for list in [&mut self.finished, &mut self.waiting, &mut self.sounding] {
                    self.let_go.extend(list.drain(..).map(|event| event.number));
                }
                self.edits.clear();
            }
        }
        self.t = 0.0;
        self.threshold = f64::NEG_INFINITY;
    }
}

impl Player for Ledger {
    type Variant = Option<Mutation>;

    fn create(mutation: Self::Variant, channels: u8, mode: Mode, first: u64) -> (Self, Answer) {
        if refusals::creation(channels, mode, first) {
            return (Ledger::new(mutation, 1, Mode::All, 1), Answer::Refused(1));
        }
        (
            Ledger::new(mutation, channels.into(), mode, first),
            Answer::Done,
        )
    }

    fn push(&mut self, kind: PushKind, push: &Push) -> Answer {
        let end = push_end(kind, push);
        let checks = refusals::push(push, end, self.held(), self.next == 0);
        if let Some(refused) = refusals::first(&checks) {
            return refused;
        }
        let number = self.take_number();
        let timing = match kind {
            PushKind::Relative => Timing::Relative,
            _ => Timing::Absolute,
        };
        self.accept(timing, Event::new(push, end, number));
        Answer::Number(number)
    }

    fn edit(&mut self, timing: Timing, edit: &Edit) -> Answer {
        if refusals::edit(edit) {
            return Answer::Refused(8);
        }
        self.accept_edit(timing, edit)
    }

    fn tick(&mut self, order: MixOrder, output: &mut [f32], pool: &Pool) -> Answer {
        if let Some(refused) = refusals::first(&refusals::tick(self, output.len())) {
            return refused;
        }
        self.tick_samples(order, output, pool);
        Answer::Done
    }

    fn block(
        &mut self,
        order: MixOrder,
        size: usize,
        output: &mut [f32],
        scratch: Option<&mut [f32]>,
        pool: &Pool,
    ) -> Answer {
        let lent = scratch.as_ref().map(|scratch| scratch.len());
        if let Some(refused) = refusals::first(&refusals::block(self, size, output.len(), lent)) {
            return refused;
        }
        self.block_samples(order, size, output, scratch, pool);
        Answer::Done
    }

    fn reset(&mut self) -> Answer {
        self.accept_reset();
        Answer::Done
    }

    fn rate(&mut self, rate: f64) -> Answer {
        if refusals::rate(rate) {
            return Answer::Refused(2);
        }
        self.accept_rate(rate);
        Answer::Done
    }

    fn front_reset(&mut self) -> Answer {
        unreachable!("an engine's script has no front")
    }

    fn channels(&self) -> usize {
        self.channels
    }

    fn counts(&self) -> Counts {
        Counts {
            waiting: self.waiting.len(),
            sounding: self.sounding.len(),
            finished: self.finished.len(),
            let_go: self.let_go.len() as u64,
        }
    }

    fn state(&self) -> State {
        let states = |events: &[Event]| events.iter().map(Event::state).collect();
        let mut edits: Vec<_> = self.edits.iter().map(edit_state).collect();
        edits.sort_by_key(|edit| edit.number);
        let places = self.sounding.iter().enumerate();
        let mut index: Vec<_> = places.map(|(place, event)| (event.number, place)).collect();
        index.sort();
        State {
            waiting: states(&self.waiting),
            sounding: states(&self.sounding),
            finished: states(&self.finished),
            edits,
            index,
            let_go: self.let_go.len() as u64,
            clock: self.t.to_bits(),
            threshold: self.threshold.to_bits(),
            rate: self.r.to_bits(),
            duration: self.d.to_bits(),
            next: self.next,
            messages: Vec::new(),
            returned: Vec::new(),
        }
    }

    fn scratch_given(&self) -> Option<usize> {
        Some(self.given)
    }

    fn places(&self) -> Option<Places> {
        Some(self.places)
    }
}
