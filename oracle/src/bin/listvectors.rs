// The file crates/list_vectors/stdout: the same random pushes, pops, places, edits, feeds and windows as crates/list_vectors/src has,
// through the standard library's BinaryHeap and HashMap, and through oracle::peak and oracle::lodge. To make it, in the repository's root, once the oracle is built:
//     oracle/target/release/listvectors > crates/list_vectors/stdout
// A BinaryHeap does not say which of two equal elements it gives first, so `Ord` ends with the number (document 01, difference 1).
use oracle::lodge::{self, Window};
use oracle::peak::Peak;
use std::cmp::Ordering;
use std::collections::{BinaryHeap, HashMap};

fn random(seed: u32) -> u32 {
    let x = seed ^ (seed << 13);
    let x = x ^ (x >> 17);
    x ^ (x << 5)
}

fn mixed(digest: u64, value: u64) -> u64 {
    digest.rotate_left(7).wrapping_add(value)
}

fn start_of(code: u64) -> f64 {
    if code == 0 {
        -0.0
    } else {
        (code - 1) as f64 * 0.25
    }
}

#[derive(Clone)]
struct Event {
    start: f64,
    end: f64,
    id: u64,
    place: u32,
}

// A BinaryHeap gives its greatest, as fundsp's sequencer has it: so the earlier event is the greater.
impl Ord for Event {
    fn cmp(&self, other: &Self) -> Ordering {
        other.start.total_cmp(&self.start).then(other.id.cmp(&self.id))
    }
}
impl PartialOrd for Event {
    fn partial_cmp(&self, other: &Self) -> Option<Ordering> {
        Some(self.cmp(other))
    }
}
impl PartialEq for Event {
    fn eq(&self, other: &Self) -> bool {
        self.cmp(other) == Ordering::Equal
    }
}
impl Eq for Event {}

// The nearest whole number, halves away from zero.
fn index(x: f64) -> u64 {
    x.round() as u64
}

fn heap_digest() -> u64 {
    let mut heap = BinaryHeap::new();
    let mut seed: u32 = 2463534242;
    let mut digest = 0;
    let (mut fulls, mut empties) = (0, 0);
    for k in 0..40000u64 {
        seed = random(seed);
        let r = seed as u64;
        let often = (k / 1024) % 2 == 0;
        if r % 8 < if often { 6 } else { 2 } {
            let start = start_of(r / 8 % 64);
            if heap.len() < 256 {
                heap.push(Event { start, end: start + 1.0, id: k * 2654435761 % 4294967296, place: 3 });
            } else {
                fulls += 1;
            }
        } else if let Some(event) = heap.pop() {
            for value in [event.id, index(event.start * 4.0), index(event.end * 4.0), event.place as u64] {
                digest = mixed(digest, value);
            }
        } else {
            empties += 1;
        }
        digest = mixed(digest, heap.len() as u64);
    }
    eprintln!("heap: {fulls} pushes on a full heap, {empties} pops of an empty one");
    digest
}

fn index_digest() -> u64 {
    let mut active: Vec<u64> = Vec::new();
    let mut active_map: HashMap<u64, usize> = HashMap::new();
    let mut seed: u32 = 88172645;
    let mut digest = 0;
    let (mut fulls, mut moved) = (0, 0);
    for k in 0..20000u64 {
        seed = random(seed);
        let r = seed as u64;
        let id = r % 320;
        if let Some(&i) = active_map.get(&id) {
            digest = mixed(digest, i as u64);
            if r / 512 % 4 < (k / 1024) % 4 {
                active.swap_remove(i);
                active_map.remove(&id);
                if i < active.len() {
                    active_map.insert(active[i], i);
                    moved += 1;
                }
            }
        } else {
            digest = mixed(digest, 999);
            if active.len() < 256 {
                active_map.insert(id, active.len());
                active.push(id);
            } else {
                fulls += 1;
            }
        }
        digest = mixed(digest, active.len() as u64);
    }
    eprintln!("index: {fulls} appends on a full list, {moved} swaps");
    digest
}

fn all_edits(mut digest: u64, order: &[u64], edit_map: &HashMap<u64, f64>) -> u64 {
    for id in order {
        digest = mixed(digest, *id);
        digest = mixed(digest, index(edit_map[id]));
    }
    digest
}

fn edit_digest() -> u64 {
    let mut edit_map: HashMap<u64, f64> = HashMap::new();
    // a HashMap has no order: the numbers in order of first storing
    let mut order: Vec<u64> = Vec::new();
    let mut seed: u32 = 1234567891;
    let mut digest = 0;
    let (mut fulls, mut replaced, mut removed) = (0, 0, 0);
    for k in 0..20000u64 {
        seed = random(seed);
        let r = seed as u64;
        let id = r % 400;
        let end = (r / 512) as f64;
        let what = r / 512 % 8;
        if what < 4 {
            if edit_map.contains_key(&id) {
                edit_map.insert(id, end);
                replaced += 1;
            } else if edit_map.len() < 256 {
                edit_map.insert(id, end);
                order.push(id);
            } else {
                fulls += 1;
            }
        } else if what < 4 + (k / 1024) % 3 {
            if edit_map.remove(&id).is_some() {
                order.retain(|x| *x != id);
                removed += 1;
            }
        } else if let Some(end) = edit_map.get(&id) {
            digest = mixed(mixed(digest, 1), index(*end));
        } else {
            digest = mixed(digest, 0);
        }
        digest = mixed(digest, edit_map.len() as u64);
        if k % 512 == 0 {
            digest = all_edits(digest, &order, &edit_map);
        }
    }
    eprintln!("edits: {fulls} on a full map, {replaced} replaced, {removed} removed");
    digest
}

// Sample i of a history, as in crates/list_vectors/src/peaks.rt.
fn sample(i: u64, window: u64) -> f32 {
    let r = random(random((i as u32).wrapping_mul(2654435761)));
    let step = i / (window / 4 + 1) % 24;
    let magnitude = if step == 1 && r % 8 < 2 { 0x7f80_0000 } else { (r / 2) >> step };
    f32::from_bits((r % 2) << 31 | magnitude)
}

// The digest with a refusal and an answer in it.
fn seen(digest: u64, refusal: u64, answer: Result<u32, u64>) -> u64 {
    let digest = mixed(digest, refusal);
    match answer {
        Ok(x) => mixed(mixed(digest, 0), x as u64),
        Err(n) => mixed(mixed(digest, 1), n),
    }
}

fn peak_digest(window: usize, words: usize) -> u64 {
    let (mut peak, refusal) = Peak::new(window, words);
    let mut seed: u32 = 521288629;
    let mut digest = seen(0, refusal, peak.peak(words));
    let (mut changes, mut refused) = (0, 0);
    for _ in 0..20000 {
        seed = random(seed);
        let r = seed as u64 / 4;
        // how many samples, and the words of the row lent: at times one less than the window in force
        let (n, lent) = match (seed % 4 < 3, r % 61) {
            (true, _) if r % 16 == 0 => (1, peak.window - 1),
            (true, _) => (1, words),
            (_, 0) => (5000, words),
            _ => (r / 64 % 32, words),
        };
        let from = peak.count() as u64;
        let run: Vec<f32> = (from..from + n).map(|i| sample(i, window as u64)).collect();
        let before = peak.peak(words);
        let refusal = peak.feed(&run, lent);
        changes += (peak.peak(words) != before) as u64;
        refused += (refusal == 20) as u64;
        digest = seen(digest, refusal, peak.peak(words));
    }
    eprintln!("peak {window} in {words}: {changes} answers differ from the one before, {refused} feeds refused, {} samples", peak.count());
    mixed(digest, peak.count() as u64)
}

// The windows in use, as in crates/list_vectors/src/hours.rt.
fn hours_of(mut r: u32, span: u64) -> ([Window; 16], usize) {
    let mut last = 0;
    let mut windows = [0; 16].map(|_| {
        r = random(r);
        let opens = last + if r % 2 == 0 { 0 } else { (r / 2) as u64 % span };
        last = opens + 1 + (r / 4096) as u64 % span;
        Window { opens, closes: last }
    });
    let mut count = windows.iter().filter(|w| w.closes <= 10080).count();
    let seed = random(r);
    let r = seed / 8;
    let (i, value) = (r as usize % 16, (r / 16) as u64 % 10082);
    match seed % 8 {
        0 => count = r as usize % 18,
        1 => windows[i].opens = value,
        2 => windows[i].closes = value,
        6 | 7 if count > 0 => windows[count - 1].closes = 10080,
        _ => (),
    }
    (windows, count)
}

fn minute_of(seed: u32) -> u64 {
    let r = (seed / 8) as u64;
    match seed % 8 {
        0 => 0xffff_ffff + r % 2,
        1 => 0xffff_ffff - r % 10080,
        2 => r % 400000 * 10080 + r / 400000 % 2 * 10079,
        _ => r * 8,
    }
}

fn length_of(windows: &[Window], seed: u32, span: u64) -> u64 {
    let r = seed / 8;
    let window = windows[r as usize % 16];
    match seed % 8 {
        0 => window.closes.wrapping_sub(window.opens),
        1 => window.closes.wrapping_sub(window.opens).wrapping_add(1),
        2 => 10079 + (r % 3) as u64,
        _ => r as u64 % span,
    }
}

fn hours_digest() -> u64 {
    let mut digest = 0;
    let mut seed: u32 = 362436069;
    let (mut at_once, mut this_week, mut later, mut above) = (0, 0, 0, 0);
    let mut refusals = [0; 23];
    for _ in 0..4000 {
        seed = random(seed);
        let span = 1 << (seed % 12);
        let (windows, count) = hours_of(seed, span);
        seed = random(seed);
        let minute = minute_of(seed);
        seed = random(seed);
        let length = length_of(&windows, seed, span);
        let answer = lodge::earliest(&windows, count, minute, length);
        match answer {
            Ok(t) if t == minute => at_once += 1,
            Ok(t) if t / 10080 == minute / 10080 => this_week += 1,
            Ok(t) if t >> 32 == 0 => later += 1,
            Ok(_) => above += 1,
            Err(n) => refusals[n as usize] += 1,
        }
        digest = match answer {
            Ok(t) => mixed(mixed(digest, 0), t),
            Err(n) => mixed(mixed(digest, 1), n),
        };
    }
    eprintln!("hours: {at_once} at once, {this_week} in the same week, {later} in the next, {above} from 2^32 on, {} and {} refused as 21 and 22", refusals[21], refusals[22]);
    digest
}

fn main() {
    println!("heap  {:016X}", heap_digest());
    println!("index {:016X}", index_digest());
    println!("edits {:016X}", edit_digest());
    for window in [0, 1, 2, 64, 1000, 4095, 4096, 4097] {
        println!("peak {window:<4} {:016X}", peak_digest(window, 4096));
    }
    for (window, words) in [(1, 0), (64, 0), (64, 63), (64, 64)] {
        println!("{:<13} {:016X}", format!("peak {window} in {words}"), peak_digest(window, words));
    }
    println!("hours {:016X}", hours_digest());
}
