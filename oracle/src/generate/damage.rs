//! Damaging a good tape.

use super::random::Random;

pub fn damage(tape: &mut Vec<u8>, random: &mut Random) {
    for _ in 0..random.between(1, 3) {
        if tape.is_empty() {
            return;
        }
        let place = random.below(tape.len() as u64) as usize;
        match random.below(6) {
            0 => tape[place] ^= 1 << random.below(8),
            1 => tape[place] = random.next() as u8,
            2 => tape.truncate(place),
            3 => tape.insert(place, random.below(16) as u8),
            4 => {
                tape.remove(place);
            }
            _ => {
                let end = tape.len().min(place + random.below(50) as usize);
                let copy = tape[place..end].to_vec();
                tape.extend(copy);
            }
        }
    }
}
