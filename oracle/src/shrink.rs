//! Cutting a tape down while it still shows what it shows.

use crate::tape::{self, Format};

/// A tape with as few records as cutting finds for which `shows` is still true.
/// The first record stays.
pub fn shrink(format: Format, tape: &[u8], mut shows: impl FnMut(&[u8]) -> bool) -> Vec<u8> {
    let (calls, stop) = tape::records(format, tape);
    let mut pieces: Vec<Vec<u8>> = calls.iter().map(|call| tape::bytes(&[*call])).collect();
    pieces.extend(stop.map(|(_, rest)| rest.to_vec()));
    let mut size = pieces.len() / 2;
    while size > 0 {
        let mut cut = false;
        let mut at = pieces.len();
        while at > 1 {
            let from = at.saturating_sub(size).max(1);
            let shorter = [&pieces[..from], &pieces[at..]].concat();
            if shows(&shorter.concat()) {
                pieces = shorter;
                cut = true;
            }
            at = from;
        }
        if !cut || size > 1 {
            size /= 2;
        }
    }
    pieces.concat()
}
