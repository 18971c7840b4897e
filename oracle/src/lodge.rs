//! Document 02, Paper 11, by its sentences: minute after minute is tried.

#[derive(Clone, Copy)]
pub struct Window {
    pub opens: u64,
    pub closes: u64,
}

const WEEK: u64 = 10_080;

/// Whether all n minutes from minute t on lie in one window of one week: its first and its last do.
fn fits(windows: &[Window], n: u64, t: u64) -> bool {
    let last = t + (n - 1);
    let open = |w: &Window, t: u64| w.opens <= t % WEEK && t % WEEK < w.closes;
    t / WEEK == last / WEEK && windows.iter().any(|w| open(w, t) && open(w, last))
}

/// The earliest minute, or the refusal. `count` windows are in use.
pub fn earliest(windows: &[Window; 16], count: usize, minute: u64, n: u64) -> Result<u64, u64> {
    let used = windows.get(..count).ok_or(21u64)?;
    let empty = used.iter().any(|w| w.opens >= w.closes);
    let past = used.iter().any(|w| w.closes > WEEK);
    let unsorted = used.windows(2).any(|pair| pair[1].opens < pair[0].closes);
    if empty || past || unsorted || minute >> 32 != 0 || n == 0 {
        return Err(21);
    }
    if used.iter().all(|w| w.closes - w.opens < n) {
        return Err(22);
    }
    // The weeks are equal, so what fits at all does so before two weeks are over.
    Ok((minute..minute + 2 * WEEK).find(|&t| fits(used, n, t)).expect("fits"))
}
