//! Tables of anchors as two lists: well-formed, and reading at a tick.
use crate::division::remainder;
use crate::{Refusal, HYPERPERIOD_LIMIT, UPPER_TICK};

pub const LATENCY_LIMIT: u64 = 60_011_000;
const FIRST_START_LIMIT: u64 = 1_000_000_000;

fn is_fitting(start: u64, next: u64, latency: u64) -> bool {
    start < next && latency <= LATENCY_LIMIT && next - start < latency
}

pub fn is_well_formed(starts: &[u64], latencies: &[u64], g: usize, h: u64) -> bool {
    if starts.len() != latencies.len() || g < 1 || starts.len() < g || h < 1 || HYPERPERIOD_LIMIT < h {
        return false;
    }
    let (starts, latencies) = (&starts[..g], &latencies[..g]);
    if FIRST_START_LIMIT < starts[0] {
        return false;
    }
    let rise = starts.windows(2).zip(latencies).all(|(pair, &latency)| is_fitting(pair[0], pair[1], latency));
    rise && is_fitting(starts[g - 1], starts[0] + h, latencies[g - 1])
}

/// The place of the last start at most u, by halving.
fn anchor_at(starts: &[u64], u: u64) -> usize {
    let (mut at, mut past) = (0, starts.len());
    while 1 < past - at {
        let middle = at + (past - at) / 2;
        if u < starts[middle] {
            past = middle;
        } else {
            at = middle;
        }
    }
    at
}

/// The delay that a table gives at a tick.
pub fn read_at(starts: &[u64], latencies: &[u64], g: usize, h: u64, t: u64) -> Result<u64, Refusal> {
    if !is_well_formed(starts, latencies, g, h) {
        return Err(Refusal::new(14));
    }
    let first = starts[0];
    if t < first {
        return Err(Refusal::new(12));
    }
    if UPPER_TICK < t {
        return Err(Refusal::new(13));
    }
    let u = first + remainder(t - first, h);
    let at = anchor_at(&starts[..g], u);
    Ok(latencies[at] - (u - starts[at]))
}
