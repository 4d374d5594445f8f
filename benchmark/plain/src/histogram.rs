//! How often each delay of a table occurs: each anchor changes four differences of neighbouring entries, and the sums of the differences are the entries.
use crate::division::{quotient, remainder};
use crate::table::{is_well_formed, LATENCY_LIMIT};
use crate::Refusal;

/// 14, then 18.
pub fn check(starts: &[u64], latencies: &[u64], g: usize, h: u64, width: u64) -> Result<(), Refusal> {
    if !is_well_formed(starts, latencies, g, h) {
        return Err(Refusal::new(14));
    }
    if width < 1 {
        return Err(Refusal::new(18));
    }
    Ok(())
}

/// The latency of each anchor of a well-formed table, and the ticks to the next start.
pub fn ranges<'a>(starts: &'a [u64], latencies: &'a [u64], g: usize, h: u64) -> impl Iterator<Item = (u64, u64)> + 'a {
    let ends = starts[1..g].iter().copied().chain([starts[0] + h]);
    starts[..g].iter().zip(ends).zip(&latencies[..g]).map(|((start, end), &latency)| (latency, end - start))
}

fn add_at(counts: &mut [u64], at: usize, more: u64) {
    if let Some(count) = counts.get_mut(at) {
        *count = count.wrapping_add(more);
    }
}

/// Entry i of the list gets the ticks with a delay from i times the width up to below the next; the answer is those beyond the list.
pub fn histogram(starts: &[u64], latencies: &[u64], g: usize, h: u64, width: u64, counts: &mut [u64]) -> Result<u64, Refusal> {
    check(starts, latencies, g, h, width)?;
    let width = width.min(LATENCY_LIMIT + 1);
    counts.fill(0);
    for (latency, d) in ranges(starts, latencies, g, h) {
        let low = latency + 1 - d;
        let (at, up) = (quotient(low, width) as usize, remainder(low, width));
        add_at(counts, at, width - up);
        add_at(counts, at + 1, up);
        let (at, down) = (quotient(latency + 1, width) as usize, remainder(latency + 1, width));
        add_at(counts, at, down.wrapping_sub(width));
        add_at(counts, at + 1, down.wrapping_neg());
    }
    let (mut entry, mut rest) = (0u64, h);
    for count in counts {
        entry = entry.wrapping_add(*count);
        *count = entry;
        rest -= entry;
    }
    Ok(rest)
}
