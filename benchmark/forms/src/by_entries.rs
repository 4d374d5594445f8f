//! How often each delay of a table occurs, entry by entry: one pass over the anchors for each of them, which counts the delays from its end on. No division and no product, and as much
//! work as entries times anchors.
use plain::histogram::{check, ranges};
use plain::table::LATENCY_LIMIT;
use plain::Refusal;

pub fn histogram(starts: &[u64], latencies: &[u64], g: usize, h: u64, width: u64, counts: &mut [u64]) -> Result<u64, Refusal> {
    check(starts, latencies, g, h, width)?;
    let most = LATENCY_LIMIT + 1;
    let (mut bound, mut above) = (0, h);
    for count in counts {
        bound = (bound + width.min(most)).min(most);
        // From here on all entries are 0.
        let beyond = if above == 0 { 0 } else { ranges(starts, latencies, g, h).map(|(latency, d)| d.min((latency + 1).saturating_sub(bound))).sum() };
        *count = above - beyond;
        above = beyond;
    }
    Ok(above)
}
