//! Sections of a chain that is cut: the greatest latency of each, as a chain of its own, and their sum with one gap for each cut.
use crate::chain::{check, hyperperiod};
use crate::latency::greatest;
use crate::task::Task;
use crate::{Refusal, MOST_PLACES};

pub struct Sections {
    /// In order, with 0 past them.
    pub latencies: [u64; MOST_PLACES],
    pub count: usize,
    pub sum: u64,
}

/// The cuts rise strictly and lie in 1 to places - 1.
pub fn rises(cuts: &[u64], places: usize) -> bool {
    let mut from = 0;
    for &cut in cuts {
        if cut <= from || places as u64 <= cut {
            return false;
        }
        from = cut;
    }
    true
}

/// The sections by their greatest latencies. What a section is analysed with is told the section and its hyperperiod, which divides that of the whole.
#[inline]
pub fn section_latencies_by(greatest: impl Fn(&[Task], u64, u64) -> u64, tasks: &[Task], gap: u64, cuts: &[u64]) -> Result<Sections, Refusal> {
    check(tasks, gap)?;
    if !rises(cuts, tasks.len()) {
        return Err(Refusal::new(17));
    }
    let mut sections = Sections { latencies: [0; MOST_PLACES], count: cuts.len() + 1, sum: cuts.len() as u64 * gap };
    let mut from = 0;
    for (i, latency) in sections.latencies[..=cuts.len()].iter_mut().enumerate() {
        let to = cuts.get(i).map_or(tasks.len(), |&cut| cut as usize);
        let section = &tasks[from..to];
        *latency = greatest(section, gap, hyperperiod(section));
        sections.sum += *latency;
        from = to;
    }
    Ok(sections)
}

pub fn section_latencies(tasks: &[Task], gap: u64, cuts: &[u64]) -> Result<Sections, Refusal> {
    section_latencies_by(greatest, tasks, gap, cuts)
}
