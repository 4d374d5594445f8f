//! Making a table of anchors: one pass over the partitions of a hyperperiod.
use crate::anchors::Anchors;
use crate::chain::check;
use crate::division::quotient;
use crate::outset::places_at;
use crate::stepping::State;
use crate::task::Task;
use crate::timing::{last, warm_jobs};
use crate::Refusal;

#[derive(Clone, Copy, Debug, PartialEq, Eq)]
pub struct Figures {
    pub anchors: usize,
    pub tick: u64,
    pub hyperperiod: u64,
    pub walked: u64,
}

pub enum Made {
    Whole(Figures),
    /// Refusal 11: the lists hold the first anchors that fit.
    Short(Figures),
    Refused(Refusal),
}

/// The partitions of a chain that are to be walked.
pub struct Round {
    /// The place of the cut, counted from 0.
    pub cut: usize,
    /// The job of the first partition at the cut.
    pub job: u64,
    /// How many there are.
    pub count: u64,
    /// The start of the partition after the last.
    pub past: u64,
}

fn walk(tasks: &[Task], gap: u64, round: Round, anchors: Anchors) -> usize {
    let mut places = places_at(tasks, gap, round.cut, round.job);
    let places = &mut places[..tasks.len()];
    if 1 < round.count {
        places.iter_mut().for_each(|place| place.prepare());
    }
    State { places, cut: round.cut, first: tasks[0], last: *last(tasks) }.walk(round.count, round.past, anchors)
}

/// The table of a chain cut at place p, p counted from 1, by a walk over its partitions that gives the number of their anchors.
#[inline]
pub fn make_table_by(walk: impl Fn(&[Task], u64, Round, Anchors) -> usize, tasks: &[Task], gap: u64, p: usize, starts: &mut [u64], latencies: &mut [u64]) -> Made {
    let h = match check(tasks, gap) {
        Err(refusal) => return Made::Refused(refusal),
        Ok(h) => h,
    };
    if p < 1 || tasks.len() < p {
        return Made::Refused(Refusal::new(9));
    }
    if starts.len() != latencies.len() {
        return Made::Refused(Refusal::new(10));
    }
    let cut = p - 1;
    let jobs = warm_jobs(tasks, gap);
    let tick = tasks[0].read(jobs[0]);
    let walked = quotient(h, tasks[cut].period);
    let slots = starts.len();
    let anchors = walk(tasks, gap, Round { cut, job: jobs[cut], count: walked, past: tick + h }, Anchors::new(starts, latencies));
    let figures = Figures { anchors, tick, hyperperiod: h, walked };
    if anchors <= slots {
        Made::Whole(figures)
    } else {
        Made::Short(figures)
    }
}

/// The table of a chain cut at place p, p counted from 1.
pub fn make_table(tasks: &[Task], gap: u64, p: usize, starts: &mut [u64], latencies: &mut [u64]) -> Made {
    make_table_by(walk, tasks, gap, p, starts, latencies)
}
