//! The checks of a chain, its hyperperiod, and the ways forward and backward along its places, counted from 0.
use crate::division::{quotient, remainder};
use crate::task::Task;
use crate::{Refusal, GAP_LIMIT, HYPERPERIOD_LIMIT, MOST_PLACES};

pub(crate) fn gcd(mut a: u64, mut b: u64) -> u64 {
    while b != 0 {
        (a, b) = (b, remainder(a, b));
    }
    a
}

pub(crate) fn lcm(a: u64, b: u64) -> u64 {
    quotient(a, gcd(a, b)) * b
}

/// The checks 8, 5, that of the gap last, and 7; the hyperperiod of an accepted chain.
pub fn check(tasks: &[Task], gap: u64) -> Result<u64, Refusal> {
    if tasks.is_empty() || MOST_PLACES < tasks.len() {
        return Err(Refusal::new(8));
    }
    if let Some(at) = tasks.iter().position(|task| !task.within_limits()) {
        return Err(Refusal { number: 5, place: at + 1 });
    }
    if GAP_LIMIT < gap {
        return Err(Refusal::new(5));
    }
    let mut h = 1;
    for task in tasks {
        h = lcm(h, task.period);
        if HYPERPERIOD_LIMIT < h {
            return Err(Refusal::new(7));
        }
    }
    Ok(h)
}

/// The hyperperiod of a part of an accepted chain.
pub fn hyperperiod(tasks: &[Task]) -> u64 {
    tasks.iter().fold(1, |h, task| lcm(h, task.period))
}

/// From a job at the first of these places forward to the last.
pub fn forward(tasks: &[Task], gap: u64, job: u64) -> u64 {
    tasks.windows(2).fold(job, |job, link| link[0].forward_to(gap, &link[1], job))
}

/// From a job at the last of these places backward to the first; there may be none.
pub fn backward(tasks: &[Task], gap: u64, job: u64) -> Option<u64> {
    tasks.windows(2).rev().try_fold(job, |job, link| link[1].backward_to(gap, &link[0], job))
}
