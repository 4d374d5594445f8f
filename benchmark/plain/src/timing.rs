//! Warm-up, delay and age.
use crate::chain::{backward, check, forward};
use crate::task::Task;
use crate::{Refusal, MOST_PLACES, UPPER_TICK};

/// W1 to Wn of an accepted chain.
pub fn warm_jobs(tasks: &[Task], gap: u64) -> [u64; MOST_PLACES] {
    let mut jobs = [0; MOST_PLACES];
    let mut at = tasks.len() - 1;
    let mut job = forward(tasks, gap, 0);
    jobs[at] = job;
    while 0 < at {
        job = tasks[at].backward_to(gap, &tasks[at - 1], job).unwrap_or(0);
        at -= 1;
        jobs[at] = job;
    }
    jobs
}

/// The warm-up tick x0: the read of W1.
pub fn warm_tick(tasks: &[Task], gap: u64) -> u64 {
    tasks[0].read(backward(tasks, gap, forward(tasks, gap, 0)).unwrap_or(0))
}

pub(crate) fn last(tasks: &[Task]) -> &Task {
    &tasks[tasks.len() - 1]
}

/// The delay of a press at a tick.
pub fn delay(tasks: &[Task], gap: u64, t: u64) -> Result<u64, Refusal> {
    check(tasks, gap)?;
    if t < warm_tick(tasks, gap) {
        return Err(Refusal::new(12));
    }
    if UPPER_TICK < t {
        return Err(Refusal::new(13));
    }
    let job = forward(tasks, gap, tasks[0].earliest_after(t));
    Ok(last(tasks).write(job) - t)
}

/// The age at a tick.
pub fn age(tasks: &[Task], gap: u64, z: u64) -> Result<u64, Refusal> {
    check(tasks, gap)?;
    if z < last(tasks).write(forward(tasks, gap, 0)) {
        return Err(Refusal::new(12));
    }
    if UPPER_TICK < z {
        return Err(Refusal::new(13));
    }
    let job = last(tasks).latest_by(z).unwrap_or(0);
    Ok(z - tasks[0].read(backward(tasks, gap, job).unwrap_or(0)))
}
