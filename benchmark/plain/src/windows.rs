//! Windows of jobs: the largest number of misses in k successive jobs of the first place, and the earliest job from which there are as many.
use crate::chain::{check, forward};
use crate::division::quotient;
use crate::task::Task;
use crate::timing::warm_jobs;
use crate::Refusal;

const LARGEST_WINDOW: usize = 100;

/// 1 where a job of the first place misses, else 0.
fn missed(tasks: &[Task], gap: u64, bound: u64, job: u64) -> u64 {
    let end = tasks[tasks.len() - 1].write(forward(tasks, gap, job));
    (bound < end - tasks[0].read(job)) as u64
}

/// The largest number of misses in a window before the first one with `goal` misses, and the job with which that one begins, or the job
/// after `last`. The inner loop goes over the jobs of a window that are not counted yet.
fn scan(missed: &impl Fn(u64) -> u64, k: u64, goal: u64, from: u64, last: u64) -> (u64, u64) {
    // A ring of flags: the job that enters takes the entry of the job that leaves.
    let mut ring = [0; LARGEST_WINDOW];
    let flags = &mut ring[..k as usize];
    let (mut misses, mut most, mut at) = (0, 0, 0);
    let (mut start, mut job) = (from, from);
    'starts: while start <= last {
        while job < start + k {
            let new = missed(job);
            flags[at] = new;
            at = if at + 1 < flags.len() { at + 1 } else { 0 };
            misses += new;
            job += 1;
            if goal <= misses {
                break 'starts;
            }
        }
        most = most.max(misses);
        misses -= flags[at];
        start += 1;
    }
    (most, start)
}

/// The largest number of misses in k jobs, the first of them one of `from` to `last`, and the earliest that has it. No window has more than k.
pub fn most_of(missed: impl Fn(u64) -> u64, k: u64, from: u64, last: u64) -> (u64, u64) {
    let (most, full) = scan(&missed, k, k, from, last);
    if full <= last {
        return (k, full);
    }
    (most, scan(&missed, k, most, from, last).1)
}

/// The largest number of misses and the earliest first job of a window with that many.
pub fn most_misses(tasks: &[Task], gap: u64, bound: u64, k: u64) -> Result<(u64, u64), Refusal> {
    let h = check(tasks, gap)?;
    if k < 1 || (LARGEST_WINDOW as u64) < k {
        return Err(Refusal::new(15));
    }
    let before = warm_jobs(tasks, gap)[0];
    Ok(most_of(|job| missed(tasks, gap, bound, job), k, before + 1, before + quotient(h, tasks[0].period)))
}
