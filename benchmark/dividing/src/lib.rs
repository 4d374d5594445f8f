//! Making as it was before the step: each partition by dividing at each of its places. All else is the plain program's.
use plain::anchors::{Anchors, Partition};
use plain::chain::{backward, forward};
use plain::maker::{make_table_by, Made, Round};
use plain::task::Task;

/// The partition of a job at place p, counted from 0.
#[inline(always)]
fn of_job(tasks: &[Task], gap: u64, p: usize, job: u64) -> Partition {
    let start = tasks[0].read(backward(&tasks[..=p], gap, job).unwrap_or(0));
    let end = tasks[tasks.len() - 1].write(forward(&tasks[p..], gap, job + 1));
    Partition { start, end }
}

fn walk(tasks: &[Task], gap: u64, round: Round, mut anchors: Anchors) -> usize {
    let mut here = of_job(tasks, gap, round.cut, round.job);
    for job in round.job + 1..=round.job + round.count {
        let next = of_job(tasks, gap, round.cut, job);
        anchors.add(here, next.start);
        here = next;
    }
    anchors.count()
}

/// The table of a chain cut at place p, p counted from 1.
pub fn make_table(tasks: &[Task], gap: u64, p: usize, starts: &mut [u64], latencies: &mut [u64]) -> Made {
    make_table_by(walk, tasks, gap, p, starts, latencies)
}
