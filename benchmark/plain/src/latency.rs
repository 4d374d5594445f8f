//! The greatest latency of a chain without a table: one walk over the partitions of a hyperperiod, cut at the longest period.
use crate::division::quotient;
use crate::outset::places_at;
use crate::stepping::State;
use crate::task::Task;
use crate::timing::{last, warm_jobs};

/// The place with the longest period, counted from 0, the lowest among equals.
pub fn longest_place(tasks: &[Task]) -> usize {
    let mut place = 0;
    for (i, task) in tasks.iter().enumerate() {
        if tasks[place].period < task.period {
            place = i;
        }
    }
    place
}

/// The greatest latency of an accepted chain whose hyperperiod is h.
pub fn greatest(tasks: &[Task], gap: u64, h: u64) -> u64 {
    let cut = longest_place(tasks);
    let count = quotient(h, tasks[cut].period);
    let mut places = places_at(tasks, gap, cut, warm_jobs(tasks, gap)[cut]);
    let places = &mut places[..tasks.len()];
    if 1 < count {
        places.iter_mut().for_each(|place| place.prepare());
    }
    State { places, cut, first: tasks[0], last: *last(tasks) }.greatest(count)
}
