//! Where the walk over the partitions begins: the state of each place, and its constants for the steps. What the walk divides, it divides here.
use crate::division::{quotient, remainder};
use crate::stepping::Place;
use crate::task::Task;
use crate::MOST_PLACES;

impl Place {
    /// What is at the places that a chain has not.
    pub const NONE: Place = Place { period: 0, factor: 0, shift: 0, job: 0, rest: 0 };

    /// The cut.
    #[inline]
    pub fn cut(task: &Task, job: u64) -> Self {
        Place { period: task.period, job, ..Place::NONE }
    }

    #[inline]
    fn since(task: &Task, ticks: u64) -> Self {
        Place { period: task.period, job: quotient(ticks, task.period), rest: remainder(ticks, task.period), ..Place::NONE }
    }

    /// On the way back: the latest job whose write and the gap are over by a tick.
    #[inline]
    pub fn back(task: &Task, gap: u64, tick: u64) -> Self {
        Place::since(task, tick - task.phase - task.duration - gap)
    }

    /// On the way on: the earliest job that reads at or after a tick.
    #[inline]
    pub fn on(task: &Task, tick: u64) -> Self {
        Place::since(task, tick - task.phase + (task.period - 1))
    }

    /// The constants by which a step finds a quotient. Below 2^24 it is exact: the factor is more than 2^shift / period by at most 1,
    /// and 2^24 periods are at most 2^shift.
    #[inline]
    pub fn prepare(&mut self) {
        self.shift = if self.period <= 1024 { 34 } else { 44 };
        self.factor = quotient(1 << self.shift, self.period) + 1;
    }
}

/// The places of a chain cut at place p, counted from 0, at the partition of a job there. Only for more than one partition do they need their constants.
pub fn places_at(tasks: &[Task], gap: u64, p: usize, job: u64) -> [Place; MOST_PLACES] {
    let mut places = [Place::NONE; MOST_PLACES];
    places[p] = Place::cut(&tasks[p], job);
    for i in (0..p).rev() {
        places[i] = Place::back(&tasks[i], gap, tasks[i + 1].read(places[i + 1].job));
    }
    let mut job = job + 1;
    for i in p + 1..tasks.len() {
        places[i] = Place::on(&tasks[i], tasks[i - 1].readable(gap, job));
        job = places[i].job;
    }
    places
}
