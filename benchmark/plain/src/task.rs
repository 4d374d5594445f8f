//! Tasks and their jobs: when a job reads and writes, when the next place can read what it wrote, and which job reads or writes around a tick.
use crate::division::quotient;

#[derive(Clone, Copy, Debug, PartialEq, Eq)]
pub struct Task {
    pub period: u64,
    pub duration: u64,
    pub phase: u64,
}

impl Task {
    #[inline]
    pub fn within_limits(&self) -> bool {
        (1..=1_000_000).contains(&self.period) && (1..=4_000_000).contains(&self.duration) && self.phase <= 1_000_000
    }

    /// The tick at which a job reads.
    #[inline]
    pub fn read(&self, job: u64) -> u64 {
        self.phase + job * self.period
    }

    /// The tick at which a job writes.
    #[inline]
    pub fn write(&self, job: u64) -> u64 {
        self.read(job) + self.duration
    }

    /// The tick from which on the next place can read what a job wrote.
    #[inline]
    pub fn readable(&self, gap: u64, job: u64) -> u64 {
        self.write(job) + gap
    }

    /// The earliest job that reads at or after a tick.
    #[inline]
    pub fn earliest_from(&self, tick: u64) -> u64 {
        if tick <= self.phase {
            return 0;
        }
        quotient(tick - self.phase - 1, self.period) + 1
    }

    /// The earliest job that reads strictly after a tick.
    #[inline]
    pub fn earliest_after(&self, tick: u64) -> u64 {
        if tick < self.phase {
            return 0;
        }
        quotient(tick - self.phase, self.period) + 1
    }

    /// The latest job whose read is `ticks` ticks or more before a tick, if there is one.
    #[inline]
    fn latest_over(&self, ticks: u64, tick: u64) -> Option<u64> {
        let since = tick.checked_sub(self.phase)?.checked_sub(ticks)?;
        Some(quotient(since, self.period))
    }

    /// The latest job that writes at or before a tick, if there is one.
    #[inline]
    pub fn latest_by(&self, tick: u64) -> Option<u64> {
        self.latest_over(self.duration, tick)
    }

    /// Forward over one link.
    #[inline]
    pub fn forward_to(&self, gap: u64, next: &Task, job: u64) -> u64 {
        next.earliest_from(self.readable(gap, job))
    }

    /// Backward over one link.
    #[inline]
    pub fn backward_to(&self, gap: u64, previous: &Task, job: u64) -> Option<u64> {
        previous.latest_over(previous.duration + gap, self.read(job))
    }
}
