//! Two chains side by side: the later and the earlier booking of a press, their difference, and the greatest such difference.
use crate::chain::{backward, check, forward, lcm};
use crate::schedule::Schedule;
use crate::task::Task;
use crate::timing::{last, warm_tick};
use crate::{Refusal, HYPERPERIOD_LIMIT, UPPER_TICK};

#[derive(Clone, Copy, Debug, PartialEq, Eq)]
pub struct Bookings {
    pub later: u64,
    pub earlier: u64,
    pub difference: u64,
    pub greatest: u64,
}

/// When a press is booked, and the tick from which on a press is booked later.
struct Stretch {
    booking: u64,
    until: u64,
}

impl Stretch {
    /// Forward to the booking, and back to the first place's latest job that is booked no later.
    fn at(tasks: &[Task], gap: u64, t: u64) -> Self {
        let job = forward(tasks, gap, tasks[0].earliest_after(t));
        Stretch { booking: last(tasks).write(job), until: tasks[0].read(backward(tasks, gap, job).unwrap_or(0)) }
    }
}

/// The greatest difference at the ticks from `from` to below `end`, from stretch to stretch.
fn greatest_apart(first: &[Task], gap1: u64, second: &[Task], gap2: u64, from: u64, end: u64) -> u64 {
    let mut a = Stretch::at(first, gap1, from);
    let mut b = Stretch::at(second, gap2, from);
    let mut most = 0;
    let mut t = from;
    while t < end {
        most = most.max(a.booking.abs_diff(b.booking));
        t = a.until.min(b.until);
        if a.until <= t {
            a = Stretch::at(first, gap1, t);
        }
        if b.until <= t {
            b = Stretch::at(second, gap2, t);
        }
    }
    most
}

/// The checks of both chains and of the tick; the later warm-up tick and the common hyperperiod.
pub fn check_pair(first: &[Task], gap1: u64, second: &[Task], gap2: u64, t: u64) -> Result<(u64, u64), Refusal> {
    let h = lcm(check(first, gap1)?, check(second, gap2)?);
    if HYPERPERIOD_LIMIT < h {
        return Err(Refusal::new(7));
    }
    let from = warm_tick(first, gap1).max(warm_tick(second, gap2));
    if t < from {
        return Err(Refusal::new(12));
    }
    if UPPER_TICK < t {
        return Err(Refusal::new(13));
    }
    Ok((from, h))
}

/// The bookings of a press at a tick by two chains, each with the gap of its links.
pub fn pair(first: &[Task], gap1: u64, second: &[Task], gap2: u64, t: u64) -> Result<Bookings, Refusal> {
    let (from, h) = check_pair(first, gap1, second, gap2, t)?;
    let a = Stretch::at(first, gap1, t).booking;
    let b = Stretch::at(second, gap2, t).booking;
    Ok(Bookings { later: a.max(b), earlier: a.min(b), difference: a.abs_diff(b), greatest: greatest_apart(first, gap1, second, gap2, from, from + h) })
}

/// The same for two chains of a schedule by their numbers.
pub fn pair_of(schedule: &Schedule, first: usize, second: usize, t: u64) -> Result<Bookings, Refusal> {
    schedule.check()?;
    let first = schedule.chain(first)?;
    let second = schedule.chain(second)?;
    pair(first.tasks(), schedule.gap, second.tasks(), schedule.gap, t)
}
