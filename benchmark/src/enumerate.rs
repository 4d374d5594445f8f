//! The same answers by enumerating ticks, or phases, to measure against. The checks are the plain program's.
use plain::bookings::{check_pair, Bookings};
use plain::chain::{check, forward};
use plain::histogram;
use plain::instrument::{self, Latencies};
use plain::latency::longest_place;
use plain::maker::{Figures, Made};
use plain::outset::places_at;
use plain::phase::Movable;
use plain::schedule::Schedule;
use plain::sections::{section_latencies_by, Sections};
use plain::stepping::State;
use plain::table::is_well_formed;
use plain::task::Task;
use plain::timing::warm_jobs;
use plain::{Refusal, UPPER_TICK};

fn refusal(number: u64) -> Refusal {
    Refusal { number, place: 0 }
}

fn reads_at(task: &Task, tick: u64) -> bool {
    task.phase <= tick && (tick - task.phase) % task.period == 0
}

fn writes_at(task: &Task, tick: u64) -> bool {
    task.duration <= tick && reads_at(task, tick - task.duration)
}

/// The write of the first job that reads at or after a tick.
fn written(task: &Task, from: u64) -> u64 {
    let mut tick = from;
    while !reads_at(task, tick) {
        tick += 1;
    }
    tick + task.duration
}

/// The read of the last job that writes at or before a tick.
fn begun(task: &Task, by: u64) -> u64 {
    let mut tick = by;
    while !writes_at(task, tick) {
        tick -= 1;
    }
    tick - task.duration
}

/// The write at which the way forward ends, where the first read is looked for from a tick on. Each further read is at or after the write before it and the gap.
fn booked(tasks: &[Task], gap: u64, from: u64) -> u64 {
    tasks[1..].iter().fold(written(&tasks[0], from), |write, task| written(task, write + gap))
}

/// The read at which the way backward ends, where the last write is looked for from a tick down. Each write before it is the gap or more before the read that it connects to.
fn sampled(tasks: &[Task], gap: u64, from: u64) -> u64 {
    let n = tasks.len() - 1;
    tasks[..n].iter().rev().fold(begun(&tasks[n], from), |read, task| begun(task, read - gap))
}

/// The write of Wn: where job 0 of the first place goes. No later tick has to be tried, which makes this program quicker, not slower.
fn first_aged(tasks: &[Task], gap: u64) -> u64 {
    booked(tasks, gap, tasks[0].phase)
}

fn warm_tick(tasks: &[Task], gap: u64) -> u64 {
    sampled(tasks, gap, first_aged(tasks, gap))
}

/// From tick to tick until the booking.
pub fn delay(tasks: &[Task], gap: u64, t: u64) -> Result<u64, Refusal> {
    check(tasks, gap)?;
    if t < warm_tick(tasks, gap) {
        return Err(refusal(12));
    }
    if UPPER_TICK < t {
        return Err(refusal(13));
    }
    Ok(booked(tasks, gap, t + 1) - t)
}

/// From tick to tick back to the reading.
pub fn age(tasks: &[Task], gap: u64, z: u64) -> Result<u64, Refusal> {
    check(tasks, gap)?;
    if z < first_aged(tasks, gap) {
        return Err(refusal(12));
    }
    if UPPER_TICK < z {
        return Err(refusal(13));
    }
    Ok(z - sampled(tasks, gap, z))
}

/// The booking of a press, walked as the plain program walks.
fn walked_from(tasks: &[Task], gap: u64, t: u64) -> u64 {
    tasks[tasks.len() - 1].write(forward(tasks, gap, tasks[0].earliest_after(t)))
}

/// The delay at every tick of a hyperperiod, walked as the plain program walks; an anchor is a tick whose booking is another than that of the tick before.
pub fn make_table(tasks: &[Task], gap: u64, p: usize, starts: &mut [u64], latencies: &mut [u64]) -> Made {
    let h = match check(tasks, gap) {
        Err(r) => return Made::Refused(r),
        Ok(h) => h,
    };
    if p < 1 || tasks.len() < p {
        return Made::Refused(refusal(9));
    }
    if starts.len() != latencies.len() {
        return Made::Refused(refusal(10));
    }
    let x0 = warm_tick(tasks, gap);
    let mut anchors = 0;
    let mut before = 0;
    for t in x0..x0 + h {
        let end = walked_from(tasks, gap, t);
        if end != before {
            if anchors < starts.len() {
                starts[anchors] = t;
                latencies[anchors] = end - t;
            }
            anchors += 1;
        }
        before = end;
    }
    let figures = Figures { anchors, tick: x0, hyperperiod: h, walked: h / tasks[p - 1].period };
    if anchors <= starts.len() {
        Made::Whole(figures)
    } else {
        Made::Short(figures)
    }
}

/// From the first start tick by tick to the tick that is asked about.
pub fn read_at(starts: &[u64], latencies: &[u64], g: usize, h: u64, t: u64) -> Result<u64, Refusal> {
    if !is_well_formed(starts, latencies, g, h) {
        return Err(refusal(14));
    }
    let first = starts[0];
    if t < first {
        return Err(refusal(12));
    }
    if UPPER_TICK < t {
        return Err(refusal(13));
    }
    let u = first + (t - first) % h;
    let mut at = 0;
    let mut delay = latencies[0];
    for tick in first + 1..=u {
        delay -= 1;
        if at + 1 < g && starts[at + 1] == tick {
            at += 1;
            delay = latencies[at];
        }
    }
    Ok(delay)
}

/// Every tick of a hyperperiod, one after another.
pub fn histogram(starts: &[u64], latencies: &[u64], g: usize, h: u64, width: u64, counts: &mut [u64]) -> Result<u64, Refusal> {
    histogram::check(starts, latencies, g, h, width)?;
    counts.fill(0);
    let mut rest = 0;
    for (latency, d) in histogram::ranges(starts, latencies, g, h) {
        for delay in latency + 1 - d..=latency {
            *counts.get_mut((delay / width) as usize).unwrap_or(&mut rest) += 1;
        }
    }
    Ok(rest)
}

/// Every job from tick to tick, and every window counted anew.
pub fn most_misses(tasks: &[Task], gap: u64, bound: u64, k: u64) -> Result<(u64, u64), Refusal> {
    let h = check(tasks, gap)?;
    if k < 1 || 100 < k {
        return Err(refusal(15));
    }
    let first = &tasks[0];
    let warm = (warm_tick(tasks, gap) - first.phase) / first.period;
    let jobs = h / first.period;
    let missed: Vec<u64> = (warm + 1..warm + jobs + k)
        .map(|job| {
            let read = first.read(job);
            (bound < booked(tasks, gap, read) - read) as u64
        })
        .collect();
    let mut best = (0, warm + 1);
    for (job, window) in (warm + 1..).zip(missed.windows(k as usize)) {
        let misses = window.iter().sum();
        if best.0 < misses {
            best = (misses, job);
        }
    }
    Ok(best)
}

/// The greatest delay at the ticks of a chain's hyperperiod h, each walked as the plain program walks.
fn greatest(tasks: &[Task], gap: u64, h: u64) -> u64 {
    let x0 = warm_tick(tasks, gap);
    (x0..x0 + h).map(|t| walked_from(tasks, gap, t) - t).max().unwrap_or(0)
}

/// Every tick of each section's hyperperiod.
pub fn section_latencies(tasks: &[Task], gap: u64, cuts: &[u64]) -> Result<Sections, Refusal> {
    section_latencies_by(greatest, tasks, gap, cuts)
}

/// Every tick of each chain's hyperperiod.
pub fn ask(state: &mut instrument::State, b: &instrument::Bounded) -> Result<Latencies, Refusal> {
    state.ask_by(greatest, b)
}

/// The difference at every tick of the common hyperperiod, walked as the plain program walks.
pub fn pair_of(schedule: &Schedule, first: usize, second: usize, t: u64) -> Result<Bookings, Refusal> {
    schedule.check()?;
    let first = schedule.chain(first)?;
    let second = schedule.chain(second)?;
    let (first, second, gap) = (first.tasks(), second.tasks(), schedule.gap);
    let (from, h) = check_pair(first, gap, second, gap, t)?;
    let (a, b) = (walked_from(first, gap, t), walked_from(second, gap, t));
    let greatest = (from..from + h).map(|tick| walked_from(first, gap, tick).abs_diff(walked_from(second, gap, tick))).max().unwrap_or(0);
    Ok(Bookings { later: a.max(b), earlier: a.min(b), difference: a.abs_diff(b), greatest })
}

/// Every phase from 0 to period - 1 is tried, each from its own warm-up on. A try ends at its first partition above the bound all the same.
pub fn smallest_phase(schedule: &Schedule, n: usize, number: u64, bound: u64) -> Result<Option<u64>, Refusal> {
    let mut chain = Movable::of(schedule, n, number)?;
    let cut = longest_place(chain.tasks());
    let count = chain.h / chain.tasks()[cut].period;
    let period = chain.period;
    let keeps = |phase: &u64| {
        chain.put(*phase);
        let tasks = chain.tasks();
        let mut places = places_at(tasks, chain.gap, cut, warm_jobs(tasks, chain.gap)[cut]);
        let places = &mut places[..tasks.len()];
        if 1 < count {
            places.iter_mut().for_each(|place| place.prepare());
        }
        let state = State { places, cut, first: tasks[0], last: tasks[tasks.len() - 1] };
        state.greatest_within(count, bound).0 <= bound
    };
    Ok((0..period).find(keeps))
}
