//! The chain as a struct of twelve tasks, a count and the gap, passed by value from function to function.
//! rustc would leave the copies out, since no function changes its chain. `received` makes it copy, at the calls where the crates copied while they had this form, and at the outset, which came later.
use plain::anchors::Anchors;
use plain::maker::{Figures, Made};
use plain::outset::places_at;
use plain::stepping::{Place, State};
use plain::task::Task;
use plain::windows::most_of;
use plain::{Refusal, GAP_LIMIT, HYPERPERIOD_LIMIT, UPPER_TICK};
use std::hint::black_box;

#[derive(Clone, Copy)]
pub struct Chain {
    pub tasks: [Task; 12],
    pub places: usize,
    pub gap: u64,
}

/// A chain that something unknown may look at and change must be a copy.
fn received(c: &Chain) {
    black_box(c);
}

fn refusal(number: u64, place: usize) -> Refusal {
    Refusal { number, place }
}

fn task_at(list: &[u64], i: usize) -> Task {
    let at = 3 * i;
    if list.len() < at + 3 {
        return Task { period: 0, duration: 0, phase: 0 };
    }
    Task { period: list[at], duration: list[at + 1], phase: list[at + 2] }
}

pub fn chain_from(list: &[u64], places: usize, gap: u64) -> Chain {
    let mut tasks = [Task { period: 0, duration: 0, phase: 0 }; 12];
    for (i, task) in tasks.iter_mut().enumerate() {
        *task = task_at(list, i);
    }
    let places = if list.len() % 3 != 0 || list.len() / 3 < places { 0 } else { places };
    Chain { tasks, places, gap }
}

fn gcd(a: u64, b: u64) -> u64 {
    if b == 0 {
        a
    } else {
        gcd(b, a % b)
    }
}

fn first_fault(c: Chain) -> usize {
    received(&c);
    for i in 0..c.places {
        if !c.tasks[i].within_limits() {
            return i + 1;
        }
    }
    0
}

fn hyper_verdict(c: Chain) -> Result<u64, Refusal> {
    received(&c);
    let mut h = 1;
    for i in 0..c.places {
        let period = c.tasks[i].period;
        h = h / gcd(h, period) * period;
        if HYPERPERIOD_LIMIT < h {
            return Err(refusal(7, 0));
        }
    }
    Ok(h)
}

fn check(c: Chain) -> Result<u64, Refusal> {
    if c.places < 1 || 12 < c.places {
        return Err(refusal(8, 0));
    }
    let place = first_fault(c);
    if place != 0 {
        return Err(refusal(5, place));
    }
    if GAP_LIMIT < c.gap {
        return Err(refusal(5, 0));
    }
    hyper_verdict(c)
}

fn forward(c: Chain, p: usize, q: usize, job: u64) -> u64 {
    received(&c);
    let mut k = job;
    let mut i = p;
    while i < q {
        let a = c.tasks[i];
        i += 1;
        k = a.forward_to(c.gap, &c.tasks[i], k);
    }
    k
}

fn backward(c: Chain, p: usize, q: usize, job: u64) -> Option<u64> {
    received(&c);
    let mut k = job;
    let mut i = q;
    while p < i {
        let b = c.tasks[i];
        i -= 1;
        k = b.backward_to(c.gap, &c.tasks[i], k)?;
    }
    Some(k)
}

fn warm_last(c: Chain) -> u64 {
    forward(c, 0, c.places - 1, 0)
}

fn warm_jobs(c: Chain) -> [u64; 12] {
    let mut jobs = [0; 12];
    let mut i = c.places - 1;
    let mut k = warm_last(c);
    jobs[i] = k;
    while 0 < i {
        let b = c.tasks[i];
        i -= 1;
        k = b.backward_to(c.gap, &c.tasks[i], k).unwrap_or(0);
        jobs[i] = k;
    }
    jobs
}

fn warm_tick(c: Chain) -> u64 {
    let k = warm_last(c);
    c.tasks[0].read(backward(c, 0, c.places - 1, k).unwrap_or(0))
}

fn delay_ticks(c: Chain, t: u64) -> u64 {
    let n = c.places - 1;
    let j = c.tasks[0].earliest_after(t);
    c.tasks[n].write(forward(c, 0, n, j)) - t
}

pub fn delay(c: Chain, t: u64) -> Result<u64, Refusal> {
    check(c)?;
    if t < warm_tick(c) {
        return Err(refusal(12, 0));
    }
    if UPPER_TICK < t {
        return Err(refusal(13, 0));
    }
    Ok(delay_ticks(c, t))
}

fn first_aged(c: Chain) -> u64 {
    c.tasks[c.places - 1].write(warm_last(c))
}

fn age_ticks(c: Chain, z: u64) -> u64 {
    let n = c.places - 1;
    let k = c.tasks[n].latest_by(z).unwrap_or(0);
    z - c.tasks[0].read(backward(c, 0, n, k).unwrap_or(0))
}

pub fn age(c: Chain, z: u64) -> Result<u64, Refusal> {
    check(c)?;
    if z < first_aged(c) {
        return Err(refusal(12, 0));
    }
    if UPPER_TICK < z {
        return Err(refusal(13, 0));
    }
    Ok(age_ticks(c, z))
}

fn outset(c: Chain, p: usize, job: u64) -> [Place; 12] {
    received(&c);
    places_at(&c.tasks[..c.places], c.gap, p, job)
}

fn fill(c: Chain, p: usize, from: u64, n: u64, past: u64, anchors: Anchors) -> usize {
    received(&c);
    let mut places = outset(c, p, from);
    let places = &mut places[..c.places];
    if 1 < n {
        places.iter_mut().for_each(|place| place.prepare());
    }
    State { places, cut: p, first: c.tasks[0], last: c.tasks[c.places - 1] }.walk(n, past, anchors)
}

pub fn make_table(c: Chain, p: usize, starts: &mut [u64], latencies: &mut [u64]) -> Made {
    let h = match check(c) {
        Err(r) => return Made::Refused(r),
        Ok(h) => h,
    };
    if p < 1 || c.places < p {
        return Made::Refused(refusal(9, 0));
    }
    if starts.len() != latencies.len() {
        return Made::Refused(refusal(10, 0));
    }
    let q = p - 1;
    let jobs = warm_jobs(c);
    let tick = c.tasks[0].read(jobs[0]);
    let walked = h / c.tasks[q].period;
    let slots = starts.len();
    let anchors = fill(c, q, jobs[q], walked, tick + h, Anchors::new(starts, latencies));
    let figures = Figures { anchors, tick, hyperperiod: h, walked };
    if anchors <= slots {
        Made::Whole(figures)
    } else {
        Made::Short(figures)
    }
}

fn missed(c: Chain, b: u64, j: u64) -> u64 {
    received(&c);
    let n = c.places - 1;
    let start = c.tasks[0].read(j);
    let end = c.tasks[n].write(forward(c, 0, n, j));
    (b < end - start) as u64
}

pub fn most_misses(c: Chain, b: u64, k: u64) -> Result<(u64, u64), Refusal> {
    let h = check(c)?;
    if k < 1 || 100 < k {
        return Err(refusal(15, 0));
    }
    let w = warm_jobs(c)[0];
    Ok(most_of(|j| missed(c, b, j), k, w + 1, w + h / c.tasks[0].period))
}
