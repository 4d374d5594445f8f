//! The chain as the flat list T, D, F, T, D, F, .., lent from function to function, and its gap. The functions are those of the crates.
use plain::anchors::Anchors;
use plain::maker::{Figures, Made};
use plain::stepping::{Place, State};
use plain::task::Task;
use plain::windows::most_of;
use plain::{Refusal, GAP_LIMIT, HYPERPERIOD_LIMIT, UPPER_TICK};

fn refusal(number: u64, place: usize) -> Refusal {
    Refusal { number, place }
}

fn task(list: &[u64], i: usize) -> Task {
    let at = 3 * i;
    Task { period: list[at], duration: list[at + 1], phase: list[at + 2] }
}

fn gcd(mut a: u64, mut b: u64) -> u64 {
    while b != 0 {
        (a, b) = (b, a % b);
    }
    a
}

fn check(list: &[u64], places: usize, gap: u64) -> Result<u64, Refusal> {
    if list.len() % 3 != 0 || list.len() / 3 < places || places < 1 || 12 < places {
        return Err(refusal(8, 0));
    }
    for i in 0..places {
        if !task(list, i).within_limits() {
            return Err(refusal(5, i + 1));
        }
    }
    if GAP_LIMIT < gap {
        return Err(refusal(5, 0));
    }
    let mut h = 1;
    for i in 0..places {
        let period = task(list, i).period;
        h = h / gcd(h, period) * period;
        if HYPERPERIOD_LIMIT < h {
            return Err(refusal(7, 0));
        }
    }
    Ok(h)
}

fn forward(list: &[u64], gap: u64, p: usize, q: usize, job: u64) -> u64 {
    let mut k = job;
    let mut i = p;
    while i < q {
        let a = task(list, i);
        i += 1;
        k = a.forward_to(gap, &task(list, i), k);
    }
    k
}

fn backward(list: &[u64], gap: u64, p: usize, q: usize, job: u64) -> Option<u64> {
    let mut k = job;
    let mut i = q;
    while p < i {
        let b = task(list, i);
        i -= 1;
        k = b.backward_to(gap, &task(list, i), k)?;
    }
    Some(k)
}

fn warm_jobs(list: &[u64], places: usize, gap: u64) -> [u64; 12] {
    let mut jobs = [0; 12];
    let mut i = places - 1;
    let mut k = forward(list, gap, 0, i, 0);
    jobs[i] = k;
    while 0 < i {
        let b = task(list, i);
        i -= 1;
        k = b.backward_to(gap, &task(list, i), k).unwrap_or(0);
        jobs[i] = k;
    }
    jobs
}

pub fn delay(list: &[u64], places: usize, gap: u64, t: u64) -> Result<u64, Refusal> {
    check(list, places, gap)?;
    let n = places - 1;
    let first = task(list, 0);
    let warm = first.read(backward(list, gap, 0, n, forward(list, gap, 0, n, 0)).unwrap_or(0));
    if t < warm {
        return Err(refusal(12, 0));
    }
    if UPPER_TICK < t {
        return Err(refusal(13, 0));
    }
    Ok(task(list, n).write(forward(list, gap, 0, n, first.earliest_after(t))) - t)
}

pub fn age(list: &[u64], places: usize, gap: u64, z: u64) -> Result<u64, Refusal> {
    check(list, places, gap)?;
    let n = places - 1;
    let last = task(list, n);
    if z < last.write(forward(list, gap, 0, n, 0)) {
        return Err(refusal(12, 0));
    }
    if UPPER_TICK < z {
        return Err(refusal(13, 0));
    }
    let k = last.latest_by(z).unwrap_or(0);
    Ok(z - task(list, 0).read(backward(list, gap, 0, n, k).unwrap_or(0)))
}

fn places_at(list: &[u64], places: usize, gap: u64, p: usize, job: u64) -> [Place; 12] {
    let mut state = [Place::NONE; 12];
    state[p] = Place::cut(&task(list, p), job);
    let mut i = p;
    while 0 < i {
        let tick = task(list, i).read(state[i].job);
        i -= 1;
        state[i] = Place::back(&task(list, i), gap, tick);
    }
    let mut k = job + 1;
    let mut i = p + 1;
    while i < places {
        state[i] = Place::on(&task(list, i), task(list, i - 1).readable(gap, k));
        k = state[i].job;
        i += 1;
    }
    state
}

pub fn make_table(list: &[u64], places: usize, gap: u64, p: usize, starts: &mut [u64], latencies: &mut [u64]) -> Made {
    let h = match check(list, places, gap) {
        Err(r) => return Made::Refused(r),
        Ok(h) => h,
    };
    if p < 1 || places < p {
        return Made::Refused(refusal(9, 0));
    }
    if starts.len() != latencies.len() {
        return Made::Refused(refusal(10, 0));
    }
    let q = p - 1;
    let jobs = warm_jobs(list, places, gap);
    let tick = task(list, 0).read(jobs[0]);
    let walked = h / task(list, q).period;
    let slots = starts.len();
    let mut state = places_at(list, places, gap, q, jobs[q]);
    let state = &mut state[..places];
    if 1 < walked {
        state.iter_mut().for_each(|place| place.prepare());
    }
    let state = State { places: state, cut: q, first: task(list, 0), last: task(list, places - 1) };
    let anchors = state.walk(walked, tick + h, Anchors::new(starts, latencies));
    let figures = Figures { anchors, tick, hyperperiod: h, walked };
    if anchors <= slots {
        Made::Whole(figures)
    } else {
        Made::Short(figures)
    }
}

fn missed(list: &[u64], places: usize, gap: u64, b: u64, j: u64) -> u64 {
    let n = places - 1;
    let end = task(list, n).write(forward(list, gap, 0, n, j));
    (b < end - task(list, 0).read(j)) as u64
}

pub fn most_misses(list: &[u64], places: usize, gap: u64, b: u64, k: u64) -> Result<(u64, u64), Refusal> {
    let h = check(list, places, gap)?;
    if k < 1 || 100 < k {
        return Err(refusal(15, 0));
    }
    let w = warm_jobs(list, places, gap)[0];
    Ok(most_of(|j| missed(list, places, gap, b, j), k, w + 1, w + h / task(list, 0).period))
}
