//! The instrument's state: what runs, and at most one proposal. An ask tries a schedule with bounds and keeps it as the proposal; a commit makes the proposal run.
//! Here a schedule has arrays and counts, so that a state is one piece without a heap. It stays where it is, and what is asked or named is lent.
use crate::chain::check;
use crate::latency::greatest;
use crate::schedule::{check_parts, choose, NumberedTask, MOST_CHAINS, MOST_TASKS};
use crate::task::Task;
use crate::{Refusal, MOST_PLACES};

/// The greatest latency of each chain, 0 past them.
pub type Latencies = [u64; MOST_CHAINS];

/// A chain: the task numbers at its places.
#[derive(Clone, Copy, Debug, PartialEq, Eq)]
pub struct Route {
    pub places: [u64; MOST_PLACES],
    pub count: usize,
}

/// A schedule and the bound of each of its chains. Entries past a count are no part of it.
#[derive(Clone, Copy, Debug, PartialEq, Eq)]
pub struct Bounded {
    pub tasks: [NumberedTask; MOST_TASKS],
    pub count: usize,
    pub routes: [Route; MOST_CHAINS],
    pub chains: usize,
    pub gap: u64,
    pub bounds: [u64; MOST_CHAINS],
}

impl Route {
    const NONE: Route = Route { places: [0; MOST_PLACES], count: 0 };
}

impl AsRef<[u64]> for Route {
    fn as_ref(&self) -> &[u64] {
        &self.places[..self.count]
    }
}

/// The entries from a count on, none where it is above the length.
fn past<T>(entries: &mut [T], count: usize) -> &mut [T] {
    let count = count.min(entries.len());
    &mut entries[count..]
}

impl Bounded {
    /// The same with zeros past the counts.
    pub fn cleared(&self) -> Self {
        let mut b = *self;
        past(&mut b.tasks, b.count).fill(NumberedTask { number: 0, task: Task { period: 0, duration: 0, phase: 0 } });
        past(&mut b.routes, b.chains).fill(Route::NONE);
        past(&mut b.bounds, b.chains).fill(0);
        for route in &mut b.routes {
            past(&mut route.places, route.count).fill(0);
        }
        b
    }

    fn counts_right(&self) -> bool {
        (1..=MOST_TASKS).contains(&self.count)
            && (1..=MOST_CHAINS).contains(&self.chains)
            && self.routes[..self.chains].iter().all(|route| (1..=MOST_PLACES).contains(&route.count))
    }

    /// The checks 8, 5, 6 and, chain by chain, 7, then the latencies, and 21 where one is above its bound. What a chain is analysed with is told the chain and its hyperperiod.
    fn judge_by(&self, greatest: impl Fn(&[Task], u64, u64) -> u64) -> Result<Latencies, Refusal> {
        if !self.counts_right() {
            return Err(Refusal::new(8));
        }
        let tasks = &self.tasks[..self.count];
        let routes = &self.routes[..self.chains];
        check_parts(tasks, routes, self.gap)?;
        let mut chains = [const { None }; MOST_CHAINS];
        for (chain, route) in chains.iter_mut().zip(routes) {
            let chosen = choose(tasks, route.as_ref())?;
            let h = check(chosen.tasks(), self.gap)?;
            *chain = Some((chosen, h));
        }
        let mut latencies = [0; MOST_CHAINS];
        for (latency, (chain, h)) in latencies.iter_mut().zip(chains.iter().flatten()) {
            *latency = greatest(chain.tasks(), self.gap, *h);
        }
        if latencies.iter().zip(&self.bounds).any(|(latency, bound)| bound < latency) {
            return Err(Refusal::new(21));
        }
        Ok(latencies)
    }
}

#[derive(Clone, Copy, Debug, PartialEq, Eq)]
pub struct State {
    pub running: Bounded,
    pub proposal: Option<Bounded>,
}

impl State {
    /// A state in which this runs; refused as an ask for it is.
    pub fn make(b: &Bounded) -> Result<Self, Refusal> {
        let running = b.cleared();
        running.judge_by(greatest)?;
        Ok(State { running, proposal: None })
    }

    /// An ask by what each chain is analysed with.
    #[inline]
    pub fn ask_by(&mut self, greatest: impl Fn(&[Task], u64, u64) -> u64, b: &Bounded) -> Result<Latencies, Refusal> {
        let b = b.cleared();
        let latencies = b.judge_by(greatest)?;
        self.proposal = Some(b);
        Ok(latencies)
    }

    pub fn ask(&mut self, b: &Bounded) -> Result<Latencies, Refusal> {
        self.ask_by(greatest, b)
    }

    /// 22 where no proposal stands, 23 where it is another.
    pub fn commit(&mut self, b: &Bounded) -> Result<(), Refusal> {
        let Some(proposal) = &self.proposal else {
            return Err(Refusal::new(22));
        };
        let b = b.cleared();
        if b != *proposal {
            return Err(Refusal::new(23));
        }
        *self = State { running: b, proposal: None };
        Ok(())
    }
}
