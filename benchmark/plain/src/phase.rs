//! The smallest phase of a task with which a chain of a schedule keeps a bound.
use crate::chain::{check, gcd, lcm};
use crate::division::quotient;
use crate::latency::longest_place;
use crate::outset::places_at;
use crate::schedule::Schedule;
use crate::stepping::{Place, State};
use crate::task::Task;
use crate::timing::last;
use crate::{Refusal, MOST_PLACES};

/// No warm-up job reads after this tick, whatever the phases are.
const WARM: u64 = 60_011_000;
const PERIOD_LIMIT: u64 = 10_000;

/// A chain one task of which gets other phases: its tasks, the numbers of the tasks at its places, and what a search needs.
pub struct Movable {
    tasks: [Task; MOST_PLACES],
    count: usize,
    moves: [bool; MOST_PLACES],
    pub period: u64,
    pub h: u64,
    pub gap: u64,
}

/// What a search found, and how many phases it tried and partitions it walked.
pub struct Search {
    pub phase: Option<u64>,
    pub tried: u64,
    pub walked: u64,
}

impl Movable {
    /// The checks of an analysis from a schedule, the chain's own, then 19 and 20.
    pub fn of(schedule: &Schedule, n: usize, number: u64) -> Result<Self, Refusal> {
        schedule.check()?;
        let chosen = schedule.chain(n)?;
        let chain = chosen.tasks();
        let h = check(chain, schedule.gap)?;
        let numbers = &schedule.chains[n - 1];
        let at = numbers.iter().position(|&one| one == number).ok_or(Refusal::new(19))?;
        if PERIOD_LIMIT < chain[at].period {
            return Err(Refusal::new(20));
        }
        let mut movable = Movable { tasks: [chain[at]; MOST_PLACES], count: chain.len(), moves: [false; MOST_PLACES], period: chain[at].period, h, gap: schedule.gap };
        movable.tasks[..chain.len()].copy_from_slice(chain);
        for (moves, &one) in movable.moves.iter_mut().zip(numbers) {
            *moves = one == number;
        }
        Ok(movable)
    }

    pub fn tasks(&self) -> &[Task] {
        &self.tasks[..self.count]
    }

    pub fn put(&mut self, phase: u64) {
        for (task, &moves) in self.tasks[..self.count].iter_mut().zip(&self.moves) {
            if moves {
                task.phase = phase;
            }
        }
    }

    /// After so many phases the chain is the same at another time.
    fn phases(&self) -> u64 {
        let others = self.tasks().iter().zip(&self.moves).filter(|(_, &moves)| !moves).fold(1, |multiple, (task, _)| lcm(multiple, task.period));
        gcd(self.period, others)
    }

    /// Each try ends at its first partition above the bound, and begins as far after the one that ended the try before as that one lay after the end of the try before it: from phase to phase the
    /// late partitions stay where they are, or move on by the same number of jobs each time.
    pub fn search(mut self, bound: u64) -> Search {
        let cut = longest_place(self.tasks());
        let n = quotient(self.h, self.tasks[cut].period);
        let from = quotient(WARM, self.tasks[cut].period) + 1;
        let mut constants = [Place::NONE; MOST_PLACES];
        for (place, task) in constants.iter_mut().zip(self.tasks()) {
            *place = Place::cut(task, 0);
            place.prepare();
        }
        let phases = self.phases();
        let turned = |x: u64| if x < n { x } else { x - n };
        let (mut at, mut stride, mut walked) = (0, 0, 0);
        for phase in 0..phases {
            self.put(phase);
            let tasks = self.tasks();
            let start = turned(at + stride);
            let mut places = places_at(tasks, self.gap, cut, from + start);
            for (place, constant) in places[..tasks.len()].iter_mut().zip(&constants) {
                (place.factor, place.shift) = (constant.factor, constant.shift);
            }
            let state = State { places: &mut places[..tasks.len()], cut, first: tasks[0], last: *last(tasks) };
            let (latency, steps) = state.greatest_within(n, bound);
            walked += steps;
            if latency <= bound {
                return Search { phase: Some(phase), tried: phase + 1, walked };
            }
            let end = turned(start + (steps - 1));
            stride = turned(end + (n - at));
            at = end;
        }
        Search { phase: None, tried: phases, walked }
    }
}

pub fn smallest_phase(schedule: &Schedule, n: usize, number: u64, bound: u64) -> Result<Option<u64>, Refusal> {
    Ok(Movable::of(schedule, n, number)?.search(bound).phase)
}
