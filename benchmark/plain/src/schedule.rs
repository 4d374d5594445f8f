//! A schedule: tasks with their numbers, chains as the task numbers at their places, and the gap of their links. Its checks, and the choice of a chain by its number.
use crate::task::Task;
use crate::{Refusal, GAP_LIMIT, MOST_PLACES};

pub const MOST_TASKS: usize = 32;
pub const MOST_CHAINS: usize = 4;
const HIGHEST_NUMBER: u64 = 65_535;

#[derive(Clone, Copy, Debug, PartialEq, Eq)]
pub struct NumberedTask {
    pub number: u64,
    pub task: Task,
}

pub struct Schedule {
    pub tasks: Vec<NumberedTask>,
    pub chains: Vec<Vec<u64>>,
    pub gap: u64,
}

/// The tasks at the places of a chain.
pub struct Chosen {
    tasks: [Task; MOST_PLACES],
    places: usize,
}

impl Chosen {
    pub fn tasks(&self) -> &[Task] {
        &self.tasks[..self.places]
    }
}

fn find(tasks: &[NumberedTask], number: u64) -> Option<&Task> {
    tasks.iter().find(|numbered| numbered.number == number).map(|numbered| &numbered.task)
}

/// The checks 5, that of the gap last, and 6.
pub(crate) fn check_parts(tasks: &[NumberedTask], chains: &[impl AsRef<[u64]>], gap: u64) -> Result<(), Refusal> {
    let mut before = 0;
    for (at, numbered) in tasks.iter().enumerate() {
        if numbered.number <= before || HIGHEST_NUMBER < numbered.number || !numbered.task.within_limits() {
            return Err(Refusal { number: 5, place: at + 1 });
        }
        before = numbered.number;
    }
    if GAP_LIMIT < gap {
        return Err(Refusal::new(5));
    }
    for chain in chains {
        if let Some(at) = chain.as_ref().iter().position(|&number| find(tasks, number).is_none()) {
            return Err(Refusal { number: 6, place: at + 1 });
        }
    }
    Ok(())
}

/// The chain of these task numbers, of which there are at most twelve.
#[inline]
pub(crate) fn choose(tasks: &[NumberedTask], numbers: &[u64]) -> Result<Chosen, Refusal> {
    let mut chosen = [Task { period: 0, duration: 0, phase: 0 }; MOST_PLACES];
    for (task, &number) in chosen.iter_mut().zip(numbers) {
        *task = *find(tasks, number).ok_or(Refusal::new(6))?;
    }
    Ok(Chosen { tasks: chosen, places: numbers.len() })
}

impl Schedule {
    fn counts_right(&self) -> bool {
        (1..=MOST_TASKS).contains(&self.tasks.len())
            && (1..=MOST_CHAINS).contains(&self.chains.len())
            && self.chains.iter().all(|chain| (1..=MOST_PLACES).contains(&chain.len()))
    }

    /// The checks 8, 5, that of the gap last, and 6.
    pub fn check(&self) -> Result<(), Refusal> {
        if !self.counts_right() {
            return Err(Refusal::new(8));
        }
        check_parts(&self.tasks, &self.chains, self.gap)
    }

    /// Chain n of a schedule that passed its checks, n counted from 1; refusal 16.
    pub fn chain(&self, n: usize) -> Result<Chosen, Refusal> {
        let numbers = n.checked_sub(1).and_then(|at| self.chains.get(at)).ok_or(Refusal::new(16))?;
        choose(&self.tasks, numbers)
    }
}
