//! The step from one partition to the following one, without a division and without a remainder.
use crate::anchors::{Anchors, Partition};
use crate::task::Task;

/// A place of a chain: its job in a partition and what is left over there, less than its period.
/// `(z * factor) >> shift` is z by the period for every z that a step meets.
#[derive(Clone, Copy)]
pub struct Place {
    pub period: u64,
    pub factor: u64,
    pub shift: u32,
    pub job: u64,
    pub rest: u64,
}

impl Place {
    /// Goes on by some ticks; by how many ticks its job goes on.
    #[inline(always)]
    fn advance(&mut self, ticks: u64) -> u64 {
        let z = self.rest + ticks;
        let jobs = (z * self.factor) >> self.shift;
        let ticks = jobs * self.period;
        self.rest = z - ticks;
        self.job += jobs;
        ticks
    }
}

/// A chain cut at a place, at one of its partitions. Before the cut `places` has the jobs of the way back, after it those of the way on.
pub struct State<'a> {
    pub places: &'a mut [Place],
    pub cut: usize,
    pub first: Task,
    pub last: Task,
}

impl State<'_> {
    #[inline(always)]
    fn partition(&self) -> Partition {
        let n = self.places.len() - 1;
        // At the cut itself the way on begins with the job after that of the way back.
        let further = (self.cut == n) as u64;
        Partition { start: self.first.read(self.places[0].job), end: self.last.write(self.places[n].job + further) }
    }

    /// To the following partition: from the cut along both ways.
    #[inline(always)]
    fn step(&mut self) {
        let (back, on) = self.places.split_at_mut(self.cut);
        let (cut, on) = on.split_first_mut().expect("a cut in the chain");
        cut.job += 1;
        back.iter_mut().rev().fold(cut.period, |ticks, place| place.advance(ticks));
        on.iter_mut().fold(cut.period, |ticks, place| place.advance(ticks));
    }

    /// The anchors of n partitions, of which the first is here and the one after the last starts at `past`; how many there are.
    pub fn walk(mut self, n: u64, past: u64, mut anchors: Anchors) -> usize {
        let mut here = self.partition();
        for _ in 1..n {
            self.step();
            let next = self.partition();
            anchors.add(here, next.start);
            here = next;
        }
        anchors.add(here, past);
        anchors.count()
    }

    /// The greatest latency of n partitions, of which the first is here.
    pub fn greatest(mut self, n: u64) -> u64 {
        let mut greatest = self.partition().latency();
        for _ in 1..n {
            self.step();
            greatest = greatest.max(self.partition().latency());
        }
        greatest
    }

    /// The same, but the first latency above the bound ends it; and how many partitions were walked.
    pub fn greatest_within(mut self, n: u64, bound: u64) -> (u64, u64) {
        let mut greatest = self.partition().latency();
        let mut walked = 1;
        while walked < n && greatest <= bound {
            self.step();
            greatest = greatest.max(self.partition().latency());
            walked += 1;
        }
        (greatest, walked)
    }
}
