//! Partitions and the anchors among them, written to lists.

#[derive(Clone, Copy)]
pub struct Partition {
    pub start: u64,
    pub end: u64,
}

impl Partition {
    #[inline(always)]
    pub fn latency(&self) -> u64 {
        self.end - self.start
    }
}

/// The anchors of the partitions so far. Those that fit are in the lists.
pub struct Anchors<'a> {
    starts: &'a mut [u64],
    latencies: &'a mut [u64],
    count: usize,
    last_end: u64,
}

impl<'a> Anchors<'a> {
    pub fn new(starts: &'a mut [u64], latencies: &'a mut [u64]) -> Self {
        Anchors { starts, latencies, count: 0, last_end: 0 }
    }

    /// The following partition, with the start of the one after it.
    #[inline(always)]
    pub fn add(&mut self, here: Partition, next_start: u64) {
        if next_start == here.start {
            return;
        }
        if here.end != self.last_end {
            if let (Some(start), Some(latency)) = (self.starts.get_mut(self.count), self.latencies.get_mut(self.count)) {
                *start = here.start;
                *latency = here.latency();
            }
            self.count += 1;
        }
        self.last_end = here.end;
    }

    pub fn count(&self) -> usize {
        self.count
    }
}
