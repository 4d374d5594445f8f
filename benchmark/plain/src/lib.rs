//! The program of the crates in plain Rust, to measure against: the same checks in the same order, the same algorithms, u64 arithmetic.
//! A chain is a slice of tasks, one for each place, and the gap of its links. The slice is lent, never copied; out of a schedule it is taken once. Nothing here is proved.
pub mod anchors;
pub mod bookings;
pub mod chain;
pub mod division;
pub mod histogram;
pub mod instrument;
pub mod latency;
pub mod load;
pub mod maker;
pub mod outset;
pub mod phase;
pub mod schedule;
pub mod sections;
pub mod stepping;
pub mod table;
pub mod task;
pub mod timing;
pub mod windows;

pub const MOST_PLACES: usize = 12;
pub const GAP_LIMIT: u64 = 1000;
pub const HYPERPERIOD_LIMIT: u64 = 60_000_000;
pub const UPPER_TICK: u64 = 1_000_000_000_000;

/// A refusal: its number and its place.
#[derive(Clone, Copy, Debug, PartialEq, Eq)]
pub struct Refusal {
    pub number: u64,
    pub place: usize,
}

impl Refusal {
    pub(crate) fn new(number: u64) -> Self {
        Refusal { number, place: 0 }
    }

    /// The refusal as one number, as the calls for C give it.
    pub fn code(&self) -> u64 {
        self.number + 256 * self.place as u64
    }
}
