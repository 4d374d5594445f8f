//! Made-up chains from a seed.
use crate::division::remainder;
use crate::task::Task;
use crate::{Refusal, MOST_PLACES};

struct Draws(u64);

impl Draws {
    fn next(&mut self) -> u64 {
        self.0 = self.0.wrapping_add(0x9E37_79B9_7F4A_7C15);
        self.0 ^ (self.0 >> 31)
    }
}

fn period_of(x: u64) -> u64 {
    match x {
        0 => 2500,
        1..=10 => 5000,
        11..=43 => 10_000,
        44..=58 => 20_000,
        59..=81 => 40_000,
        _ => 80_000,
    }
}

/// The tasks at the places; 8 where there are none or more than twelve.
pub fn make_load(seed: u64, places: usize) -> Result<impl Iterator<Item = Task>, Refusal> {
    if places < 1 || MOST_PLACES < places {
        return Err(Refusal::new(8));
    }
    let mut draws = Draws(seed);
    Ok((0..places).map(move |_| {
        let period = period_of(draws.next() % 97);
        Task { period, duration: period, phase: remainder(draws.next(), period) }
    }))
}
