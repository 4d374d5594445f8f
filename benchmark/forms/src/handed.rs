//! The calls on the instrument's state in plain Rust, with the state handed over and back, and what is asked or named handed over, as the calls for C have it. Inside they are the plain program's.
use plain::instrument::{Bounded, Latencies, State};
use plain::Refusal;

pub struct Asked {
    pub state: State,
    pub answer: Result<Latencies, Refusal>,
}

pub struct Committed {
    pub state: State,
    pub answer: Result<(), Refusal>,
}

#[inline(never)]
pub fn ask(mut state: State, b: Bounded) -> Asked {
    let answer = state.ask(&b);
    Asked { state, answer }
}

#[inline(never)]
pub fn commit(mut state: State, b: Bounded) -> Committed {
    let answer = state.commit(&b);
    Committed { state, answer }
}
