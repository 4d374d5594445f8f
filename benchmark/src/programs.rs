//! The programs that are measured, under one interface: the one of the calls for C.
use crate::enumerate;
use forms::{by_entries, by_value, flat, handed};
use plain::bookings::Bookings;
use plain::instrument;
use plain::maker::Made;
use plain::sections::Sections;
use plain::task::Task;
use plain::Refusal;

pub const REFUSED: u64 = 1 << 32;

/// A chain in the two ways in which the programs are lent it.
pub struct Chain {
    pub tasks: Vec<Task>,
    pub flat: Vec<u64>,
    pub gap: u64,
}

pub struct Table {
    pub starts: Vec<u64>,
    pub latencies: Vec<u64>,
    pub h: u64,
}

/// A schedule, also in two ways: for the plain program, and as lists for C.
pub struct Schedule {
    pub plain: plain::schedule::Schedule,
    pub tasks: Vec<u64>,
    pub chains: Vec<u64>,
    pub places: Vec<u64>,
}

/// How many numbers a schedule with bounds has for C, and a state.
const BOUNDED: usize = 32 * 4 + 4 * 13 + 3 + 4;
const STATE: usize = 2 * BOUNDED + 1;

/// A schedule with bounds in the two ways.
pub struct Bounded {
    pub plain: instrument::Bounded,
    handed: c::Bounded,
}

/// The instrument's state in the two ways. A program goes on with its own.
#[derive(Clone, Copy)]
pub struct State {
    pub plain: instrument::State,
    handed: c::State,
}

/// The fields in the order in which C has them.
fn numbers_of(b: &instrument::Bounded) -> [u64; BOUNDED] {
    let tasks = b.tasks.iter().flat_map(|one| [one.number, one.task.period, one.task.duration, one.task.phase]);
    let routes = b.routes.iter().flat_map(|route| route.places.into_iter().chain([route.count as u64]));
    let all: Vec<u64> = tasks.chain(routes).chain([b.count as u64, b.chains as u64, b.gap]).chain(b.bounds).collect();
    all.try_into().expect("every field")
}

impl Bounded {
    pub fn of(plain: instrument::Bounded) -> Self {
        Bounded { plain, handed: c::Bounded(numbers_of(&plain)) }
    }
}

impl State {
    pub fn of(plain: instrument::State) -> Self {
        let proposal = plain.proposal.as_ref().map_or([0; BOUNDED], numbers_of);
        let stands = plain.proposal.is_some() as u64;
        State { plain, handed: c::State { running: c::Bounded(numbers_of(&plain.running)), proposal: c::Bounded(proposal), stands } }
    }
}

pub trait Program {
    fn make(chain: &Chain, p: usize, starts: &mut [u64], latencies: &mut [u64], figures: &mut [u64; 4]) -> u64;
    fn read(table: &Table, t: u64) -> u64;
    /// The rest; the counts are left in the list.
    fn histogram(table: &Table, width: u64, counts: &mut [u64], rest: &mut u64) -> u64;
    fn delay(chain: &Chain, t: u64, out: &mut u64) -> u64;
    fn age(chain: &Chain, z: u64, out: &mut u64) -> u64;
    fn windows(chain: &Chain, b: u64, k: u64, out: &mut [u64; 2]) -> u64;
    /// The latencies, then the number of sections and the sum.
    fn sections(chain: &Chain, cuts: &[u64], out: &mut [u64; 14]) -> u64;
    /// Of the schedule's chains 1 and 2.
    fn bookings(schedule: &Schedule, t: u64, out: &mut [u64; 4]) -> u64;
    /// The phase, and 1 where there is none, of a task of the schedule's chain 1. What passes a chain otherwise has the plain program's.
    fn phase(schedule: &Schedule, number: u64, bound: u64, out: &mut [u64; 2]) -> u64 {
        give_phase(plain::phase::smallest_phase(&schedule.plain, 1, number, bound), out)
    }
    /// T, D, F of each place of a made-up chain. There is one way to make it, so the proved program alone has another than the plain one's.
    fn load(seed: u64, places: usize, out: &mut [u64; 36]) -> u64 {
        give_load(plain::load::make_load(seed, places), out)
    }
    /// The latencies. What has the state otherwise than the plain program, or analyses otherwise, has its own ask.
    fn ask(state: &mut State, b: &Bounded, out: &mut [u64; 4]) -> u64 {
        give(state.plain.ask(&b.plain), out)
    }
    fn commit(state: &mut State, b: &Bounded) -> u64 {
        give(state.plain.commit(&b.plain), &mut ())
    }
    /// Puts the proposal of another state into this one.
    fn put_back(state: &mut State, from: &State) {
        state.plain.proposal = from.plain.proposal;
    }
    /// Every number of the state, as C has it.
    fn state(state: &State) -> [u64; STATE] {
        State::of(state.plain).handed.numbers()
    }
}

fn give_table(made: Made, figures: &mut [u64; 4]) -> u64 {
    let (f, code) = match made {
        Made::Whole(f) => (f, 0),
        Made::Short(f) => (f, 11),
        Made::Refused(r) => {
            *figures = [0; 4];
            return r.code();
        }
    };
    *figures = [f.anchors as u64, f.tick, f.hyperperiod, f.walked];
    code
}

fn give<T: Default>(answer: Result<T, Refusal>, out: &mut T) -> u64 {
    match answer {
        Ok(value) => {
            *out = value;
            0
        }
        Err(r) => {
            *out = T::default();
            r.code()
        }
    }
}

fn give_pair(answer: Result<(u64, u64), Refusal>, out: &mut [u64; 2]) -> u64 {
    give(answer.map(|(a, b)| [a, b]), out)
}

fn give_sections(answer: Result<Sections, Refusal>, out: &mut [u64; 14]) -> u64 {
    match answer {
        Ok(found) => {
            out[..12].copy_from_slice(&found.latencies);
            (out[12], out[13]) = (found.count as u64, found.sum);
            0
        }
        Err(r) => {
            *out = [0; 14];
            r.code()
        }
    }
}

fn give_load(answer: Result<impl Iterator<Item = Task>, Refusal>, out: &mut [u64; 36]) -> u64 {
    *out = [0; 36];
    match answer {
        Ok(tasks) => {
            for (fields, task) in out.chunks_mut(3).zip(tasks) {
                fields.copy_from_slice(&[task.period, task.duration, task.phase]);
            }
            0
        }
        Err(r) => r.code(),
    }
}

fn give_phase(answer: Result<Option<u64>, Refusal>, out: &mut [u64; 2]) -> u64 {
    give(answer.map(|phase| phase.map_or([0, 1], |phase| [phase, 0])), out)
}

fn give_bookings(answer: Result<Bookings, Refusal>, out: &mut [u64; 4]) -> u64 {
    give(answer.map(|b| [b.later, b.earlier, b.difference, b.greatest]), out)
}

/// The archives of the proved crates, as include/meshorchard.h declares them.
pub struct Proved;

mod c {
    /// Every field of the structs has 8 bytes, so those of one struct are a list here.
    #[repr(C)]
    #[derive(Clone, Copy)]
    pub struct Bounded(pub [u64; super::BOUNDED]);

    #[repr(C)]
    #[derive(Clone, Copy)]
    pub struct State {
        pub running: Bounded,
        pub proposal: Bounded,
        pub stands: u64,
    }

    #[repr(C)]
    pub struct Refusal {
        pub number: u64,
        pub place: usize,
    }

    #[repr(C)]
    pub struct Asked {
        pub state: State,
        pub refusal: Refusal,
        pub latencies: [u64; 4],
    }

    #[repr(C)]
    pub struct Committed {
        pub state: State,
        pub refusal: Refusal,
    }

    impl State {
        pub fn numbers(&self) -> [u64; super::STATE] {
            let all: Vec<u64> = self.running.0.into_iter().chain(self.proposal.0).chain([self.stands]).collect();
            all.try_into().expect("every field")
        }
    }

    impl Refusal {
        pub fn code(&self) -> u64 {
            self.number + 256 * self.place as u64
        }
    }

    extern "C" {
        pub fn mo_read_table(starts: *const u64, n: usize, latencies: *const u64, m: usize, g: u64, h: u64, t: u64) -> u64;
        pub fn mo_histogram(
            starts: *const u64, n: usize, latencies: *const u64, m: usize, g: u64, h: u64, width: u64, counts: *mut u64, counts_length: usize, rest: *mut u64,
        ) -> u64;
        pub fn mo_delay(tasks: *const u64, length: usize, places: usize, gap: u64, t: u64, delay: *mut u64) -> u64;
        pub fn mo_age(tasks: *const u64, length: usize, places: usize, gap: u64, z: u64, age: *mut u64) -> u64;
        pub fn mo_make_table(
            tasks: *const u64, length: usize, places: usize, gap: u64, p: usize, starts: *mut u64, n: usize, latencies: *mut u64, m: usize, figures: *mut u64,
        ) -> u64;
        pub fn mo_windows(tasks: *const u64, length: usize, places: usize, gap: u64, b: u64, k: u64, misses: *mut u64, first: *mut u64) -> u64;
        pub fn mo_sections(
            tasks: *const u64, length: usize, places: usize, gap: u64, cuts: *const u64, cuts_length: usize, latencies: *mut u64, count: *mut u64, sum: *mut u64,
        ) -> u64;
        pub fn mo_load(seed: u64, places: usize, tasks: *mut u64) -> u64;
        pub fn mo_bookings(
            tasks: *const u64, tasks_length: usize, count: usize, chains: *const u64, chains_length: usize, places: *const u64, places_length: usize,
            chain_count: usize, gap: u64, first: usize, second: usize, t: u64, figures: *mut u64,
        ) -> u64;
        pub fn mo_smallest_phase(
            tasks: *const u64, tasks_length: usize, count: usize, chains: *const u64, chains_length: usize, places: *const u64, places_length: usize,
            chain_count: usize, gap: u64, chain: usize, number: u64, bound: u64, phase: *mut u64, none: *mut u64,
        ) -> u64;
        pub fn mo_ask(s: State, b: Bounded) -> Asked;
        pub fn mo_commit(s: State, b: Bounded) -> Committed;
    }
}

// Each pointer comes from a slice or a reference that lives through the call, with its own length beside it; the lists written to are apart from all else.
impl Program for Proved {
    fn make(chain: &Chain, p: usize, starts: &mut [u64], latencies: &mut [u64], figures: &mut [u64; 4]) -> u64 {
        let (tasks, places, gap) = (&chain.flat, chain.tasks.len(), chain.gap);
        unsafe { c::mo_make_table(tasks.as_ptr(), tasks.len(), places, gap, p, starts.as_mut_ptr(), starts.len(), latencies.as_mut_ptr(), latencies.len(), figures.as_mut_ptr()) }
    }

    fn read(table: &Table, t: u64) -> u64 {
        let (starts, latencies) = (&table.starts, &table.latencies);
        unsafe { c::mo_read_table(starts.as_ptr(), starts.len(), latencies.as_ptr(), latencies.len(), starts.len() as u64, table.h, t) }
    }

    fn histogram(table: &Table, width: u64, counts: &mut [u64], rest: &mut u64) -> u64 {
        let (starts, latencies) = (&table.starts, &table.latencies);
        unsafe { c::mo_histogram(starts.as_ptr(), starts.len(), latencies.as_ptr(), latencies.len(), starts.len() as u64, table.h, width, counts.as_mut_ptr(), counts.len(), rest) }
    }

    fn delay(chain: &Chain, t: u64, out: &mut u64) -> u64 {
        unsafe { c::mo_delay(chain.flat.as_ptr(), chain.flat.len(), chain.tasks.len(), chain.gap, t, out) }
    }

    fn age(chain: &Chain, z: u64, out: &mut u64) -> u64 {
        unsafe { c::mo_age(chain.flat.as_ptr(), chain.flat.len(), chain.tasks.len(), chain.gap, z, out) }
    }

    fn windows(chain: &Chain, b: u64, k: u64, out: &mut [u64; 2]) -> u64 {
        let [misses, first] = out;
        unsafe { c::mo_windows(chain.flat.as_ptr(), chain.flat.len(), chain.tasks.len(), chain.gap, b, k, misses, first) }
    }

    fn sections(chain: &Chain, cuts: &[u64], out: &mut [u64; 14]) -> u64 {
        let (latencies, others) = out.split_at_mut(12);
        let (count, sum) = others.split_at_mut(1);
        unsafe { c::mo_sections(chain.flat.as_ptr(), chain.flat.len(), chain.tasks.len(), chain.gap, cuts.as_ptr(), cuts.len(), latencies.as_mut_ptr(), count.as_mut_ptr(), sum.as_mut_ptr()) }
    }

    fn bookings(schedule: &Schedule, t: u64, out: &mut [u64; 4]) -> u64 {
        let (tasks, chains, places) = (&schedule.tasks, &schedule.chains, &schedule.places);
        let (count, gap) = (tasks.len() / 4, schedule.plain.gap);
        unsafe { c::mo_bookings(tasks.as_ptr(), tasks.len(), count, chains.as_ptr(), chains.len(), places.as_ptr(), places.len(), places.len(), gap, 1, 2, t, out.as_mut_ptr()) }
    }

    fn phase(schedule: &Schedule, number: u64, bound: u64, out: &mut [u64; 2]) -> u64 {
        let (tasks, chains, places) = (&schedule.tasks, &schedule.chains, &schedule.places);
        let (count, gap) = (tasks.len() / 4, schedule.plain.gap);
        let [phase, none] = out;
        unsafe { c::mo_smallest_phase(tasks.as_ptr(), tasks.len(), count, chains.as_ptr(), chains.len(), places.as_ptr(), places.len(), places.len(), gap, 1, number, bound, phase, none) }
    }

    fn load(seed: u64, places: usize, out: &mut [u64; 36]) -> u64 {
        unsafe { c::mo_load(seed, places, out.as_mut_ptr()) }
    }

    fn ask(state: &mut State, b: &Bounded, out: &mut [u64; 4]) -> u64 {
        let asked = unsafe { c::mo_ask(state.handed, b.handed) };
        state.handed = asked.state;
        *out = asked.latencies;
        asked.refusal.code()
    }

    fn commit(state: &mut State, b: &Bounded) -> u64 {
        let committed = unsafe { c::mo_commit(state.handed, b.handed) };
        state.handed = committed.state;
        committed.refusal.code()
    }

    fn put_back(state: &mut State, from: &State) {
        state.handed.proposal = from.handed.proposal;
        state.handed.stands = from.handed.stands;
    }

    fn state(state: &State) -> [u64; STATE] {
        state.handed.numbers()
    }
}

pub struct Plain;

impl Program for Plain {
    fn make(chain: &Chain, p: usize, starts: &mut [u64], latencies: &mut [u64], figures: &mut [u64; 4]) -> u64 {
        give_table(plain::maker::make_table(&chain.tasks, chain.gap, p, starts, latencies), figures)
    }

    fn read(table: &Table, t: u64) -> u64 {
        plain::table::read_at(&table.starts, &table.latencies, table.starts.len(), table.h, t).unwrap_or_else(|r| REFUSED + r.number)
    }

    fn histogram(table: &Table, width: u64, counts: &mut [u64], rest: &mut u64) -> u64 {
        give(plain::histogram::histogram(&table.starts, &table.latencies, table.starts.len(), table.h, width, counts), rest)
    }

    fn delay(chain: &Chain, t: u64, out: &mut u64) -> u64 {
        give(plain::timing::delay(&chain.tasks, chain.gap, t), out)
    }

    fn age(chain: &Chain, z: u64, out: &mut u64) -> u64 {
        give(plain::timing::age(&chain.tasks, chain.gap, z), out)
    }

    fn windows(chain: &Chain, b: u64, k: u64, out: &mut [u64; 2]) -> u64 {
        give_pair(plain::windows::most_misses(&chain.tasks, chain.gap, b, k), out)
    }

    fn sections(chain: &Chain, cuts: &[u64], out: &mut [u64; 14]) -> u64 {
        give_sections(plain::sections::section_latencies(&chain.tasks, chain.gap, cuts), out)
    }

    fn bookings(schedule: &Schedule, t: u64, out: &mut [u64; 4]) -> u64 {
        give_bookings(plain::bookings::pair_of(&schedule.plain, 1, 2, t), out)
    }
}

pub struct Enumerating;

impl Program for Enumerating {
    fn make(chain: &Chain, p: usize, starts: &mut [u64], latencies: &mut [u64], figures: &mut [u64; 4]) -> u64 {
        give_table(enumerate::make_table(&chain.tasks, chain.gap, p, starts, latencies), figures)
    }

    fn read(table: &Table, t: u64) -> u64 {
        enumerate::read_at(&table.starts, &table.latencies, table.starts.len(), table.h, t).unwrap_or_else(|r| REFUSED + r.number)
    }

    fn histogram(table: &Table, width: u64, counts: &mut [u64], rest: &mut u64) -> u64 {
        give(enumerate::histogram(&table.starts, &table.latencies, table.starts.len(), table.h, width, counts), rest)
    }

    fn delay(chain: &Chain, t: u64, out: &mut u64) -> u64 {
        give(enumerate::delay(&chain.tasks, chain.gap, t), out)
    }

    fn age(chain: &Chain, z: u64, out: &mut u64) -> u64 {
        give(enumerate::age(&chain.tasks, chain.gap, z), out)
    }

    fn windows(chain: &Chain, b: u64, k: u64, out: &mut [u64; 2]) -> u64 {
        give_pair(enumerate::most_misses(&chain.tasks, chain.gap, b, k), out)
    }

    fn sections(chain: &Chain, cuts: &[u64], out: &mut [u64; 14]) -> u64 {
        give_sections(enumerate::section_latencies(&chain.tasks, chain.gap, cuts), out)
    }

    fn bookings(schedule: &Schedule, t: u64, out: &mut [u64; 4]) -> u64 {
        give_bookings(enumerate::pair_of(&schedule.plain, 1, 2, t), out)
    }

    fn phase(schedule: &Schedule, number: u64, bound: u64, out: &mut [u64; 2]) -> u64 {
        give_phase(enumerate::smallest_phase(&schedule.plain, 1, number, bound), out)
    }

    fn ask(state: &mut State, b: &Bounded, out: &mut [u64; 4]) -> u64 {
        give(enumerate::ask(&mut state.plain, &b.plain), out)
    }
}

/// Making as it was before the step; all else is the plain program's.
pub struct Dividing;

impl Program for Dividing {
    fn make(chain: &Chain, p: usize, starts: &mut [u64], latencies: &mut [u64], figures: &mut [u64; 4]) -> u64 {
        give_table(dividing::make_table(&chain.tasks, chain.gap, p, starts, latencies), figures)
    }

    fn read(table: &Table, t: u64) -> u64 {
        Plain::read(table, t)
    }

    fn histogram(table: &Table, width: u64, counts: &mut [u64], rest: &mut u64) -> u64 {
        Plain::histogram(table, width, counts, rest)
    }

    fn delay(chain: &Chain, t: u64, out: &mut u64) -> u64 {
        Plain::delay(chain, t, out)
    }

    fn age(chain: &Chain, z: u64, out: &mut u64) -> u64 {
        Plain::age(chain, z, out)
    }

    fn windows(chain: &Chain, b: u64, k: u64, out: &mut [u64; 2]) -> u64 {
        Plain::windows(chain, b, k, out)
    }

    fn sections(chain: &Chain, cuts: &[u64], out: &mut [u64; 14]) -> u64 {
        Plain::sections(chain, cuts, out)
    }

    fn bookings(schedule: &Schedule, t: u64, out: &mut [u64; 4]) -> u64 {
        Plain::bookings(schedule, t, out)
    }
}

/// Plain Rust with the chain copied at each call, and the instrument's state handed over and back; the calls on tables, sections and bookings are the plain program's.
pub struct ByValue;

impl Program for ByValue {
    fn make(chain: &Chain, p: usize, starts: &mut [u64], latencies: &mut [u64], figures: &mut [u64; 4]) -> u64 {
        let copied = by_value::chain_from(&chain.flat, chain.tasks.len(), chain.gap);
        give_table(by_value::make_table(copied, p, starts, latencies), figures)
    }

    fn read(table: &Table, t: u64) -> u64 {
        Plain::read(table, t)
    }

    fn histogram(table: &Table, width: u64, counts: &mut [u64], rest: &mut u64) -> u64 {
        Plain::histogram(table, width, counts, rest)
    }

    fn delay(chain: &Chain, t: u64, out: &mut u64) -> u64 {
        give(by_value::delay(by_value::chain_from(&chain.flat, chain.tasks.len(), chain.gap), t), out)
    }

    fn age(chain: &Chain, z: u64, out: &mut u64) -> u64 {
        give(by_value::age(by_value::chain_from(&chain.flat, chain.tasks.len(), chain.gap), z), out)
    }

    fn windows(chain: &Chain, b: u64, k: u64, out: &mut [u64; 2]) -> u64 {
        give_pair(by_value::most_misses(by_value::chain_from(&chain.flat, chain.tasks.len(), chain.gap), b, k), out)
    }

    fn sections(chain: &Chain, cuts: &[u64], out: &mut [u64; 14]) -> u64 {
        Plain::sections(chain, cuts, out)
    }

    fn bookings(schedule: &Schedule, t: u64, out: &mut [u64; 4]) -> u64 {
        Plain::bookings(schedule, t, out)
    }

    fn ask(state: &mut State, b: &Bounded, out: &mut [u64; 4]) -> u64 {
        let asked = handed::ask(state.plain, b.plain);
        state.plain = asked.state;
        give(asked.answer, out)
    }

    fn commit(state: &mut State, b: &Bounded) -> u64 {
        let committed = handed::commit(state.plain, b.plain);
        state.plain = committed.state;
        give(committed.answer, &mut ())
    }
}

/// A histogram entry by entry; all else is the plain program's.
pub struct ByEntries;

impl Program for ByEntries {
    fn make(chain: &Chain, p: usize, starts: &mut [u64], latencies: &mut [u64], figures: &mut [u64; 4]) -> u64 {
        Plain::make(chain, p, starts, latencies, figures)
    }

    fn read(table: &Table, t: u64) -> u64 {
        Plain::read(table, t)
    }

    fn histogram(table: &Table, width: u64, counts: &mut [u64], rest: &mut u64) -> u64 {
        give(by_entries::histogram(&table.starts, &table.latencies, table.starts.len(), table.h, width, counts), rest)
    }

    fn delay(chain: &Chain, t: u64, out: &mut u64) -> u64 {
        Plain::delay(chain, t, out)
    }

    fn age(chain: &Chain, z: u64, out: &mut u64) -> u64 {
        Plain::age(chain, z, out)
    }

    fn windows(chain: &Chain, b: u64, k: u64, out: &mut [u64; 2]) -> u64 {
        Plain::windows(chain, b, k, out)
    }

    fn sections(chain: &Chain, cuts: &[u64], out: &mut [u64; 14]) -> u64 {
        Plain::sections(chain, cuts, out)
    }

    fn bookings(schedule: &Schedule, t: u64, out: &mut [u64; 4]) -> u64 {
        Plain::bookings(schedule, t, out)
    }
}

/// Plain Rust with the chain lent as a flat list.
pub struct Flat;

impl Program for Flat {
    fn make(chain: &Chain, p: usize, starts: &mut [u64], latencies: &mut [u64], figures: &mut [u64; 4]) -> u64 {
        give_table(flat::make_table(&chain.flat, chain.tasks.len(), chain.gap, p, starts, latencies), figures)
    }

    fn read(table: &Table, t: u64) -> u64 {
        Plain::read(table, t)
    }

    fn histogram(table: &Table, width: u64, counts: &mut [u64], rest: &mut u64) -> u64 {
        Plain::histogram(table, width, counts, rest)
    }

    fn delay(chain: &Chain, t: u64, out: &mut u64) -> u64 {
        give(flat::delay(&chain.flat, chain.tasks.len(), chain.gap, t), out)
    }

    fn age(chain: &Chain, z: u64, out: &mut u64) -> u64 {
        give(flat::age(&chain.flat, chain.tasks.len(), chain.gap, z), out)
    }

    fn windows(chain: &Chain, b: u64, k: u64, out: &mut [u64; 2]) -> u64 {
        give_pair(flat::most_misses(&chain.flat, chain.tasks.len(), chain.gap, b, k), out)
    }

    fn sections(chain: &Chain, cuts: &[u64], out: &mut [u64; 14]) -> u64 {
        Plain::sections(chain, cuts, out)
    }

    fn bookings(schedule: &Schedule, t: u64, out: &mut [u64; 4]) -> u64 {
        Plain::bookings(schedule, t, out)
    }
}
