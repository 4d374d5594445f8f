//! What is measured: chains, tables and schedules, each with the call that is made on it.
use crate::programs::{Bounded, Chain, Program, Schedule, State, Table, REFUSED};
use plain::bookings::check_pair;
use plain::chain::{check, forward};
use plain::instrument;
use plain::latency::{greatest, longest_place};
use plain::load::make_load;
use plain::maker::{make_table, Made};
use plain::phase::Movable;
use plain::schedule::NumberedTask;
use plain::task::Task;
use plain::timing::warm_jobs;
use plain::GAP_LIMIT;
use std::hash::{DefaultHasher, Hash, Hasher};
use std::hint::black_box;

/// Ticks that a reading, walking, ageing or bookings case goes through in turn.
const TICKS: usize = 256;
/// A bookings case has fewer ticks where enumerating would take more steps than this for them.
const MOST_STEPS: u64 = 10_000_000;
/// Ticks are drawn up to this one, about a day.
const LATEST: u64 = 100_000_000_000;
/// What the lists hold before making, so that an entry written past the anchors is seen, and a schedule with bounds past its counts.
const RUBBISH: u64 = 0xDEAD_BEEF;

pub enum Call {
    Make { chain: Chain, p: usize, slots: usize },
    Read { table: Table, ticks: Vec<u64> },
    Histogram { table: Table, width: u64, entries: usize },
    Delay { chain: Chain, ticks: Vec<u64> },
    Age { chain: Chain, ticks: Vec<u64> },
    Windows { chain: Chain, b: u64, k: u64 },
    Sections { chain: Chain, cuts: Vec<u64> },
    Bookings { schedule: Schedule, ticks: Vec<u64> },
    Phase { schedule: Schedule, number: u64, bound: u64 },
    Load { seed: u64, places: usize },
    /// `code` is what is to be answered, here and to a commit.
    Ask { state: State, b: Bounded, code: u64 },
    Commit { state: State, b: Bounded, code: u64 },
}

pub struct Case {
    pub group: &'static str,
    pub name: String,
    pub call: Call,
    /// How much work enumerating is, roughly in steps of a loop.
    pub enumerating: u64,
    /// How much work a call is, roughly in links.
    pub work: u64,
}

/// Numbers that look random and are the same in every run.
struct Draws(u64);

impl Draws {
    fn below(&mut self, limit: u64) -> u64 {
        self.0 = self.0.wrapping_mul(6_364_136_223_846_793_005).wrapping_add(1_442_695_040_888_963_407);
        (self.0 >> 20) % limit
    }
}

/// Durations are the periods; the phases differ, and go on from those of `before` tasks.
fn tasks_after(before: usize, periods: &[u64]) -> Vec<Task> {
    (before..).zip(periods).map(|(i, &period)| Task { period, duration: period, phase: 97 * i as u64 % period }).collect()
}

fn chain_of(periods: &[u64], gap: u64) -> Chain {
    chain_with(tasks_after(0, periods), gap)
}

fn chain_with(tasks: Vec<Task>, gap: u64) -> Chain {
    let flat = tasks.iter().flat_map(|task| [task.period, task.duration, task.phase]).collect();
    Chain { tasks, flat, gap }
}

fn hyperperiod(chain: &Chain) -> u64 {
    check(&chain.tasks, chain.gap).expect("a chain that is accepted")
}

/// How many ticks a way through the chain takes at most.
fn ticks_of_way(chain: &Chain) -> u64 {
    chain.tasks.iter().map(|task| task.period + task.duration + chain.gap).sum()
}

/// Only a gap above 0 is named, so that the rows without one keep their names.
fn gap_text(gap: u64) -> String {
    if gap == 0 {
        String::new()
    } else {
        format!(", gap {gap}")
    }
}

fn named(kind: &str, chain: &Chain) -> String {
    format!("{kind}, {} places{}, H {}", chain.tasks.len(), gap_text(chain.gap), hyperperiod(chain))
}

/// The chain of a seed and a number of places, as clubs trade it.
fn loaded(seed: u64, places: usize) -> Chain {
    chain_with(make_load(seed, places).expect("places inside their limits").collect(), 0)
}

/// Cut at the longest period.
fn making(kind: &str, chain: Chain) -> Case {
    let p = longest_place(&chain.tasks) + 1;
    making_at(p, kind, chain)
}

fn making_at(p: usize, kind: &str, chain: Chain) -> Case {
    let (h, n) = (hyperperiod(&chain), chain.tasks.len() as u64);
    let walked = h / chain.tasks[p - 1].period;
    Case {
        group: "making",
        name: format!("{}, walked {walked}", named(kind, &chain)),
        call: Call::Make { p, slots: walked as usize + 2, chain },
        enumerating: h * n,
        work: walked * n,
    }
}

/// A table of g anchors that are about equally far apart.
fn table_of(g: usize, h: u64, draws: &mut Draws) -> Table {
    let step = h / g as u64;
    let starts: Vec<u64> = (0..g as u64).map(|i| 7 + i * step + if i == 0 { 0 } else { draws.below(step / 2) }).collect();
    let ends = starts[1..].iter().copied().chain([7 + h]);
    let latencies = starts.iter().zip(ends).map(|(start, end)| end - start + 1 + draws.below(5000)).collect();
    Table { starts, latencies, h }
}

fn anchors_text(g: usize) -> String {
    if g == 1 {
        "1 anchor".to_string()
    } else {
        format!("{g} anchors")
    }
}

fn reading(g: usize) -> Case {
    let h = 122_880;
    let mut draws = Draws(g as u64);
    let table = table_of(g, h, &mut draws);
    let ticks = (0..TICKS).map(|_| 7 + draws.below(LATEST)).collect();
    Case {
        group: "reading",
        name: anchors_text(g),
        call: Call::Read { table, ticks },
        enumerating: h * TICKS as u64 / 2,
        work: (g * TICKS) as u64,
    }
}

/// A list that just holds every delay.
fn counting(g: usize, h: u64, entries: usize) -> Case {
    let table = table_of(g, h, &mut Draws(g as u64));
    let width = table.latencies.iter().max().unwrap() / entries as u64 + 1;
    Case {
        group: "histogram",
        name: format!("{}, H {h}, {entries} {}, width {width}", anchors_text(g), if entries == 1 { "entry" } else { "entries" }),
        call: Call::Histogram { table, width, entries },
        enumerating: h,
        work: (g * entries) as u64,
    }
}

fn walking(group: &'static str, kind: &str, chain: Chain) -> Case {
    let n = chain.tasks.len();
    let jobs = warm_jobs(&chain.tasks, chain.gap);
    let from = if group == "delay" { chain.tasks[0].read(jobs[0]) } else { chain.tasks[n - 1].write(jobs[n - 1]) };
    let mut draws = Draws(n as u64);
    let ticks = (0..TICKS).map(|_| from + draws.below(LATEST)).collect();
    Case {
        group,
        name: named(kind, &chain),
        enumerating: ticks_of_way(&chain) * TICKS as u64,
        work: (n * TICKS) as u64,
        call: if group == "delay" { Call::Delay { chain, ticks } } else { Call::Age { chain, ticks } },
    }
}

fn windows(kind: &str, chain: Chain, k: u64) -> Case {
    let n = chain.tasks.len();
    let jobs = hyperperiod(&chain) / chain.tasks[0].period;
    // The longest of 1000 spans from all over the range misses, and what is longer still. So few jobs miss; else the call would end early, at a window with k misses.
    let warm = warm_jobs(&chain.tasks, chain.gap)[0];
    let looked = jobs.min(1000);
    let span = |job: u64| chain.tasks[n - 1].write(forward(&chain.tasks, chain.gap, job)) - chain.tasks[0].read(job);
    let spans = (0..looked).map(|i| span(warm + 1 + i * jobs / looked));
    let b = spans.max().unwrap() - 1;
    Case {
        group: "windows",
        name: format!("{}, {jobs} first jobs, k {k}", named(kind, &chain)),
        enumerating: jobs * (ticks_of_way(&chain) + k),
        work: jobs * n as u64,
        call: Call::Windows { chain, b, k },
    }
}

/// The worst kind: one job misses, the last but one of the range, so that for k above 1 both looks walk nearly all jobs.
fn late() -> Chain {
    chain_with(vec![Task { period: 401, duration: 401, phase: 0 }, Task { period: 503, duration: 503, phase: 400 }], 0)
}

/// Durations and phases are those of the whole chain.
fn sections(kind: &str, chain: Chain, cuts: &[u64]) -> Case {
    let ends = cuts.iter().map(|&cut| cut as usize).chain([chain.tasks.len()]);
    let (mut from, mut walked, mut links, mut steps) = (0, 0, 0, 0);
    for to in ends {
        let (section, n) = (&chain.tasks[from..to], (to - from) as u64);
        let h = check(section, chain.gap).expect("a section that is accepted");
        let partitions = h / section[longest_place(section)].period;
        walked += partitions;
        links += partitions * n;
        steps += h * n;
        from = to;
    }
    let parts = if cuts.is_empty() { "whole".to_string() } else { format!("{} sections", cuts.len() + 1) };
    Case {
        group: "sections",
        name: format!("{}, {parts}, walked {walked}", named(kind, &chain)),
        call: Call::Sections { chain, cuts: cuts.to_vec() },
        enumerating: steps,
        work: links,
    }
}

/// A schedule of two chains without a common task.
fn schedule_of(first: &[Task], second: &[Task], gap: u64) -> Schedule {
    let n = first.len() as u64;
    let tasks: Vec<Task> = first.iter().chain(second).copied().collect();
    schedule_with(&tasks, vec![(1..=n).collect(), (n + 1..=n + second.len() as u64).collect()], gap)
}

/// A schedule of tasks numbered from 1.
fn schedule_with(tasks: &[Task], routes: Vec<Vec<u64>>, gap: u64) -> Schedule {
    let numbered: Vec<NumberedTask> = (1..).zip(tasks).map(|(number, &task)| NumberedTask { number, task }).collect();
    let tasks = numbered.iter().flat_map(|one| [one.number, one.task.period, one.task.duration, one.task.phase]).collect();
    let mut chains = vec![0; 12 * routes.len()];
    for (entries, route) in chains.chunks_mut(12).zip(&routes) {
        entries[..route.len()].copy_from_slice(route);
    }
    let places = routes.iter().map(|route| route.len() as u64).collect();
    Schedule { plain: plain::schedule::Schedule { tasks: numbered, chains: routes, gap }, tasks, chains, places }
}

/// The anchors of a chain in h ticks, a multiple of its hyperperiod.
fn anchors_in(tasks: &[Task], gap: u64, h: u64) -> u64 {
    match make_table(tasks, gap, longest_place(tasks) + 1, &mut [], &mut []) {
        Made::Whole(figures) | Made::Short(figures) => figures.anchors as u64 * (h / figures.hyperperiod),
        Made::Refused(_) => panic!("a chain that is accepted"),
    }
}

fn bookings(kind: &str, periods: [&[u64]; 2], gap: u64) -> Case {
    let first = tasks_after(0, periods[0]);
    let second = tasks_after(first.len(), periods[1]);
    let (n, m) = (first.len() as u64, second.len() as u64);
    let (from, h) = check_pair(&first, gap, &second, gap, LATEST).expect("a pair that is accepted");
    let (a, b) = (anchors_in(&first, gap, h), anchors_in(&second, gap, h));
    let steps = h * (n + m);
    let mut draws = Draws(h);
    let ticks: Vec<u64> = (0..(MOST_STEPS / steps).clamp(1, TICKS as u64)).map(|_| from + draws.below(LATEST)).collect();
    Case {
        group: "bookings",
        name: format!("{kind}, {n} and {m} places{}, H {h}, anchors {}", gap_text(gap), a + b),
        enumerating: steps * ticks.len() as u64,
        work: a * n + b * m,
        call: Call::Bookings { schedule: schedule_of(&first, &second, gap), ticks },
    }
}

/// The phase of a task in a chain of tasks by their numbers, which count from 1.
fn phase(kind: &str, tasks: &[Task], route: &[u64], gap: u64, number: u64, bound: u64) -> Case {
    let schedule = schedule_with(tasks, vec![route.to_vec()], gap);
    let chain = Movable::of(&schedule.plain, 1, number).expect("a task of the chain");
    let (h, period, n) = (chain.h, chain.period, route.len() as u64);
    let longest = chain.tasks()[longest_place(chain.tasks())].period;
    let found = chain.search(bound);
    let answer = found.phase.map_or("none".to_string(), |phase| format!("phase {phase}"));
    Case {
        group: "phase",
        name: format!("{kind}, {n} places{}, H {h}, {answer}, tried {}, walked {}", gap_text(gap), found.tried, found.walked),
        call: Call::Phase { schedule, number, bound },
        enumerating: period * (h / longest) * n,
        work: (found.walked + 3 * found.tried) * n,
    }
}

fn loading(seed: u64, places: usize) -> Case {
    Case {
        group: "load",
        name: format!("from seed {seed} on, {places} {}", if places == 1 { "place" } else { "places" }),
        call: Call::Load { seed, places },
        // There is nothing to enumerate.
        enumerating: u64::MAX,
        work: places as u64,
    }
}

/// Chains of as many places, each going round its own periods; no two have a task in common.
fn rounds(chains: &[&[u64]], places: usize) -> (Vec<Task>, Vec<Vec<u64>>) {
    let mut tasks = Vec::new();
    let mut routes = Vec::new();
    for periods in chains {
        let first = tasks.len() + 1;
        tasks.extend(tasks_after(tasks.len(), periods));
        routes.push((0..places).map(|i| (first + i % periods.len()) as u64).collect());
    }
    (tasks, routes)
}

/// A schedule of tasks numbered from 1, with bounds.
fn bounded_with(tasks: &[Task], routes: &[Vec<u64>], gap: u64, bounds: &[u64]) -> instrument::Bounded {
    let other = NumberedTask { number: RUBBISH, task: Task { period: RUBBISH, duration: RUBBISH, phase: RUBBISH } };
    let none = instrument::Route { places: [RUBBISH; 12], count: RUBBISH as usize };
    let mut b = instrument::Bounded { tasks: [other; 32], count: tasks.len(), routes: [none; 4], chains: routes.len(), gap, bounds: [RUBBISH; 4] };
    for ((numbered, number), &task) in b.tasks.iter_mut().zip(1..).zip(tasks) {
        *numbered = NumberedTask { number, task };
    }
    for (entry, route) in b.routes.iter_mut().zip(routes) {
        entry.places[..route.len()].copy_from_slice(route);
        entry.count = route.len();
    }
    b.bounds[..bounds.len()].copy_from_slice(bounds);
    b
}

/// A schedule with bounds that it just keeps, and what an ask for it walks.
struct Promise {
    kept: instrument::Bounded,
    name: String,
    walked: u64,
    enumerating: u64,
    work: u64,
}

impl Promise {
    fn of(kind: &str, chains: &[&[u64]], places: usize) -> Self {
        let (tasks, routes) = rounds(chains, places);
        let (mut bounds, mut walked, mut steps) = (Vec::new(), 0, 0);
        for route in &routes {
            let chain: Vec<Task> = route.iter().map(|&number| tasks[number as usize - 1]).collect();
            let h = check(&chain, 0).expect("a chain that is accepted");
            bounds.push(greatest(&chain, 0, h));
            walked += h / chain[longest_place(&chain)].period;
            steps += h * places as u64;
        }
        let several = |count: usize, what: &str| format!("{count} {what}{}", if count == 1 { "" } else { "s" });
        Promise {
            kept: bounded_with(&tasks, &routes, 0, &bounds),
            name: format!("{kind}, {} of {}", several(chains.len(), "chain"), several(places, "place")),
            walked,
            enumerating: steps,
            work: walked * places as u64,
        }
    }

    /// The same with one tick less for the last chain, which it does not keep.
    fn broken(&self) -> instrument::Bounded {
        let mut b = self.kept;
        b.bounds[b.chains - 1] -= 1;
        b
    }

    /// The state in which it runs, with a proposal or without one.
    fn running(&self, proposal: Option<instrument::Bounded>) -> State {
        let state = instrument::State::make(&self.kept).expect("bounds that are kept");
        State::of(instrument::State { proposal: proposal.map(|b| b.cleared()), ..state })
    }
}

/// An ask for what is kept, and one for what is not. Both walk the same, so enumerating is measured once.
fn asking(running: &Promise, promise: &Promise) -> [Case; 2] {
    let case = |end: &str, b: instrument::Bounded, code: u64, enumerating: u64| Case {
        group: "ask",
        name: format!("{}, walked {}{end}", promise.name, promise.walked),
        call: Call::Ask { state: running.running(None), b: Bounded::of(b), code },
        enumerating,
        work: promise.work,
    };
    [case("", promise.kept, 0, promise.enumerating), case(", refused 21", promise.broken(), 21, u64::MAX)]
}

/// An ask that is refused at the first check: what handing over and clearing cost.
fn asking_nothing(running: &Promise) -> Case {
    Case {
        group: "ask",
        name: "no task and no chain, refused 8".to_string(),
        call: Call::Ask { state: running.running(None), b: Bounded::of(bounded_with(&[], &[], 0, &[])), code: 8 },
        enumerating: u64::MAX,
        work: 1,
    }
}

fn committing(running: &Promise, promise: &Promise, proposal: Option<instrument::Bounded>, code: u64) -> Case {
    let refused = if code == 0 { String::new() } else { format!(", refused {code}") };
    Case {
        group: "commit",
        name: format!("{}{refused}", promise.name),
        call: Call::Commit { state: running.running(proposal), b: Bounded::of(promise.kept), code },
        // There is nothing to enumerate.
        enumerating: u64::MAX,
        work: 1,
    }
}

pub fn all() -> Vec<Case> {
    let doubling = |first: u64, n: u32| (0..n).map(|i| first << i).collect::<Vec<u64>>();
    // Periods without a common divisor, with hyperperiods up to the limit of 60,000,000.
    let coprime: [&[u64]; 10] = [
        &[97, 101],
        &[768, 78_125],
        &[7744, 7747],
        &[389, 391, 394],
        &[7, 9, 10, 11],
        &[85, 87, 88, 89],
        &[2, 3, 5, 7, 11, 13],
        &[13, 17, 19, 20, 21, 23],
        &[4, 5, 7, 9, 11, 13, 17, 19],
        &[4, 5, 7, 9, 11, 13, 17, 19, 5, 7, 11, 13],
    ];
    // The longest period is many times the shortest. The last chain is the worst kind for a step that would subtract one period after another.
    let apart: [&[u64]; 4] = [&[1, 1000, 1999], &[2, 1, 1000, 1999], &[5, 59_999, 2, 40], &[1999, 1000, 1, 2, 3, 4, 5, 6, 8, 10, 12, 15]];
    // Wat19-C1 and Wat19-C3 of docs/CASE-STUDIES.md.
    let published = [33_000, 400_000, 15_000, 15_000, 5_000];
    let beside = [10_000, 15_000, 15_000, 5_000];
    // Seed and places of the loads. Those of 42 begin with the shortest period, and all have the longest.
    let loads = [(42, 4), (7, 12), (42, 12), (2026, 12)];
    let mut cases: Vec<Case> = [2, 4, 8, 12].iter().map(|&n| making("harmonic", chain_of(&doubling(250, n), 0))).collect();
    cases.push(making("published", chain_of(&published, 0)));
    cases.extend(coprime.iter().map(|periods| making("co-prime", chain_of(periods, 0))));
    cases.extend(apart.iter().map(|periods| making("far apart", chain_of(periods, 0))));
    cases.push(making("published", chain_of(&published, GAP_LIMIT)));
    cases.push(making("co-prime", chain_of(coprime[4], 37)));
    cases.extend(loads.iter().map(|&(seed, places)| making(&format!("load {seed}"), loaded(seed, places))));
    cases.push(making_at(1, "load 42 cut at 1", loaded(42, 12)));
    cases.extend([1, 4, 16, 64, 256, 1024].iter().map(|&g| reading(g)));
    for (g, entries) in [(1, 1), (1, 64), (16, 4), (16, 64), (16, 4096), (256, 64), (1024, 1), (1024, 4), (1024, 16), (1024, 64), (1024, 512), (1024, 4096)] {
        cases.push(counting(g, 122_880, entries));
    }
    cases.push(counting(1024, 60_000_000, 4096));
    for group in ["delay", "age"] {
        cases.extend([2, 4, 8, 12].iter().map(|&n| walking(group, "harmonic", chain_of(&doubling(250, n), 0))));
        cases.push(walking(group, "published", chain_of(&published, 0)));
        cases.extend([0, 4, 8, 9].iter().map(|&i| walking(group, "co-prime", chain_of(coprime[i], 0))));
        cases.push(walking(group, "co-prime", chain_of(coprime[4], 37)));
        cases.extend(loads.iter().map(|&(seed, places)| walking(group, &format!("load {seed}"), loaded(seed, places))));
    }
    cases.extend([1, 10, 100].iter().map(|&k| windows("late", late(), k)));
    cases.extend([1, 10, 100].iter().map(|&k| windows("published", chain_of(&published, 0), k)));
    cases.push(windows("harmonic", chain_of(&doubling(250, 12), 0), 10));
    cases.extend([0, 4, 6, 3, 7, 9].iter().map(|&i| windows("co-prime", chain_of(coprime[i], 0), 10)));
    cases.push(windows("co-prime", chain_of(coprime[3], 0), 100));
    cases.push(windows("co-prime", chain_of(coprime[4], 37), 10));
    cases.extend([7, 42].iter().map(|&seed| windows(&format!("load {seed}"), loaded(seed, 12), 10)));
    for cuts in [vec![], vec![6], (1..12).collect()] {
        cases.push(sections("harmonic", chain_of(&doubling(250, 12), 0), &cuts));
    }
    for cuts in [vec![], vec![2]] {
        cases.push(sections("published", chain_of(&published, 0), &cuts));
        cases.push(sections("co-prime", chain_of(coprime[4], 0), &cuts));
    }
    cases.push(sections("co-prime", chain_of(coprime[1], 0), &[]));
    for cuts in [vec![], vec![6], vec![4, 8]] {
        cases.push(sections("co-prime", chain_of(coprime[9], 0), &cuts));
    }
    cases.push(sections("published", chain_of(&published, GAP_LIMIT), &[2]));
    cases.push(sections("load 42", loaded(42, 12), &[6]));
    cases.push(bookings("harmonic", [&[250], &[500]], 0));
    cases.push(bookings("harmonic", [&doubling(250, 4), &doubling(4000, 4)], 0));
    cases.push(bookings("harmonic", [&doubling(250, 12), &doubling(250, 12)], 0));
    cases.push(bookings("published", [&published, &beside], 0));
    cases.push(bookings("co-prime", [&[97], &[101]], 0));
    cases.push(bookings("co-prime", [&[7, 9], &[10, 11]], 0));
    cases.push(bookings("co-prime", [&[768], &[78_125]], 0));
    cases.push(bookings("co-prime", [&[4, 5, 7, 9], &[11, 13, 17, 19]], 0));
    cases.push(bookings("co-prime", [&[1], &[768, 78_125]], 0));
    cases.push(bookings("co-prime", [&[7, 9], &[10, 11]], 37));
    // The bounds are the least that some phase keeps, and one less.
    let equal = tasks_after(0, &[10_000, 10_000, 5987]);
    cases.push(phase("harmonic", &tasks_after(0, &doubling(250, 4)), &[1, 2, 3, 4], 0, 4, 5944));
    for bound in [908_291, 908_290] {
        cases.push(phase("published", &tasks_after(0, &published), &[1, 2, 3, 4, 5], 0, 5, bound));
    }
    for bound in [31_977, 31_976] {
        cases.push(phase("co-prime", &tasks_after(0, &[9973, 6016]), &[1, 2], 0, 1, bound));
    }
    for bound in [41_973, 41_972] {
        cases.push(phase("two equal", &equal, &[1, 2, 3], 0, 1, bound));
    }
    let drawn = |fields: &[[u64; 3]]| fields.iter().map(|&[period, duration, phase]| Task { period, duration, phase }).collect::<Vec<Task>>();
    // Of some ten thousands of drawn schedules: the one with the longest walks that was found, the longest of another set, one in which the walks would be long without a stride, and one at twelve places.
    cases.push(phase("drawn", &drawn(&[[9994, 11_522, 8840], [4997, 2032, 4480], [9994, 7335, 7299], [5224, 10_128, 1059]]), &[1, 1, 1, 1, 4, 2, 2, 1, 4, 4], 365, 1, 152_842));
    cases.push(phase("drawn", &drawn(&[[7560, 3076, 1924], [1396, 1268, 882], [7560, 3324, 4257]]), &[2, 1, 1, 3, 1, 1], 105, 1, 36_080));
    cases.push(phase("drawn", &drawn(&[[9240, 2674, 7308], [165, 161, 133], [4999, 49, 1166], [9240, 258, 9075]]), &[3, 1, 1, 4, 2, 1, 1, 2, 4, 1], 0, 1, 53_920));
    cases.push(phase("drawn", &drawn(&[[9984, 7856, 7026], [5987, 3643, 626], [9984, 7762, 2698]]), &[3, 1, 2, 1, 2, 3, 1, 2, 2, 1, 2, 3], 716, 3, 127_570));
    cases.push(phase("load 7", &loaded(7, 12).tasks, &(1..=12).collect::<Vec<_>>(), 0, 1, 647_479));
    cases.extend([1, 4, 12].iter().map(|&places| loading(42, places)));
    let harmonic = Promise::of("harmonic", &[&doubling(250, 8)[..]; 4], 8);
    let single = Promise::of("harmonic", &[&[250]], 1);
    let primes: &[u64] = &[2, 3, 5, 7, 11, 13, 17];
    cases.push(asking_nothing(&harmonic));
    cases.extend(asking(&harmonic, &single));
    cases.extend(asking(&harmonic, &harmonic));
    cases.extend(asking(&harmonic, &Promise::of("published", &[&published[..]; 4], 5)));
    cases.extend(asking(&harmonic, &Promise::of("co-prime", &[primes; 4], 7)));
    // As many partitions as a party will have in a round (order 12 of document 02), at the most places.
    cases.extend(asking(&harmonic, &Promise::of("co-prime", &[primes, primes, primes, &[10, 991, 993]], 12)));
    cases.push(committing(&harmonic, &single, Some(single.kept), 0));
    cases.push(committing(&harmonic, &harmonic, Some(harmonic.kept), 0));
    cases.push(committing(&harmonic, &harmonic, None, 22));
    // The last bound differs.
    cases.push(committing(&harmonic, &harmonic, Some(harmonic.broken()), 23));
    cases
}

/// The lists that making and histograms write to, and the instrument's state; they stay from call to call.
pub struct Lists {
    starts: Vec<u64>,
    latencies: Vec<u64>,
    counts: Vec<u64>,
    state: Option<Box<State>>,
}

impl Lists {
    pub fn of(case: &Case) -> Self {
        let slots = if let Call::Make { slots, .. } = case.call { slots } else { 0 };
        let entries = if let Call::Histogram { entries, .. } = case.call { entries } else { 0 };
        let state = if let Call::Ask { state, .. } | Call::Commit { state, .. } = &case.call { Some(Box::new(*state)) } else { None };
        Lists { starts: vec![RUBBISH; slots], latencies: vec![RUBBISH; slots], counts: vec![RUBBISH; entries], state }
    }
}

fn mix(digest: u64, value: u64) -> u64 {
    digest.rotate_left(5) ^ value
}

// The calls of many arguments have their loops apart, so that the loops of the other calls need the same instructions with them as without them.

#[inline(never)]
fn repeat_making<P: Program>(chain: &Chain, p: usize, lists: &mut Lists, repeats: usize) -> u64 {
    let mut digest = 0;
    for _ in 0..repeats {
        let mut figures = [0; 4];
        let code = P::make(black_box(chain), p, &mut lists.starts, &mut lists.latencies, &mut figures);
        digest = figures.iter().fold(mix(digest, code), |digest, &figure| mix(digest, figure));
    }
    digest
}

#[inline(never)]
fn repeat_histogram<P: Program>(table: &Table, width: u64, lists: &mut Lists, repeats: usize) -> u64 {
    let mut digest = 0;
    for _ in 0..repeats {
        let mut rest = 0;
        let code = P::histogram(black_box(table), width, &mut lists.counts, &mut rest);
        digest = mix(mix(digest, code), rest);
    }
    digest
}

#[inline(never)]
fn repeat_windows<P: Program>(chain: &Chain, b: u64, k: u64, repeats: usize) -> u64 {
    let mut digest = 0;
    for _ in 0..repeats {
        let mut out = [0; 2];
        let code = P::windows(black_box(chain), b, k, &mut out);
        digest = mix(mix(mix(digest, code), out[0]), out[1]);
    }
    digest
}

#[inline(never)]
fn repeat_sections<P: Program>(chain: &Chain, cuts: &[u64], repeats: usize) -> u64 {
    let mut digest = 0;
    for _ in 0..repeats {
        let mut out = [0; 14];
        let code = P::sections(black_box(chain), black_box(cuts), &mut out);
        digest = out.iter().fold(mix(digest, code), |digest, &figure| mix(digest, figure));
    }
    digest
}

#[inline(never)]
fn repeat_bookings<P: Program>(schedule: &Schedule, ticks: &[u64], repeats: usize) -> u64 {
    let mut digest = 0;
    for i in 0..repeats {
        let mut out = [0; 4];
        let code = P::bookings(black_box(schedule), ticks[i % ticks.len()], &mut out);
        digest = out.iter().fold(mix(digest, code), |digest, &figure| mix(digest, figure));
    }
    digest
}

#[inline(never)]
fn repeat_phase<P: Program>(schedule: &Schedule, number: u64, bound: u64, repeats: usize) -> u64 {
    let mut digest = 0;
    for _ in 0..repeats {
        let mut out = [0; 2];
        let code = P::phase(black_box(schedule), number, bound, &mut out);
        digest = mix(mix(mix(digest, code), out[0]), out[1]);
    }
    digest
}

/// Each seed is the one after.
#[inline(never)]
fn repeat_load<P: Program>(seed: u64, places: usize, repeats: usize) -> u64 {
    let mut digest = 0;
    for i in 0..repeats {
        let mut out = [0; 36];
        let code = P::load(black_box(seed).wrapping_add(i as u64), black_box(places), &mut out);
        digest = out.iter().fold(mix(digest, code), |digest, &number| mix(digest, number));
    }
    digest
}

#[inline(never)]
fn repeat_ask<P: Program>(b: &Bounded, lists: &mut Lists, repeats: usize) -> u64 {
    let state = lists.state.as_mut().expect("a state");
    let mut digest = 0;
    for _ in 0..repeats {
        let mut out = [0; 4];
        let code = P::ask(black_box(state), black_box(b), &mut out);
        digest = out.iter().fold(mix(digest, code), |digest, &latency| mix(digest, latency));
    }
    digest
}

/// A proposal that was made to run is put back, so that it stands at each call.
#[inline(never)]
fn repeat_commit<P: Program>(from: &State, b: &Bounded, lists: &mut Lists, repeats: usize) -> u64 {
    let state = lists.state.as_mut().expect("a state");
    let mut digest = 0;
    for _ in 0..repeats {
        let code = P::commit(black_box(state), black_box(b));
        if code == 0 {
            P::put_back(state, from);
        }
        digest = mix(digest, code);
    }
    digest
}

/// Makes the call `repeats` times; a digest of what it answered.
pub fn repeat<P: Program>(case: &Case, lists: &mut Lists, repeats: usize) -> u64 {
    let mut digest = 0;
    match &case.call {
        Call::Make { chain, p, .. } => digest = repeat_making::<P>(chain, *p, lists, repeats),
        Call::Read { table, ticks } => {
            for i in 0..repeats {
                digest = mix(digest, P::read(black_box(table), ticks[i % TICKS]));
            }
        }
        Call::Histogram { table, width, .. } => digest = repeat_histogram::<P>(table, *width, lists, repeats),
        Call::Delay { chain, ticks } => {
            for i in 0..repeats {
                let mut out = 0;
                let code = P::delay(black_box(chain), ticks[i % TICKS], &mut out);
                digest = mix(mix(digest, code), out);
            }
        }
        Call::Age { chain, ticks } => {
            for i in 0..repeats {
                let mut out = 0;
                let code = P::age(black_box(chain), ticks[i % TICKS], &mut out);
                digest = mix(mix(digest, code), out);
            }
        }
        Call::Windows { chain, b, k } => digest = repeat_windows::<P>(chain, *b, *k, repeats),
        Call::Sections { chain, cuts } => digest = repeat_sections::<P>(chain, cuts, repeats),
        Call::Bookings { schedule, ticks } => digest = repeat_bookings::<P>(schedule, ticks, repeats),
        Call::Phase { schedule, number, bound } => digest = repeat_phase::<P>(schedule, *number, *bound, repeats),
        Call::Load { seed, places } => digest = repeat_load::<P>(*seed, *places, repeats),
        Call::Ask { b, .. } => digest = repeat_ask::<P>(b, lists, repeats),
        Call::Commit { state, b, .. } => digest = repeat_commit::<P>(state, b, lists, repeats),
    }
    digest
}

/// Everything that a program answers to the case: codes, figures, every entry of the lists and every number of the state.
pub fn answers<P: Program>(case: &Case) -> Vec<u64> {
    let mut all = Vec::new();
    match &case.call {
        Call::Make { chain, p, .. } => {
            let mut lists = Lists::of(case);
            let mut figures = [RUBBISH; 4];
            all.push(P::make(chain, *p, &mut lists.starts, &mut lists.latencies, &mut figures));
            all.extend(figures);
            all.extend(lists.starts);
            all.extend(lists.latencies);
        }
        Call::Read { table, ticks } => all.extend(ticks.iter().map(|&t| P::read(table, t))),
        Call::Histogram { table, width, .. } => {
            let mut lists = Lists::of(case);
            let mut rest = RUBBISH;
            all.push(P::histogram(table, *width, &mut lists.counts, &mut rest));
            all.push(rest);
            all.extend(lists.counts);
        }
        Call::Delay { chain, ticks } => {
            for &t in ticks {
                let mut out = RUBBISH;
                all.push(P::delay(chain, t, &mut out));
                all.push(out);
            }
        }
        Call::Age { chain, ticks } => {
            for &z in ticks {
                let mut out = RUBBISH;
                all.push(P::age(chain, z, &mut out));
                all.push(out);
            }
        }
        Call::Windows { chain, b, k } => {
            let mut out = [RUBBISH; 2];
            all.push(P::windows(chain, *b, *k, &mut out));
            all.extend(out);
        }
        Call::Sections { chain, cuts } => {
            let mut out = [RUBBISH; 14];
            all.push(P::sections(chain, cuts, &mut out));
            all.extend(out);
        }
        Call::Bookings { schedule, ticks } => {
            for &t in ticks {
                let mut out = [RUBBISH; 4];
                all.push(P::bookings(schedule, t, &mut out));
                all.extend(out);
            }
        }
        Call::Phase { schedule, number, bound } => {
            let mut out = [RUBBISH; 2];
            all.push(P::phase(schedule, *number, *bound, &mut out));
            all.extend(out);
        }
        Call::Load { seed, places } => {
            for i in 0..TICKS as u64 {
                let mut out = [RUBBISH; 36];
                all.push(P::load(seed.wrapping_add(i), *places, &mut out));
                all.extend(out);
            }
        }
        Call::Ask { state, b, .. } => {
            let mut state = *state;
            let mut out = [RUBBISH; 4];
            all.push(P::ask(&mut state, b, &mut out));
            all.extend(out);
            all.extend(P::state(&state));
        }
        Call::Commit { state, b, .. } => {
            let mut state = *state;
            all.push(P::commit(&mut state, b));
            all.extend(P::state(&state));
        }
    }
    all
}

/// A number for everything that a program answers to the case, to compare the answers of two processes.
pub fn digest(answers: &[u64]) -> u64 {
    let mut hasher = DefaultHasher::new();
    answers.hash(&mut hasher);
    hasher.finish()
}

/// Whether an answer is a refusal. Every case is meant to be accepted, but for asks and commits that say how they are refused.
pub fn refuses(case: &Case, answers: &[u64]) -> bool {
    match case.call {
        Call::Ask { code, .. } | Call::Commit { code, .. } => answers[0] != code,
        Call::Make { .. } | Call::Histogram { .. } | Call::Windows { .. } | Call::Sections { .. } | Call::Phase { .. } => answers[0] != 0,
        Call::Read { .. } => answers.iter().any(|&answer| REFUSED <= answer),
        Call::Delay { .. } | Call::Age { .. } => answers.chunks(2).any(|pair| pair[0] != 0),
        Call::Bookings { .. } => answers.chunks(5).any(|five| five[0] != 0),
        Call::Load { .. } => answers.chunks(37).any(|all| all[0] != 0),
    }
}
