//! The benchmark: the proved program against plain Rust of the same algorithm and against enumerating ticks, in one run.
//!
//!     bench [--quick] [--forms] [--instructions] [--no-divider]
//!
//! Every program's answers are compared with the proved one's: in full before anything is measured, and by a digest with every sample. The digest
//! of making has its code and figures, that of a histogram its code and rest, not their lists; that of an ask its code and latencies and that of a
//! commit its code, not the state.
//! With --no-divider the executable beside this one with `-no-divider` in its name is counted too: the same programs, with each division by a loop.
//! The last line is 'N passed, M failed': two programs that answer a case alike are one pass.
mod cases;
mod enumerate;
mod programs;

use cases::{Case, Lists};
use programs::{ByEntries, ByValue, Dividing, Enumerating, Flat, Plain, Proved};
use std::path::{Path, PathBuf};
use std::process::Command;

type Repeat = fn(&Case, &mut Lists, usize) -> u64;
type Answers = fn(&Case) -> Vec<u64>;

struct Measured {
    name: &'static str,
    repeat: Repeat,
    answers: Answers,
}

const PROVED: Measured = Measured { name: "proved", repeat: cases::repeat::<Proved>, answers: cases::answers::<Proved> };
const PLAIN: Measured = Measured { name: "plain", repeat: cases::repeat::<Plain>, answers: cases::answers::<Plain> };
const DIVIDING: Measured = Measured { name: "dividing", repeat: cases::repeat::<Dividing>, answers: cases::answers::<Dividing> };
const ENUMERATING: Measured = Measured { name: "enumerating", repeat: cases::repeat::<Enumerating>, answers: cases::answers::<Enumerating> };
const BY_VALUE: Measured = Measured { name: "by value", repeat: cases::repeat::<ByValue>, answers: cases::answers::<ByValue> };
const FLAT: Measured = Measured { name: "flat", repeat: cases::repeat::<Flat>, answers: cases::answers::<Flat> };
const BY_ENTRIES: Measured = Measured { name: "by entries", repeat: cases::repeat::<ByEntries>, answers: cases::answers::<ByEntries> };
const EVERY: [&Measured; 7] = [&PROVED, &PLAIN, &BY_VALUE, &FLAT, &DIVIDING, &BY_ENTRIES, &ENUMERATING];
/// What is counted without a divider.
const WITHOUT: [&Measured; 3] = [&PROVED, &PLAIN, &DIVIDING];

/// How long a run may be.
struct Limits {
    /// Seconds of processor time that a sample lasts at least.
    sample: f64,
    /// Samples of each program, interleaved.
    rounds: usize,
    /// Cases with more work than this are left out.
    work: u64,
    /// Enumerating is left out where it has more steps than this.
    enumerating: u64,
}

const FULL: Limits = Limits { sample: 0.02, rounds: 9, work: u64::MAX, enumerating: 500_000_000 };
const QUICK: Limits = Limits { sample: 0.001, rounds: 3, work: 2_000_000, enumerating: 20_000_000 };

/// Instructions are not counted for cases with more work than this: callgrind takes minutes for them.
const COUNTED: u64 = 100_000_000;

extern "C" {
    fn clock_gettime(clock: i32, time: *mut [i64; 2]) -> i32;
}

/// Seconds of processor time of this process: other processes on the machine count less in it than in the time of day.
fn processor_time() -> f64 {
    const CLOCK_PROCESS_CPUTIME_ID: i32 = 2;
    let mut time = [0i64; 2];
    let status = unsafe { clock_gettime(CLOCK_PROCESS_CPUTIME_ID, &mut time) };
    assert_eq!(status, 0, "no processor time");
    time[0] as f64 + time[1] as f64 * 1e-9
}

/// One sample: seconds for each call, and the digest of the answers.
fn sample(program: &Measured, case: &Case, lists: &mut Lists, repeats: usize) -> (f64, u64) {
    let began = processor_time();
    let digest = (program.repeat)(case, lists, repeats);
    ((processor_time() - began) / repeats as f64, digest)
}

/// How many calls a sample needs to last long enough.
fn enough(program: &Measured, case: &Case, lists: &mut Lists, seconds: f64) -> usize {
    let mut repeats = 1;
    loop {
        let (each, _) = sample(program, case, lists, repeats);
        if seconds <= each * repeats as f64 {
            return repeats;
        }
        repeats *= 2;
    }
}

fn median(values: &[f64]) -> f64 {
    let mut sorted = values.to_vec();
    sorted.sort_by(f64::total_cmp);
    let middle = sorted.len() / 2;
    if sorted.len() % 2 == 1 {
        sorted[middle]
    } else {
        (sorted[middle - 1] + sorted[middle]) / 2.0
    }
}

/// Samples of each program in turn, so that what else the machine does falls on all alike: seconds for each call, by program and round.
/// None where a program's digest is not that of the proved one.
fn interleaved(programs: &[&Measured], case: &Case, limits: &Limits) -> Option<Vec<Vec<f64>>> {
    let mut lists = Lists::of(case);
    let repeats: Vec<usize> = programs.iter().map(|program| enough(program, case, &mut lists, limits.sample)).collect();
    let wanted: Vec<u64> = repeats.iter().map(|&repeats| (PROVED.repeat)(case, &mut lists, repeats)).collect();
    let mut times = vec![Vec::new(); programs.len()];
    for round in 0..limits.rounds {
        for turn in 0..programs.len() {
            let at = (round + turn) % programs.len();
            let (each, digest) = sample(programs[at], case, &mut lists, repeats[at]);
            times[at].push(each);
            if digest != wanted[at] {
                return None;
            }
        }
    }
    Some(times)
}

fn ratios(above: &[f64], below: &[f64]) -> Vec<f64> {
    above.iter().zip(below).map(|(a, b)| a / b).collect()
}

fn time_text(seconds: f64) -> String {
    let nanoseconds = seconds * 1e9;
    if nanoseconds < 1e4 {
        format!("{nanoseconds:.1} ns")
    } else if nanoseconds < 1e7 {
        format!("{:.1} us", nanoseconds / 1e3)
    } else {
        format!("{:.1} ms", nanoseconds / 1e6)
    }
}

fn ratio_text(ratio: f64) -> String {
    if ratio < 100.0 {
        format!("{ratio:.2}")
    } else {
        format!("{ratio:.0}")
    }
}

/// One line of the table: the case to the left, the figures to the right.
fn print_row(row: &[String]) {
    print!("{:<56}", row[0]);
    for cell in &row[1..] {
        print!(" {cell:>17}");
    }
    println!();
}

/// Instructions for each call, counted by callgrind in a process of its own, of this executable or of that without a divider. Only what happens in
/// `counted` is collected. None where it is not counted.
fn instructions(executable: &Path, program: &Measured, index: usize, case: &Case) -> Option<f64> {
    if COUNTED < case.work {
        return None;
    }
    let repeats = if case.work < 100_000 { 256 } else { 1 };
    let run = Command::new("valgrind")
        .args(["--tool=callgrind", "--callgrind-out-file=/dev/null", "--toggle-collect=counted"])
        .arg(executable)
        .args(["--count", program.name, &index.to_string(), &repeats.to_string()])
        .output()
        .ok()?;
    let said = String::from_utf8_lossy(&run.stderr).into_owned();
    let line = said.lines().find(|line| line.contains("Collected :"))?;
    let count: f64 = line.rsplit(' ').next()?.parse().ok()?;
    Some(count / repeats as f64)
}

/// What callgrind is told to collect.
#[no_mangle]
#[inline(never)]
pub fn counted(repeat: Repeat, case: &Case, lists: &mut Lists, repeats: usize) -> u64 {
    repeat(case, lists, repeats)
}

fn program_named(name: &str) -> &'static Measured {
    EVERY.into_iter().find(|program| program.name == name).expect("a program's name")
}

/// The process that callgrind watches.
fn count(arguments: &[String]) {
    let program = program_named(&arguments[0]);
    let case = &cases::all()[arguments[1].parse::<usize>().expect("a case's number")];
    let repeats = arguments[2].parse().expect("how often");
    let mut lists = Lists::of(case);
    println!("{}", counted(program.repeat, case, &mut lists, repeats));
}

/// The process that answers a case for another one.
fn answer(arguments: &[String]) {
    let case = &cases::all()[arguments[1].parse::<usize>().expect("a case's number")];
    println!("{}", cases::digest(&(program_named(&arguments[0]).answers)(case)));
}

/// Whether a program of another executable gives these answers.
fn answers_alike(executable: &Path, program: &Measured, index: usize, wanted: &[u64]) -> bool {
    let run = Command::new(executable).args(["--answer", program.name, &index.to_string()]).output();
    run.is_ok_and(|run| String::from_utf8_lossy(&run.stdout).trim() == cases::digest(wanted).to_string())
}

/// The executable without a divider, where it is there.
fn without_divider(own: &Path) -> Option<PathBuf> {
    let name = format!("{}-no-divider", own.file_name()?.to_str()?);
    Some(own.with_file_name(name)).filter(|path| path.exists())
}

fn main() {
    let arguments: Vec<String> = std::env::args().skip(1).collect();
    if arguments.first().is_some_and(|word| word == "--count") {
        return count(&arguments[1..]);
    }
    if arguments.first().is_some_and(|word| word == "--answer") {
        return answer(&arguments[1..]);
    }
    let known = ["--quick", "--forms", "--instructions", "--no-divider"];
    if let Some(word) = arguments.iter().find(|word| !known.contains(&word.as_str())) {
        eprintln!("bench: {word} is not one of {}", known.join(", "));
        std::process::exit(2);
    }
    let asked = |word: &str| arguments.iter().any(|given| given == word);
    let limits = if asked("--quick") { QUICK } else { FULL };
    let formed = asked("--forms");
    let countable = (asked("--instructions") || asked("--no-divider")) && Command::new("valgrind").arg("--version").output().is_ok();
    if (asked("--instructions") || asked("--no-divider")) && !countable {
        println!("valgrind is not there: no instructions are counted");
    }
    let counting = asked("--instructions") && countable;
    let own = std::env::current_exe().expect("the path of this program");
    let without = if asked("--no-divider") && countable { without_divider(&own) } else { None };

    let mut passed = 0;
    let mut failed = 0;
    let mut group = "";
    for (index, case) in cases::all().iter().enumerate().filter(|(_, case)| case.work <= limits.work) {
        let making = case.group == "making";
        // The other way to the same answers that a group is measured against too, with the head of its column.
        let other = match case.group {
            "making" => Some((&DIVIDING, "proved/dividing")),
            "histogram" => Some((&BY_ENTRIES, "proved/by entries")),
            "ask" | "commit" => Some((&BY_VALUE, "proved/by value")),
            _ => None,
        };
        let mut programs = vec![&PROVED, &PLAIN];
        programs.extend(other.map(|(program, _)| program));
        if formed && !["reading", "histogram", "sections", "bookings", "phase", "load", "ask", "commit"].contains(&case.group) {
            programs.extend([&BY_VALUE, &FLAT]);
        }
        if case.enumerating <= limits.enumerating {
            programs.push(&ENUMERATING);
        }
        if group != case.group {
            group = case.group;
            let mut head = vec![group, "proved", "plain", "proved/plain", "lowest to highest"];
            head.extend(other.map(|(_, column)| column));
            head.push("enum/proved");
            if formed {
                head.extend(["by value/plain", "flat/plain"]);
            }
            if counting {
                head.extend(["instr proved", "instr plain", "proved/plain"]);
                if let Some((_, column)) = other {
                    head.extend(["instr other", column]);
                }
                if formed {
                    head.extend(["by value/plain", "flat/plain"]);
                }
            }
            if making && without.is_some() {
                head.extend(["no div: proved", "plain", "dividing", "proved/plain", "proved/dividing"]);
            }
            println!();
            print_row(&head.iter().map(|word| word.to_string()).collect::<Vec<_>>());
        }

        let wanted = (PROVED.answers)(case);
        let wrong: Vec<&str> = programs[1..].iter().filter(|program| (program.answers)(case) != wanted).map(|program| program.name).collect();
        passed += programs.len() - 1 - wrong.len();
        failed += wrong.len();
        // A program that answers otherwise is not measured, so it cannot win.
        if !wrong.is_empty() {
            println!("{}: {} answers otherwise", case.name, wrong.join(", "));
            continue;
        }
        if cases::refuses(case, &wanted) {
            println!("{}: the case is refused, or not as it is meant to be", case.name);
            failed += 1;
            continue;
        }
        let Some(times) = interleaved(&programs, case, &limits) else {
            println!("{}: an answer is another than before", case.name);
            failed += 1;
            continue;
        };

        let against_plain = ratios(&times[0], &times[1]);
        let lowest = against_plain.iter().copied().fold(f64::INFINITY, f64::min);
        let highest = against_plain.iter().copied().fold(0.0, f64::max);
        let mut row = vec![case.name.clone(), time_text(median(&times[0])), time_text(median(&times[1])), ratio_text(median(&against_plain)), format!("{} to {}", ratio_text(lowest), ratio_text(highest))];
        let of = |above: &Measured, below: &Measured| {
            let time = |program: &Measured| programs.iter().position(|one| one.name == program.name).map(|at| &times[at]);
            time(above).zip(time(below)).map_or("-".to_string(), |(above, below)| ratio_text(median(&ratios(above, below))))
        };
        row.extend(other.map(|(program, _)| of(&PROVED, program)));
        row.push(of(&ENUMERATING, &PROVED));
        if formed {
            row.extend([of(&BY_VALUE, &PLAIN), of(&FLAT, &PLAIN)]);
        }
        let number = |value: Option<f64>| value.map_or("-".to_string(), |value| format!("{value:.0}"));
        let ratio = |above: Option<f64>, below: Option<f64>| above.zip(below).map_or("-".to_string(), |(above, below)| ratio_text(above / below));
        if counting {
            let count = |program: &Measured| programs.iter().any(|one| one.name == program.name).then(|| instructions(&own, program, index, case)).flatten();
            let (proved, plain) = (count(&PROVED), count(&PLAIN));
            row.extend([number(proved), number(plain), ratio(proved, plain)]);
            if let Some((program, _)) = other {
                let counted = count(program);
                row.extend([number(counted), ratio(proved, counted)]);
            }
            if formed {
                row.extend([ratio(count(&BY_VALUE), plain), ratio(count(&FLAT), plain)]);
            }
        }
        if let Some(executable) = without.as_ref().filter(|_| making) {
            let wrong: Vec<&str> = WITHOUT.iter().filter(|program| !answers_alike(executable, program, index, &wanted)).map(|program| program.name).collect();
            passed += WITHOUT.len() - wrong.len();
            failed += wrong.len();
            if wrong.is_empty() {
                let [proved, plain, dividing] = WITHOUT.map(|program| instructions(executable, program, index, case));
                row.extend([number(proved), number(plain), number(dividing), ratio(proved, plain), ratio(proved, dividing)]);
            } else {
                println!("{}: without a divider {} answers otherwise", case.name, wrong.join(", "));
            }
        }
        print_row(&row);
    }
    println!("{passed} passed, {failed} failed");
    if failed != 0 {
        std::process::exit(1);
    }
}
