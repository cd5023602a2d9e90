//! Speed of the proved library beside the hand-written version, on the same lists.
//!
//!     bench                         every workload with both: all that they answer and leave is compared, and both are timed, best of five
//!     bench compare                 compared alone, not timed: under an emulator times say nothing
//!     bench list                    a line for each workload: its name, its units, the calls that check the table it starts from
//!     bench stack                   how much stack the proved calls take
//!     bench NAME SIDE REPEATS       one workload alone, compared with nothing, for counting instructions. SIDE is proved or hand; proved-idle or
//!                                   hand-idle: one call with nothing to do on the table that the workload starts from; none and none-idle: the same
//!                                   with calls of nothing

mod hand;
mod nothing;
mod proved;
mod stack;
mod work;

use hand::{Found, Scan};
use std::{env, process, time::Instant};
use work::{Job, Lists, Work, WORKLOADS};

/// What a workload's calls answered, what they wrote, and what they left.
#[derive(Default)]
struct Outcome {
    answers: Vec<u64>,
    numbers: Vec<u16>,
    bytes: Vec<u8>,
}

macro_rules! run {
    ($calls:ident, $job:expr, $lists:expr, $outcome:expr) => {{
        let (job, lists, outcome): (&Job, &mut Lists, &mut Outcome) = ($job, $lists, $outcome);
        let capacity = lists.capacity();
        match &job.work {
            Work::Check => outcome.answers.push($calls::check(&lists.header, &lists.table, &lists.values, &lists.counts, capacity) as u64),
            Work::Build(columns, rows, mode) => {
                let Lists { header, table, values, counts } = lists;
                let (refusal, used) = $calls::build(header, table, values, counts, capacity, *columns, *rows, *mode);
                outcome.answers.extend([refusal as u64, used as u64]);
            }
            Work::Tapes(tapes) => {
                for tape in tapes {
                    let Lists { header, table, values, counts } = &mut *lists;
                    let (done, refusal, at) = $calls::tape(header, table, values, counts, capacity, tape);
                    outcome.answers.extend([done as u64, refusal as u64, at as u64]);
                }
            }
            Work::Lookups(points) => {
                for &(speed, load) in points {
                    let found: Found = $calls::lookup(&lists.header, &lists.table, &lists.values, capacity, speed, load);
                    outcome.answers.extend([found.refusal as u64, found.number as u64, found.status as u64, found.bits]);
                }
            }
            Work::Questions(questions) => {
                for &(level, status) in questions {
                    let (refusal, count) = $calls::count(&lists.counts, level, status);
                    outcome.answers.extend([refusal as u64, count as u64]);
                }
            }
            Work::Scan => {
                let what = Scan { start: 1, order: &[3, 4, 2, 1], kind: 3, from: lists.table[hand::ROW + hand::LEVEL], to: 12 };
                let (refusal, count) = $calls::scan(&lists.header, &lists.table, &lists.values, capacity, &what, &mut outcome.numbers);
                outcome.answers.extend([refusal as u64, count as u64]);
            }
            Work::Page => {
                let (refusal, count) = $calls::page(&lists.header, &lists.table, &lists.values, capacity, &mut outcome.bytes);
                outcome.answers.extend([refusal as u64, count as u64]);
            }
        }
    }};
}

/// A call that has nothing to do but what such a call begins with: a tape of no request; a check; or, as lookup, scan and page are lent no counts, a
/// scan from no patch, which is refused after its check of the rest.
macro_rules! idle {
    ($calls:ident, $job:expr, $lists:expr, $outcome:expr) => {{
        let (lists, outcome): (&mut Lists, &mut Outcome) = ($lists, $outcome);
        let capacity = lists.capacity();
        match &$job.work {
            Work::Tapes(_) => {
                let Lists { header, table, values, counts } = lists;
                let (done, refusal, at) = $calls::tape(header, table, values, counts, capacity, &[]);
                outcome.answers.extend([done as u64, refusal as u64, at as u64]);
            }
            Work::Lookups(_) | Work::Scan | Work::Page => {
                let what = Scan { start: 0, order: &[3, 4, 2, 1], kind: 3, from: 0, to: 12 };
                let (refusal, count) = $calls::scan(&lists.header, &lists.table, &lists.values, capacity, &what, &mut outcome.numbers);
                outcome.answers.extend([refusal as u64, count as u64]);
            }
            _ => outcome.answers.push($calls::check(&lists.header, &lists.table, &lists.values, &lists.counts, capacity) as u64),
        }
    }};
}

fn room() -> Outcome {
    Outcome { answers: Vec::with_capacity(1 << 16), numbers: vec![7; 4096], bytes: vec![7; 200_000] }
}

fn run_once(side: &str, job: &Job, lists: &mut Lists, outcome: &mut Outcome) {
    outcome.answers.clear();
    lists.copy_from(&job.start);
    match side {
        "proved" => run!(proved, job, lists, outcome),
        "hand" => run!(hand, job, lists, outcome),
        "proved-idle" => idle!(proved, job, lists, outcome),
        "hand-idle" => idle!(hand, job, lists, outcome),
        "none-idle" => idle!(nothing, job, lists, outcome),
        _ => run!(nothing, job, lists, outcome),
    }
}

/// One side alone. What it answered last is printed, so that nothing of it can be left out.
fn alone(job: &Job, side: &str, repeats: usize) {
    let mut lists = job.start.clone();
    let mut outcome = room();
    for _ in 0..repeats {
        run_once(side, job, &mut lists, &mut outcome);
    }
    let answered = outcome.answers.iter().fold(0u64, |sum, &x| sum.wrapping_mul(31).wrapping_add(x));
    println!("{} {} {}", answered, lists.table.iter().fold(0i32, |sum, &x| sum.wrapping_mul(31).wrapping_add(x)), outcome.bytes[100]);
}

/// Whether both sides answer, write and leave the same; and the best time of each, in seconds.
fn together(job: &Job, rounds: usize) -> (bool, f64, f64) {
    let (mut best, mut same) = ([f64::INFINITY; 2], true);
    for _ in 0..rounds {
        let mut ends = vec![];
        for (side, best) in ["proved", "hand"].into_iter().zip(&mut best) {
            let (mut lists, mut outcome) = (job.start.clone(), room());
            let begun = Instant::now();
            run_once(side, job, &mut lists, &mut outcome);
            *best = best.min(begun.elapsed().as_secs_f64());
            ends.push((lists, outcome));
        }
        let ((a, x), (b, y)) = (&ends[0], &ends[1]);
        same &= a.same(b) && x.answers == y.answers && x.numbers == y.numbers && x.bytes == y.bytes;
        same &= job.accepted(&x.answers);
    }
    (same, best[0], best[1])
}

fn all(timed: bool) {
    let mut failed = false;
    for (name, make) in WORKLOADS {
        let job = make();
        let (same, a, b) = together(&job, if timed { 5 } else { 1 });
        failed |= !same;
        let times = if timed { format!("proved {:>10.1} us, hand {:>10.1} us, ", a * 1e6, b * 1e6) } else { String::new() };
        println!("{:<20} {}{}; {}", name, times, if same { "the same" } else { "DIFFERENT" }, job.start.told());
    }
    process::exit(failed as i32);
}

fn main() {
    let words: Vec<String> = env::args().skip(1).collect();
    let words: Vec<&str> = words.iter().map(|word| word.as_str()).collect();
    match words[..] {
        [] => all(true),
        ["compare"] => all(false),
        ["list"] => {
            for (name, make) in WORKLOADS {
                let mut job = make();
                job.shorten();
                println!("{} {} {}", name, job.units(), job.checks());
            }
        }
        ["stack"] => stack::print(),
        [name, side, repeats] => {
            let (_, make) = WORKLOADS.iter().find(|(known, _)| *known == name).expect("a workload");
            let mut job = make();
            job.shorten();
            alone(&job, side, repeats.parse().expect("a number of repeats"));
        }
        _ => panic!("bench [compare | list | stack | NAME SIDE REPEATS]"),
    }
}
