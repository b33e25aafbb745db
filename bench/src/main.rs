//! Planning and ticking: ours against a plain implementation of the same rules with the same checks.

mod boards;
#[cfg(ours)]
mod ours;
mod plain;
mod reading;
mod rules;
mod ticking;

use std::hint::black_box;

use boards::{full_board, shares, Rng};
use ticking::Walk;

const ROUNDS: usize = 5;
const TABLES: usize = 1_000;
const TICKS: u32 = 1_000_000;
const SEED: u64 = 1;

/// A way to do the work: its name, and a call that answers with a checksum.
type Side<'a> = (&'static str, Box<dyn Fn() -> u64 + 'a>);

fn main() {
    println!("planning {TABLES} random full tables of 64 tasks on 16 cores");
    let tables = tables(16, 64, TABLES);
    compare(&planners(&tables), TABLES as f64);
    println!(
        "{TICKS} ticks of a full board of 16 cores and 64 tasks, all released as soon as allowed"
    );
    let (_, plan) = full_board(&mut Rng(SEED), 16, 64);
    println!("  its plan has {} shares", shares(&plan, 64));
    compare(&tickers(&plan, TICKS), f64::from(TICKS));
    println!("how each grows: ns for a plan, ns for a tick");
    for (cores, tasks) in [
        (16, 16),
        (16, 32),
        (16, 48),
        (16, 64),
        (1, 64),
        (2, 64),
        (4, 64),
        (8, 64),
    ] {
        grow(cores, tasks);
    }
}

/// So many full tables' files.
fn tables(cores: u64, tasks: u64, count: usize) -> Vec<Vec<u8>> {
    let mut rng = Rng(SEED);
    (0..count)
        .map(|_| full_board(&mut rng, cores, tasks).0)
        .collect()
}

/// A planner's checksum over all tables.
fn over_all(tables: &[Vec<u8>], plan: fn(&[u8]) -> u64) -> u64 {
    tables.iter().fold(0, |sum, table| {
        sum ^ plan(black_box(table)).rotate_left(sum as u32 & 63)
    })
}

/// The planners; the plain one first.
fn planners(tables: &[Vec<u8>]) -> Vec<Side<'_>> {
    vec![
        ("plain", Box::new(move || over_all(tables, plain::plan))),
        #[cfg(ours)]
        ("ours", Box::new(move || over_all(tables, ours::plan))),
    ]
}

/// The dispatchers; the plain one first, that which walks over the tasks once for each core.
fn tickers(plan: &[u8], count: u32) -> Vec<Side<'_>> {
    vec![
        (
            "plain",
            Box::new(move || plain::ticks(black_box(plan), count, Walk::EachCore)),
        ),
        (
            "plain in one walk",
            Box::new(move || plain::ticks(black_box(plan), count, Walk::Once)),
        ),
        #[cfg(ours)]
        (
            "ours",
            Box::new(move || ours::ticks(black_box(plan), count)),
        ),
    ]
}

extern "C" {
    /// The C library's clock: the processor time of this program, in microseconds.
    fn clock() -> i64;
}

/// The nanoseconds of processor time of one call, and its checksum.
fn timed(side: &Side) -> (f64, u64) {
    let begin = unsafe { clock() };
    let sum = (side.1)();
    let end = unsafe { clock() };
    ((end - begin) as f64 * 1e3, sum)
}

/// One round of all sides, one after the other; their nanoseconds.
fn round(sides: &[Side]) -> Vec<f64> {
    let runs: Vec<(f64, u64)> = sides.iter().map(timed).collect();
    for (side, run) in sides.iter().zip(&runs) {
        assert_eq!(
            run.1, runs[0].1,
            "{} gives another result than {}",
            side.0, sides[0].0
        );
    }
    runs.iter().map(|run| run.0).collect()
}

/// Prints each side's time for one piece of work, and its ratio to the plain side, worst and best of the rounds.
fn compare(sides: &[Side], works: f64) {
    round(sides);
    let rounds: Vec<Vec<f64>> = (0..ROUNDS).map(|_| round(sides)).collect();
    for (i, side) in sides.iter().enumerate() {
        let best = rounds.iter().map(|times| times[i]).fold(f64::MAX, f64::min);
        let ratios = rounds.iter().map(|times| times[i] / times[0]);
        let worst = ratios.clone().fold(0.0, f64::max);
        let least = ratios.fold(f64::MAX, f64::min);
        let name = side.0;
        println!(
            "  {name}: {:.0} ns, ratio {name}/plain worst {worst:.2} best {least:.2}",
            best / works
        );
    }
}

/// Prints how long each side takes on a full board of this size, best of the rounds.
fn grow(cores: u64, tasks: u64) {
    const SOME_TABLES: usize = 100;
    const SOME_TICKS: u32 = 20_000;
    let tables = tables(cores, tasks, SOME_TABLES);
    let (_, plan) = full_board(&mut Rng(SEED), cores, tasks);
    let mut words = format!("  {cores} cores {tasks} tasks:");
    let works = [
        ("plan", planners(&tables), SOME_TABLES as f64),
        ("tick", tickers(&plan, SOME_TICKS), f64::from(SOME_TICKS)),
    ];
    for (work, sides, count) in works {
        let rounds: Vec<Vec<f64>> = (0..ROUNDS).map(|_| round(&sides)).collect();
        for (i, side) in sides.iter().enumerate() {
            let best = rounds.iter().map(|times| times[i]).fold(f64::MAX, f64::min);
            words += &format!(" {work} {} {:.0},", side.0, best / count);
        }
    }
    println!("{}", words.trim_end_matches(','));
}
