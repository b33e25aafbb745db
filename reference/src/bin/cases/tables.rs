//! Table files: random, close to full, at the edges, damaged.

use crate::fields::{bytes, cores_field, damaged, noise, piece_field, table_fields, task_field};
use crate::rng::Rng;
use reference::planner::layout;
use reference::records::{
    CoreNo, Kind, Piece, Table, Task, LONGEST_PERIOD, MOST_CORES, MOST_TASKS,
};

/// An input of the lister.
pub fn input(rng: &mut Rng) -> Vec<u8> {
    match rng.index(20) {
        0..=10 => {
            let table = near_limit(rng);
            bytes(&table_fields(rng, &table))
        }
        11..=12 => edge_file(rng),
        13..=16 => {
            let table = full_table(rng);
            let fields = table_fields(rng, &table);
            damaged(rng, fields)
        }
        17 => with_a_piece(rng),
        18 => long_file(rng),
        _ => noise(rng),
    }
}

/// How the periods of a table are drawn.
#[derive(Clone, Copy)]
enum Periods {
    All(u32),
    UpTo(u32),
    Harmonic(u32),
}

impl Periods {
    /// One period.
    fn draw(self, rng: &mut Rng) -> u32 {
        match self {
            Periods::All(period) => period,
            Periods::UpTo(most) => rng.within(most.div_ceil(10), most),
            Periods::Harmonic(base) => base << rng.within(0, 3),
        }
    }
}

/// A way to draw periods; short ones in the first case.
fn periods(rng: &mut Rng, short: bool) -> Periods {
    let most = if short {
        rng.pick(&[2, 5, 8, 12, 20])
    } else {
        rng.pick(&[3, 10, 50, 300, 5_000, LONGEST_PERIOD / 8, LONGEST_PERIOD])
    };
    let most = rng.within(most.div_ceil(2), most);
    match rng.index(3) {
        0 => Periods::All(most),
        1 => Periods::UpTo(most),
        _ => Periods::Harmonic(most.div_ceil(8)),
    }
}

/// A number of cores, all counts being likely.
fn core_count(rng: &mut Rng) -> usize {
    if rng.one_in(3) {
        rng.within(1, MOST_CORES as u32) as usize
    } else {
        rng.within(1, 5) as usize
    }
}

/// A table whose load is near what its cores can bear.
pub fn full_table(rng: &mut Rng) -> Table {
    let cores = core_count(rng);
    let least = rng.within(1, cores as u32);
    let most = (cores as u32 * rng.within(1, 6) + 1).min(MOST_TASKS as u32);
    let count = rng.within(least, most) as usize;
    let short = rng.one_in(3);
    loaded_table(rng, cores, count, short, (40, 110))
}

/// Heavy tasks, of which two do not fit on one core, and then light ones.
pub fn heavy_table(rng: &mut Rng, short: bool) -> Table {
    let cores = core_count(rng);
    let heavy = (cores as u32 * rng.within(110, 170)).div_ceil(100) as usize;
    let light = rng.index(2 * cores + 1);
    let periods = periods(rng, short);
    let tight = rng.one_in(4);
    let tasks = (0..(heavy + light).min(MOST_TASKS))
        .map(|number| {
            let period = periods.draw(rng);
            let percent = if number < heavy {
                rng.within(45, 75)
            } else {
                rng.within(1, 30)
            };
            let cost = (u64::from(period) * u64::from(percent)).div_ceil(100) as u32;
            let least = (period - (period - cost) / 4).max(cost);
            let deadline = if tight {
                rng.within(least, period)
            } else {
                period
            };
            Task {
                cost,
                deadline,
                period,
            }
        })
        .collect();
    Table { cores, tasks }
}

/// Deadlines well below the periods, so that shares too have little time left.
fn pressed_table(rng: &mut Rng) -> Table {
    let cores = core_count(rng);
    let count = rng.within(cores as u32, 4 * cores as u32 + 2) as usize;
    let most = rng.pick(&[20, 60, 200]);
    let tasks = (0..count.min(MOST_TASKS))
        .map(|_| {
            let period = rng.within(most / 10, most);
            let deadline = rng.within(period.div_ceil(4), period);
            let cost = rng.within(deadline.div_ceil(4), deadline - deadline / 5);
            Task {
                cost,
                deadline,
                period,
            }
        })
        .collect();
    Table { cores, tasks }
}

/// How many shares stand on a core with another share.
fn meetings(table: &Table) -> usize {
    let Ok(plan) = layout(table) else {
        return 0;
    };
    let shares_on = |core| {
        let on_it = |q: &&Piece| q.kind == Kind::Share && q.core == CoreNo(core);
        plan.pieces.iter().filter(on_it).count()
    };
    (0..table.cores)
        .map(shares_on)
        .filter(|&count| count > 1)
        .sum()
}

/// Whether a table is planned with a share.
fn is_shared(table: &Table) -> bool {
    layout(table).is_ok_and(|plan| plan.pieces.iter().any(|q| q.kind == Kind::Share))
}

/// A table near its limit: any, or one in which tasks are shared, or in which shares meet.
fn near_limit(rng: &mut Rng) -> Table {
    let wanted: fn(&Table) -> bool = rng.pick(&[|_| true, is_shared, |table| meetings(table) > 0]);
    let mut table = full_table(rng);
    for _ in 0..50 {
        table = match rng.index(4) {
            0 => full_table(rng),
            1 => pressed_table(rng),
            _ => {
                let short = rng.one_in(3);
                heavy_table(rng, short)
            }
        };
        if wanted(&table) {
            break;
        }
    }
    table
}

/// A table with short periods, so that a few ticks show much; its load is in percent of its cores.
pub fn busy_table(rng: &mut Rng, load: (u32, u32)) -> Table {
    let cores = core_count(rng);
    let count = rng.within(1, (cores as u32 * 4 + 1).min(MOST_TASKS as u32)) as usize;
    loaded_table(rng, cores, count, true, load)
}

/// A table of so many tasks, with a load between two percentages of its cores.
fn loaded_table(
    rng: &mut Rng,
    cores: usize,
    count: usize,
    short: bool,
    (low, high): (u32, u32),
) -> Table {
    let load = cores as f64 * f64::from(rng.within(low, high)) / 100.0;
    let weights: Vec<f64> = (0..count).map(|_| f64::from(rng.within(1, 100))).collect();
    let total: f64 = weights.iter().sum();
    let periods = periods(rng, short);
    let tight = rng.one_in(2);
    let tasks = weights
        .iter()
        .map(|weight| {
            let period = periods.draw(rng);
            let cost = (f64::from(period) * load * weight / total).round() as u32;
            let cost = cost.clamp(1, period);
            let deadline = if tight {
                rng.within(cost, period)
            } else {
                period
            };
            Task {
                cost,
                deadline,
                period,
            }
        })
        .collect();
    Table { cores, tasks }
}

/// Values at and past the ends of the ranges.
fn edge_file(rng: &mut Rng) -> Vec<u8> {
    let mut fields = Vec::new();
    if !rng.one_in(3) {
        let odd = rng.one_in(4);
        let counts: &[u8] = if odd {
            &[0, 17, 18, 32, 128, 255]
        } else {
            &[1, 2, 4, 8, 15, 16]
        };
        fields.push(cores_field(rng.pick(counts)));
    }
    let count = rng.pick(&[0, 1, 2, 3, 8, 63, 64, 65, 66]);
    let odd_one = rng.index(2 * count + 1);
    for number in 0..count {
        let numbers = if number == odd_one {
            odd_task(rng)
        } else {
            edge_task(rng)
        };
        fields.push(task_field(numbers));
    }
    if count > 0 && rng.one_in(4) {
        let last = fields.len() - 1;
        fields[last].length = rng.pick(&[0, 7, 13, 0x010c]);
    }
    bytes(&fields)
}

/// A good task at the ends of the ranges.
fn edge_task(rng: &mut Rng) -> [u32; 3] {
    let period = rng.pick(&[1, 2, 3, 999_999, LONGEST_PERIOD]);
    let deadline = rng.pick(&[1, period, period.div_ceil(2), period.max(2) - 1]);
    let cost = rng.pick(&[1, 1, 1, deadline, deadline.div_ceil(2), deadline.max(2) - 1]);
    [cost, deadline, period]
}

/// A task that is out of range in one of the ways, or nearly so.
fn odd_task(rng: &mut Rng) -> [u32; 3] {
    let past = LONGEST_PERIOD + 1;
    rng.pick(&[
        [0, 5, 5],
        [6, 5, 5],
        [5, 6, 5],
        [1, 5, past],
        [1, past, past],
        [past, past, past],
        [0, 0, 0],
        [1, 1, 0],
        [1, LONGEST_PERIOD, LONGEST_PERIOD],
        [LONGEST_PERIOD, LONGEST_PERIOD, LONGEST_PERIOD],
        [u32::MAX, u32::MAX, u32::MAX],
        [1, 5, 5 + (1 << 31)],
        [1 << 24, 1 << 24, 1 << 24],
    ])
}

/// A table file with a piece among or after its tasks.
fn with_a_piece(rng: &mut Rng) -> Vec<u8> {
    let table = full_table(rng);
    let mut fields = table_fields(rng, &table);
    let at = rng.index(fields.len() + 1);
    fields.insert(at, piece_field(0, 0, 0, 1));
    bytes(&fields)
}

/// A file with far too many fields, or a full one with a fault at its end.
fn long_file(rng: &mut Rng) -> Vec<u8> {
    let count = rng.pick(&[60, 64, 65, 300, 5_000]);
    let mut fields = vec![cores_field(rng.within(1, 16) as u8)];
    for _ in 0..count {
        let period = rng.within(10, 100);
        let cost = rng.within(1, period.div_ceil(3));
        fields.push(task_field([cost, period, period]));
    }
    let mut file = bytes(&fields);
    if rng.one_in(2) {
        file.push(rng.byte());
    }
    file
}
