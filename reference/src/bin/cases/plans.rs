//! Plan files: planned, drawn by hand, nearly of the shape, damaged.

use crate::fields::{bytes, damaged, noise, piece_fields, table_fields, task_field, Field};
use crate::rng::Rng;
use crate::tables::{busy_table, full_table, heavy_table};
use reference::planner::layout;
use reference::records::{CoreNo, Kind, Piece, Plan, Table, Task, TaskNo, MOST_CORES, MOST_PIECES};

/// The most shares that a drawn task gets.
const MOST_SHARES: usize = 4;

/// An input of the runner.
pub fn input(rng: &mut Rng) -> Vec<u8> {
    match rng.index(20) {
        0..=4 => planned(rng).file(rng),
        5..=9 => drawn(rng).file(rng),
        10..=13 => crooked(rng),
        14..=16 => {
            let fields = good_plan(rng).fields(rng);
            damaged(rng, fields)
        }
        17 => many_pieces(rng),
        18 => {
            let table = full_table(rng);
            bytes(&table_fields(rng, &table))
        }
        _ => noise(rng),
    }
}

/// A plan's way into a file.
pub trait ToFile {
    fn fields(&self, rng: &mut Rng) -> Vec<Field>;
    fn file(&self, rng: &mut Rng) -> Vec<u8>;
}

impl ToFile for Plan {
    /// The fields of the plan's file.
    fn fields(&self, rng: &mut Rng) -> Vec<Field> {
        let mut fields = table_fields(rng, &self.table);
        fields.extend(piece_fields(&self.pieces));
        fields
    }

    /// The plan's file.
    fn file(&self, rng: &mut Rng) -> Vec<u8> {
        bytes(&self.fields(rng))
    }
}

/// A plan of the shape, planned or drawn.
pub fn good_plan(rng: &mut Rng) -> Plan {
    if rng.one_in(2) {
        planned(rng)
    } else {
        drawn(rng)
    }
}

/// A plan that the planner made, with shares if some are found soon.
pub fn planned(rng: &mut Rng) -> Plan {
    let mut best = None;
    for _ in 0..20 {
        let table = if rng.one_in(3) {
            busy_table(rng, (60, 105))
        } else {
            heavy_table(rng, true)
        };
        if let Ok(plan) = layout(&table) {
            let shared = plan.pieces.iter().any(|q| q.kind == Kind::Share);
            best = Some(plan);
            if shared {
                break;
            }
        }
    }
    best.unwrap_or_else(|| drawn(rng))
}

/// A plan of the shape that nobody has checked for deadlines.
pub fn drawn(rng: &mut Rng) -> Plan {
    let table = busy_table(rng, (20, 150));
    let mut pieces = Vec::new();
    let whole_in = rng.pick(&[1, 2, 4, 100]);
    for number in 0..table.tasks.len() {
        let cost = table.tasks[number].cost;
        let crowded = pieces.len() + MOST_SHARES + table.tasks.len() - number > MOST_PIECES;
        if crowded || rng.one_in(whole_in) {
            let core = CoreNo(rng.index(table.cores));
            let (task, kind) = (TaskNo(number), Kind::Whole);
            pieces.push(Piece {
                task,
                core,
                kind,
                cost,
            });
        } else {
            pieces.extend(shares(rng, table.cores, TaskNo(number), cost));
        }
    }
    Plan { table, pieces }
}

/// Random shares of a cost on rising cores.
fn shares(rng: &mut Rng, cores: usize, task: TaskNo, cost: u32) -> Vec<Piece> {
    let most = cores.min(cost as usize).min(MOST_SHARES);
    let count = 1 + rng.index(most);
    let mut chosen: Vec<usize> = (0..cores).collect();
    while chosen.len() > count {
        chosen.remove(rng.index(chosen.len()));
    }
    let mut left = cost;
    let mut pieces = Vec::new();
    for (i, &core) in chosen.iter().enumerate() {
        let after = (chosen.len() - i - 1) as u32;
        let size = if after == 0 {
            left
        } else {
            rng.within(1, left - after)
        };
        left -= size;
        let (core, kind) = (CoreNo(core), Kind::Share);
        pieces.push(Piece {
            task,
            core,
            kind,
            cost: size,
        });
    }
    pieces
}

/// A plan that leaves the shape, or nearly does, in one of the ways.
fn crooked(rng: &mut Rng) -> Vec<u8> {
    let plan = good_plan(rng);
    let (tasks, cores) = (plan.table.tasks.len(), plan.table.cores);
    let mut fields = table_fields(rng, &plan.table);
    let first = fields.len();
    fields.extend(piece_fields(&plan.pieces));
    let i = first + rng.index(plan.pieces.len());
    let cost = plan.pieces[i - first].cost;
    match rng.index(15) {
        0 => fields[i].body[0] = rng.pick(&[tasks as u8, tasks as u8 + 1, 255]),
        1 => fields[i].body[0] = rng.index(tasks) as u8,
        2 => fields[i].body[1] = rng.pick(&[cores as u8, cores as u8 + 1, 255]),
        3 => fields[i].body[1] = rng.index(cores) as u8,
        4 => fields[i].body[2] = rng.pick(&[2, 3, 128, 255]),
        5 => fields[i].body[2] ^= 1,
        6 => set_cost(
            &mut fields[i],
            rng.pick(&[0, cost - 1, cost + 1, cost * 2, u32::MAX]),
        ),
        7 => {
            fields.remove(i);
        }
        8 => fields.insert(i, fields[i].clone()),
        9 => {
            let j = first + rng.index(plan.pieces.len());
            fields.swap(i, j);
        }
        10 => fields.truncate(first),
        11 => return wrapped_sum(rng),
        12 => fields.retain(|field| field.tag != 2),
        13 => {
            let mut next = fields[i].clone();
            next.body[1] = next.body[1].wrapping_add(1);
            set_cost(&mut next, rng.pick(&[0, 1, cost]));
            fields.insert(i + 1, next);
        }
        _ => {
            let at = first + rng.index(plan.pieces.len() + 1);
            fields.insert(at, task_field([1, 5, 5]));
        }
    }
    bytes(&fields)
}

/// Puts another cost into a piece's field.
fn set_cost(field: &mut Field, cost: u32) {
    field.body[3..7].copy_from_slice(&cost.to_be_bytes());
}

/// Shares whose sum is the cost only if it wraps at 2^32.
fn wrapped_sum(rng: &mut Rng) -> Vec<u8> {
    let table = busy_table(rng, (20, 100));
    let table = Table {
        cores: MOST_CORES,
        ..table
    };
    let mut fields = table_fields(rng, &table);
    let wrong = rng.index(table.tasks.len());
    for (number, task) in table.tasks.iter().enumerate() {
        let mut pieces = shares(rng, MOST_CORES - 2, TaskNo(number), task.cost);
        if number == wrong {
            let part = rng.pick(&[1, 1 << 31, u32::MAX - 5, u32::MAX]);
            let last = *pieces.last().expect("a task has a share");
            for (core, cost) in [(14, part), (15, 0_u32.wrapping_sub(part))] {
                let core = CoreNo(core);
                pieces.push(Piece { core, cost, ..last });
            }
        }
        fields.extend(piece_fields(&pieces));
    }
    bytes(&fields)
}

/// About 128 pieces or far more of them, all but their number being good.
fn many_pieces(rng: &mut Rng) -> Vec<u8> {
    let cores = rng.pick(&[2, 3, 16]);
    let task = Task {
        cost: 3,
        deadline: 10,
        period: 12,
    };
    let count = rng.pick(&[42, 43, 63, 64]);
    let table = Table {
        cores,
        tasks: vec![task; count],
    };
    let mut fields = table_fields(rng, &table);
    let total = rng.pick(&[127, 128, 128, 129, 129, 190]);
    let mut made = 0;
    for number in 0..count {
        let room: usize = total.max(made) - made;
        let left = count - number;
        let parts = room.div_ceil(left).clamp(1, cores.min(3));
        let costs: &[u32] = [&[3][..], &[1, 2], &[1, 1, 1]][parts - 1];
        let piece = |(core, &cost): (usize, &u32)| Piece {
            task: TaskNo(number),
            core: CoreNo(core),
            kind: Kind::Share,
            cost,
        };
        let pieces: Vec<Piece> = costs.iter().enumerate().map(piece).collect();
        fields.extend(piece_fields(&pieces));
        made += parts;
    }
    if rng.one_in(5) {
        let last = fields[fields.len() - 1].clone();
        fields.extend(vec![last; rng.pick(&[1, 100, 8_000])]);
    }
    let mut file = bytes(&fields);
    if rng.one_in(5) {
        file.push(rng.byte());
    }
    file
}
