//! Reading table and plan files into records.

use crate::rules::*;

/// Four bytes, high byte first.
fn number(bytes: &[u8]) -> u32 {
    u32::from_be_bytes([bytes[0], bytes[1], bytes[2], bytes[3]])
}

/// All fields of a file, pieces only where they may stand; 8 is left to the caller's look at the count.
fn read(file: &[u8], pieces_too: bool) -> Result<Plan, Refusal> {
    let table = Table {
        cores: 4,
        count: 0,
        tasks: [NO_TASK; TASKS],
    };
    let mut plan = Plan {
        table,
        count: 0,
        pieces: [NO_PIECE; PIECES],
    };
    let mut tasks_end = 0;
    let mut place = 0;
    while place < file.len() {
        let rest = &file[place..];
        if rest.len() < 3 {
            return refused(1, place);
        }
        let right_length = match rest[0] {
            1 if place == 0 => 1,
            2 if plan.count == 0 => 12,
            3 if pieces_too => 7,
            _ => return refused(2, place),
        };
        if rest[0] == 2 && plan.table.count == TASKS {
            return refused(6, place);
        }
        let length = usize::from(rest[1]) * 256 + usize::from(rest[2]);
        if length != right_length {
            return refused(3, place);
        }
        if rest.len() < 3 + length {
            return refused(1, place);
        }
        let body = &rest[3..3 + length];
        match rest[0] {
            1 => {
                plan.table.cores = usize::from(body[0]);
                if plan.table.cores < 1 || plan.table.cores > CORES {
                    return refused(4, place);
                }
                tasks_end = place + 3 + length;
            }
            2 => {
                let (cost, deadline) = (number(body), number(&body[4..]));
                let task = Task {
                    cost,
                    deadline,
                    period: number(&body[8..]),
                };
                if !task.in_range() {
                    return refused(5, place);
                }
                plan.table.tasks[plan.table.count] = task;
                plan.table.count += 1;
                tasks_end = place + 3 + length;
            }
            _ => add_piece(&mut plan, body),
        }
        place += 3 + length;
    }
    if plan.table.count == 0 {
        return refused(6, tasks_end);
    }
    Ok(plan)
}

/// Adds a piece; one of an unknown kind or past the list makes the count too large.
fn add_piece(plan: &mut Plan, body: &[u8]) {
    if plan.count >= PIECES || body[2] > 1 {
        plan.count = PIECES + 1;
        return;
    }
    let kind = if body[2] == 0 {
        Kind::Whole
    } else {
        Kind::Share
    };
    let (task, core) = (TaskNo(body[0]), CoreNo(body[1]));
    plan.pieces[plan.count] = Piece {
        task,
        core,
        kind,
        cost: number(&body[3..]),
    };
    plan.count += 1;
}

/// A table file's table.
pub fn read_table(file: &[u8]) -> Result<Table, Refusal> {
    read(file, false).map(|plan| plan.table)
}

/// A plan file's plan.
pub fn read_plan(file: &[u8]) -> Result<Plan, Refusal> {
    let plan = read(file, true)?;
    plan.check()?;
    Ok(plan)
}
