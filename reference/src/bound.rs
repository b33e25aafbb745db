//! Interference, rank, local deadline, bound and margin.

use crate::records::{bare, Kind, Piece, Plan, Refusal, Task};

/// The most that a piece of cost e and period p can run in a length.
pub fn interference(e: i64, p: i64, length: i64) -> i64 {
    if length < 0 {
        return 0;
    }
    let full = length / p;
    if length >= full * p + e {
        (full + 1) * e
    } else {
        length - full * (p - e)
    }
}

/// Whether a ranks above b where both stand on one core.
pub fn ranks_above(tasks: &[Task], a: &Piece, b: &Piece) -> bool {
    match (a.kind, b.kind) {
        (Kind::Share, Kind::Whole) => true,
        (Kind::Whole, Kind::Share) => false,
        (Kind::Share, Kind::Share) => a.task > b.task,
        (Kind::Whole, Kind::Whole) => {
            let key = |q: &Piece| (tasks[q.task.0].deadline, q.task);
            key(a) < key(b)
        }
    }
}

/// The task's deadline less the costs of its pieces before the one at this index.
pub fn local_deadline(tasks: &[Task], pieces: &[Piece], index: usize) -> i64 {
    let task = pieces[index].task;
    let earlier: i64 = pieces[..index]
        .iter()
        .filter(|q| q.task == task)
        .map(|q| i64::from(q.cost))
        .sum();
    i64::from(tasks[task.0].deadline) - earlier
}

/// The piece's cost and all interference from above in its local deadline.
pub fn bound(tasks: &[Task], pieces: &[Piece], index: usize) -> i64 {
    let piece = &pieces[index];
    let length = local_deadline(tasks, pieces, index);
    let from_above: i64 = pieces
        .iter()
        .filter(|q| q.core == piece.core && ranks_above(tasks, q, piece))
        .map(|q| interference(i64::from(q.cost), i64::from(tasks[q.task.0].period), length))
        .sum();
    i64::from(piece.cost) + from_above
}

/// How far the bound stays below the local deadline.
pub fn margin(tasks: &[Task], pieces: &[Piece], index: usize) -> i64 {
    local_deadline(tasks, pieces, index) - bound(tasks, pieces, index)
}

/// The bound asked from outside, for any plan record and any index.
pub fn bound_of(plan: &Plan, index: usize) -> Result<i64, Refusal> {
    plan.check()?;
    if index >= plan.pieces.len() {
        return Err(bare(8));
    }
    Ok(bound(&plan.table.tasks, &plan.pieces, index))
}
