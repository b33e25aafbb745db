//! The plain side of the benchmark: the same two calls as ours, with the same checksums.

use crate::reading::{read_plan, read_table};
use crate::rules::*;
use crate::ticking::{State, Walk};

/// One more value in a checksum.
fn mix(sum: u64, value: u64) -> u64 {
    sum.wrapping_mul(31).wrapping_add(value)
}

/// Reads and plans a table file; the checksum of its plan.
pub fn plan(table: &[u8]) -> u64 {
    match read_table(table).and_then(layout) {
        Ok(plan) => plan.pieces().iter().fold(0, |sum, piece| {
            let kind = u64::from(piece.kind == Kind::Share);
            let sum = mix(mix(sum, piece.task.0.into()), piece.core.0.into());
            mix(mix(sum, kind), piece.cost.into())
        }),
        Err(_) => 0,
    }
}

/// Reads a plan file and makes ticks, all released as soon as allowed; the checksum of the answers.
pub fn ticks(plan: &[u8], count: u32, walk: Walk) -> u64 {
    let plan = match read_plan(plan) {
        Ok(plan) => plan,
        Err(_) => return 0,
    };
    let mut state = State::fresh();
    let mut sum = 0;
    for _ in 0..count {
        let mut released = [TaskNo(0); TASKS];
        let mut members = 0;
        for number in 0..plan.table.count {
            if state.may_release(&plan, number) {
                released[members] = TaskNo(number as u8);
                members += 1;
            }
        }
        if state.tick(&plan, &[], &released[..members], walk).is_err() {
            return 0;
        }
        for run in &state.last[..plan.table.cores] {
            sum = mix(sum, run.map_or(0, |task| u64::from(task.0) + 1));
        }
    }
    mix(mix(sum, state.late.into()), state.preemptions.into())
}
