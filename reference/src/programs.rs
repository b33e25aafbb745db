//! What the programs print for their standard input.

use crate::dispatcher::{tick, State};
use crate::files::{plan_bytes, read_plan, read_table, Absent};
use crate::planner::layout;
use crate::records::{at, Kind, Plan, Refusal, TaskNo, Tells, MOST_TASKS};

const RUNNER_TICKS: usize = 20;
/// The boards that are shipped now have eight cores.
const ABSENT: Absent = Absent::Eight;

/// What the named program writes to standard output, if there is one of that name.
pub fn program(name: &str, input: &[u8]) -> Option<Vec<u8>> {
    match name {
        "lister" => Some(lister(input).into_bytes()),
        "plan_writer" => Some(plan_writer(input)),
        "runner" => Some(runner(input).into_bytes()),
        "replay" => Some(replay(input).into_bytes()),
        _ => None,
    }
}

/// A table file's plan file; a refusal goes to standard error, which is not compared.
pub fn plan_writer(input: &[u8]) -> Vec<u8> {
    let plan = read_table(input, ABSENT).and_then(|table| layout(&table));
    plan.map_or(Vec::new(), |plan| plan_bytes(&plan))
}

/// The one line that a refusal prints.
fn refusal_line(refusal: Refusal) -> String {
    let told = match refusal.tells {
        Tells::Nothing => String::new(),
        Tells::Place(place) => format!(" at {place}"),
        Tells::Task(task) => format!(" task {}", task.0),
        Tells::Count(count) => format!(" count {count}"),
        Tells::Length(length) => format!(" length {length}"),
    };
    format!("refused {}{told}\n", refusal.number)
}

/// The task on each core, or a dash.
fn tick_line(state: &State) -> String {
    let words: Vec<String> = state
        .last
        .iter()
        .map(|run| run.map_or("-".into(), |task| task.0.to_string()))
        .collect();
    words.join(" ") + "\n"
}

/// Both totals.
fn totals_line(state: &State) -> String {
    format!("late {} preemptions {}\n", state.late, state.preemptions)
}

/// A table file's plan, piece by piece.
pub fn lister(input: &[u8]) -> String {
    let plan = match read_table(input, ABSENT).and_then(|table| layout(&table)) {
        Ok(plan) => plan,
        Err(refusal) => return refusal_line(refusal),
    };
    let mut text = format!(
        "cores {} tasks {}\n",
        plan.table.cores,
        plan.table.tasks.len()
    );
    for piece in &plan.pieces {
        let kind = if piece.kind == Kind::Whole {
            "whole"
        } else {
            "share"
        };
        text += &format!("{} {} {kind} {}\n", piece.task.0, piece.core.0, piece.cost);
    }
    text
}

/// A plan file's first 20 ticks, all released as soon as allowed.
pub fn runner(input: &[u8]) -> String {
    let plan = match read_plan(input, ABSENT) {
        Ok(plan) => plan,
        Err(refusal) => return refusal_line(refusal),
    };
    let mut text = String::new();
    let mut state = State::fresh(&plan);
    for _ in 0..RUNNER_TICKS {
        let all = (0..plan.table.tasks.len()).map(TaskNo);
        let released: Vec<TaskNo> = all.filter(|&task| state.may_release(&plan, task)).collect();
        state = tick(&plan, &state, &[], &released).expect("a release that is allowed");
        text += &tick_line(&state);
    }
    text + &totals_line(&state)
}

/// A plan file's run through the given ticks.
pub fn replay(input: &[u8]) -> String {
    let Some((file, ticks)) = split_plan(input) else {
        return refusal_line(at(1, 0));
    };
    match read_plan(file, ABSENT) {
        Ok(plan) => replay_ticks(&plan, ticks, 2 + file.len()),
        Err(refusal) => refusal_line(refusal),
    }
}

/// The plan file whose length stands before it, and what follows it.
fn split_plan(input: &[u8]) -> Option<(&[u8], &[u8])> {
    let (length, rest) = input.split_at_checked(2)?;
    rest.split_at_checked(usize::from(length[0]) * 256 + usize::from(length[1]))
}

/// The lines of all ticks, the first of which has the given place in the input.
fn replay_ticks(plan: &Plan, ticks: &[u8], start: usize) -> String {
    let mut text = String::new();
    let mut state = State::fresh(plan);
    let mut rest = ticks;
    while !rest.is_empty() {
        let place = start + ticks.len() - rest.len();
        let sets = read_set(rest, place)
            .and_then(|(f, after)| read_set(after, place).map(|(r, after)| (f, r, after)));
        let (finished, released, after) = match sets {
            Ok(sets) => sets,
            Err(refusal) => {
                text += &refusal_line(refusal);
                break;
            }
        };
        match tick(plan, &state, &finished, &released) {
            Ok(next) => {
                state = next;
                text += &tick_line(&state);
            }
            Err(refusal) => text += &refusal_line(refusal),
        }
        rest = after;
    }
    text + &totals_line(&state)
}

/// A count and so many task numbers, and what follows them; a fault is told at the tick's place.
fn read_set(bytes: &[u8], place: usize) -> Result<(Vec<TaskNo>, &[u8]), Refusal> {
    let (&count, rest) = bytes.split_first().ok_or(at(1, place))?;
    if usize::from(count) > MOST_TASKS {
        return Err(at(3, place));
    }
    let (numbers, after) = rest.split_at_checked(count.into()).ok_or(at(1, place))?;
    Ok((
        numbers
            .iter()
            .map(|&number| TaskNo(number.into()))
            .collect(),
        after,
    ))
}
