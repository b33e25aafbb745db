//! Replays: a plan file and ticks that are accepted, refused or broken off.

use crate::plans::{drawn, good_plan, ToFile};
use crate::rng::Rng;
use reference::dispatcher::{tick, State};
use reference::records::{Plan, TaskNo, MOST_TASKS};

/// An input of the replay.
pub fn input(rng: &mut Rng) -> Vec<u8> {
    match rng.index(20) {
        0..=13 => {
            let plan = good_plan(rng);
            let mut file = started(&plan.file(rng));
            let count = if rng.one_in(30) {
                2_000
            } else {
                rng.within(0, 120)
            };
            add_ticks(rng, &plan, count, &mut file);
            file
        }
        14..=16 => broken_off(rng),
        17 => started(&crate::plans::input(rng)),
        18 => wrong_length(rng),
        _ => {
            let count = rng.within(0, 6);
            (0..count)
                .map(|_| rng.pick(&[0, 0, 1, 2, 3, 255]))
                .collect()
        }
    }
}

/// A plan file after its length.
fn started(plan: &[u8]) -> Vec<u8> {
    let length = plan.len().min(0xffff);
    let mut file = (length as u16).to_be_bytes().to_vec();
    file.extend(&plan[..length]);
    file
}

/// How a replay releases and finishes: odds of one in so many.
struct Manner {
    leave_out: u64,
    finish: u64,
    fault: u64,
}

/// Adds ticks that follow the plan's own state.
fn add_ticks(rng: &mut Rng, plan: &Plan, count: u32, file: &mut Vec<u8>) {
    let manner = Manner {
        leave_out: rng.pick(&[2, 5, 20, 1_000_000]),
        finish: rng.pick(&[3, 10, 40, 1_000_000]),
        fault: rng.pick(&[3, 10, 30, 1_000_000]),
    };
    let mut state = State::fresh(plan);
    for _ in 0..count {
        let (finished, released) = sets(rng, plan, &state, &manner);
        for set in [&finished, &released] {
            file.push(set.len() as u8);
            file.extend(set.iter().map(|task| task.0 as u8));
        }
        if let Ok(next) = tick(plan, &state, &finished, &released) {
            state = next;
        }
    }
}

/// The finished and the released tasks of one tick.
fn sets(rng: &mut Rng, plan: &Plan, state: &State, manner: &Manner) -> (Vec<TaskNo>, Vec<TaskNo>) {
    let mut finished: Vec<TaskNo> = state.last.iter().copied().flatten().collect();
    finished.retain(|_| rng.one_in(manner.finish));
    let all = (0..plan.table.tasks.len()).map(TaskNo);
    let mut released: Vec<TaskNo> = all
        .filter(|&task| {
            let at_once = finished.contains(&task)
                && state.jobs[task.0].age == plan.table.tasks[task.0].period;
            (state.may_release(plan, task) || at_once) && !rng.one_in(manner.leave_out)
        })
        .collect();
    if rng.one_in(manner.fault) {
        spoil(rng, plan, &mut finished);
    }
    if rng.one_in(manner.fault) {
        spoil(rng, plan, &mut released);
    }
    for set in [&mut finished, &mut released] {
        shuffle(rng, set);
    }
    (finished, released)
}

/// Adds tasks that may not stand in the set, or that stand there already.
fn spoil(rng: &mut Rng, plan: &Plan, set: &mut Vec<TaskNo>) {
    let tasks = plan.table.tasks.len();
    for _ in 0..rng.within(1, 3) {
        let number = match rng.index(6) {
            0 => tasks,
            1 => rng.pick(&[63, 64, 65, 128, 255]),
            2 if !set.is_empty() => set[rng.index(set.len())].0,
            _ => rng.index(tasks),
        };
        set.push(TaskNo(number));
    }
    if rng.one_in(10) {
        let filler = set[rng.index(set.len())];
        set.resize(MOST_TASKS, filler);
    }
    set.truncate(MOST_TASKS);
}

/// Puts a set into random order.
fn shuffle(rng: &mut Rng, set: &mut [TaskNo]) {
    for i in (1..set.len()).rev() {
        set.swap(i, rng.index(i + 1));
    }
}

/// Good ticks and then one that the input ends inside, or with a count above 64.
fn broken_off(rng: &mut Rng) -> Vec<u8> {
    let plan = drawn(rng);
    let mut file = started(&plan.file(rng));
    let plan_end = file.len();
    let count = rng.within(0, 30);
    add_ticks(rng, &plan, count, &mut file);
    match rng.index(5) {
        0 => file.push(rng.pick(&[65, 66, 128, 255])),
        1 => file.extend([1, 0, rng.pick(&[65, 128, 255])]),
        2 => file.extend(vec![64; rng.pick(&[1, 2, 64, 65, 66, 129, 130])]),
        3 => file.truncate(plan_end + rng.index(file.len() - plan_end + 1)),
        _ => {
            if file.len() > plan_end {
                let at = plan_end + rng.index(file.len() - plan_end);
                file[at] = rng.pick(&[0, 1, 2, 5, 64, 65, 255]);
            }
        }
    }
    file
}

/// A plan file whose length is told wrong, or of which the input has a part only.
fn wrong_length(rng: &mut Rng) -> Vec<u8> {
    let plan = good_plan(rng);
    let mut file = started(&plan.file(rng));
    add_ticks(rng, &plan, 10, &mut file);
    match rng.index(4) {
        0 => file.truncate(rng.index(file.len() + 1)),
        1 => file[1] = file[1].wrapping_add(rng.pick(&[1, 10, 255, 246, 100])),
        2 => file[0] = rng.pick(&[1, 2, 255]),
        _ => (file[0], file[1]) = (0, rng.pick(&[0, 1, 4, 19])),
    }
    file
}
