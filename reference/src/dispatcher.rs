//! The dispatcher's state and one tick of it.

use crate::bound::ranks_above;
use crate::records::{bare, of_task, CoreNo, Piece, Plan, Refusal, TaskNo};

/// Where a task's newest job stands.
#[derive(Clone, Copy, Debug, PartialEq, Eq)]
pub enum Phase {
    Never,
    Active,
    Ended,
}

/// A task's newest job; its piece counts among the task's own pieces.
#[derive(Clone, Copy, Debug, PartialEq, Eq)]
pub struct Job {
    pub phase: Phase,
    pub age: u32,
    pub piece: usize,
    pub ran: u32,
    pub late: bool,
}

/// All that the dispatcher keeps from tick to tick.
#[derive(Clone, Debug, PartialEq, Eq)]
pub struct State {
    pub jobs: Vec<Job>,
    pub last: Vec<Option<TaskNo>>,
    pub late: u32,
    pub preemptions: u32,
}

const NEVER: Job = Job {
    phase: Phase::Never,
    age: 0,
    piece: 0,
    ran: 0,
    late: false,
};

impl State {
    /// Nothing released, and zeros.
    pub fn fresh(plan: &Plan) -> State {
        State {
            jobs: vec![NEVER; plan.table.tasks.len()],
            last: vec![None; plan.table.cores],
            late: 0,
            preemptions: 0,
        }
    }

    /// Whether a state could be one of this plan's.
    pub fn well_made(&self, plan: &Plan) -> bool {
        self.jobs.len() == plan.table.tasks.len()
            && self.last.len() == plan.table.cores
            && (0..self.jobs.len()).all(|t| self.job_well_made(plan, TaskNo(t)))
            && (0..self.last.len()).all(|k| self.last_well_made(k))
    }

    /// Age, piece, ticks run and late mark of one task.
    fn job_well_made(&self, plan: &Plan, task: TaskNo) -> bool {
        let job = &self.jobs[task.0];
        let age_good = match job.phase {
            Phase::Never => job.age == 0,
            _ => 1 <= job.age && job.age <= plan.table.tasks[task.0].period,
        };
        let rest_good = match job.phase {
            Phase::Active => plan
                .pieces_of(task)
                .get(job.piece)
                .is_some_and(|piece| job.ran < piece.cost),
            _ => job.piece == 0 && job.ran == 0 && !job.late,
        };
        age_good && rest_good
    }

    /// A core's last task: none, or one once released that stands on no other core.
    fn last_well_made(&self, core: usize) -> bool {
        let Some(task) = self.last[core] else {
            return true;
        };
        task.0 < self.jobs.len()
            && self.jobs[task.0].phase != Phase::Never
            && self
                .last
                .iter()
                .filter(|&&other| other == Some(task))
                .count()
                == 1
    }

    /// Whether some core ran the task in the tick before.
    fn ran_before(&self, task: TaskNo) -> bool {
        self.last.contains(&Some(task))
    }

    /// Whether the task may be released: never released, or ended and of age p.
    pub fn may_release(&self, plan: &Plan, task: TaskNo) -> bool {
        let job = &self.jobs[task.0];
        match job.phase {
            Phase::Never => true,
            Phase::Active => false,
            Phase::Ended => job.age == plan.table.tasks[task.0].period,
        }
    }

    /// The refusal of a released task, if it has one.
    fn release_fault(&self, plan: &Plan, task: TaskNo) -> Option<u8> {
        let Some(job) = self.jobs.get(task.0) else {
            return Some(11);
        };
        if self.may_release(plan, task) {
            None
        } else if job.age < plan.table.tasks[task.0].period {
            Some(11)
        } else {
            Some(12)
        }
    }

    /// The place in the plan of the piece that a task's active job is at.
    fn piece_at(&self, plan: &Plan, task: TaskNo) -> Option<Piece> {
        let job = &self.jobs[task.0];
        (job.phase == Phase::Active).then(|| plan.pieces_of(task)[job.piece])
    }

    /// The highest ranked task that an active job wants to run on the core.
    fn choose(&self, plan: &Plan, core: CoreNo) -> Option<TaskNo> {
        let mut best: Option<Piece> = None;
        for task in (0..self.jobs.len()).map(TaskNo) {
            let Some(piece) = self.piece_at(plan, task) else {
                continue;
            };
            if piece.core != core {
                continue;
            }
            if best.is_none_or(|other| ranks_above(&plan.table.tasks, &piece, &other)) {
                best = Some(piece);
            }
        }
        best.map(|piece| piece.task)
    }

    /// One more tick of the task's job, which goes on to its next piece or ends where one is used up.
    fn run(&mut self, plan: &Plan, task: TaskNo) {
        let pieces = plan.pieces_of(task);
        let job = &mut self.jobs[task.0];
        job.ran += 1;
        if job.ran == pieces[job.piece].cost {
            (job.piece, job.ran) = (job.piece + 1, 0);
            if job.piece == pieces.len() {
                job.end();
            }
        }
    }
}

impl Job {
    /// Ends the job and keeps its age.
    fn end(&mut self) {
        *self = Job {
            phase: Phase::Ended,
            age: self.age,
            ..NEVER
        };
    }
}

/// The lowest task of a set for which a test holds.
fn lowest(set: &[TaskNo], test: impl Fn(TaskNo) -> bool) -> Option<TaskNo> {
    set.iter().copied().filter(|&task| test(task)).min()
}

/// The next state, whose last tasks are the answer, or the refusal; sets may repeat a task.
pub fn tick(
    plan: &Plan,
    state: &State,
    finished: &[TaskNo],
    released: &[TaskNo],
) -> Result<State, Refusal> {
    plan.check()?;
    if !state.well_made(plan) {
        return Err(bare(9));
    }
    if let Some(task) = lowest(finished, |task| !state.ran_before(task)) {
        return Err(of_task(10, task));
    }
    let mut next = state.clone();
    for task in finished {
        next.jobs[task.0].end();
    }
    for number in [11, 12] {
        if let Some(task) = lowest(released, |t| next.release_fault(plan, t) == Some(number)) {
            return Err(of_task(number, task));
        }
    }
    let still_active: Vec<bool> = next.jobs.iter().map(|j| j.phase == Phase::Active).collect();
    for (job, task) in next.jobs.iter_mut().zip(&plan.table.tasks) {
        if job.phase == Phase::Active && job.age == task.deadline && !job.late {
            job.late = true;
            next.late = next.late.saturating_add(1);
        }
    }
    for task in released {
        next.jobs[task.0] = Job {
            phase: Phase::Active,
            ..NEVER
        };
    }
    next.last = (0..plan.table.cores)
        .map(|k| next.choose(plan, CoreNo(k)))
        .collect();
    for core in 0..plan.table.cores {
        if let Some(task) = state.last[core] {
            if still_active[task.0] && next.last[core] != Some(task) {
                next.preemptions = next.preemptions.saturating_add(1);
            }
        }
    }
    for task in next.last.clone().into_iter().flatten() {
        next.run(plan, task);
    }
    for (job, task) in next.jobs.iter_mut().zip(&plan.table.tasks) {
        if job.phase != Phase::Never {
            job.age = (job.age + 1).min(task.period);
        }
    }
    Ok(next)
}
