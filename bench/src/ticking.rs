//! The dispatcher's state, stepped where it stands.

use crate::rules::*;

#[derive(Clone, Copy, PartialEq, Eq)]
pub enum Phase {
    Never,
    Active,
    Ended,
}

#[derive(Clone, Copy)]
pub struct Job {
    pub phase: Phase,
    pub age: u32,
    pub piece: u8,
    pub ran: u32,
    pub late: bool,
}

pub struct State {
    pub jobs: [Job; TASKS],
    pub last: [Option<TaskNo>; CORES],
    pub late: u32,
    pub preemptions: u32,
}

const NEVER: Job = Job {
    phase: Phase::Never,
    age: 0,
    piece: 0,
    ran: 0,
    late: false,
};

/// How the runners are chosen: the tasks walked once for each core, or once for all.
#[derive(Clone, Copy, PartialEq, Eq)]
pub enum Walk {
    EachCore,
    Once,
}

impl State {
    /// Nothing released, and zeros.
    pub fn fresh() -> State {
        State {
            jobs: [NEVER; TASKS],
            last: [None; CORES],
            late: 0,
            preemptions: 0,
        }
    }

    /// Whether the state could be one of this plan's.
    fn well_made(&self, plan: &Plan) -> bool {
        let jobs = &self.jobs[..plan.table.count];
        for (number, (job, task)) in jobs.iter().zip(plan.table.tasks()).enumerate() {
            let good = match job.phase {
                Phase::Never => job.age == 0,
                _ => 1 <= job.age && job.age <= task.period,
            };
            let good = good
                && match job.phase {
                    Phase::Active => match plan.pieces().get(usize::from(job.piece)) {
                        Some(piece) => usize::from(piece.task.0) == number && job.ran < piece.cost,
                        None => false,
                    },
                    _ => job.piece == 0 && job.ran == 0 && !job.late,
                };
            if !good {
                return false;
            }
        }
        let mut seen: u64 = 0;
        for task in self.last[..plan.table.cores].iter().flatten() {
            let number = usize::from(task.0);
            if number >= jobs.len() || jobs[number].phase == Phase::Never || seen >> number & 1 == 1
            {
                return false;
            }
            seen |= 1 << number;
        }
        true
    }

    /// Whether a task may be released now.
    pub fn may_release(&self, plan: &Plan, number: usize) -> bool {
        let job = &self.jobs[number];
        job.phase == Phase::Never
            || (job.phase == Phase::Ended && job.age == plan.table.tasks[number].period)
    }

    /// Refusal 10, or the finished tasks as bits.
    fn finishes(&self, plan: &Plan, finished: &[TaskNo]) -> Result<u64, Refusal> {
        let mut ran: u64 = 0;
        for task in self.last[..plan.table.cores].iter().flatten() {
            ran |= 1 << task.0;
        }
        let (mut set, mut lowest) = (0, usize::MAX);
        for task in finished {
            if usize::from(task.0) >= plan.table.count || ran >> task.0 & 1 == 0 {
                lowest = lowest.min(task.0.into());
            } else {
                set |= 1 << task.0;
            }
        }
        if lowest < usize::MAX {
            return refused(10, lowest);
        }
        Ok(set)
    }

    /// Refusals 11 and 12, judged after the finishes.
    fn releases(&self, plan: &Plan, ended: u64, released: &[TaskNo]) -> Result<(), Refusal> {
        let (mut early, mut active) = (usize::MAX, usize::MAX);
        for task in released {
            let number = usize::from(task.0);
            if number >= plan.table.count {
                early = early.min(number);
                continue;
            }
            let job = &self.jobs[number];
            if job.phase == Phase::Never {
                continue;
            }
            if job.age < plan.table.tasks[number].period {
                early = early.min(number);
            } else if job.phase == Phase::Active && ended >> number & 1 == 0 {
                active = active.min(number);
            }
        }
        if early < usize::MAX {
            return refused(11, early);
        }
        if active < usize::MAX {
            return refused(12, active);
        }
        Ok(())
    }

    /// The piece that a job is at, if it is active.
    fn piece_of<'a>(&self, plan: &'a Plan, number: usize) -> Option<&'a Piece> {
        let job = &self.jobs[number];
        if job.phase == Phase::Active {
            Some(&plan.pieces[usize::from(job.piece)])
        } else {
            None
        }
    }

    /// The runners, the tasks being walked once for each core.
    fn choose_each(&self, plan: &Plan) -> [Option<TaskNo>; CORES] {
        let mut runs = [None; CORES];
        for (core, run) in runs[..plan.table.cores].iter_mut().enumerate() {
            let mut best: Option<&Piece> = None;
            for number in 0..plan.table.count {
                if let Some(piece) = self.piece_of(plan, number) {
                    if usize::from(piece.core.0) == core
                        && best.is_none_or(|other| plan.above(piece, other))
                    {
                        best = Some(piece);
                    }
                }
            }
            *run = best.map(|piece| piece.task);
        }
        runs
    }

    /// The runners, all from one walk over the tasks.
    fn choose_once(&self, plan: &Plan) -> [Option<TaskNo>; CORES] {
        let mut best: [Option<&Piece>; CORES] = [None; CORES];
        for number in 0..plan.table.count {
            if let Some(piece) = self.piece_of(plan, number) {
                let held = &mut best[usize::from(piece.core.0)];
                if held.is_none_or(|other| plan.above(piece, other)) {
                    *held = Some(piece);
                }
            }
        }
        best.map(|piece| piece.map(|piece| piece.task))
    }

    /// One tick; the state is as it was on a refusal, and its last tasks are the answer otherwise.
    pub fn tick(
        &mut self,
        plan: &Plan,
        finished: &[TaskNo],
        released: &[TaskNo],
        walk: Walk,
    ) -> Result<(), Refusal> {
        let firsts = plan.check()?;
        if !self.well_made(plan) {
            return refused(9, 0);
        }
        let ended = self.finishes(plan, finished)?;
        self.releases(plan, ended, released)?;
        for (number, job) in self.jobs[..plan.table.count].iter_mut().enumerate() {
            if ended >> number & 1 == 1 {
                *job = Job {
                    phase: Phase::Ended,
                    age: job.age,
                    ..NEVER
                };
            } else if job.phase == Phase::Active
                && job.age == plan.table.tasks[number].deadline
                && !job.late
            {
                job.late = true;
                self.late = self.late.saturating_add(1);
            }
        }
        let mut active: u64 = 0;
        for (number, job) in self.jobs[..plan.table.count].iter().enumerate() {
            active |= u64::from(job.phase == Phase::Active) << number;
        }
        for task in released {
            let number = usize::from(task.0);
            self.jobs[number] = Job {
                phase: Phase::Active,
                piece: firsts[number],
                ..NEVER
            };
        }
        let runs = match walk {
            Walk::EachCore => self.choose_each(plan),
            Walk::Once => self.choose_once(plan),
        };
        for (before, now) in self.last[..plan.table.cores].iter().zip(&runs) {
            if let Some(task) = before {
                if active >> task.0 & 1 == 1 && now != before {
                    self.preemptions = self.preemptions.saturating_add(1);
                }
            }
        }
        for task in runs[..plan.table.cores].iter().flatten() {
            self.run(plan, *task);
        }
        self.last = runs;
        for (job, task) in self.jobs[..plan.table.count]
            .iter_mut()
            .zip(plan.table.tasks())
        {
            if job.phase != Phase::Never {
                job.age = (job.age + 1).min(task.period);
            }
        }
        Ok(())
    }

    /// One more tick of a job, which goes on or ends where its piece is used up.
    fn run(&mut self, plan: &Plan, task: TaskNo) {
        let job = &mut self.jobs[usize::from(task.0)];
        let at = usize::from(job.piece);
        job.ran += 1;
        if job.ran == plan.pieces[at].cost {
            if at + 1 < plan.count && plan.pieces[at + 1].task == task {
                (job.piece, job.ran) = (job.piece + 1, 0);
            } else {
                *job = Job {
                    phase: Phase::Ended,
                    age: job.age,
                    ..NEVER
                };
            }
        }
    }
}
