//! Tables, plans and refusals, and what makes a record of them good.

pub const MOST_CORES: usize = 16;
pub const MOST_TASKS: usize = 64;
pub const MOST_PIECES: usize = 128;
pub const LONGEST_PERIOD: u32 = 1_000_000;

/// A task's number, counted from 0 in table order.
#[derive(Clone, Copy, Debug, PartialEq, Eq, PartialOrd, Ord)]
pub struct TaskNo(pub usize);

/// A core's number, counted from 0.
#[derive(Clone, Copy, Debug, PartialEq, Eq, PartialOrd, Ord)]
pub struct CoreNo(pub usize);

/// What a task needs: ticks of work, by when after its release, and how often it may be released.
#[derive(Clone, Copy, Debug, PartialEq, Eq)]
pub struct Task {
    pub cost: u32,
    pub deadline: u32,
    pub period: u32,
}

/// Cores and the tasks to be placed on them.
#[derive(Clone, Debug, PartialEq, Eq)]
pub struct Table {
    pub cores: usize,
    pub tasks: Vec<Task>,
}

/// Whether a piece is all of its task or a share of it.
#[derive(Clone, Copy, Debug, PartialEq, Eq)]
pub enum Kind {
    Whole,
    Share,
}

/// A part of a task's cost, on one core.
#[derive(Clone, Copy, Debug, PartialEq, Eq)]
pub struct Piece {
    pub task: TaskNo,
    pub core: CoreNo,
    pub kind: Kind,
    pub cost: u32,
}

/// A table with all of its tasks placed.
#[derive(Clone, Debug, PartialEq, Eq)]
pub struct Plan {
    pub table: Table,
    pub pieces: Vec<Piece>,
}

/// What a refusal tells besides its number.
#[derive(Clone, Copy, Debug, PartialEq, Eq)]
pub enum Tells {
    Nothing,
    Place(usize),
    Task(TaskNo),
    Count(usize),
    Length(usize),
}

/// Document 01's number for a refusal, and what it tells.
#[derive(Clone, Copy, Debug, PartialEq, Eq)]
pub struct Refusal {
    pub number: u8,
    pub tells: Tells,
}

/// The refusal that names a place in a file.
pub fn at(number: u8, place: usize) -> Refusal {
    Refusal {
        number,
        tells: Tells::Place(place),
    }
}

/// The refusal that names a task.
pub fn of_task(number: u8, task: TaskNo) -> Refusal {
    Refusal {
        number,
        tells: Tells::Task(task),
    }
}

/// The refusal that tells how many were given.
pub fn of_count(number: u8, count: usize) -> Refusal {
    Refusal {
        number,
        tells: Tells::Count(count),
    }
}

/// The refusal that tells nothing.
pub fn bare(number: u8) -> Refusal {
    Refusal {
        number,
        tells: Tells::Nothing,
    }
}

impl Task {
    /// 1 ≤ c ≤ d ≤ p ≤ 1,000,000.
    pub fn in_range(&self) -> bool {
        1 <= self.cost
            && self.cost <= self.deadline
            && self.deadline <= self.period
            && self.period <= LONGEST_PERIOD
    }
}

impl Table {
    /// Refusals 4, 6 and 5 of a table record, in this order.
    pub fn check(&self) -> Result<(), Refusal> {
        if !(1..=MOST_CORES).contains(&self.cores) {
            return Err(of_count(4, self.cores));
        }
        if !(1..=MOST_TASKS).contains(&self.tasks.len()) {
            return Err(of_count(6, self.tasks.len()));
        }
        match self.tasks.iter().position(|t| !t.in_range()) {
            Some(first) => Err(of_task(5, TaskNo(first))),
            None => Ok(()),
        }
    }
}

impl Plan {
    /// The pieces of one task, in the plan's order.
    pub fn pieces_of(&self, task: TaskNo) -> Vec<Piece> {
        self.pieces
            .iter()
            .copied()
            .filter(|q| q.task == task)
            .collect()
    }

    /// Refusals 4, 6, 5 and 8 of a plan record, in this order.
    pub fn check(&self) -> Result<(), Refusal> {
        self.table.check()?;
        if self.has_shape() {
            Ok(())
        } else {
            Err(bare(8))
        }
    }

    /// The plan shape, for a plan over a good table.
    pub fn has_shape(&self) -> bool {
        let in_range = |q: &Piece| q.task.0 < self.table.tasks.len() && q.core.0 < self.table.cores;
        self.pieces.len() <= MOST_PIECES
            && self.pieces.iter().all(in_range)
            && self.pieces.windows(2).all(|two| two[0].task <= two[1].task)
            && (0..self.table.tasks.len()).all(|t| self.covers(TaskNo(t)))
    }

    /// One whole piece of the task's cost, or shares on rising cores that add up to it.
    fn covers(&self, task: TaskNo) -> bool {
        let cost = self.table.tasks[task.0].cost;
        let pieces = self.pieces_of(task);
        if pieces.iter().any(|q| q.kind == Kind::Whole) {
            return pieces.len() == 1 && pieces[0].cost == cost;
        }
        !pieces.is_empty()
            && pieces.windows(2).all(|two| two[0].core < two[1].core)
            && pieces.iter().all(|q| q.cost >= 1)
            && pieces.iter().map(|q| u64::from(q.cost)).sum::<u64>() == u64::from(cost)
    }
}
