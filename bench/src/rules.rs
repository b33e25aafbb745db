//! Document 01's records, bounds and layout with fixed arrays, nothing allocated and everything lent.

pub const CORES: usize = 16;
pub const TASKS: usize = 64;
pub const PIECES: usize = 128;

#[derive(Clone, Copy, PartialEq, Eq)]
pub struct TaskNo(pub u8);

#[derive(Clone, Copy, PartialEq, Eq, PartialOrd)]
pub struct CoreNo(pub u8);

#[derive(Clone, Copy)]
pub struct Task {
    pub cost: u32,
    pub deadline: u32,
    pub period: u32,
}

#[derive(Clone, Copy, PartialEq, Eq)]
pub enum Kind {
    Whole,
    Share,
}

#[derive(Clone, Copy)]
pub struct Piece {
    pub task: TaskNo,
    pub core: CoreNo,
    pub kind: Kind,
    pub cost: u32,
}

pub struct Table {
    pub cores: usize,
    pub count: usize,
    pub tasks: [Task; TASKS],
}

pub struct Plan {
    pub table: Table,
    pub count: usize,
    pub pieces: [Piece; PIECES],
}

/// A refusal's number and the value that it tells, 0 if none; the checksums tell neither.
#[derive(Clone, Copy)]
#[allow(dead_code)]
pub struct Refusal {
    pub number: u8,
    pub told: usize,
}

/// A refusal that tells a value.
pub fn refused<T>(number: u8, told: usize) -> Result<T, Refusal> {
    Err(Refusal { number, told })
}

pub const NO_TASK: Task = Task {
    cost: 0,
    deadline: 0,
    period: 0,
};
pub const NO_PIECE: Piece = Piece {
    task: TaskNo(0),
    core: CoreNo(0),
    kind: Kind::Whole,
    cost: 0,
};

impl Task {
    /// 1 ≤ c ≤ d ≤ p ≤ 1,000,000.
    pub fn in_range(&self) -> bool {
        1 <= self.cost
            && self.cost <= self.deadline
            && self.deadline <= self.period
            && self.period <= 1_000_000
    }
}

impl Table {
    /// The tasks up to their count.
    pub fn tasks(&self) -> &[Task] {
        &self.tasks[..self.count]
    }

    /// Refusals 4, 6 and 5.
    pub fn check(&self) -> Result<(), Refusal> {
        if self.cores < 1 || self.cores > CORES {
            return refused(4, self.cores);
        }
        if self.count < 1 || self.count > TASKS {
            return refused(6, self.count);
        }
        match self.tasks().iter().position(|task| !task.in_range()) {
            Some(first) => refused(5, first),
            None => Ok(()),
        }
    }
}

impl Plan {
    /// The pieces up to their count.
    pub fn pieces(&self) -> &[Piece] {
        &self.pieces[..self.count]
    }

    /// The period of a piece's task.
    pub fn period(&self, piece: &Piece) -> u32 {
        self.table.tasks[usize::from(piece.task.0)].period
    }

    /// The deadline of a piece's task.
    pub fn deadline(&self, piece: &Piece) -> u32 {
        self.table.tasks[usize::from(piece.task.0)].deadline
    }

    /// Refusals 4, 6, 5 and 8; otherwise the place of each task's first piece.
    pub fn check(&self) -> Result<[u8; TASKS], Refusal> {
        self.table.check()?;
        if self.count > PIECES {
            return refused(8, 0);
        }
        let pieces = self.pieces();
        let mut firsts = [0; TASKS];
        let mut at = 0;
        for (number, task) in self.table.tasks().iter().enumerate() {
            firsts[number] = at as u8;
            let end = self.end_of(at, TaskNo(number as u8), task.cost);
            if end == at {
                return refused(8, 0);
            }
            at = end;
        }
        if at == pieces.len() {
            Ok(firsts)
        } else {
            refused(8, 0)
        }
    }

    /// The end of a task's good pieces that begin at a place; that place if they are not good.
    fn end_of(&self, begin: usize, task: TaskNo, cost: u32) -> usize {
        let pieces = self.pieces();
        let cores = self.table.cores;
        let mut end = begin;
        let mut sum: u64 = 0;
        while end < pieces.len() && pieces[end].task == task {
            let piece = &pieces[end];
            let whole = piece.kind == Kind::Whole;
            if usize::from(piece.core.0) >= cores
                || piece.cost == 0
                || (whole && (end > begin || piece.cost != cost))
                || (end > begin && pieces[end - 1].kind == Kind::Whole)
                || (end > begin && pieces[end - 1].core >= piece.core)
            {
                return begin;
            }
            sum += u64::from(piece.cost);
            end += 1;
        }
        if sum == u64::from(cost) {
            end
        } else {
            begin
        }
    }

    /// Whether a ranks above b where both stand on one core.
    pub fn above(&self, a: &Piece, b: &Piece) -> bool {
        match (a.kind, b.kind) {
            (Kind::Share, Kind::Whole) => true,
            (Kind::Whole, Kind::Share) => false,
            (Kind::Share, Kind::Share) => a.task.0 > b.task.0,
            (Kind::Whole, Kind::Whole) => {
                (self.deadline(a), a.task.0) < (self.deadline(b), b.task.0)
            }
        }
    }

    /// The deadline of a piece less the costs of its task's earlier pieces.
    fn local_deadline(&self, index: usize) -> u32 {
        let piece = &self.pieces[index];
        let mut deadline = self.deadline(piece);
        for earlier in self.pieces[..index].iter().rev() {
            if earlier.task != piece.task {
                break;
            }
            deadline -= earlier.cost;
        }
        deadline
    }

    /// A piece's cost and the interference from above in a length.
    fn bound(&self, index: usize, length: u32) -> u32 {
        let piece = &self.pieces[index];
        let mut bound = piece.cost;
        for other in self.pieces() {
            if other.core == piece.core && self.above(other, piece) {
                bound += interference(other.cost, self.period(other), length);
            }
        }
        bound
    }

    /// Whether every whole piece on a core keeps its bound within its deadline.
    fn wholes_hold(&self, core: CoreNo) -> bool {
        for (index, piece) in self.pieces().iter().enumerate() {
            if piece.core == core && piece.kind == Kind::Whole {
                let deadline = self.deadline(piece);
                if self.bound(index, deadline) > deadline {
                    return false;
                }
            }
        }
        true
    }

    /// The largest share of a task with this period that every piece on a core can bear.
    fn limit(&self, core: CoreNo, period: u32) -> u32 {
        let mut limit = u32::MAX;
        for (index, piece) in self.pieces().iter().enumerate() {
            if piece.core == core {
                let deadline = self.local_deadline(index);
                let margin = deadline - self.bound(index, deadline);
                limit = limit.min(margin / deadline.div_ceil(period));
                if limit == 0 {
                    break;
                }
            }
        }
        limit
    }

    /// Adds a piece at the end.
    fn push(&mut self, task: TaskNo, core: CoreNo, kind: Kind, cost: u32) {
        self.pieces[self.count] = Piece {
            task,
            core,
            kind,
            cost,
        };
        self.count += 1;
    }

    /// Puts a task whole on the lowest open core that takes it.
    fn place_whole(&mut self, task: TaskNo, open: &[bool; CORES]) -> bool {
        let cost = self.table.tasks[usize::from(task.0)].cost;
        for core in 0..self.table.cores {
            if open[core] {
                let core = CoreNo(core as u8);
                self.push(task, core, Kind::Whole, cost);
                if self.wholes_hold(core) {
                    return true;
                }
                self.count -= 1;
            }
        }
        false
    }

    /// Shares a task over the open cores.
    fn place_shared(&mut self, task: TaskNo, open: &mut [bool; CORES]) -> bool {
        let Task { cost, period, .. } = self.table.tasks[usize::from(task.0)];
        let mut need = cost;
        for core in 0..self.table.cores {
            if !open[core] {
                continue;
            }
            let limit = self.limit(CoreNo(core as u8), period);
            if limit == 0 {
                continue;
            }
            open[core] = limit > need;
            let share = limit.min(need);
            self.push(task, CoreNo(core as u8), Kind::Share, share);
            need -= share;
            if need == 0 {
                return true;
            }
        }
        false
    }
}

/// The most that a piece of cost e and period p can run in a length; every number is at most 1,000,000.
fn interference(e: u32, p: u32, length: u32) -> u32 {
    let full = length / p;
    if length >= full * p + e {
        (full + 1) * e
    } else {
        length - full * (p - e)
    }
}

/// The plan of a table, or refusal 4, 6, 5 or 7.
pub fn layout(table: Table) -> Result<Plan, Refusal> {
    table.check()?;
    let mut plan = Plan {
        table,
        count: 0,
        pieces: [NO_PIECE; PIECES],
    };
    let mut open = [true; CORES];
    for number in 0..plan.table.count {
        let task = TaskNo(number as u8);
        if !plan.place_whole(task, &open) && !plan.place_shared(task, &mut open) {
            return refused(7, number);
        }
    }
    for piece in &mut plan.pieces[plan.count..] {
        *piece = NO_PIECE;
    }
    Ok(plan)
}
