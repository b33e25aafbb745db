//! The layout of a table: whole where it fits, else shared over the open cores.

use crate::bound::{bound, local_deadline, margin};
use crate::records::{of_task, CoreNo, Kind, Piece, Plan, Refusal, Table, Task, TaskNo};

/// The plan of a table, or the task that found no place.
pub fn layout(table: &Table) -> Result<Plan, Refusal> {
    table.check()?;
    let mut layout = Layout {
        tasks: &table.tasks,
        open: vec![true; table.cores],
        pieces: Vec::new(),
    };
    for number in 0..table.tasks.len() {
        let task = TaskNo(number);
        if !layout.place_whole(task) && !layout.place_shared(task) {
            return Err(of_task(7, task));
        }
    }
    Ok(Plan {
        table: table.clone(),
        pieces: layout.pieces,
    })
}

/// How much a new task of period p may take from a piece with this margin and local deadline.
pub fn room(margin: i64, deadline: i64, p: i64) -> i64 {
    margin.div_euclid((deadline + p - 1) / p)
}

/// What is placed so far.
struct Layout<'a> {
    tasks: &'a [Task],
    open: Vec<bool>,
    pieces: Vec<Piece>,
}

impl Layout<'_> {
    /// The open cores in rising order.
    fn open_cores(&self) -> Vec<CoreNo> {
        (0..self.open.len())
            .filter(|&k| self.open[k])
            .map(CoreNo)
            .collect()
    }

    /// Puts the task whole on the lowest open core that takes it.
    fn place_whole(&mut self, task: TaskNo) -> bool {
        let cost = self.tasks[task.0].cost;
        for core in self.open_cores() {
            self.pieces.push(Piece {
                task,
                core,
                kind: Kind::Whole,
                cost,
            });
            if self.wholes_hold(core) {
                return true;
            }
            self.pieces.pop();
        }
        false
    }

    /// Whether each whole piece on the core has a bound within its deadline.
    fn wholes_hold(&self, core: CoreNo) -> bool {
        (0..self.pieces.len()).all(|i| {
            let piece = &self.pieces[i];
            piece.core != core
                || piece.kind == Kind::Share
                || bound(self.tasks, &self.pieces, i)
                    <= i64::from(self.tasks[piece.task.0].deadline)
        })
    }

    /// Shares the task over the open cores until its need is covered.
    fn place_shared(&mut self, task: TaskNo) -> bool {
        let mut need = i64::from(self.tasks[task.0].cost);
        for core in self.open_cores() {
            let limit = self.limit(core, task);
            if limit == 0 {
                continue;
            }
            let cost = limit.min(need) as u32;
            if limit <= need {
                self.open[core.0] = false;
            }
            self.pieces.push(Piece {
                task,
                core,
                kind: Kind::Share,
                cost,
            });
            need -= i64::from(cost);
            if need == 0 {
                return true;
            }
        }
        false
    }

    /// The largest share of the new task that every piece on the core can bear.
    fn limit(&self, core: CoreNo, task: TaskNo) -> i64 {
        let p = i64::from(self.tasks[task.0].period);
        (0..self.pieces.len())
            .filter(|&i| self.pieces[i].core == core)
            .map(|i| {
                let deadline = local_deadline(self.tasks, &self.pieces, i);
                room(margin(self.tasks, &self.pieces, i), deadline, p)
            })
            .min()
            .expect("an empty core takes every task whole")
    }
}
