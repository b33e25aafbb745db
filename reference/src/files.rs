//! Table and plan files: reading, writing, and which table is in force.

use crate::records::{
    at, bare, CoreNo, Kind, Piece, Plan, Refusal, Table, Task, TaskNo, Tells, MOST_CORES,
    MOST_TASKS,
};

const CORES: u8 = 1;
const TASK: u8 = 2;
const PIECE: u8 = 3;

/// How many cores a file is for that leaves its core count out.
#[derive(Clone, Copy, PartialEq, Eq)]
pub enum Absent {
    Four,
    Eight,
}

impl Absent {
    /// The count.
    pub fn cores(self) -> usize {
        match self {
            Absent::Four => 4,
            Absent::Eight => 8,
        }
    }
}

/// Which of the two kinds of file is read.
#[derive(Clone, Copy, PartialEq, Eq)]
enum Form {
    Table,
    Plan,
}

/// A piece as a file has it, before its shape is judged.
struct RawPiece {
    task: u8,
    core: u8,
    kind: u8,
    cost: u32,
}

/// What the fields of a good file say.
struct Fields {
    cores: usize,
    tasks: Vec<Task>,
    pieces: Vec<RawPiece>,
    tasks_begin: usize,
    tasks_end: usize,
}

/// A table file's table, or its refusal.
pub fn read_table(file: &[u8], absent: Absent) -> Result<Table, Refusal> {
    let fields = read_fields(file, Form::Table, absent)?;
    Ok(Table {
        cores: fields.cores,
        tasks: fields.tasks,
    })
}

/// A plan file's plan, or its refusal.
pub fn read_plan(file: &[u8], absent: Absent) -> Result<Plan, Refusal> {
    let fields = read_fields(file, Form::Plan, absent)?;
    let pieces: Option<Vec<Piece>> = fields.pieces.iter().map(known_kind).collect();
    let table = Table {
        cores: fields.cores,
        tasks: fields.tasks,
    };
    let plan = Plan {
        table,
        pieces: pieces.ok_or(bare(8))?,
    };
    plan.check()?;
    Ok(plan)
}

/// The piece, if its kind byte is 0 or 1.
fn known_kind(raw: &RawPiece) -> Option<Piece> {
    let kind = match raw.kind {
        0 => Kind::Whole,
        1 => Kind::Share,
        _ => return None,
    };
    let (task, core) = (TaskNo(raw.task.into()), CoreNo(raw.core.into()));
    Some(Piece {
        task,
        core,
        kind,
        cost: raw.cost,
    })
}

/// Four bytes, high byte first.
fn number(body: &[u8], from: usize) -> u32 {
    u32::from_be_bytes([body[from], body[from + 1], body[from + 2], body[from + 3]])
}

/// The length of a known tag's body.
fn body_length(tag: u8) -> usize {
    match tag {
        CORES => 1,
        TASK => 12,
        _ => 7,
    }
}

/// All fields to the end of the file; the first bad one decides, then a missing task.
fn read_fields(file: &[u8], form: Form, absent: Absent) -> Result<Fields, Refusal> {
    let mut fields = Fields {
        cores: absent.cores(),
        tasks: Vec::new(),
        pieces: Vec::new(),
        tasks_begin: 0,
        tasks_end: 0,
    };
    let mut place = 0;
    while place < file.len() {
        place = read_field(file, place, form, &mut fields)?;
    }
    if fields.tasks.is_empty() {
        return Err(at(6, fields.tasks_end));
    }
    Ok(fields)
}

/// Reads the field at a place and answers with the place of the next.
fn read_field(
    file: &[u8],
    place: usize,
    form: Form,
    fields: &mut Fields,
) -> Result<usize, Refusal> {
    let rest = &file[place..];
    if rest.len() < 3 {
        return Err(at(1, place));
    }
    let tag = rest[0];
    let in_order = match tag {
        CORES => place == 0,
        TASK => fields.pieces.is_empty(),
        PIECE => form == Form::Plan,
        _ => false,
    };
    if !in_order {
        return Err(at(2, place));
    }
    if tag == TASK && fields.tasks.len() == MOST_TASKS {
        return Err(at(6, place));
    }
    let length = usize::from(rest[1]) * 256 + usize::from(rest[2]);
    if length != body_length(tag) {
        return Err(at(3, place));
    }
    if rest.len() < 3 + length {
        return Err(at(1, place));
    }
    let body = &rest[3..3 + length];
    let next = place + 3 + length;
    match tag {
        CORES => {
            fields.cores = usize::from(body[0]);
            if !(1..=MOST_CORES).contains(&fields.cores) {
                return Err(at(4, place));
            }
            (fields.tasks_begin, fields.tasks_end) = (next, next);
        }
        TASK => {
            let (cost, deadline) = (number(body, 0), number(body, 4));
            let task = Task {
                cost,
                deadline,
                period: number(body, 8),
            };
            if !task.in_range() {
                return Err(at(5, place));
            }
            fields.tasks.push(task);
            fields.tasks_end = next;
        }
        _ => {
            let cost = number(body, 3);
            fields.pieces.push(RawPiece {
                task: body[0],
                core: body[1],
                kind: body[2],
                cost,
            });
        }
    }
    Ok(next)
}

/// The bytes of a table file.
fn table_bytes(table: &Table) -> Vec<u8> {
    let mut bytes = vec![CORES, 0, 1, table.cores as u8];
    for task in &table.tasks {
        bytes.extend([TASK, 0, 12]);
        for value in [task.cost, task.deadline, task.period] {
            bytes.extend(value.to_be_bytes());
        }
    }
    bytes
}

/// The bytes of a plan file.
pub fn plan_bytes(plan: &Plan) -> Vec<u8> {
    let mut bytes = table_bytes(&plan.table);
    for piece in &plan.pieces {
        let kind = if piece.kind == Kind::Share { 1 } else { 0 };
        bytes.extend([PIECE, 0, 7, piece.task.0 as u8, piece.core.0 as u8, kind]);
        bytes.extend(piece.cost.to_be_bytes());
    }
    bytes
}

/// Puts a file at the start of a lent buffer and answers with its length.
fn lend(bytes: &[u8], buffer: &mut [u8]) -> Result<usize, Refusal> {
    if buffer.len() < bytes.len() {
        return Err(Refusal {
            number: 13,
            tells: Tells::Length(bytes.len()),
        });
    }
    buffer[..bytes.len()].copy_from_slice(bytes);
    Ok(bytes.len())
}

/// Writes a table file into a lent buffer.
pub fn write_table(table: &Table, buffer: &mut [u8]) -> Result<usize, Refusal> {
    table.check()?;
    lend(&table_bytes(table), buffer)
}

/// Writes a plan file into a lent buffer.
pub fn write_plan(plan: &Plan, buffer: &mut [u8]) -> Result<usize, Refusal> {
    plan.check()?;
    lend(&plan_bytes(plan), buffer)
}

/// Which of the two lent tables is in force.
#[derive(Clone, Copy, Debug, PartialEq, Eq)]
pub enum InForce {
    Own,
    Shipped,
}

/// The slice in force, or the refusal of the shipped one where both are bad.
pub fn which_in_force(own: &[u8], shipped: &[u8], absent: Absent) -> Result<InForce, Refusal> {
    if read_table(own, absent).is_ok() {
        return Ok(InForce::Own);
    }
    read_table(shipped, absent).map(|_| InForce::Shipped)
}

/// The core count of the slice in force, or the refusal of the shipped one where both are bad.
pub fn cores_in_force(own: &[u8], shipped: &[u8], absent: Absent) -> Result<usize, Refusal> {
    let table = read_table(own, absent).or_else(|_| read_table(shipped, absent))?;
    Ok(table.cores)
}

/// The task fields of the slice in force; empty where both are bad.
pub fn in_force<'a>(own: &'a [u8], shipped: &'a [u8], absent: Absent) -> &'a [u8] {
    for file in [own, shipped] {
        if let Ok(fields) = read_fields(file, Form::Table, absent) {
            return &file[fields.tasks_begin..fields.tasks_end];
        }
    }
    &[]
}
