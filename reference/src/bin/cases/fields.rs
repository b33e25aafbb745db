//! Files as rows of fields, good or not, and the ways to damage them.

use crate::rng::Rng;
use reference::records::{Kind, Piece, Table};

/// One field as it will stand in the file.
#[derive(Clone)]
pub struct Field {
    pub tag: u8,
    pub length: u16,
    pub body: Vec<u8>,
}

/// A field whose length is right for its body.
pub fn field(tag: u8, body: &[u8]) -> Field {
    Field {
        tag,
        length: body.len() as u16,
        body: body.to_vec(),
    }
}

/// The field of a core count.
pub fn cores_field(cores: u8) -> Field {
    field(1, &[cores])
}

/// The field of a task's three numbers.
pub fn task_field(numbers: [u32; 3]) -> Field {
    field(2, &numbers.map(u32::to_be_bytes).concat())
}

/// The field of a piece.
pub fn piece_field(task: u8, core: u8, kind: u8, cost: u32) -> Field {
    let mut body = vec![task, core, kind];
    body.extend(cost.to_be_bytes());
    field(3, &body)
}

/// The fields of a table, the count left out in some cases.
pub fn table_fields(rng: &mut Rng, table: &Table) -> Vec<Field> {
    let mut fields = Vec::new();
    if table.cores != 8 || rng.one_in(2) {
        fields.push(cores_field(table.cores as u8));
    }
    for task in &table.tasks {
        fields.push(task_field([task.cost, task.deadline, task.period]));
    }
    fields
}

/// The fields of some pieces.
pub fn piece_fields(pieces: &[Piece]) -> Vec<Field> {
    let one = |q: &Piece| {
        let kind = u8::from(q.kind == Kind::Share);
        piece_field(q.task.0 as u8, q.core.0 as u8, kind, q.cost)
    };
    pieces.iter().map(one).collect()
}

/// The bytes of a row of fields.
pub fn bytes(fields: &[Field]) -> Vec<u8> {
    let mut file = Vec::new();
    for field in fields {
        file.push(field.tag);
        file.extend(field.length.to_be_bytes());
        file.extend(&field.body);
    }
    file
}

/// A field of any of the known kinds, or of none.
fn stray(rng: &mut Rng) -> Field {
    match rng.index(5) {
        0 => cores_field(rng.within(0, 20) as u8),
        1 => task_field([1, 2, 3].map(|most| rng.within(0, 3) * most)),
        2 => piece_field(rng.within(0, 5) as u8, rng.within(0, 3) as u8, 0, 1),
        _ => field(rng.pick(&[0, 4, 5, 6, 0x21, 255]), &[1]),
    }
}

/// Damages one field, or the row of them.
fn damage_field(rng: &mut Rng, fields: &mut Vec<Field>) {
    let i = rng.index(fields.len());
    match rng.index(8) {
        0 => fields[i].tag = rng.pick(&[0, 1, 2, 3, 4, 5, 6, 7, 0x82, 255]),
        1 => fields[i].length = rng.pick(&[0, 1, 6, 7, 8, 11, 12, 13, 256 + 12, 0x0c00, 0xffff]),
        2 => fields[i].length ^= 1 << rng.index(16),
        3 => {
            fields.remove(i);
        }
        4 => fields.insert(i, fields[i].clone()),
        5 => {
            let j = rng.index(fields.len());
            fields.swap(i, j);
        }
        6 => fields.insert(i, stray(rng)),
        _ => {
            let at = rng.index(fields[i].body.len().max(1));
            if let Some(byte) = fields[i].body.get_mut(at) {
                *byte = rng.byte();
            }
        }
    }
}

/// Damages the bytes of a file.
fn damage_bytes(rng: &mut Rng, file: &mut Vec<u8>) {
    match rng.index(6) {
        0 | 1 => file.truncate(rng.index(file.len() + 1)),
        2 => {
            let at = rng.index(file.len());
            file[at] ^= 1 << rng.index(8);
        }
        3 => {
            for _ in 0..rng.within(1, 2) {
                file.push(rng.byte());
            }
        }
        4 => {
            file.remove(rng.index(file.len()));
        }
        _ => file.insert(rng.index(file.len() + 1), rng.byte()),
    }
}

/// A file with one or two faults.
pub fn damaged(rng: &mut Rng, mut fields: Vec<Field>) -> Vec<u8> {
    if rng.one_in(2) {
        damage_field(rng, &mut fields);
        if rng.one_in(4) && !fields.is_empty() {
            damage_field(rng, &mut fields);
        }
        return bytes(&fields);
    }
    let mut file = bytes(&fields);
    damage_bytes(rng, &mut file);
    file
}

/// A few random bytes, often with a good field before them.
pub fn noise(rng: &mut Rng) -> Vec<u8> {
    let mut file = Vec::new();
    if rng.one_in(2) {
        file = bytes(&[cores_field(2), task_field([1, 5, 5])]);
    }
    for _ in 0..rng.within(0, 20) {
        file.push(rng.pick(&[0, 0, 1, 2, 3, 7, 12, 255]));
    }
    file
}
