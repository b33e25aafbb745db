//! Random table and plan files of boards that are full.

use crate::reading::read_table;
use crate::rules::{layout, Kind, Plan};

/// A small generator of random numbers.
pub struct Rng(pub u64);

impl Rng {
    /// A number from low to high, both included.
    fn within(&mut self, low: u64, high: u64) -> u64 {
        self.0 = self.0.wrapping_add(0x9e37_79b9_7f4a_7c15);
        let mut z = self.0;
        z = (z ^ (z >> 30)).wrapping_mul(0xbf58_476d_1ce4_e5b9);
        z = (z ^ (z >> 27)).wrapping_mul(0x94d0_49bb_1331_11eb);
        low + (z ^ (z >> 31)) % (high - low + 1)
    }
}

/// A table file of so many tasks, with a load in percent of its cores.
fn table_file(rng: &mut Rng, cores: u64, tasks: u64, load: u64) -> Vec<u8> {
    let weights: Vec<u64> = (0..tasks).map(|_| rng.within(20, 100)).collect();
    let total: u64 = weights.iter().sum();
    let mut file = vec![1, 0, 1, cores as u8];
    for weight in weights {
        let period = rng.within(20, 2_000);
        let cost = (period * cores * load * weight / (total * 100)).clamp(1, period);
        file.extend([2, 0, 12]);
        for value in [cost, period, period] {
            file.extend((value as u32).to_be_bytes());
        }
    }
    file
}

/// A table file and its plan, at the highest load that is tried and placed, if one is.
pub fn full_board(rng: &mut Rng, cores: u64, tasks: u64) -> (Vec<u8>, Vec<u8>) {
    for load in (30..=100).rev() {
        let file = table_file(rng, cores, tasks, load);
        if let Ok(plan) = read_table(&file).and_then(layout) {
            let pieces = piece_fields(&plan);
            return (file.clone(), [file, pieces].concat());
        }
    }
    panic!("no board of {cores} cores and {tasks} tasks was placed");
}

/// The fields of a plan's pieces.
fn piece_fields(plan: &Plan) -> Vec<u8> {
    let mut bytes = Vec::new();
    for piece in plan.pieces() {
        let kind = u8::from(piece.kind == Kind::Share);
        bytes.extend([3, 0, 7, piece.task.0, piece.core.0, kind]);
        bytes.extend(piece.cost.to_be_bytes());
    }
    bytes
}

/// How many pieces of a plan file are shares.
pub fn shares(plan: &[u8], tasks: u64) -> usize {
    plan[4 + 15 * tasks as usize..]
        .chunks(10)
        .filter(|field| field[5] == 1)
        .count()
}
