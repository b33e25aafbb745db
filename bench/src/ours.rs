//! Our functions, from the static library of the crate bench_ours.

extern "C" {
    fn bench_ours_plan(table: *const u8, length: usize) -> u64;
    fn bench_ours_ticks(plan: *const u8, length: usize, count: u32) -> u64;
}

/// Reads and plans a table file; the checksum of its plan.
pub fn plan(table: &[u8]) -> u64 {
    unsafe { bench_ours_plan(table.as_ptr(), table.len()) }
}

/// Reads a plan file and makes ticks; the checksum of the answers.
pub fn ticks(plan: &[u8], count: u32) -> u64 {
    unsafe { bench_ours_ticks(plan.as_ptr(), plan.len(), count) }
}
