//! Tables with steps, as the comparisons of other programs from outside
//! have them.

use super::prng::Prng;
use super::steps::{drive, step_bytes};
use super::tables::{accepted_table, largest_table};
use crate::line::start_line;
use crate::table::Table;

/// An accepted table, every tenth of the largest, with a list of up to
/// 20,000 steps, most of them short, some with a last step cut short.
pub fn table_with_steps(rng: &mut Prng, case: u64) -> (Table, Vec<u8>) {
    let table = match case % 10 {
        9 => largest_table(rng),
        _ => accepted_table(rng),
    };
    let count = match case % 100 {
        0..=29 => rng.below(6),
        99 => rng.between(2_000, 20_000),
        _ => rng.between(6, 600),
    };
    let mut steps = driven(rng, &table, count);
    steps.truncate(steps.len().saturating_sub(rng.pick(&[0, 0, 1, 2])));
    (table, steps)
}

/// The bytes of so many steps from the start of a table's line.
pub fn driven(rng: &mut Prng, table: &Table, count: usize) -> Vec<u8> {
    step_bytes(&drive(rng, &mut start_line(table), count))
}
