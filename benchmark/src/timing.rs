//! Times of all operations of all engines on one case. They are taken in turn within a round, so that a slow moment of the
//! machine strikes all of them.

use crate::cases::{Case, List, LISTS, STEPS};
use crate::engines::{Engine, CHECKED, ENGINES, OPERATIONS, READING, RUN, WRITING};
use std::hint::black_box;
use std::time::Instant;

pub const ROUNDS: usize = 8 * LISTS;
/// Calls in a round, for each operation.
const CALLS: [usize; 4] = [100, 100, 1, 1];
/// Steps of the front part of a list that is taken by checked calls.
const FEW: usize = 300;

/// Nanoseconds a call, or a step of a call: in the quickest round, and in the median one.
#[derive(Clone, Copy)]
pub struct Times {
    pub least: f64,
    pub median: f64,
}

/// Times of the operations, for each of the engines, after all of them gave what they must. A library of an older commit may
/// lack kinds of steps, and answer them otherwise: then it has no times of steps, which are not numbers.
pub fn measure(case: &Case) -> Vec<[Times; 4]> {
    let mut rounds = vec![[const { Vec::new() }; 4]; ENGINES.len()];
    let mut buffer = vec![0; STEPS.max(case.file.len())];
    let agrees = |engine: &Engine| case.lists.iter().all(|list| agrees(engine, &case.file, list));
    let agree: Vec<bool> = ENGINES.iter().map(agrees).collect();
    for (engine, agrees) in ENGINES.iter().zip(&agree) {
        assert!(*agrees || engine.name == "old", "{} gives the codes of the steps", engine.name);
    }
    for round in 0..ROUNDS {
        let list = &case.lists[round % LISTS];
        for operation in 0..OPERATIONS.len() {
            for turn in 0..ENGINES.len() {
                let engine = (round + turn) % ENGINES.len();
                let time = one_round(&ENGINES[engine], operation, &case.file, &list.steps, &mut buffer);
                rounds[engine][operation].push(time);
            }
        }
    }
    let mut all: Vec<[Times; 4]> = rounds.into_iter().map(|operations| operations.map(times)).collect();
    for (times, _) in all.iter_mut().zip(agree).filter(|(_, agrees)| !agrees) {
        [times[RUN], times[CHECKED]] = [Times { least: f64::NAN, median: f64::NAN }; 2];
    }
    all
}

/// Nanoseconds a call or a step in one round.
fn one_round(engine: &Engine, operation: usize, file: &[u8], steps: &[u8], buffer: &mut [u8]) -> f64 {
    let steps = if operation == CHECKED { &steps[..3 * FEW] } else { steps };
    let start = Instant::now();
    for _ in 0..CALLS[operation] {
        black_box(engine.calls[operation](black_box(file), black_box(steps), black_box(buffer)));
    }
    let time = start.elapsed().as_nanos() as f64 / CALLS[operation] as f64;
    match operation {
        RUN | CHECKED => time / (steps.len() / 3) as f64,
        _ => time,
    }
}

fn times(mut rounds: Vec<f64>) -> Times {
    rounds.sort_by(f64::total_cmp);
    Times { least: rounds[0], median: rounds[rounds.len() / 2] }
}

/// The engine reads the file and writes it back; whether it gives the steps the codes that they must have.
fn agrees(engine: &Engine, file: &[u8], List { steps, codes }: &List) -> bool {
    let name = engine.name;
    let mut written = vec![0; file.len()];
    assert_eq!(engine.calls[READING](file, &[], &mut []), 0, "{name} reads the file");
    assert_eq!(engine.calls[WRITING](file, &[], &mut written), 0);
    assert_eq!(written, file, "{name} writes it back");
    [(RUN, STEPS), (CHECKED, FEW)].into_iter().all(|(operation, count)| {
        let mut answers = vec![99; count];
        assert_eq!(engine.calls[operation](file, &steps[..3 * count], &mut answers), 0);
        answers == codes[..count]
    })
}
