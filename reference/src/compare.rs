//! One case run on the right engine and on a faulty one, with the third
//! demand checked on the faulty engine's own answers and records.

use crate::demand::{Checker, Clauses};
use crate::fault::Fault;
use crate::generate::prng::Prng;
use crate::generate::steps::Driver;
use crate::line::{start_line, start_line_with, Line};
use crate::step::{step, step_with};
use crate::table::Table;

/// What came of a case.
#[derive(Clone, Copy, Debug, Default)]
pub struct Outcome {
    /// Clauses broken after any of the steps, or at the start.
    pub broken: Clauses,
    /// Whether any answer differs from the right engine's.
    pub answers_differ: bool,
    /// Whether a box or a train's place differs from the right line's after
    /// any of the steps, or at the start.
    pub states_differ: bool,
}

/// Runs generated steps. They are chosen from the faulty line if `led_by_fault`,
/// else from the right one; both engines get the same steps.
pub fn run_case(
    table: &Table,
    fault: Fault,
    steps: usize,
    led_by_fault: bool,
    rng: &mut Prng,
) -> Outcome {
    let mut right = start_line(table);
    let mut faulty = start_line_with(table, fault);
    let mut checker = Checker::new_with(table, &faulty, fault);
    let mut outcome = Outcome { broken: checker.state_clauses(&faulty), ..Outcome::default() };
    outcome.states_differ = states_differ(&right, &faulty);
    let mut driver = Driver::new(rng);
    for _ in 0..steps {
        let led = if led_by_fault { &faulty } else { &right };
        let bytes = driver.next_step(rng, led);
        let expected = step(&mut right, bytes);
        let answer = step_with(&mut faulty, bytes, fault);
        outcome.answers_differ |= expected != answer;
        outcome.broken.join(checker.observe(bytes, answer, &faulty));
        outcome.states_differ = outcome.states_differ || states_differ(&right, &faulty);
    }
    outcome
}

/// Whether boxes or places differ: what a printout can show, and the
/// reservations.
fn states_differ(right: &Line, faulty: &Line) -> bool {
    let places = |line: &Line| -> Vec<(usize, u8)> {
        line.trains.iter().map(|t| (t.front, t.covered)).collect()
    };
    right.boxes != faulty.boxes || places(right) != places(faulty)
}
