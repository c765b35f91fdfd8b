//! Runs every fault over generated cases and counts where the third demand
//! is broken and where answers differ from the right engine.
//! Arguments: seed, number of cases per fault, steps per case.

use reference::argument::argument;
use reference::compare::run_case;
use reference::demand::{Clauses, CLAUSES};
use reference::fault::{Fault, FAULTS};
use reference::generate::damage::{damaged_file, DAMAGES};
use reference::generate::listing::damaged_listing;
use reference::generate::made_up::{changes, AIMS};
use reference::generate::prng::Prng;
use reference::generate::steps::drive;
use reference::generate::tables::{accepted_table, walk};
use reference::line::start_line;
use reference::line_check::record_fault_with;
use reference::record::Record;
use reference::table::Table;
use reference::table_read::{read_table, read_table_with};
use reference::table_write::{file_bytes, write_table_with};

/// Counts per clause, as text.
#[derive(Default)]
struct ClauseCounts([u64; CLAUSES.len()]);

impl ClauseCounts {
    fn add(&mut self, broken: Clauses) {
        for (count, clause) in self.0.iter_mut().zip(CLAUSES) {
            *count += u64::from(broken.has(clause));
        }
    }

    fn text(&self) -> String {
        let named: Vec<String> = CLAUSES
            .iter()
            .zip(self.0)
            .filter(|(_, count)| *count > 0)
            .map(|(clause, count)| format!("{clause:?} {count}"))
            .collect();
        match named.is_empty() {
            true => "-".into(),
            false => named.join(", "),
        }
    }
}

fn main() {
    let (seed, cases, steps) = (argument(1, 1), argument(2, 300), argument(3, 600) as usize);
    println!("seed {seed}: {cases} cases of {steps} steps per fault; half are led by the faulty line");
    println!("demand 3: cases that break it; answers: cases with an answer that differs; state: cases");
    println!("where boxes or places differ after some step; none: cases with none of these and no clause broken;");
    println!("the clauses Answered23, RepeatRefused, RepeatChangesBox and CoversAgainstWay are none of demand 3, but");
    println!("stand beside it");
    println!(
        "{:24} {:>5} {:>8} {:>7} {:>5} {:>4}  clauses broken, with cases",
        "step fault", "cases", "demand 3", "answers", "state", "none"
    );
    for &fault in [Fault::None].iter().chain(FAULTS).filter(|f| f.in_steps() || f.in_demand()) {
        step_fault(fault, seed, cases, steps);
    }
    println!();
    println!("wrongly accepted files are run on with the right steps, routes drawn anew, but for those with a route on");
    println!("a segment that is not there");
    println!(
        "{:27} {:>5} {:>6} {:>8} {:>8}  clauses broken, with files",
        "reader fault", "files", "differ", "accepted", "demand 3"
    );
    for &fault in [Fault::None].iter().chain(FAULTS).filter(|f| f.in_reader() || **f == Fault::None) {
        reader_fault(fault, seed, cases, steps);
    }
    println!();
    println!("{:27} {:>6} {:>6}", "writer fault", "tables", "differ");
    for &fault in [Fault::None].iter().chain(FAULTS).filter(|f| f.in_writer() || **f == Fault::None) {
        writer_fault(fault, seed, cases);
    }
    println!();
    println!("made-up records, each with one clause of 27 broken or none, after the steps of a list");
    println!("{:27} {:>7} {:>6}", "record fault", "records", "differ");
    for &fault in [Fault::None].iter().chain(FAULTS).filter(|f| f.in_record() || **f == Fault::None) {
        record_fault(fault, seed, cases, steps);
    }
}

fn step_fault(fault: Fault, seed: u64, cases: u64, steps: usize) {
    let (mut demand, mut answers, mut state, mut none) = (0, 0, 0, 0);
    let mut clauses = ClauseCounts::default();
    for case in 0..cases {
        let mut rng = Prng::for_case(seed, case);
        let table = accepted_table(&mut rng);
        let outcome = run_case(&table, fault, steps, case % 2 == 1, &mut rng);
        demand += u64::from(outcome.broken.breaks_demand());
        answers += u64::from(outcome.answers_differ);
        state += u64::from(outcome.states_differ);
        let told = !outcome.broken.is_empty() || outcome.answers_differ || outcome.states_differ;
        none += u64::from(!told);
        clauses.add(outcome.broken);
    }
    let name = format!("{fault:?}");
    println!("{name:24} {cases:5} {demand:8} {answers:7} {state:5} {none:4}  {}", clauses.text());
}

fn reader_fault(fault: Fault, seed: u64, cases: u64, steps: usize) {
    let (mut files, mut differ, mut accepted, mut demand) = (0, 0, 0, 0);
    let mut clauses = ClauseCounts::default();
    for case in 0..cases {
        let mut rng = Prng::for_case(seed, case);
        let table = accepted_table(&mut rng);
        let mut all = vec![file_bytes(&table)];
        all.extend((0..2 * DAMAGES).map(|i| damaged_file(&mut rng, &table, i % DAMAGES)));
        let mut listing_rng = Prng::for_case(seed + 1, case);
        all.extend((0..10).map(|_| file_bytes(&damaged_listing(&mut listing_rng, &table))));
        for file in all {
            files += 1;
            let (right, faulty) = (read_table(&file), read_table_with(&file, fault));
            differ += u64::from(right.as_ref().err() != faulty.as_ref().err());
            if let (Err(_), Ok(mut wrong)) = (right, faulty) {
                accepted += 1;
                let missing = |&segment: &u8| wrong.segment(segment).is_none();
                if wrong.trains.iter().any(|t| t.route.iter().any(missing)) {
                    continue;
                }
                draw_routes(&mut rng, &mut wrong, fault);
                let outcome = run_case(&wrong, Fault::None, steps, false, &mut rng);
                demand += u64::from(outcome.broken.breaks_demand());
                clauses.add(outcome.broken);
            }
        }
    }
    let name = format!("{fault:?}");
    println!("{name:27} {files:5} {differ:6} {accepted:8} {demand:8}  {}", clauses.text());
}

/// Accepted tables: where the faulty writer writes something else.
fn writer_fault(fault: Fault, seed: u64, cases: u64) {
    let differs = |case: &u64| {
        let table = accepted_table(&mut Prng::for_case(seed, *case));
        let mut buffer = vec![0; table.file_length()];
        write_table_with(&table, &mut buffer, fault).is_err() || buffer != file_bytes(&table)
    };
    let name = format!("{fault:?}");
    println!("{name:27} {cases:6} {:6}", (0..cases).filter(differs).count());
}

/// Made-up records for each aim: where the faulty check differs on 27.
fn record_fault(fault: Fault, seed: u64, cases: u64, steps: usize) {
    let (mut records, mut differ) = (0, 0);
    for case in 0..cases {
        let mut rng = Prng::for_case(seed, case);
        let mut line = start_line(&accepted_table(&mut rng));
        drive(&mut rng, &mut line, steps);
        for changes in AIMS.into_iter().filter_map(|aim| changes(&mut rng, &line, aim)) {
            let made_up = Record::changed(&line, &changes).line();
            let [right, faulty] = [Fault::None, fault].map(|fault| record_fault_with(&made_up, fault).is_some());
            records += 1;
            differ += u64::from(right != faulty);
        }
    }
    let name = format!("{fault:?}");
    println!("{name:27} {records:7} {differ:6}");
}

/// New routes over a network that was wrongly accepted, so that trains use
/// what is wrong with it; a table with wrong trains keeps its own.
fn draw_routes(rng: &mut Prng, table: &mut Table, fault: Fault) {
    let of_sides = matches!(fault, Fault::StemSideOfBoxOne | Fault::StemSidesSwapped | Fault::NeitherSideIsA);
    if !of_sides && !matches!(fault, Fault::BranchOnStemSide | Fault::LoopTaken | Fault::UnlistedEndTaken) {
        return;
    }
    for i in 0..table.trains.len() {
        let (first, direction) = (table.trains[i].route[0], table.trains[i].direction);
        table.trains[i].route = walk(rng, table, first, direction, 64);
    }
}
