//! Checks the third demand on generated steps over generated tables, that
//! none of them is answered 23, that a box says yes again to what it has
//! granted, which changes no box, and that no train covers a segment against
//! its way.
//! Arguments: seed, number of tables, steps per table.

use reference::argument::argument;
use reference::counts::refuses_step;
use reference::demand::{Checker, Clause, Clauses, CLAUSES};
use reference::generate::lock_asked::LockCounts;
use reference::generate::lost::{LostCounts, Watched};
use reference::generate::prng::Prng;
use reference::generate::steps::Driver;
use reference::generate::tables::{accepted_table, largest_table};
use reference::line::start_line;
use reference::line_check::record_code;
use reference::step::{step, step_checked};
use reference::table::BOTH_WAYS;
use reference::table_read::read_table;
use reference::table_write::file_bytes;

fn main() {
    let (seed, tables, steps) = (argument(1, 1), argument(2, 1500), argument(3, 1000));
    let (mut violations, mut entered, mut cleared, mut back, mut atomic) = (0u64, 0u64, 0u64, 0u64, 0u64);
    let (mut record_checks, mut record_faults, mut answered_23, mut repeats_broken) = (0u64, 0u64, 0u64, 0u64);
    let (mut one_way_tables, mut against, mut covered_against) = (0u64, 0u64, 0u64);
    let mut broken = Clauses::default();
    let mut locks = LockCounts::default();
    let mut lost = LostCounts::default();
    for case in 0..tables {
        let mut rng = Prng::for_case(seed, case);
        let made = match case % 10 {
            9 => largest_table(&mut rng),
            _ => accepted_table(&mut rng),
        };
        let table = read_table(&file_bytes(&made)).expect("generated tables are accepted");
        one_way_tables += u64::from(table.segments.iter().any(|s| s.way != BOTH_WAYS));
        let mut line = start_line(&table);
        let mut checker = Checker::new(&table, &line);
        let mut driver = Driver::new(&mut rng);
        let mut note = |clauses: Clauses| {
            violations += u64::from(clauses.breaks_demand());
            answered_23 += u64::from(clauses.has(Clause::Answered23));
            repeats_broken += u64::from(clauses.has(Clause::RepeatRefused) || clauses.has(Clause::RepeatChangesBox));
            covered_against += u64::from(clauses.has(Clause::CoversAgainstWay));
            broken.join(clauses);
        };
        note(checker.state_clauses(&line));
        lost.start();
        for i in 0..steps {
            let bytes = driver.next_step(&mut rng, &line);
            // Now and then the checked entry must give the same line, and a
            // refused step must leave it as it was.
            let sample = (i % 16 == 0).then(|| line.clone());
            locks.add(&line, bytes);
            let watched = Watched::of(&line, bytes);
            let answer = step(&mut line, bytes);
            lost.add(watched, bytes, answer);
            entered += u64::from(bytes[0] == 5 && answer == 0);
            cleared += u64::from(bytes[0] == 6 && answer == 0);
            against += u64::from(bytes[0] == 3 && answer == 31);
            back += u64::from(matches!(bytes[0], 7 | 8) && answer == 0);
            note(checker.observe(bytes, answer, &line));
            if let Some(before) = sample {
                let mut checked = before.clone();
                let same = step_checked(&mut checked, bytes) == answer && checked == line;
                let kept = !refuses_step(answer) || before == line;
                record_checks += 1;
                record_faults += u64::from(!same || !kept || record_code(&line) != 0);
            }
        }
        atomic += checker.order_length;
    }
    println!("seed {seed}: {tables} tables, {} steps", tables * steps);
    println!("entered {entered}, cleared {cleared}, give-backs sent {back}, atomic steps {atomic}");
    let (all, crossed) = (locks.count(|_| true), locks.count(|asked| asked.sensor));
    println!("locks answered {all}, {crossed} of them with an active sensor; steps answered 23: {answered_23}");
    let [lost_ones, again, granted] = lost.sums();
    println!("messages lost {lost_ones}, sent again {again}, granted again {granted}; repeats broken {repeats_broken}");
    println!("tables with one-way segments {one_way_tables}, answers of 31 {against}");
    println!("steps after which a train covers a segment against its way: {covered_against}");
    println!("records checked against code 27: {record_checks}, faults {record_faults}");
    for clause in CLAUSES.into_iter().filter(|&c| broken.has(c)) {
        println!("broken: {clause:?}");
    }
    println!("{violations} violations");
    if violations + record_faults + answered_23 + repeats_broken + covered_against > 0 {
        std::process::exit(1);
    }
}
