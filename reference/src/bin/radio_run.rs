//! Runs over a radio that loses a share of all messages, sent and answered
//! ones, which are then sent again: the third demand after every step, that no
//! step is answered 23, that a box says yes again to what it has granted, which
//! changes no box, and that no train covers a segment against its way.
//! Arguments: seed, number of tables, steps per table, for each share.

use reference::argument::argument;
use reference::counts::says_no;
use reference::demand::{Checker, Clauses, CLAUSES};
use reference::generate::lost::{LostCounts, Watched};
use reference::generate::prng::Prng;
use reference::generate::steps::{Driver, Mix};
use reference::generate::tables::{accepted_table, largest_table};
use reference::line::{start_line, TrainState};
use reference::step::step;

/// Shares of messages that are lost, in percent.
const SHARES: [usize; 3] = [10, 50, 90];

/// What came of the runs with one share.
#[derive(Default)]
struct Runs {
    steps: u64,
    /// Messages under way: requests and give-backs sent, sent again and answered.
    under_way: u64,
    heard: u64,
    /// Answers of 31.
    against: u64,
    entered: u64,
    at_end: u64,
    trains: u64,
    atomic: u64,
    lost: LostCounts,
    broken: u64,
    clauses: Clauses,
}

fn main() {
    let (seed, tables, steps) = (argument(1, 1), argument(2, 1000), argument(3, 5000));
    println!("seed {seed}: {tables} tables with {steps} steps each for each share of messages lost");
    let mut broken = 0;
    for share in SHARES {
        let mut runs = Runs::default();
        for case in 0..tables {
            run(&mut runs, &mut Prng::for_case(seed, case), case, share, steps);
        }
        print_runs(&runs, share);
        broken += runs.broken;
    }
    if broken > 0 {
        std::process::exit(1);
    }
}

/// One table with its steps.
fn run(runs: &mut Runs, rng: &mut Prng, case: u64, share: usize, steps: u64) {
    let table = match case % 10 {
        9 => largest_table(rng),
        _ => accepted_table(rng),
    };
    let mut line = start_line(&table);
    let mut checker = Checker::new(&table, &line);
    let mut driver = Driver::of(Mix { purposeful: 97, impatient: 2, back: [1, 10], lost: share });
    let mut note = |broken: Clauses| {
        runs.broken += u64::from(!broken.is_empty());
        runs.clauses.join(broken);
    };
    note(checker.state_clauses(&line));
    runs.lost.start();
    for _ in 0..steps {
        let bytes = driver.next_step(rng, &line);
        let watched = Watched::of(&line, bytes);
        let answer = step(&mut line, bytes);
        runs.lost.add(watched, bytes, answer);
        note(checker.observe(bytes, answer, &line));
        runs.steps += 1;
        let answered = answer == 0 || says_no(answer);
        runs.under_way += u64::from(match bytes[0] {
            1 | 2 | 7 | 8 | 10 => answer == 0,
            kind => kind == 3 && answered,
        });
        runs.heard += u64::from(bytes[0] == 4 && answered);
        runs.against += u64::from((bytes[0], answer) == (3, 31));
        runs.entered += u64::from((bytes[0], answer) == (5, 0));
    }
    runs.atomic += checker.order_length;
    let at_end = |t: &&TrainState| t.next_segment().is_none() && !t.crossing();
    runs.at_end += line.trains.iter().filter(at_end).count() as u64;
    runs.trains += line.trains.len() as u64;
}

fn print_runs(runs: &Runs, share: usize) {
    let [lost, again, granted] = runs.lost.sums();
    let percent = 100.0 * lost as f64 / runs.under_way.max(1) as f64;
    println!("share {share} %: {} steps", runs.steps);
    println!("{} messages under way, {lost} of them lost ({percent:.1} %)", runs.under_way);
    println!("{again} sent again, {} answers heard, {} answers of 31", runs.heard, runs.against);
    println!("{granted} granted again, {} atomic steps, {} segments entered", runs.atomic, runs.entered);
    println!("{} of {} trains at the end of their route", runs.at_end, runs.trains);
    print!("{}", runs.lost);
    for clause in CLAUSES.into_iter().filter(|&clause| runs.clauses.has(clause)) {
        println!("broken: {clause:?}");
    }
    println!("{} broken", runs.broken);
}
