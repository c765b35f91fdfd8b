//! The lists of steps and the made-up records of the corpus.

use crate::corpus::{Corpus, S, SEED};
use reference::generate::lock_asked::LockAsked;
use reference::generate::made_up::{changes, lock_changes, step_on, Aim, AIMS};
use reference::generate::prng::Prng;
use reference::generate::steps::{drive, step_bytes};
use reference::generate::tables::{accepted_table, largest_table};
use reference::line::{start_line, Line};
use reference::line_check::record_fault;
use reference::record::{Change, Record};
use reference::step::{step, Step};
use reference::table::*;
use reference::table_read::read_table;

const S_STEPS: &[u8] = include_bytes!("../../../../samples/s/steps");
/// What few lists have: a code, and of 24 at the box whether the sensor is active; and how many steps have it at least.
const RARE: [(u8, Option<bool>); 4] = [(18, None), (29, None), (24, Some(false)), (24, Some(true))];
const FEWEST_RARE: usize = 30;
/// How many made-up records each aim has at least; how many tables there are for them at
/// least, and how many records pass for each, answer a lock, and answer a reservation against the way of each holder.
pub const FEWEST_AIMED: usize = 6;
const TABLES: u64 = 16;
const PASSING: usize = 28;
const LOCKS: usize = 4;
const WAYS: usize = 2;

/// A request or a give-back, its answer, and the answer heard.
pub fn asked(kind: u8, train: u8, number: u8) -> Vec<u8> {
    vec![kind, train, number, 3, train, 0, 4, train, 0]
}

/// Lists for table S and its track with other trains: every front part of the ten steps of its
/// printout, and the papers' cases.
pub fn paper_lists(corpus: &mut Corpus) {
    corpus.file(S);
    for length in 0..=S_STEPS.len() {
        corpus.steps(&S_STEPS[..length]);
    }
    let passage = [asked(1, 1, 2), asked(1, 1, 3), asked(2, 1, 2), vec![5, 1, 0, 6, 1, 0]].concat();
    corpus.steps(&passage);
    records_of_s(corpus);
    locks_of_s(corpus);
    // The lock of the box being crossed is recorded, and neither asked for nor given back there.
    corpus.steps(&[&passage[..30], &[2, 1, 2, 8, 1, 2, 1, 1, 2, 7, 1, 2, 7, 1, 3, 8, 1, 3]].concat());
    corpus.steps(&[asked(1, 1, 2), vec![1, 1, 2, 1, 1, 4]].concat());
    let with = |corpus: &mut Corpus, trains: &[(u8, &[u8])], steps: &[u8]| {
        let mut table = read_table(S).expect("table S is accepted");
        table.trains = trains.iter().map(|&(direction, r)| TrainEntry { direction, route: r.to_vec() }).collect();
        corpus.table(&table);
        corpus.steps(steps);
    };
    with(corpus, &[(0, &[1, 2, 4]), (1, &[4, 2, 1])], &[asked(1, 1, 2), asked(1, 2, 2)].concat());
    let contest = [asked(1, 1, 3), asked(1, 1, 4), asked(2, 1, 3), asked(2, 2, 3), vec![5, 1, 0], asked(2, 2, 3)];
    with(corpus, &[(0, &[2, 4]), (0, &[3, 4])], &contest.concat());
    // Train 1 gives back segment 2, which train 2 then gets; the line after each step.
    let back = [asked(1, 1, 2), asked(7, 1, 2), asked(1, 2, 2)].concat();
    with(corpus, &[(0, &[1, 2, 4]), (1, &[4, 2, 1])], &back);
    (4..9).for_each(|taken| corpus.steps(&back[..3 * taken]));
    // A give-back of nothing, at a wrong box, with the give-back open, and asked for again.
    corpus.steps(&[vec![7, 1, 2, 8, 1, 2, 7, 1, 4, 8, 1, 3], back[..12].to_vec(), vec![7, 1, 2, 8, 1, 2]].concat());
    let again = [asked(7, 1, 2), vec![5, 1, 0, 7, 1, 2], asked(1, 1, 2), vec![5, 1, 0]].concat();
    corpus.steps(&[asked(1, 1, 2), asked(1, 1, 3), asked(2, 1, 2), again].concat());
    // Train 1 gives back the lock of box 3 and segment 4 at both ends; train 2 asks after each, and enters.
    let locked = [asked(1, 1, 3), asked(1, 1, 4), asked(2, 1, 3)].concat();
    let lock_first = [asked(8, 1, 3), asked(2, 2, 3), asked(1, 2, 3), asked(7, 1, 3)];
    let lock_last = [asked(7, 1, 3), asked(1, 2, 3), asked(2, 2, 3), asked(8, 1, 3)];
    let last = vec![5, 2, 0, 8, 2, 3, 7, 2, 4];
    let rest = [asked(1, 2, 3), asked(2, 2, 3), asked(7, 1, 4), asked(1, 2, 4), last].concat();
    with(corpus, &[(0, &[2, 4]), (0, &[3, 4])], &[&locked[..], &lock_first.concat(), &rest].concat());
    corpus.steps(&[&locked[..], &lock_last.concat(), &rest].concat());
    (1..3).for_each(|taken| corpus.steps(&[&locked[..], &lock_first.concat()[..3 * taken]].concat()));
    // The position stays when the lock is given back.
    with(corpus, &[(0, &[1, 3, 4])], &[asked(1, 1, 2), asked(2, 1, 2), asked(8, 1, 2)].concat());
    // A crossing train at the end of its route.
    let to_end = [asked(1, 1, 2), asked(1, 1, 3), asked(2, 1, 2), vec![5, 1, 0, 5, 1, 0, 7, 1, 3, 8, 1, 3, 6, 1, 0]];
    with(corpus, &[(0, &[1, 2])], &to_end.concat());
    with(corpus, &[(0, &[1])], &[5, 1, 0, 6, 1, 0, 7, 1, 1, 8, 1, 2]);
    with(corpus, &[], &[1, 1, 1, 5, 1, 0, 0, 0, 0, 3]);
    // Refused routes: the run tells train and place.
    with(corpus, &[(0, &[2, 3]), (1, &[4, 3, 1])], S_STEPS);
    with(corpus, &[(0, &[1, 2, 4]), (1, &[4, 3, 5])], S_STEPS);
    with(corpus, &[(0, &[1, 2, 4]), (1, &[1])], S_STEPS);
    // A refused file: the buffer stays, whatever the steps.
    corpus.file(&S[..45]);
    corpus.steps(S_STEPS);
    corpus.steps(&[]);
    corpus.file(&[]);
    corpus.steps(&S_STEPS[..4]);
}

/// Made-up records of train 1's passage over box 2 of table S that pass 27: what the box answers, what
/// the train hears, and what a move does, where no list of steps leads.
fn records_of_s(corpus: &mut Corpus) {
    let reserve = [b'm', 0, 1, 2];
    let (back, lock_back) = ([b'm', 0, 6, 2], [b'm', 0, 7, 2]);
    let (taken_back, lock_taken_back) = ([b'm', 0, 8, 2], [b'm', 0, 9, 2]);
    let sensor = [b'b', 1, 0, 1];
    let locked = |train: u8| [b'b', 1, 2, train];
    let front = |train: u8| [b'b', 1, 3, train];
    let next = |train: u8| [b'b', 1, 4, train];
    let other = |train: u8| [b'b', 1, 5, train];
    let (near, far, own) = ([b't', 0, 4, 1], [b't', 0, 5, 1], [b't', 0, 6, 1]);
    let answer: Step = [3, 1, 0];
    let hear: Step = [4, 1, 0];
    let enter: Step = [5, 1, 0];
    let clear: Step = [6, 1, 0];
    let records: [(usize, &[Change], Step); 27] = [
        // A reservation.
        (0, &[reserve, next(1)], answer),
        (0, &[reserve, next(2)], answer),
        (0, &[reserve, next(0), other(2)], answer),
        // A give-back frees what is the train's own, and nothing of another train; it is always a yes.
        (0, &[back, next(1)], answer),
        (0, &[back, next(2)], answer),
        (0, &[back, next(0)], answer),
        (0, &[back, next(1), other(1), locked(1)], answer),
        (9, &[lock_back, locked(1)], answer),
        (9, &[lock_back, locked(2)], answer),
        (9, &[lock_back, locked(0)], answer),
        (9, &[lock_back, locked(1), sensor, other(1)], answer),
        // Hearing it records nothing, and drops nothing.
        (0, &[taken_back, next(1)], hear),
        (0, &[taken_back, near, far, own], hear),
        (0, &[lock_taken_back, locked(1)], hear),
        (0, &[lock_taken_back, near, own], hear),
        // Sending asks the train's records alone.
        (0, &[near, next(2)], [7, 1, 2]),
        (9, &[[b't', 0, 4, 0], far], [7, 1, 2]),
        (0, &[own, locked(2)], [8, 1, 2]),
        (9, &[locked(1)], [8, 1, 2]),
        (0, &[near, far, own, back], enter),
        (0, &[near, far, own, lock_taken_back], enter),
        // Enter asks the train's records alone, and no message stops it.
        (0, &[near, far, own, locked(2), sensor], enter),
        (0, &[near, far, own, reserve], enter),
        (0, &[near, far], enter),
        (0, &[near, own], enter),
        // Clear frees lock and both segments whoever holds them, and not the third.
        (30, &[locked(2), front(2), next(2), other(2)], clear),
        (30, &[other(1)], clear),
    ];
    for (taken, changes, bytes) in records {
        assert!(made_up_line(&corpus.line_after(taken), changes).is_some_and(|line| record_fault(&line).is_none()));
        corpus.made_up(taken, changes, bytes, Aim::Nothing);
    }
}

/// Made-up records of the start of table S: all that a box can find when it answers a lock.
fn locks_of_s(corpus: &mut Corpus) {
    let (mut rng, start, aim) = (Prng::for_case(SEED + 4, 0), corpus.line_after(0), Aim::LockAsked);
    for asked in LockAsked::all() {
        let changes = lock_changes(&mut rng, &start, asked).expect("both trains are before a point");
        let bytes = step_on(&mut rng, &start, &changes, aim);
        corpus.made_up(0, &changes, bytes, aim);
    }
}

/// Lists of generated steps on generated tables, one in twelve with 96 segments and 16 trains; then
/// further ones for the codes that are rare.
pub fn generated_lists(corpus: &mut Corpus) {
    for case in 0..48 {
        let mut rng = Prng::for_case(SEED + 2, case);
        let table = match case % 12 {
            11 => largest_table(&mut rng),
            _ => sized_table(&mut rng, 24),
        };
        corpus.table(&table);
        let count = if case % 12 == 11 { 300 } else { 90 };
        let mut steps = step_bytes(&driven(&mut rng, &table, count));
        // One in three ends in a step of one or two bytes.
        steps.truncate(steps.len() - rng.pick(&[0, 0, 0, 0, 1, 2]));
        corpus.steps(&steps);
    }
    for case in 1_000..10_000 {
        let count = |&(code, sensor): &(u8, Option<bool>)| match sensor {
            None => corpus.list_codes[usize::from(code)],
            Some(sensor) => corpus.list.locks.locked(sensor),
        };
        let lacking: Vec<_> = RARE.into_iter().filter(|rare| count(rare) < FEWEST_RARE).collect();
        if lacking.is_empty() {
            return;
        }
        let mut rng = Prng::for_case(SEED + 2, case);
        let table = sized_table(&mut rng, 24);
        let events = driven(&mut rng, &table, 90);
        let mut line = start_line(&table);
        let is_rare = |&(bytes, code): &(Step, u8)| {
            let sensor = LockAsked::of(&line, bytes).map(|asked| asked.sensor);
            step(&mut line, bytes);
            lacking.contains(&(code, sensor))
        };
        let rare: Vec<bool> = events.iter().map(is_rare).collect();
        if let Some(last) = rare.iter().rposition(|&rare| rare) {
            corpus.table(&table);
            corpus.steps(&step_bytes(&events[..=last]));
        }
    }
}

/// An accepted table with at least two trains and at most so many boxes.
fn sized_table(rng: &mut Prng, boxes: usize) -> Table {
    loop {
        let table = accepted_table(rng);
        if table.trains.len() > 1 && table.trains.len() < 7 && table.boxes.len() <= boxes {
            return table;
        }
    }
}

/// Steps from the start of a table on, with their codes.
fn driven(rng: &mut Prng, table: &Table, count: usize) -> Vec<(Step, u8)> {
    drive(rng, &mut start_line(table), count)
}

/// Made-up records on lines of small tables until each aim has enough of them, then some on a table
/// of the largest size.
pub fn made_up_records(corpus: &mut Corpus) {
    let mut case = 0;
    while case < TABLES || corpus.aims.iter().any(|&count| count < FEWEST_AIMED) {
        let mut rng = Prng::for_case(SEED + 3, case);
        case += 1;
        let table = sized_table(&mut rng, 10);
        let line = start_line(&table);
        let wanted = |i: &usize| corpus.aims[*i] < FEWEST_AIMED;
        if case > TABLES && (0..AIMS.len()).filter(wanted).all(|i| changes(&mut rng, &line, AIMS[i]).is_none()) {
            continue;
        }
        corpus.table(&table);
        corpus.steps(&step_bytes(&driven(&mut rng, &table, 30)));
        for (place, aim) in AIMS.into_iter().enumerate() {
            let passing = if aim == Aim::LockAsked { LOCKS } else { PASSING };
            if matches!(aim, Aim::Nothing | Aim::LockAsked) && case <= TABLES {
                (0..passing).for_each(|_| try_aim(&mut rng, corpus, 90, aim));
            } else if matches!(aim, Aim::WayAsked(_)) && case <= TABLES {
                (0..WAYS).for_each(|_| try_aim(&mut rng, corpus, 90, aim));
            } else if corpus.aims[place] < FEWEST_AIMED + 2 {
                try_aim(&mut rng, corpus, 90, aim);
            }
        }
    }
    let mut rng = Prng::for_case(SEED + 3, 1_000);
    let table = largest_table(&mut rng);
    corpus.table(&table);
    corpus.steps(&step_bytes(&driven(&mut rng, &table, 200)));
    last_records(corpus);
    (0..6).for_each(|_| try_aim(&mut rng, corpus, 600, Aim::Nothing));
}

/// Adds a made-up record for an aim, if one is found in some tries. All but the part that the changes
/// are about is as steps have left it.
fn try_aim(rng: &mut Prng, corpus: &mut Corpus, most: usize, aim: Aim) {
    for _ in 0..60 {
        let taken = 3 * rng.below(most / 3 + 1);
        let before = corpus.line_after(taken);
        let Some(changes) = changes(rng, &before, aim).filter(|changes| !changes.is_empty()) else {
            continue;
        };
        let Some(line) = made_up_line(&before, &changes) else {
            continue;
        };
        if record_fault(&line) == aim.clause() {
            let bytes = step_on(rng, if aim.clause().is_none() { &line } else { &before }, &changes, aim);
            corpus.made_up(taken, &changes, bytes, aim);
            return;
        }
    }
}

/// The line with changes; `None` where this implementation has no such record.
pub fn made_up_line(before: &Line, changes: &[Change]) -> Option<Line> {
    let record = Record::changed(before, changes);
    let line = record.line();
    let same = record_fault(&line).is_some() || Record::of(&line).numbers() == record.numbers();
    same.then_some(line)
}

/// Faults in the last box and the last train of a table of the largest size, and in the records after
/// them, which are not looked at.
fn last_records(corpus: &mut Corpus) {
    let line = corpus.line_after(0);
    let (m, k) = (line.boxes.len() as u8, line.trains.len() as u8);
    let whole: Step = [3, 1, 0];
    for (change, aim) in [
        ([b'b', m - 1, 2, k + 1], Aim::LockHolder),
        ([b'b', m - 1, 3, k + 1], Aim::StemHolder),
        ([b'b', m - 1, 1, 3], Aim::Position),
        ([b't', k - 1, 3, 0], Aim::CoversNone),
        ([b't', k - 1, 2, 0], Aim::PlaceZero),
        ([b't', k - 1, 3, 2], Aim::TailOutside),
        ([b'b', m, 2, k + 1], Aim::Nothing),
        ([b'b', m - 1, 2, k], Aim::Nothing),
    ] {
        if change[1] >= 96 {
            continue;
        }
        let made = made_up_line(&line, &[change]).expect("this implementation has the record");
        assert_eq!(record_fault(&made), aim.clause());
        corpus.made_up(0, &[change], whole, aim);
    }
}
