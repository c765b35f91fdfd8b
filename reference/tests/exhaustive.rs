//! Every list of steps on small tables: all lines that can be reached, with
//! the third demand checked at each. Every short route of two trains on table S.

mod common;
use common::*;
use reference::counts::{list_codes, refuses_step, CODES};
use reference::demand::{Checker, Clause, Clauses};
use reference::fast;
use reference::fault::Fault;
use reference::generate::small_tables::Files;
use reference::generate::smallest::may_show;
use reference::line::*;
use reference::line_check::record_code;
use reference::step::{step, step_with, Step};
use reference::refusal::Refusal;
use reference::table::{Table, TrainEntry, B_TO_A, VERSION_1, VERSION_2};
use reference::table_check::check_table;
use reference::table_write::file_bytes;
use std::collections::{BTreeSet, HashSet};

/// All steps that differ in what they do, and some garbage.
fn all_steps(table: &Table) -> Vec<Step> {
    let k = table.trains.len() as u8;
    let m = table.boxes.len() as u8;
    let mut steps = vec![[0, 1, 0], [11, 1, 0], [3, 1, 1], [1, 0, 1], [8, 0, 1], [5, k + 1, 0], [255; 3]];
    steps.extend([[9, 1, 1], [10, 1, 2], [9, 0, 0], [10, k + 1, 0]]);
    for train in 1..=k {
        for number in 0..=m + 1 {
            steps.extend([1, 2, 7, 8].map(|kind| [kind, train, number]));
        }
        steps.extend([3, 4, 5, 6, 9, 10].map(|kind| [kind, train, 0]));
    }
    steps
}

/// All that changes of a line: its boxes and, of its trains, place, holdings and message.
type Changing = (Vec<BoxState>, Vec<(usize, u8, Holdings, Message)>);

fn changing(line: &Line) -> Changing {
    let trains = line.trains.iter().map(|t| (t.front, t.covered, t.holdings, t.message));
    (line.boxes.clone(), trains.collect())
}

/// Makes the line the same as another one of its table.
fn reset(line: &mut Line, other: &Line) {
    line.boxes.clone_from(&other.boxes);
    for (train, other) in line.trains.iter_mut().zip(&other.trains) {
        let &TrainState { front, covered, holdings, message, .. } = other;
        (train.front, train.covered, train.holdings, train.message) = (front, covered, holdings, message);
    }
}

/// Searches all reachable lines; gives their number and the codes seen.
fn search(table: &Table) -> (usize, BTreeSet<u8>) {
    let (lines, codes, _) = search_with(table, Fault::None);
    (lines, codes)
}

/// Searches all lines that are reachable with a fault; gives their number, the codes seen and the clauses broken, which
/// are none without a fault.
fn search_with(table: &Table, fault: Fault) -> (usize, BTreeSet<u8>, Clauses) {
    assert_eq!(check_table(table), Ok(()));
    let start = start_line(table);
    let first = Checker::new(table, &start);
    assert!(first.state_clauses(&start).is_empty());
    let mut seen = HashSet::from([(changing(&start), first.state())]);
    let mut open = vec![(start, first)];
    let (mut codes, mut all_broken) = (BTreeSet::new(), Clauses::default());
    let steps = all_steps(table);
    while let Some((before, checker)) = open.pop() {
        let mut line = before.clone();
        for &bytes in &steps {
            let answer = step_with(&mut line, bytes, fault);
            codes.insert(answer);
            if refuses_step(answer) {
                assert_eq!(before, line);
                continue;
            }
            let mut checker = checker.clone();
            let broken = checker.observe(bytes, answer, &line);
            assert!(broken.is_empty() || fault != Fault::None, "{bytes:?} {answer} {broken:?} {line:?}");
            all_broken.join(broken);
            if seen.insert((changing(&line), checker.state())) {
                assert_eq!(record_code(&line), 0);
                open.push((line.clone(), checker));
            }
            reset(&mut line, &before);
        }
    }
    (seen.len(), codes, all_broken)
}

#[test]
fn all_lists_on_s() {
    let (lines, codes) = search(&s_with(&[(0, &[1, 2, 4]), (1, &[4, 3, 1])]));
    println!("{lines} lines, codes {codes:?}");
    let (lines, codes) = search(&s_with(&[(0, &[1, 2, 4]), (1, &[4, 2, 1])]));
    println!("{lines} lines, codes {codes:?}");
}

/// Both trains want segment 2, which runs from B to A: train 1 is told 31, and is never on it.
#[test]
fn all_lists_with_a_one_way_segment() {
    let mut table = s_with(&[(0, &[1, 2, 4]), (1, &[4, 2, 1])]);
    table.version = VERSION_2;
    table.segments[1].way = B_TO_A;
    let (lines, codes) = search(&table);
    println!("{lines} lines, codes {codes:?}");
    assert!(codes.contains(&31), "{codes:?}");
}

#[test]
fn all_lists_of_two_that_follow() {
    let (lines, codes) = search(&s_with(&[(0, &[2, 4]), (0, &[3, 4])]));
    println!("{lines} lines, codes {codes:?}");
    // Its segments run both ways, so that nothing is answered 31.
    let expected: BTreeSet<u8> = list_codes().map(|code| code as u8).filter(|&code| code != 31).collect();
    assert_eq!(codes, expected);
}

/// With 23 looked at before 24 some list has 23, and no clause of demand 3 is broken by any.
#[test]
fn sensor_before_lock_is_told_by_23_alone() {
    let (_, codes, broken) = search_with(&s_with(&[(0, &[2, 4]), (0, &[3, 4])]), Fault::SensorBeforeLock);
    assert!(codes.contains(&23) && broken.has(Clause::Answered23) && !broken.breaks_demand(), "{broken:?}");
}

/// Whether segments stand in the order of their ends, and boxes are numbered in the order in which these name them.
/// Every network can be numbered so, and whether some list has a code does not depend on the numbers.
fn plainly_numbered(table: &Table) -> bool {
    let ends: Vec<[u8; 2]> = table.segments.iter().map(|s| [s.a, s.b]).collect();
    let known = |most: u8, &number: &u8| (number <= most + 1).then(|| number.max(most));
    ends.is_sorted() && ends.as_flattened().iter().try_fold(0, known).is_some()
}

/// No list of steps has 23 on any table as small as the smallest on which one has 24.
#[test]
fn all_lists_on_small_tables() {
    let mut with_24 = 0;
    for length in 0.. {
        let mut tables = 0;
        Files::accepted(VERSION_1, length, 1).first::<()>(&mut |table| {
            if may_show(table, 23) && plainly_numbered(table) && check_table(table).is_ok() {
                let (_, codes) = search(table);
                assert!(!codes.contains(&23));
                tables += 1;
                with_24 += usize::from(codes.contains(&24));
            }
            None
        });
        if tables > 0 {
            println!("{length} bytes: {tables} tables with a route over a point, 24 on {with_24}");
        }
        if with_24 > 0 {
            return;
        }
    }
}

#[test]
fn all_lists_of_three_on_s() {
    let (lines, codes) = search(&s_with(&[(0, &[2, 4]), (0, &[3, 4]), (1, &[1])]));
    println!("{lines} lines, codes {codes:?}");
}

/// A border, a link, two parallel tracks between points, a link, a border.
fn with_links(trains: &[(u8, &[u8])]) -> Table {
    Table {
        version: 1,
        segments: segments(&[[1, 2], [2, 3], [3, 4], [3, 4], [4, 5], [5, 6]]),
        boxes: boxes(&[
            [0, 1, 0, 0, 0],
            [1, 2, 1, 0, 0],
            [2, 2, 4, 3, 2],
            [2, 5, 3, 4, 1],
            [1, 5, 6, 0, 0],
            [0, 6, 0, 0, 0],
        ]),
        trains: entries(trains),
    }
}

#[test]
fn all_lists_with_links() {
    let (lines, codes) = search(&with_links(&[(0, &[2, 3, 5, 6]), (1, &[5, 4, 2])]));
    println!("{lines} lines, codes {codes:?}");
    let (lines, codes) = search(&with_links(&[(0, &[1, 2, 3]), (0, &[2, 4, 5])]));
    println!("{lines} lines, codes {codes:?}");
}

/// What another program could see of a line.
fn seen_of(line: &Line) -> impl PartialEq {
    let places: Vec<(usize, u8)> = line.trains.iter().map(|t| (t.front, t.covered)).collect();
    (line.boxes.clone(), places)
}

/// Whether any list tells the faulty engine from the right one.
fn told_apart(table: &Table, fault: Fault) -> bool {
    let start = (start_line(table), start_line_with(table, fault));
    let key = |(a, b): &(Line, Line)| (changing(a), changing(b));
    let mut seen = HashSet::from([key(&start)]);
    let mut open = vec![start];
    let steps = all_steps(table);
    while let Some((right, faulty)) = open.pop() {
        let mut pair = (right.clone(), faulty.clone());
        for &bytes in &steps {
            let answers = (step(&mut pair.0, bytes), step_with(&mut pair.1, bytes, fault));
            if answers.0 == answers.1 && pair.0 == right && pair.1 == faulty {
                continue;
            }
            if answers.0 != answers.1 || seen_of(&pair.0) != seen_of(&pair.1) {
                return true;
            }
            if seen.insert(key(&pair)) {
                open.push(pair.clone());
            }
            reset(&mut pair.0, &right);
            reset(&mut pair.1, &faulty);
        }
    }
    false
}

/// Faults that no list on these tables shows, and near ones that some does.
#[test]
fn faults_no_list_shows() {
    let tables = [
        s_with(&[(0, &[1, 2, 4]), (1, &[4, 3, 1])]),
        s_with(&[(0, &[2, 4]), (0, &[3, 4])]),
        with_links(&[(0, &[1, 2, 3]), (0, &[2, 4, 5])]),
    ];
    for fault in UNSEEN {
        assert!(tables.iter().all(|t| !told_apart(t, fault)), "{fault:?}");
    }
    for fault in [
        Fault::SensorBeforeLock,
        Fault::ReservationsFirst,
        Fault::LockTakenOver,
        Fault::RecordedBeforePlace,
        Fault::DroppedWhenHeard,
        Fault::LockBackAnywhere,
        Fault::OwnSegmentRefused,
        Fault::OwnLockRefused,
        Fault::BackMayBeRefused,
        Fault::BackFreesAnyone,
    ] {
        assert!(tables.iter().any(|t| told_apart(t, fault)), "{fault:?}");
    }
}

/// All routes of one to three segments 0 to 5, in both directions.
fn short_routes() -> Vec<TrainEntry> {
    let mut routes: Vec<Vec<u8>> = vec![vec![]];
    let mut entries = Vec::new();
    for _ in 0..3 {
        let longer = |route: &Vec<u8>| (0..=5).map(|segment| [&route[..], &[segment]].concat()).collect::<Vec<_>>();
        routes = routes.iter().flat_map(longer).collect();
        let both = |route: &Vec<u8>| [0, 1].map(|direction| TrainEntry { direction, route: route.clone() });
        entries.extend(routes.iter().flat_map(both));
    }
    entries
}

/// Both engines give 11 or 28 exactly where some place of a route is at fault, and then that of the place before which
/// no place is; else 12 exactly where both trains have one first segment.
#[test]
fn all_short_routes_on_s() {
    let routes = short_routes();
    let mut table = s_with(&[(0, &[1]), (0, &[1])]);
    let mut line = fast::Line::NONE;
    let mut codes = [0; CODES];
    for first in &routes {
        table.trains[0].clone_from(first);
        for second in &routes {
            table.trains[1].clone_from(second);
            let due = match faults_on_routes(&table).first() {
                Some(&fault) => Err(fault),
                None if first.route[0] == second.route[0] => Err(Refusal::by(12)),
                None => Ok(()),
            };
            assert_eq!(check_table(&table), due, "{first:?} {second:?}");
            assert_eq!(line.read(&file_bytes(&table)), due, "{first:?} {second:?}");
            codes[due.err().map_or(0, |refusal| usize::from(refusal.code))] += 1;
        }
    }
    assert_eq!(codes.iter().sum::<usize>(), routes.len() * routes.len());
    assert!([0, 11, 12, 28].into_iter().all(|code| codes[code] > 100), "{codes:?}");
}
