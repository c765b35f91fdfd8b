//! Files, lists of steps and made-up records with one-way segments, on table S as version 2.

use crate::corpus::{Corpus, S};
use crate::lines::{asked, made_up_line};
use reference::generate::made_up::Aim;
use reference::line_check::record_fault;
use reference::record::Change;
use reference::step::Step;
use reference::table::*;
use reference::table_read::read_table;
use reference::table_write::file_bytes;

const S_STEPS: &[u8] = include_bytes!("../../../../samples/s/steps");

/// Table S as version 2, with these ways.
fn s_ways(ways: [u8; 4]) -> Table {
    let mut table = read_table(S).expect("table S is accepted");
    table.version = VERSION_2;
    table.segments.iter_mut().zip(ways).for_each(|(segment, way)| segment.way = way);
    table
}

/// Each byte for the way of each segment alone; ways of all segments; each front part; both versions with
/// the length of the other; other versions; a start against the way beside 12, 28 and 6.
pub fn files(corpus: &mut Corpus) {
    let both_ways = file_bytes(&s_ways([0; 4]));
    corpus.file(&both_ways);
    (8..both_ways.len()).for_each(|length| corpus.prefix(length));
    for segment in 0..4 {
        (1..=255).for_each(|way| corpus.change(10 + 3 * segment, way));
    }
    [0, 1, 3, 4, 255].into_iter().for_each(|version| corpus.change(4, version));
    [1, 2, 255].into_iter().for_each(|version| corpus.change(3, version));
    corpus.file(&[&both_ways[..], &[0]].concat());
    corpus.file(S);
    corpus.change(4, VERSION_2 as u8);
    for ways in [[1, 0, 0, 2], [2, 0, 0, 1], [1, 2, 1, 2], [0, 1, 2, 0], [0, 2, 1, 1], [2, 3, 0, 0], [3, 0, 0, 1]] {
        corpus.table(&s_ways(ways));
    }
    for trains in [[(0, vec![1, 2]), (1, vec![1])], [(1, vec![1]), (0, vec![2, 3])], [(1, vec![1]), (0, vec![4, 0])]] {
        let trains = trains.map(|(direction, route)| TrainEntry { direction, route }).into();
        corpus.table(&Table { trains, ..s_ways([A_TO_B, 0, 0, 0]) });
    }
}

/// Lists on table S with ways: the answers of both ends, of trains of both directions, lost and sent again, beside 22
/// and beside the lock's codes.
pub fn lists(corpus: &mut Corpus) {
    corpus.table(&s_ways([0; 4]));
    corpus.steps(S_STEPS);
    let passage = [asked(1, 1, 2), asked(1, 1, 3), asked(2, 1, 2), vec![5, 1, 0, 6, 1, 0]].concat();
    let other = [asked(1, 2, 3), asked(1, 2, 2), asked(2, 2, 3), vec![5, 2, 0, 6, 2, 0]].concat();
    let onward = [asked(1, 1, 3), asked(1, 1, 4), asked(1, 2, 2), asked(1, 2, 1)].concat();
    for ways in [[0, 2, 0, 0], [0, 1, 0, 0], [0, 0, 1, 0], [0, 0, 2, 0], [1, 1, 2, 2], [1, 2, 1, 0], [0, 1, 2, 2]] {
        corpus.table(&s_ways(ways));
        corpus.steps(&[&passage[..], &other, &onward].concat());
        corpus.steps(&[asked(1, 1, 2)[..6].to_vec(), vec![9, 1, 0, 10, 1, 0, 3, 1, 0], asked(1, 2, 2)].concat());
    }
    // Both trains want segment 2, which runs from B to A: train 2 gets it.
    let mut table = s_ways([0, B_TO_A, 0, 0]);
    table.trains[1].route = vec![4, 2, 1];
    corpus.table(&table);
    let held = [asked(1, 2, 3), asked(1, 1, 3), asked(1, 1, 2), asked(1, 2, 2), asked(1, 1, 2)].concat();
    corpus.steps(&[&held[..], &asked(2, 1, 2), &asked(2, 2, 3), &[5, 1, 0, 5, 2, 0], &asked(1, 1, 3)].concat());
    (6..10).for_each(|steps| corpus.steps(&held[..3 * steps]));
    // A refused file: the run tells 32.
    corpus.table(&s_ways([0, 0, 0, A_TO_B]));
    corpus.steps(S_STEPS);
}

/// Made-up records of the start of table S with ways: what the box answers and the train hears, and what 27 stops.
pub fn records(corpus: &mut Corpus) {
    let table = s_ways([0, B_TO_A, 0, 0]);
    corpus.table(&table);
    corpus.steps(&asked(1, 1, 2));
    let answered = |field: u8| [[b'm', 0, field, 2], [b'm', 0, 5, 31]];
    for (number, holder) in [2, 3].into_iter().flat_map(|number| [0, 1, 2].map(|holder| (number, holder))) {
        let changes = [[b'm', 0, 1, number], [b'b', number - 1, 4, holder]];
        record(corpus, &changes, [3, 1, 0], Aim::WayAsked(holder));
    }
    // The lock and the give-backs ask for no way.
    for field in [2, 6, 7] {
        record(corpus, &[[b'm', 0, field, 2], [b'b', 1, 3, 1], [b'b', 1, 4, 1]], [3, 1, 0], Aim::Nothing);
    }
    record(corpus, &answered(3), [4, 1, 0], Aim::WayHeard);
    record(corpus, &answered(3), [9, 1, 0], Aim::WayHeard);
    for (field, kind) in [(4, 2), (8, 7), (9, 8)] {
        record(corpus, &answered(field), [4, 1, 0], Aim::WayCode(kind));
    }
    // What is recorded lets a train in, whatever the way.
    record(corpus, &[[b't', 0, 4, 1], [b't', 0, 5, 1], [b't', 0, 6, 1]], [5, 1, 0], Aim::Nothing);
    for way in [3, 4, 255] {
        record(corpus, &[[b's', 3, 2, way]], [1, 1, 2], Aim::WayAboveTwo);
        record(corpus, &[[b's', 4, 2, way]], [1, 1, 2], Aim::Nothing);
    }
    // Version 1 has no ways, in any of its n segments: before 4, and not beyond n.
    record(corpus, &[[b'h', 0, 1, 1]], [1, 1, 2], Aim::WayInVersion1);
    for changes in [[[b's', 1, 2, 0], [b's', 3, 2, 2]], [[b'h', 0, 2, 97], [b's', 1, 2, 1]], [[b'h', 0, 3, 0]; 2]] {
        record(corpus, &[&[[b'h', 0, 1, 1]], &changes[..]].concat(), [1, 1, 2], Aim::WayInVersion1);
    }
    record(corpus, &[[b'h', 0, 1, 1], [b's', 1, 2, 0], [b's', 4, 2, 1]], [1, 1, 2], Aim::Nothing);
    record(corpus, &[[b'h', 0, 1, 3]], [1, 1, 2], Aim::Table(3));
    record(corpus, &[[b's', 0, 2, B_TO_A]], [1, 1, 2], Aim::Table(32));
    record(corpus, &[[b's', 3, 2, A_TO_B]], [1, 1, 2], Aim::Table(32));
    // Train 2 goes over 2 and 4, and starts against the way of 2.
    let turned = [[b't', 1, 0, 0], [b't', 1, 1, 2], [b'R', 1, 0, 2], [b'R', 1, 1, 4]];
    record(corpus, &turned, [1, 2, 3], Aim::StartsAgainst);
}

/// A step on the start line with changes, after which the record is what the aim says.
fn record(corpus: &mut Corpus, changes: &[Change], bytes: Step, aim: Aim) {
    let line = made_up_line(&corpus.line_after(0), changes).expect("this implementation has the record");
    assert_eq!(record_fault(&line), aim.clause(), "{changes:?}");
    corpus.made_up(0, changes, bytes, aim);
}
