//! Lists of steps and made-up records in which messages are lost and sent again, on table S and its track.

use crate::corpus::{Corpus, S};
use crate::lines::{asked, made_up_line};
use reference::generate::made_up::Aim;
use reference::line_check::record_fault;
use reference::record::Change;
use reference::step::Step;
use reference::table::*;
use reference::table_read::read_table;

/// Kind 9 and kind 10 of a train.
fn lost(train: u8) -> Vec<u8> {
    vec![9, train, 0]
}

fn again(train: u8) -> Vec<u8> {
    vec![10, train, 0]
}

/// The answer, and the answer heard.
fn heard(train: u8) -> Vec<u8> {
    vec![3, train, 0, 4, train, 0]
}

/// A list, and so many of its last front parts: the line after each of their steps.
fn with_fronts(corpus: &mut Corpus, steps: &[Vec<u8>], fronts: usize) {
    let steps = steps.concat();
    for less in (0..=fronts).rev() {
        corpus.steps(&steps[..steps.len() - 3 * less]);
    }
}

/// The papers' cases of a radio that loses messages.
pub fn lists(corpus: &mut Corpus) {
    let with = |corpus: &mut Corpus, trains: [(u8, &[u8]); 2]| {
        let mut table = read_table(S).expect("table S is accepted");
        table.trains = trains.map(|(direction, route)| TrainEntry { direction, route: route.to_vec() }).into();
        corpus.table(&table);
    };
    // Both trains want segment 2, from either side.
    with(corpus, [(0, &[1, 2, 4]), (1, &[4, 2, 1])]);
    let sent = |kind: u8| vec![kind, 1, 2];
    let granted = |kind: u8| vec![kind, 1, 2, 3, 1, 0];
    with_fronts(corpus, &[sent(1), lost(1), again(1), heard(1)], 4);
    with_fronts(corpus, &[granted(1), lost(1), again(1), heard(1)], 3);
    with_fronts(corpus, &[granted(1), lost(1), again(1), vec![3, 1, 0], lost(1), again(1), heard(1)], 3);
    with_fronts(corpus, &[asked(1, 1, 2), granted(2), lost(1), again(1), heard(1)], 3);
    for kind in [7, 8] {
        let held = [asked(1, 1, 2), asked(2, 1, 2)].concat();
        with_fronts(corpus, &[held.clone(), sent(kind), lost(1), again(1), heard(1)], 3);
        with_fronts(corpus, &[held, granted(kind), lost(1), again(1), heard(1)], 3);
    }
    // A no that is lost is asked for anew when the segment is free.
    let refused = [asked(1, 1, 2), vec![1, 2, 2, 3, 2, 0], lost(2), again(2), vec![3, 2, 0], lost(2)].concat();
    with_fronts(corpus, &[refused, asked(7, 1, 2), again(2), heard(2)], 3);
    // A give-back before the box has heard it; and its yes lost, with train 2 gone onto the segment.
    with_fronts(corpus, &[asked(1, 1, 2), sent(7), lost(1), asked(1, 2, 2), again(1), heard(1), asked(1, 2, 2)], 6);
    let onto = [asked(1, 2, 3), asked(1, 2, 2), asked(2, 2, 3), vec![5, 2, 0]].concat();
    let anothers = [asked(1, 1, 2), granted(7), lost(1), onto, again(1), heard(1)].concat();
    with_fronts(corpus, &[anothers, asked(1, 1, 2), asked(1, 1, 3), vec![5, 1, 0]], 10);
    // 30 in each of its ways; 15, 21, 19 and 20 while the message is lost; 13 and 14.
    corpus.steps(&[vec![9, 1, 0, 10, 1, 0], sent(1), again(1), vec![3, 1, 0], again(1), lost(1), lost(1)].concat());
    corpus.steps(&[granted(1), vec![4, 1, 0], lost(1), again(1), asked(1, 2, 2), lost(2), again(2)].concat());
    let none = [1, 2, 7, 8].map(|kind| [kind, 1, 2, kind, 1, 3, kind, 1, 0]).concat();
    let stopped = [none, vec![3, 1, 0, 4, 1, 0, 5, 1, 0, 6, 1, 0, 9, 1, 1, 10, 1, 2, 9, 0, 0, 10, 3, 0]].concat();
    let held = [asked(1, 1, 2), asked(1, 1, 3), asked(2, 1, 2)].concat();
    corpus.steps(&[sent(1), lost(1), stopped.clone()].concat());
    for kind in [7, 8] {
        corpus.steps(&[held.clone(), sent(kind), lost(1), stopped.clone()].concat());
        corpus.steps(&[held.clone(), granted(kind), lost(1), stopped.clone(), again(1), heard(1)].concat());
    }
    // Both trains want segment 4, side by side: the lock of box 3 and its position go to train 2.
    with(corpus, [(0, &[2, 4]), (0, &[3, 4])]);
    let held = [asked(1, 1, 3), asked(1, 1, 4), asked(2, 1, 3)].concat();
    let given = [held.clone(), asked(7, 1, 3), vec![8, 1, 3, 3, 1, 0], lost(1), asked(1, 2, 3)].concat();
    with_fronts(corpus, &[given.clone(), asked(2, 2, 3), again(1), heard(1), asked(2, 1, 3)], 6);
    // The box has not heard of it: the lock stays until it has.
    let unheard = [held.clone(), vec![8, 1, 3], lost(1), asked(2, 2, 3), again(1), heard(1)].concat();
    with_fronts(corpus, &[unheard, asked(2, 2, 3)], 5);
    // The lock is free by then.
    with_fronts(corpus, &[given, again(1), heard(1)], 2);
    // Train 1 has left when the noes to train 2 are asked for anew.
    let refused = [held.clone(), vec![1, 2, 3, 3, 2, 0], lost(2), vec![5, 1, 0, 6, 1, 0], again(2), heard(2)].concat();
    with_fronts(corpus, &[refused], 3);
    let refused = [held, vec![2, 2, 3, 3, 2, 0], lost(2), again(2), vec![3, 2, 0], lost(2)].concat();
    with_fronts(corpus, &[refused, vec![5, 1, 0, 6, 1, 0], again(2), heard(2)], 5);
}

/// Made-up records of the start of table S and after steps of its list: lost messages of each kind with every step that
/// they can meet, and boxes that have granted already what they are asked for.
pub fn records(corpus: &mut Corpus) {
    corpus.file(S);
    corpus.steps(&[asked(1, 1, 2), asked(1, 1, 3), asked(2, 1, 2), vec![5, 1, 0]].concat());
    let next = |train: u8| [b'b', 1, 4, train];
    let locked = |train: u8| [b'b', 1, 2, train];
    let (sensor, turned) = ([b'b', 1, 0, 1], [b'b', 1, 1, 2]);
    let front = |train: u8| [b'b', 1, 3, train];
    let (near, far, own) = ([b't', 0, 4, 1], [b't', 0, 5, 1], [b't', 0, 6, 1]);
    let one = |kind: u8| -> Step { [kind, 1, 0] };
    let at_box = |kind: u8| -> Step { [kind, 1, 2] };
    for field in 10..14 {
        let message = [b'm', 0, field, 2];
        for bytes in [3, 4, 5, 6, 9, 10].map(one).into_iter().chain([1, 2, 7, 8].map(at_box)) {
            passing(corpus, &[message, next(2), locked(2)], bytes);
        }
        // Enter asks the train's records alone, and no message stops it.
        passing(corpus, &[message, near, far, own], one(5));
        for number in [0, 1, 4, 255] {
            failing(corpus, [b'm', 0, field, number]);
        }
        // A link, a border and the farther point have no lock to ask for.
        if field % 2 == 1 {
            failing(corpus, [b'm', 0, field, 3]);
        } else {
            passing(corpus, &[[b'm', 0, field, 3]], one(10));
        }
    }
    // A lock that the train has already is a yes before any check, and the position stays.
    let lock = [b'm', 0, 2, 2];
    for holder in [0, 2] {
        passing(corpus, &[lock, locked(1), turned, front(holder)], one(3));
        passing(corpus, &[lock, locked(1), turned, next(holder)], one(3));
    }
    for found in [vec![sensor], vec![sensor, front(2), next(2)]] {
        passing(corpus, &[&[lock, locked(1), turned], &found[..]].concat(), one(3));
    }
    passing(corpus, &[lock, locked(1), turned, next(1)], one(3));
    passing(corpus, &[lock, locked(0), turned, next(1)], one(3));
    // A reservation that it has already.
    passing(corpus, &[[b'm', 0, 1, 2], next(1), locked(2), sensor, turned], one(3));
    // Messages that are answered, yes and no, and none.
    for (field, code) in [(3, 0), (3, 22), (4, 0), (4, 23), (4, 24), (4, 25), (8, 0), (9, 0)] {
        for kind in [3, 9, 10] {
            passing(corpus, &[[b'm', 0, field, 2], [b'm', 0, 5, code]], one(kind));
        }
    }
    for (field, kind) in [1, 2, 6, 7].into_iter().flat_map(|field| [4, 9, 10].map(|kind| (field, kind))) {
        passing(corpus, &[[b'm', 0, field, 2]], one(kind));
    }
    passing(corpus, &[[b'm', 0, 0, 0]], one(9));
    passing(corpus, &[[b'm', 0, 0, 0]], one(10));
}

/// A step on the start line with changes that 27 lets through.
fn passing(corpus: &mut Corpus, changes: &[Change], bytes: Step) {
    let line = made_up_line(&corpus.line_after(0), changes).expect("this implementation has the record");
    assert_eq!(record_fault(&line), None, "{changes:?}");
    corpus.made_up(0, changes, bytes, Aim::Nothing);
}

/// A lost message that 27 stops.
fn failing(corpus: &mut Corpus, change: Change) {
    let aim = Aim::LostWrongBox;
    let line = made_up_line(&corpus.line_after(0), &[change]).expect("this implementation has the record");
    assert_eq!(record_fault(&line), aim.clause(), "{change:?}");
    corpus.made_up(0, &[change], [10, 1, 0], aim);
}
