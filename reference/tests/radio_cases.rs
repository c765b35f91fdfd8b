//! Messages that are lost and sent again, request 5 of the paper of changes, on table S; with both engines, and demand 3
//! after every step.

mod common;
use common::*;
use reference::atomic::{atomic_order, WholeLine};
use reference::line::*;
use reference::line_check::{record_fault, RecordFault};
use reference::numbers::{recorded, train_numbers};
use reference::record::Record;
use reference::step::Step;
use reference::table_read::read_table;

/// Lists of steps one after the other.
fn all(parts: &[&[(Step, u8)]]) -> Vec<(Step, u8)> {
    parts.concat()
}

/// A message that is sent, and what becomes of it before it is lost: nothing, a yes, a no. Each is for train 1.
fn lost_ways() -> [(Vec<(Step, u8)>, Request); 7] {
    let near = ask(1, 1, 2, 0);
    let held = all(&[&near, &ask(2, 1, 2, 0)]);
    let (sent, yes) = (|kind| vec![([kind, 1, 2], 0), ([9, 1, 0], 0)], |kind, code| {
        vec![([kind, 1, 2], 0), ([3, 1, 0], code), ([9, 1, 0], 0)]
    });
    let request = |wish| Request { wish, number: 2 };
    [
        (sent(1), request(Wish::Reservation)),
        (yes(1, 0), request(Wish::Reservation)),
        (all(&[&ask(1, 2, 2, 0), &yes(1, 22)]), request(Wish::Reservation)),
        (all(&[&near, &yes(2, 0)]), request(Wish::Lock)),
        (yes(2, 25), request(Wish::Lock)),
        (all(&[&held, &sent(7)]), request(Wish::ReservationBack)),
        (all(&[&held, &yes(8, 0)]), request(Wish::LockBack)),
    ]
}

/// Lost before the box heard it, a reservation is sent again and granted.
#[test]
fn a_request_is_lost() {
    let table = opposed();
    let sent = [([1, 1, 2], 0), ([9, 1, 0], 0)];
    let line = walk(&table, &sent);
    assert_eq!((line.reservation(2, 2), train_numbers(&line, 0)[7..].to_vec()), (0, vec![3, 1, 2, 0]));
    let again = all(&[&sent, &[([10, 1, 0], 0)]]);
    let line = walk(&table, &again);
    assert_eq!(train_numbers(&line, 0)[7..], [1, 1, 2, 0]);
    let steps = all(&[&again, &[([3, 1, 0], 0), ([4, 1, 0], 0)]]);
    let line = walk(&table, &steps);
    assert_eq!((line.reservation(2, 2), recorded(&line, 0)), (1, [true, false, false]));
    assert_eq!(atomic_order(&steps), [[1, 1, 2]]);
    // While it was lost, another train could have had the segment.
    let late = all(&[&sent, &ask(1, 2, 2, 0), &[([10, 1, 0], 0), ([3, 1, 0], 22), ([4, 1, 0], 22)]]);
    assert_eq!(walk(&table, &late).reservation(2, 2), 2);
    assert_eq!(atomic_order(&late), [[1, 2, 2]]);
}

/// Granted, and the yes lost: sent again it is a yes, however often, the box is as it was, and the order has it once.
#[test]
fn a_yes_is_lost() {
    let table = opposed();
    for times in 1..4 {
        let granted = [([1, 1, 2], 0), ([3, 1, 0], 0)];
        let before = walk(&table, &granted);
        let again = [([9, 1, 0], 0), ([10, 1, 0], 0), ([3, 1, 0], 0)].repeat(times);
        let line = walk(&table, &all(&[&granted, &again[..3 * times - 2]]));
        assert_eq!((&line.boxes, recorded(&line, 0)), (&before.boxes, [false; 3]));
        // The box holds it for train 1 all the while.
        let other = walk(&table, &all(&[&granted, &again[..3 * times - 2], &ask(1, 2, 2, 22)]));
        assert_eq!(other.reservation(2, 2), 1);
        let steps = all(&[&granted, &again]);
        assert_eq!(walk(&table, &steps), before);
        let steps = all(&[&steps, &[([4, 1, 0], 0)]]);
        let line = walk(&table, &steps);
        assert_eq!((&line.boxes, recorded(&line, 0)), (&before.boxes, [true, false, false]));
        assert_eq!(atomic_order(&steps), [[1, 1, 2]]);
    }
}

/// The same for a lock, whose position stays.
#[test]
fn a_yes_to_a_lock_is_lost() {
    let table = s_with(&[(0, &[1, 3, 4]), (1, &[4, 2, 1])]);
    let granted = all(&[&ask(1, 1, 2, 0), &[([2, 1, 2], 0), ([3, 1, 0], 0)]]);
    let before = walk(&table, &granted);
    assert_eq!((before.boxes[1].lock, before.boxes[1].position), (1, 2));
    let steps = all(&[&granted, &[([9, 1, 0], 0), ([5, 1, 0], 19), ([10, 1, 0], 0), ([3, 1, 0], 0), ([4, 1, 0], 0)]]);
    let line = walk(&table, &steps);
    assert_eq!((&line.boxes, recorded(&line, 0)), (&before.boxes, [true, false, true]));
    assert_eq!(atomic_order(&steps), [[1, 1, 2], [2, 1, 2]]);
    // With the other position at the box, which no steps bring about, it stays too.
    let mut line = before;
    line.trains[0].message = Message::Sent(Request { wish: Wish::Lock, number: 2 });
    line.boxes[1].position = 1;
    let mut quick = Record::of(&line).fast_line();
    let boxes = line.boxes.clone();
    go_on(&mut line, &[([3, 1, 0], 0)]);
    assert_eq!((quick.step_checked([3, 1, 0]), &line.boxes), (0, &boxes));
    assert!(same(&line, &quick));
}

/// A no that was lost is no answer: sent again when the other train has left, the request is granted, and stands in the
/// order there.
#[test]
fn a_no_is_lost() {
    let table = abreast();
    let held = all(&[&ask(1, 1, 3, 0), &ask(1, 1, 4, 0), &ask(2, 1, 3, 0)]);
    let refused = all(&[&held, &[([1, 2, 3], 0), ([3, 2, 0], 22), ([9, 2, 0], 0)]]);
    let again = [([10, 2, 0], 0), ([3, 2, 0], 22), ([9, 2, 0], 0)];
    let passed = [([5, 1, 0], 0), ([6, 1, 0], 0)];
    let steps = all(&[&refused, &again, &passed, &[([10, 2, 0], 0), ([3, 2, 0], 0), ([4, 2, 0], 0)]]);
    let line = walk(&table, &steps);
    assert_eq!((line.reservation(4, 3), recorded(&line, 1)), (2, [true, false, false]));
    assert_eq!(atomic_order(&steps), [[1, 1, 3], [1, 1, 4], [2, 1, 3], [5, 1, 0], [6, 1, 0], [1, 2, 3]]);
}

/// A give-back that the box has not heard leaves all with the train until it is sent again.
#[test]
fn a_give_back_is_lost() {
    let table = opposed();
    let sent = all(&[&ask(1, 1, 2, 0), &[([7, 1, 2], 0), ([9, 1, 0], 0)]]);
    let line = walk(&table, &all(&[&sent, &ask(1, 2, 2, 22)]));
    assert_eq!((line.reservation(2, 2), recorded(&line, 0)), (1, [false; 3]));
    assert_eq!(train_numbers(&line, 0)[7..], [3, 7, 2, 0]);
    let steps = all(&[&sent, &[([10, 1, 0], 0), ([3, 1, 0], 0), ([4, 1, 0], 0)], &ask(1, 2, 2, 0)]);
    let line = walk(&table, &steps);
    assert_eq!((line.reservation(2, 2), recorded(&line, 0)), (2, [false; 3]));
    assert_eq!(atomic_order(&steps), [[1, 1, 2], [7, 1, 2], [1, 2, 2]]);
}

/// The yes to a give-back is lost, and train 2 takes segment 2 and goes onto it. Sent again, the give-back is a yes, and
/// train 2 keeps what it has: train 1 is refused the segment at both ends, and may not enter.
#[test]
fn anothers_by_now() {
    let table = opposed();
    let lost = all(&[&ask(1, 1, 2, 0), &[([7, 1, 2], 0), ([3, 1, 0], 0), ([9, 1, 0], 0)]]);
    assert_eq!(walk(&table, &lost).reservation(2, 2), 0);
    let onto = all(&[&ask(1, 2, 3, 0), &ask(1, 2, 2, 0), &ask(2, 2, 3, 0), &[([5, 2, 0], 0)]]);
    let before = walk(&table, &all(&[&lost, &onto]));
    assert_eq!((before.trains[1].front_segment(), before.trains[1].tail_segment()), (2, 4));
    let again = all(&[&lost, &onto, &[([10, 1, 0], 0), ([3, 1, 0], 0), ([4, 1, 0], 0)]]);
    let line = walk(&table, &again);
    assert_eq!((&line.boxes, line.reservation(2, 2), line.reservation(2, 3)), (&before.boxes, 2, 2));
    let steps = all(&[&again, &ask(1, 1, 2, 22), &ask(1, 1, 3, 22), &[([5, 1, 0], 19)]]);
    assert_eq!(walk(&table, &steps).boxes, before.boxes);
    let onto = [[1, 2, 3], [1, 2, 2], [2, 2, 3], [5, 2, 0]];
    assert_eq!(atomic_order(&steps), [&[[1, 1, 2], [7, 1, 2]], &onto[..]].concat());
}

/// The same for a lock, which train 2 gets with the other position.
#[test]
fn anothers_lock_by_now() {
    let table = abreast();
    let held = all(&[&ask(1, 1, 3, 0), &ask(1, 1, 4, 0), &ask(2, 1, 3, 0), &ask(7, 1, 3, 0)]);
    let lost = all(&[&held, &[([8, 1, 3], 0), ([3, 1, 0], 0), ([9, 1, 0], 0)]]);
    let taken = all(&[&lost, &ask(1, 2, 3, 0), &ask(2, 2, 3, 0)]);
    let before = walk(&table, &taken);
    assert_eq!((before.boxes[2].lock, before.boxes[2].position), (2, 2));
    let again = all(&[&taken, &[([10, 1, 0], 0), ([3, 1, 0], 0), ([4, 1, 0], 0)]]);
    assert_eq!(walk(&table, &again).boxes, before.boxes);
    walk(&table, &all(&[&again, &ask(2, 1, 3, 24), &ask(1, 1, 3, 22)]));
}

/// Nothing to lose: no message, or a lost one. Nothing to send again: no message, or one under way.
#[test]
fn nothing_to_lose_or_to_repeat() {
    let table = opposed();
    walk(&table, &[([9, 1, 0], 30), ([10, 1, 0], 30), ([9, 2, 0], 30), ([10, 2, 0], 30)]);
    walk(&table, &[([1, 1, 2], 0), ([10, 1, 0], 30), ([3, 1, 0], 0), ([10, 1, 0], 30)]);
    walk(&table, &all(&[&ask(1, 1, 2, 0), &[([9, 1, 0], 30), ([10, 1, 0], 30)]]));
    let refused = all(&[&ask(1, 1, 2, 0), &[([1, 2, 2], 0), ([3, 2, 0], 22), ([10, 2, 0], 30)]]);
    walk(&table, &all(&[&refused, &[([4, 2, 0], 22), ([9, 2, 0], 30), ([10, 2, 0], 30)]]));
    for (steps, _) in lost_ways() {
        let again = [([9, 1, 0], 30), ([9, 1, 0], 30), ([10, 1, 0], 0), ([10, 1, 0], 30), ([9, 1, 0], 0)];
        walk(&table, &all(&[&steps, &again, &[([10, 1, 0], 0), ([10, 1, 0], 30)]]));
        // The other train's message is none of it.
        walk(&table, &all(&[&steps, &[([9, 2, 0], 30), ([10, 2, 0], 30)]]));
    }
}

/// A lost message is open: 15 for every request and give-back, whatever box they name; 21 for kinds 3 and 4.
#[test]
fn while_it_is_lost() {
    let table = opposed();
    for (steps, request) in lost_ways() {
        let line = walk(&table, &steps);
        assert_eq!(line.trains[0].message, Message::Lost(request));
        assert_eq!(train_numbers(&line, 0)[7..], [3, request.wish as u8, 2, 0]);
        for number in [0, 2, 3, 4, 255] {
            let asked = [1, 2, 7, 8].map(|kind| ([kind, 1, number], 15));
            assert_eq!(walk(&table, &all(&[&steps, &asked])), line);
        }
        let others = [([3, 1, 0], 21), ([4, 1, 0], 21), ([5, 1, 0], 19), ([6, 1, 0], 20)];
        assert_eq!(walk(&table, &all(&[&steps, &others])), line);
    }
}

/// A crossing train clears with its message lost, which is then sent again.
#[test]
fn while_crossing() {
    let table = s_with(&[(0, &[1, 2, 4])]);
    let entered = all(&[&ask(1, 1, 2, 0), &ask(1, 1, 3, 0), &ask(2, 1, 2, 0), &[([5, 1, 0], 0)]]);
    let lost = [([1, 1, 3], 0), ([3, 1, 0], 0), ([9, 1, 0], 0), ([6, 1, 0], 0)];
    let line = walk(&table, &all(&[&entered, &lost, &[([10, 1, 0], 0), ([3, 1, 0], 0), ([4, 1, 0], 0)]]));
    assert_eq!((recorded(&line, 0), line.reservation(4, 3)), ([true, false, false], 1));
}

/// 13 with a box byte, before 14, and 14 before 30.
#[test]
fn kinds() {
    let table = opposed();
    for kind in [9, 10] {
        for number in 1..=255 {
            walk(&table, &[([kind, 1, number], 13), ([kind, 0, number], 13), ([kind, 3, number], 13)]);
        }
        walk(&table, &[([kind, 0, 0], 14), ([kind, 3, 0], 14), ([kind, 255, 0], 14), ([kind, 1, 0], 30)]);
    }
    // Nor is a message lost or sent again by a step that is refused so.
    walk(&table, &[([1, 1, 2], 0), ([9, 1, 2], 13), ([9, 1, 0], 0), ([10, 1, 2], 13), ([10, 1, 0], 0), ([3, 1, 0], 0)]);
    walk(&table, &[([11, 1, 0], 13), ([12, 1, 0], 13), ([255, 1, 0], 13)]);
}

/// 27 asks 16 and 17 of a lost message, as of a sent one.
#[test]
fn lost_messages_in_a_record() {
    for wish in WISHES {
        for number in 0..=5 {
            let mut line = start_line(&read_table(&S).unwrap());
            let message = |lost: bool| {
                let request = Request { wish, number };
                if lost { Message::Lost(request) } else { Message::Sent(request) }
            };
            let fits = number == 2 || (number == 3 && !wish.of_lock());
            let faults = [false, true].map(|lost| {
                line.trains[0].message = message(lost);
                let mut quick = Record::of(&line).fast_line();
                assert_eq!(quick.step_checked([10, 1, 0]) == 27, !fits);
                record_fault(&line)
            });
            assert_eq!(faults, [if fits { None } else { Some(RecordFault::Message) }; 2]);
            // Train 1 at the end of its route has no next.
            line.trains[0].front = 2;
            assert_eq!(record_fault(&line), Some(RecordFault::Message));
            assert_eq!(Record::of(&line).fast_line().step_checked([10, 1, 0]), 27);
        }
    }
}

/// On the atomic line too, what a box holds for the train already is a yes, and changes its record alone.
#[test]
fn granted_already_on_the_atomic_line() {
    let table = opposed();
    let mut whole = WholeLine::start(&table);
    whole.boxes[1].holders = [2, 1, 2];
    whole.boxes[1].lock = 1;
    whole.boxes[1].position = 2;
    whole.boxes[1].sensor = true;
    let boxes = whole.boxes.clone();
    assert_eq!([whole.take([1, 1, 2]), whole.take([2, 1, 2])], [0, 0]);
    assert_eq!(whole.boxes, boxes);
    assert_eq!([whole.take([1, 1, 2]), whole.take([2, 1, 2])], [18, 18]);
    // Kinds 9 and 10 are none of it.
    assert_eq!([whole.take([9, 1, 0]), whole.take([10, 1, 0])], [13, 13]);
}
