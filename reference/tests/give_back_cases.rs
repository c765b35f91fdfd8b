//! Giving back, request 2 of the paper of changes, on table S; with both engines, and demand 3 after every step.

mod common;
use common::*;
use reference::atomic::{atomic_order, WholeLine};
use reference::line::*;
use reference::numbers::{recorded, train_numbers};
use reference::step::Step;
use reference::table::LINK;

/// Train 1 of `abreast` holds all that it needs.
fn all_held() -> Vec<(Step, u8)> {
    [ask(1, 1, 3, 0), ask(1, 1, 4, 0), ask(2, 1, 3, 0)].concat()
}

/// The box frees when it answers, not before; the train drops its record when it sends; another train gets it then.
#[test]
fn a_reservation_goes_to_another() {
    let table = opposed();
    let mut steps = ask(1, 1, 2, 0);
    let line = walk(&table, &steps);
    assert_eq!((line.reservation(2, 2), recorded(&line, 0)), (1, [true, false, false]));
    steps.push(([7, 1, 2], 0));
    let line = walk(&table, &steps);
    assert_eq!((line.reservation(2, 2), recorded(&line, 0)), (1, [false; 3]));
    assert_eq!(train_numbers(&line, 0)[7..], [1, 7, 2, 0]);
    // While it is under way, another's request is a no.
    let early = walk(&table, &[&steps[..], &ask(1, 2, 2, 22)].concat());
    assert_eq!(early.reservation(2, 2), 1);
    steps.push(([3, 1, 0], 0));
    let line = walk(&table, &steps);
    assert_eq!((line.reservation(2, 2), recorded(&line, 0)), (0, [false; 3]));
    assert_eq!(train_numbers(&line, 0)[7..], [2, 7, 2, 0]);
    // Once it is answered another may have it, heard or not.
    let unheard = walk(&table, &[&steps[..], &ask(1, 2, 2, 0)].concat());
    assert_eq!(unheard.reservation(2, 2), 2);
    steps.push(([4, 1, 0], 0));
    let line = walk(&table, &steps);
    assert_eq!((recorded(&line, 0), line.trains[0].message), ([false; 3], Message::None));
    let line = walk(&table, &[&steps[..], &ask(1, 2, 2, 0), &ask(1, 1, 2, 22)].concat());
    assert_eq!(line.reservation(2, 2), 2);
    // The front's reservation at the box stays.
    assert_eq!(line.reservation(1, 2), 1);
}

/// The lock of box 3 goes to train 2 when train 1 has given back segment 4 there and the lock, in either order: the
/// one alone leaves 25 or 24. Reservations stay with the lock's give-back, and the position stays.
#[test]
fn a_lock_goes_to_another() {
    let table = abreast();
    let line = walk(&table, &all_held());
    assert_eq!((line.boxes[2].lock, line.boxes[2].position), (1, 1));
    let sent = walk(&table, &[&all_held()[..], &[([8, 1, 3], 0)]].concat());
    assert_eq!((sent.boxes[2].lock, recorded(&sent, 0)), (1, [true, true, false]));
    assert_eq!(train_numbers(&sent, 0)[7..], [1, 8, 3, 0]);
    let unlocked = [all_held(), ask(8, 1, 3, 0)].concat();
    let line = walk(&table, &unlocked);
    assert_eq!((line.boxes[2].lock, line.boxes[2].position, recorded(&line, 0)), (0, 1, [true, true, false]));
    assert_eq!((line.reservation(2, 3), line.reservation(4, 3), line.reservation(4, 4)), (1, 1, 1));
    let lock_first = [unlocked, ask(1, 2, 3, 22), ask(2, 2, 3, 25), ask(7, 1, 3, 0)].concat();
    let lock_last = [all_held(), ask(7, 1, 3, 0), ask(1, 2, 3, 0), ask(2, 2, 3, 24), ask(8, 1, 3, 0)].concat();
    for steps in [[lock_first, ask(1, 2, 3, 0)].concat(), lock_last] {
        let steps = [steps, ask(2, 2, 3, 0)].concat();
        let line = walk(&table, &steps);
        assert_eq!((line.boxes[2].lock, line.boxes[2].position), (2, 2));
        // Segment 4 at its far end is still train 1's.
        let rest = [ask(1, 2, 4, 22), ask(7, 1, 4, 0), ask(1, 2, 4, 0), vec![([5, 2, 0], 0)]].concat();
        let line = walk(&table, &[steps, rest].concat());
        assert_eq!((line.trains[1].front_segment(), line.trains[1].tail_segment()), (4, 3));
    }
}

#[test]
fn nothing_to_give_back() {
    let table = opposed();
    walk(&table, &[([7, 1, 2], 29), ([7, 1, 3], 29), ([8, 1, 2], 29)]);
    // One end does not stand for the other, nor a reservation for the lock.
    walk(&table, &[&ask(1, 1, 2, 0)[..], &[([7, 1, 3], 29), ([8, 1, 2], 29)]].concat());
    // Granted and not heard is not recorded; it is open.
    walk(&table, &[([1, 1, 2], 0), ([3, 1, 0], 0), ([7, 1, 2], 15)]);
    // Refused is not recorded.
    walk(&table, &[&ask(1, 1, 2, 0)[..], &ask(1, 2, 2, 22), &[([7, 2, 2], 29)]].concat());
    // Given back once is all.
    walk(&table, &[&ask(1, 1, 2, 0)[..], &ask(7, 1, 2, 0), &[([7, 1, 2], 29)]].concat());
}

/// 15 with anything open, a give-back among it, before 16 and 17.
#[test]
fn one_message_at_a_time() {
    let table = opposed();
    let steps = [ask(1, 1, 2, 0), ask(1, 1, 3, 0)].concat();
    for open in [vec![([7, 1, 2], 0)], vec![([7, 1, 2], 0), ([3, 1, 0], 0)]] {
        let steps = [steps.clone(), open].concat();
        for kind in [1, 2, 7, 8] {
            for number in [0, 2, 3, 255] {
                walk(&table, &[&steps[..], &[([kind, 1, number], 15)]].concat());
            }
        }
        // The other end is recorded still, and Enter lacks this one.
        walk(&table, &[&steps[..], &[([5, 1, 0], 19)]].concat());
    }
    walk(&table, &[([7, 1, 2], 29), ([3, 1, 0], 21), ([4, 1, 0], 21)]);
    walk(&table, &[&steps[..], &[([7, 1, 2], 0), ([4, 1, 0], 21), ([3, 1, 0], 0), ([3, 1, 0], 21)]].concat());
}

#[test]
fn at_the_end_of_a_route() {
    let table = s_with(&[(0, &[1]), (1, &[4, 3, 1])]);
    for number in [0, 1, 2, 255] {
        walk(&table, &[([7, 1, number], 16), ([8, 1, number], 16)]);
    }
}

/// 17 comes before 29, whatever is recorded.
#[test]
fn at_another_box() {
    let table = opposed();
    let all = [ask(1, 1, 2, 0), ask(1, 1, 3, 0), ask(2, 1, 2, 0)].concat();
    for number in (0..=255).filter(|number| !matches!(number, 2 | 3)) {
        walk(&table, &[([7, 1, number], 17), ([8, 1, number], 17)]);
    }
    for steps in [vec![], all.clone()] {
        walk(&table, &[&steps[..], &[([8, 1, 3], 17), ([7, 1, 1], 17), ([7, 1, 4], 17)]].concat());
    }
    // Crossing box 2, train 1 has its lock recorded; it is not the box ahead. Nor is segment 2 its next.
    let crossing = [&all[..], &[([5, 1, 0], 0)]].concat();
    walk(&table, &[&crossing[..], &[([8, 1, 2], 17), ([7, 1, 2], 17), ([7, 1, 3], 29), ([8, 1, 3], 29)]].concat());
    // A link has no lock.
    let mut linked = s_with(&[(0, &[1, 2])]);
    linked.segments = segments(&[[1, 2], [2, 3]]);
    linked.boxes = boxes(&[[0, 1, 0, 0, 0], [LINK, 1, 2, 0, 0], [0, 2, 0, 0, 0]]);
    walk(&linked, &[([8, 1, 2], 17), ([7, 1, 2], 29)]);
    walk(&linked, &[&ask(1, 1, 2, 0)[..], &[([8, 1, 2], 17)], &ask(7, 1, 2, 0)].concat());
}

/// What was given back can be asked for again, with all that follows.
#[test]
fn asked_for_again() {
    let table = opposed();
    let all = [ask(1, 1, 2, 0), ask(1, 1, 3, 0), ask(2, 1, 2, 0)].concat();
    for (kind, back, number) in [(1, 7, 2), (1, 7, 3), (2, 8, 2)] {
        let steps = [&all[..], &[([kind, 1, number], 18)], &ask(back, 1, number, 0), &[([5, 1, 0], 19)]].concat();
        let steps = [&steps[..], &ask(kind, 1, number, 0), &[([kind, 1, number], 18), ([5, 1, 0], 0)]].concat();
        let line = walk(&table, &steps);
        assert_eq!((line.trains[0].front_segment(), line.trains[0].tail_segment()), (2, 1));
    }
}

/// A crossing train may give back what it holds of the segment after its front.
#[test]
fn while_crossing() {
    let table = s_with(&[(0, &[1, 2, 4])]);
    let entered = [ask(1, 1, 2, 0), ask(1, 1, 3, 0), ask(2, 1, 2, 0), vec![([5, 1, 0], 0)]].concat();
    let ahead = [ask(1, 1, 3, 0), ask(1, 1, 4, 0), ask(2, 1, 3, 0), ask(8, 1, 3, 0), ask(7, 1, 4, 0)].concat();
    let line = walk(&table, &[&entered[..], &ahead, &[([6, 1, 0], 0), ([5, 1, 0], 19)]].concat());
    assert_eq!((line.reservation(2, 3), line.reservation(4, 3), line.reservation(4, 4)), (1, 1, 0));
    assert_eq!(recorded(&line, 0), [true, false, false]);
}

/// Kinds 11 and above are 13, whatever train and box; a box byte is well formed in kinds 7 and 8, and 14 comes next.
#[test]
fn kinds() {
    let table = opposed();
    for kind in (11..=255).chain([0]) {
        walk(&table, &[([kind, 1, 0], 13), ([kind, 1, 2], 13), ([kind, 0, 0], 13)]);
    }
    for number in [0, 2, 255] {
        walk(&table, &[([7, 0, number], 14), ([8, 0, number], 14), ([7, 3, number], 14), ([8, 255, number], 14)]);
    }
}

/// The order has a give-back where the box answers it, and the atomic line takes it.
#[test]
fn in_the_order() {
    let table = opposed();
    let sent = [ask(1, 1, 2, 0), vec![([7, 1, 2], 0)], ask(1, 2, 2, 22)].concat();
    let steps = [sent, vec![([3, 1, 0], 0)], ask(1, 2, 2, 0)].concat();
    walk(&table, &steps);
    let order = atomic_order(&steps);
    assert_eq!(order, [[1, 1, 2], [7, 1, 2], [1, 2, 2]]);
    let mut whole = WholeLine::start(&table);
    assert!(order.iter().all(|&step| whole.take(step) == 0));
    assert_eq!(whole.boxes[1].holders, [1, 2, 0]);
    // Stopped ones change nothing.
    let before = whole.clone();
    for (step, code) in [([7, 1, 2], 29), ([8, 1, 2], 29), ([7, 1, 4], 17), ([8, 1, 3], 17), ([9, 1, 2], 13)] {
        assert_eq!((whole.take(step), &whole), (code, &before));
    }
    let single = s_with(&[(0, &[1])]);
    let mut short = WholeLine::start(&single);
    assert_eq!([short.take([7, 1, 1]), short.take([8, 1, 2])], [16, 16]);
}

/// Made-up records: what is free or another's stays as it is, and the answer is a yes.
#[test]
fn only_its_own() {
    for (wish, number) in [(Wish::ReservationBack, 2), (Wish::ReservationBack, 3), (Wish::LockBack, 2)] {
        for holder in 0..=2 {
            let mut line = start_line(&opposed());
            line.boxes[1].reserved = [holder; 3];
            line.boxes[2].reserved = [holder; 3];
            line.boxes[1].lock = holder;
            line.trains[0].message = Message::Sent(Request { wish, number });
            let mut due = line.boxes.clone();
            match wish {
                _ if holder != 1 => {}
                Wish::LockBack => due[1].lock = 0,
                // Segment 2 is left at both boxes.
                _ => due[number as usize - 1].reserved[1] = 0,
            }
            go_on(&mut line, &[([3, 1, 0], 0)]);
            assert_eq!(line.boxes, due);
            go_on(&mut line, &[([4, 1, 0], 0)]);
            assert_eq!((&line.boxes, recorded(&line, 0)), (&due, [false; 3]));
        }
    }
}
