//! Changes after which a record most often still passes code 27: of messages, boxes, places and routes, and of what
//! a record does not use.

use super::prng::Prng;
use crate::line::*;
use crate::numbers::ends_of_next;
use crate::record::Change;
use crate::step_request::is_point;
use crate::table::*;

/// Some changes after which the record most often still passes, about a train and the boxes around it
/// or about what a record does not use.
pub fn harmless(rng: &mut Prng, line: &Line) -> Vec<Change> {
    let k = line.trains.len();
    let mut all = Vec::new();
    if k == 0 {
        return all;
    }
    let i = rng.below(k);
    for _ in 0..rng.between(1, 4) {
        match rng.below(10) {
            0..=3 => all.push(box_change(rng, line, i)),
            4 | 5 => {
                let wish = rng.pick(&WISHES);
                all.extend(message_change(rng, line, i, wish));
            }
            6 | 7 => all.push([b't', i as u8, rng.between(4, 6) as u8, rng.below(2) as u8]),
            8 => all.extend(place_changes(rng, line, i)),
            _ => all.extend(unused_change(rng, line)),
        }
    }
    match rng.below(10) {
        0 => all.extend(other_route(rng, line, i)),
        1 => all.extend(one_train_less(line)),
        _ => {}
    }
    all
}

/// A sensor, a position, a lock or a holder, most often of a box that the train has to do with.
fn box_change(rng: &mut Prng, line: &Line, i: usize) -> Change {
    let number = match ends_of_next(line, i) {
        Some((_, near, far, _)) if rng.chance(80) => rng.pick(&[near, near, far]),
        _ => rng.between(1, line.boxes.len()) as u8,
    };
    let any = rng.between(1, line.trains.len()) as u8;
    let holder = rng.pick(&[0, i as u8 + 1, i as u8 + 1, any]);
    let point = is_point(line, number);
    let (field, value) = match rng.below(6) {
        0 => (0, rng.below(2) as u8),
        1 if point => (1, rng.between(1, 2) as u8),
        1 | 2 => (2, holder),
        place => (place as u8, holder),
    };
    [b'b', number - 1, field, value]
}

/// What has become of a message that a change gives to a train.
#[derive(Clone, Copy, Debug, PartialEq, Eq)]
pub enum Stage {
    Sent,
    /// With a yes.
    Answered,
    Lost,
}

/// The change that gives a train such a message.
pub fn message_field(train: u8, wish: Wish, stage: Stage, number: u8) -> Change {
    let fields = match wish {
        Wish::Reservation => [1, 3, 10],
        Wish::Lock => [2, 4, 11],
        Wish::ReservationBack => [6, 8, 12],
        Wish::LockBack => [7, 9, 13],
    };
    [b'm', train, fields[stage as usize], number]
}

/// A message that 16 and 17 let through, with a code that its box gives. One about a lock is about a reservation where
/// the box ahead is no point.
pub fn message_change(rng: &mut Prng, line: &Line, i: usize, wish: Wish) -> Vec<Change> {
    let t = i as u8;
    let Some((_, near, far, ahead)) = ends_of_next(line, i) else {
        return vec![[b'm', t, 0, 0]];
    };
    let point = is_point(line, ahead);
    let wish = match wish {
        Wish::Lock if !point => Wish::Reservation,
        Wish::LockBack if !point => Wish::ReservationBack,
        _ => wish,
    };
    let number = if wish.of_lock() { ahead } else { rng.pick(&[near, far]) };
    let no = match wish {
        Wish::Reservation => rng.pick(&[22, 31]),
        Wish::Lock => rng.between(23, 25) as u8,
        Wish::ReservationBack | Wish::LockBack => 0,
    };
    match rng.below(6) {
        0 | 1 => vec![message_field(t, wish, Stage::Sent, number)],
        2 if no != 0 => vec![message_field(t, wish, Stage::Answered, number), [b'm', t, 5, no]],
        2 | 3 => vec![message_field(t, wish, Stage::Answered, number)],
        _ => vec![message_field(t, wish, Stage::Lost, number)],
    }
}

/// Another place on the route, single or crossing, with no message.
fn place_changes(rng: &mut Prng, line: &Line, i: usize) -> Vec<Change> {
    let t = i as u8;
    let place = rng.between(1, line.trains[i].route.len()) as u8;
    let covered = rng.between(1, 2).min(place as usize) as u8;
    vec![[b't', t, 2, place], [b't', t, 3, covered], [b'm', t, 0, 0]]
}

/// A change of a record that the line does not use, beyond n, m, k or a route.
fn unused_change(rng: &mut Prng, line: &Line) -> Option<Change> {
    let (n, m, k) = (line.table.segments.len(), line.boxes.len(), line.trains.len());
    let value = rng.byte();
    let i = rng.below(k);
    let route = line.trains[i].route.len();
    let planned = line.table.trains[i].route.len();
    match rng.below(6) {
        0 if n < MAX_SEGMENTS => Some([b's', n as u8, rng.below(3) as u8, value]),
        1 if m < MAX_BOXES => Some([b'p', m as u8, 0, value]),
        2 if m < MAX_BOXES => Some([b'b', m as u8, 2, value]),
        3 if k < MAX_TRAINS => Some([b't', k as u8, 3, value]),
        4 if route < MAX_ROUTE => Some([b'R', i as u8, route as u8, value]),
        5 if planned < MAX_ROUTE => Some([b'r', i as u8, planned as u8, value]),
        _ => None,
    }
}

/// The route and direction of another train, from its beginning, with no message.
fn other_route(rng: &mut Prng, line: &Line, i: usize) -> Vec<Change> {
    let t = i as u8;
    let other = &line.trains[rng.below(line.trains.len())];
    let length = other.route.len().min(8);
    let mut all = vec![[b't', t, 0, other.direction], [b't', t, 1, length as u8]];
    all.extend((0..length).map(|p| [b'R', t, p as u8, other.route[p]]));
    all.extend([[b't', t, 2, 1], [b't', t, 3, 1], [b'm', t, 0, 0]]);
    all
}

/// The last train is no longer there, and holds nothing.
fn one_train_less(line: &Line) -> Vec<Change> {
    let last = line.trains.len() as u8;
    let mut all = vec![[b'h', 0, 4, last - 1]];
    for (b, state) in line.boxes.iter().enumerate() {
        let [stem, left, right] = state.reserved;
        for (field, holder) in [(2, state.lock), (3, stem), (4, left), (5, right)] {
            if holder == last {
                all.push([b'b', b as u8, field, 0]);
            }
        }
    }
    all
}
