//! Made-up records: changes of a line that steps have reached, directed at one clause of code 27 or
//! at none. What comes out has to be looked at: a change may miss its aim.

pub use super::aim::{Aim, AIMS};
use super::harmless::{harmless, message_change, message_field, Stage};
use super::lock_asked::{Holder, LockAsked};
use super::prng::Prng;
use super::ways::{fits_way, starts_against, table_way_changes, way_asked};
use crate::line::*;
use crate::numbers::ends_of_next;
use crate::record::Change;
use crate::step::Step;
use crate::step_request::is_point;
use crate::table::*;

/// Changes of the line for an aim; `None` where it has nothing to change for it. At most one field
/// is at fault, but where a fault needs more.
pub fn changes(rng: &mut Prng, line: &Line, aim: Aim) -> Option<Vec<Change>> {
    match aim {
        Aim::WayInVersion1 | Aim::WayAboveTwo | Aim::Table(32) => return table_way_changes(rng, &line.table, aim),
        Aim::Table(code) => return table_changes(rng, &line.table, code),
        _ => {}
    }
    let m = line.boxes.len();
    let k = line.trains.len();
    let b = rng.below(m) as u8;
    let above = rng.pick(&[k as u8 + 1, 255]);
    if let Some(field) = match aim {
        Aim::LockHolder => Some(2),
        Aim::StemHolder => Some(3),
        Aim::LeftHolder => Some(4),
        Aim::RightHolder => Some(5),
        _ => None,
    } {
        return Some(vec![[b'b', b, field, above]]);
    }
    if aim == Aim::Position {
        let wrong: &[u8] = match line.table.boxes[b as usize].kind {
            POINT => &[0, 3, 255],
            _ => &[1, 2, 255],
        };
        return Some(vec![[b'b', b, 1, rng.pick(wrong)]]);
    }
    match aim {
        Aim::Nothing => return Some(harmless(rng, line)),
        Aim::LockAsked => {
            let asked = rng.pick(&LockAsked::all());
            return lock_changes(rng, line, asked);
        }
        _ => {}
    }
    let i = fitting_train(rng, line, aim)?;
    Some(train_changes(rng, line, i, aim))
}

/// A train that the aim can be had of, if there is one.
fn fitting_train(rng: &mut Prng, line: &Line, aim: Aim) -> Option<usize> {
    let fitting: Vec<usize> = (0..line.trains.len()).filter(|&i| fits(line, i, aim)).collect();
    fitting.get(rng.below(fitting.len())).copied()
}

/// A train before a point has asked for its lock, and this is what the box finds; `None` where no train is before a
/// point, or where there is no other train to hold something.
pub fn lock_changes(rng: &mut Prng, line: &Line, asked: LockAsked) -> Option<Vec<Change>> {
    let i = fitting_train(rng, line, Aim::LockAsked)?;
    let (next, _, _, ahead) = ends_of_next(line, i)?;
    let plan = line.table.switch_box(ahead)?;
    let (front_place, next_place) = (plan.place_of(line.trains[i].front_segment())?, plan.place_of(next)?);
    let me = i as u8 + 1;
    let others: Vec<u8> = (1..=line.trains.len() as u8).filter(|&train| train != me).collect();
    let mut held = |field: usize, holder: Holder| {
        let train = match holder {
            Holder::Nobody => 0,
            Holder::Asker => me,
            Holder::Another => *others.get(rng.below(others.len()))?,
        };
        Some([b'b', ahead - 1, field as u8, train])
    };
    Some(vec![
        message_field(i as u8, Wish::Lock, Stage::Sent, ahead),
        [b'b', ahead - 1, 0, u8::from(asked.sensor)],
        held(2, asked.lock)?,
        held(3 + front_place, asked.front)?,
        held(3 + next_place, asked.next)?,
    ])
}

/// Whether the train is one that the aim can be had of, with nothing else at fault.
fn fits(line: &Line, i: usize, aim: Aim) -> bool {
    let train = &line.trains[i];
    let idle = train.message == Message::None;
    match aim {
        // Another direction is read as back, so that the route still follows then.
        Aim::Direction => idle && (train.direction == 1 || train.route.len() == 1),
        Aim::Route => !free_places(train).is_empty(),
        Aim::Jump(direction) => train.direction == direction && !free_places(train).is_empty(),
        Aim::PlaceBeyond => idle && train.covered == 1,
        Aim::PlaceZero | Aim::Length => idle,
        Aim::TailOutside => train.front == 0,
        Aim::CoversThree => idle && train.route.len() >= 3,
        Aim::WrongBox | Aim::AnswerCode | Aim::BackWrongBox(_) | Aim::BackCode(_) => train.next_segment().is_some(),
        Aim::LostWrongBox | Aim::ReservedAsked | Aim::BackOfNone(7) | Aim::LostWaits => train.next_segment().is_some(),
        Aim::WayHeard | Aim::WayCode(7) => train.next_segment().is_some(),
        Aim::WayAsked(2) if line.trains.len() < 2 => false,
        Aim::WayAsked(_) | Aim::StartsAgainst => fits_way(line, i, aim),
        Aim::LockAsked | Aim::LockHeard(_) | Aim::BackOfNone(_) | Aim::WayCode(_) => {
            ends_of_next(line, i).is_some_and(|(.., ahead)| is_point(line, ahead))
        }
        _ => true,
    }
}

/// The places of a route, from 0, of which no message speaks.
fn free_places(train: &TrainState) -> Vec<u8> {
    let spoken_of = |place: usize| place == train.front || place == train.front + 1;
    let free = |&place: &usize| train.message == Message::None || !spoken_of(place);
    (0..train.route.len()).filter(free).map(|place| place as u8).collect()
}

fn train_changes(rng: &mut Prng, line: &Line, i: usize, aim: Aim) -> Vec<Change> {
    let train = &line.trains[i];
    let (t, n, m) = (i as u8, line.table.segments.len(), line.boxes.len());
    let length = train.route.len() as u8;
    match aim {
        Aim::Direction => vec![[b't', t, 0, rng.pick(&[2, 3, 255])]],
        Aim::Length => vec![[b't', t, 1, rng.pick(&[0, 65, 128, 255])]],
        Aim::Route | Aim::Jump(_) => {
            let place = rng.pick(&free_places(train));
            let segment = match aim {
                Aim::Route => rng.pick(&[0, n as u8 + 1, 255]),
                _ => rng.between(1, n) as u8,
            };
            vec![[b'R', t, place, segment]]
        }
        Aim::PlaceZero => vec![[b't', t, 2, 0]],
        Aim::PlaceBeyond => vec![[b't', t, 2, rng.pick(&[length + 1, 200, 255])]],
        Aim::TailOutside => vec![[b't', t, 3, 2]],
        Aim::CoversNone => vec![[b't', t, 3, 0]],
        Aim::CoversThree => vec![[b't', t, 2, rng.between(3, length as usize) as u8], [b't', t, 3, 3]],
        // The route ends before next, which still stands behind it, and the message would be right for it.
        Aim::NoNext | Aim::BackNoNext(_) if train.next_segment().is_some() => {
            let wish = wish_of(rng, aim);
            let mut all = message_change(rng, line, i, wish);
            all.push([b't', t, 1, train.front as u8 + 1]);
            all
        }
        Aim::NoNext | Aim::BackNoNext(_) => {
            let (wish, stage) = (wish_of(rng, aim), stage_of(rng, aim));
            vec![message_field(t, wish, stage, line.box_ahead(i))]
        }
        Aim::LostNoNext => {
            let wish = wish_of(rng, aim);
            vec![message_field(t, wish, Stage::Lost, line.box_ahead(i)), [b't', t, 1, train.front as u8 + 1]]
        }
        Aim::WrongBox | Aim::BackWrongBox(_) | Aim::LostWrongBox => {
            let any = rng.between(1, m) as u8;
            let number = rng.pick(&[0, m as u8 + 1, 255, any, line.box_behind(i), line.box_ahead(i)]);
            let (wish, stage) = (wish_of(rng, aim), stage_of(rng, aim));
            vec![message_field(t, wish, stage, number)]
        }
        Aim::LockHeard(code) => {
            vec![message_field(t, Wish::Lock, Stage::Answered, line.box_ahead(i)), [b'm', t, 5, code]]
        }
        Aim::WayHeard | Aim::WayCode(_) => {
            let ends = ends_of_next(line, i).map_or([0; 2], |(_, near, far, _)| [near, far]);
            let wish = wish_of(rng, aim);
            let number = if wish.of_lock() { line.box_ahead(i) } else { rng.pick(&ends) };
            vec![message_field(t, wish, Stage::Answered, number), [b'm', t, 5, 31]]
        }
        Aim::WayAsked(holder) => way_asked(rng, line, i, holder),
        Aim::StartsAgainst => starts_against(line, i),
        Aim::ReservedAsked => held_message(rng, line, i, Wish::Reservation, Stage::Sent, &[t + 1]),
        Aim::BackOfNone(_) => {
            let others: Vec<u8> = (0..=line.trains.len() as u8).filter(|&holder| holder != t + 1).collect();
            let wish = wish_of(rng, aim);
            held_message(rng, line, i, wish, Stage::Sent, &others)
        }
        Aim::LostWaits => {
            let (wish, any) = (rng.pick(&WISHES), rng.between(1, line.trains.len()) as u8);
            held_message(rng, line, i, wish, Stage::Lost, &[0, t + 1, any])
        }
        Aim::Radio if rng.chance(20) => vec![[b'm', t, 0, 0]],
        Aim::Radio => {
            let wish = rng.pick(&WISHES);
            message_change(rng, line, i, wish)
        }
        _ => {
            let (ahead, wish) = (line.box_ahead(i), wish_of(rng, aim));
            let code = match aim {
                Aim::BackCode(_) => rng.pick(&[1, 18, 22, 22, 23, 24, 25, 29, 31, 255]),
                _ => rng.pick(&[1, 15, 21, 22, 23, 24, 25, 26, 27, 29, 31, 32, 255]),
            };
            vec![message_field(t, wish, Stage::Answered, ahead), [b'm', t, 5, code]]
        }
    }
}

/// The train has such a message, about the lock of the box ahead only where that is a point, and the box holds what it
/// is about for one of these.
fn held_message(rng: &mut Prng, line: &Line, i: usize, wish: Wish, stage: Stage, holders: &[u8]) -> Vec<Change> {
    let Some((next, near, far, ahead)) = ends_of_next(line, i) else {
        return vec![];
    };
    let wish = match wish {
        Wish::Lock if !is_point(line, ahead) => Wish::Reservation,
        Wish::LockBack if !is_point(line, ahead) => Wish::ReservationBack,
        _ => wish,
    };
    let number = if wish.of_lock() { ahead } else { rng.pick(&[near, far]) };
    let place = line.table.switch_box(number).and_then(|plan| plan.place_of(next)).unwrap_or(0);
    let field = if wish.of_lock() { 2 } else { 3 + place as u8 };
    vec![message_field(i as u8, wish, stage, number), [b'b', number - 1, field, rng.pick(holders)]]
}

/// The wish of an aim's message.
fn wish_of(rng: &mut Prng, aim: Aim) -> Wish {
    match aim {
        Aim::BackNoNext(kind) | Aim::BackWrongBox(kind) | Aim::BackCode(kind) | Aim::BackOfNone(kind) => {
            Wish::of_kind(kind).expect("the kind of a give-back")
        }
        Aim::WayCode(kind) => Wish::of_kind(kind).expect("the kind of a message"),
        Aim::WayHeard => Wish::Reservation,
        Aim::LostNoNext | Aim::LostWrongBox => rng.pick(&WISHES),
        _ => rng.pick(&[Wish::Reservation, Wish::Lock]),
    }
}

/// What has become of an aim's message.
fn stage_of(rng: &mut Prng, aim: Aim) -> Stage {
    match aim {
        Aim::LostWrongBox => Stage::Lost,
        _ if rng.chance(50) => Stage::Answered,
        _ => Stage::Sent,
    }
}

/// Changes of the table part meant for a code.
fn table_changes(rng: &mut Prng, table: &Table, code: u8) -> Option<Vec<Change>> {
    let (n, m, k) = (table.segments.len(), table.boxes.len(), table.trains.len());
    let (s, b) = (rng.below(n) as u8, rng.below(m) as u8);
    let (any_segment, any_box) = (rng.between(1, n) as u8, rng.between(1, m) as u8);
    let plan = table.boxes[b as usize];
    if code >= 10 && k == 0 {
        return None;
    }
    let i = rng.below(k) as u8;
    Some(match code {
        3 => vec![rng.pick(&[[b'h', 0, 0, 1], [b'h', 0, 0, 255], [b'h', 0, 1, 0], [b'h', 0, 1, 3], [b'h', 0, 1, 255]])],
        4 => {
            let (field, values): (u8, &[u8]) = rng.pick(&[(2, &[0, 97, 255]), (3, &[0, 1, 97, 255]), (4, &[17, 255])]);
            vec![[b'h', 0, field, rng.pick(values)]]
        }
        6 => {
            let field = rng.below(2) as u8;
            let ends = &table.segments[s as usize];
            let other = if field == 0 { ends.b } else { ends.a };
            vec![[b's', s, field, rng.pick(&[0, m as u8 + 1, 255, other])]]
        }
        7 => match rng.below(4) {
            0 => vec![[b'p', b, 0, rng.between(3, 255) as u8]],
            1 => vec![[b'p', b, 4, if plan.kind == POINT { rng.pick(&[0, 3]) } else { rng.pick(&[1, 2]) }]],
            2 => vec![[b'p', b, rng.between(1, 3) as u8, rng.pick(&[0, n as u8 + 1, 255])]],
            _ => vec![[b'p', b, 3, plan.left.max(1)]],
        },
        8 => match rng.below(3) {
            0 => vec![[b'p', b, 1, any_segment]],
            1 => vec![[b's', s, rng.below(2) as u8, any_box]],
            _ => vec![[b'p', b, 1, plan.left], [b'p', b, 2, plan.stem]],
        },
        9 => return joined_borders(table),
        10 => match rng.below(2) {
            0 => vec![[b'd', i, 0, rng.pick(&[2, 255])]],
            _ => vec![[b'd', i, 1, rng.pick(&[0, 65, 255])]],
        },
        11 | 28 => {
            let place = rng.below(table.trains[i as usize].route.len()) as u8;
            let segment = if code == 11 { rng.pick(&[0, n as u8 + 1, 255]) } else { any_segment };
            vec![[b'r', i, place, segment]]
        }
        _ => {
            let other = rng.below(k);
            if other == i as usize {
                return None;
            }
            vec![[b'd', i, 1, 1], [b'r', i, 0, table.trains[other].route[0]]]
        }
    })
}

/// 9: the last box, if it is a border where tracks begin, is taken away, and its segment begins at a
/// border where tracks end, which becomes a link.
fn joined_borders(table: &Table) -> Option<Vec<Change>> {
    let m = table.boxes.len();
    let gone = &table.boxes[m - 1];
    let first = gone.stem;
    if gone.kind != BORDER || table.segments[first as usize - 1].a as usize != m {
        return None;
    }
    let ends = |b: &SwitchBox, number: usize| {
        b.kind == BORDER && table.segments[b.stem as usize - 1].b as usize == number
    };
    let kept = (0..m - 1).find(|&i| ends(&table.boxes[i], i + 1))? as u8;
    Some(vec![[b'h', 0, 3, m as u8 - 1], [b'p', kept, 0, LINK], [b'p', kept, 2, first], [b's', first - 1, 0, kept + 1]])
}

/// A step for a made-up line: the one that the aim is about, else one of a train that its changes are about where there
/// is one.
pub fn step_on(rng: &mut Prng, line: &Line, changes: &[Change], aim: Aim) -> Step {
    match (aim, changes) {
        (Aim::LockAsked | Aim::ReservedAsked | Aim::BackOfNone(_), &[[_, train, ..], ..]) => return [3, train + 1, 0],
        (Aim::WayAsked(_), &[[_, train, ..], ..]) => return [3, train + 1, 0],
        (Aim::LockHeard(_) | Aim::WayHeard, &[[_, train, ..], ..]) => return [4, train + 1, 0],
        (Aim::LostWaits, &[[_, train, ..], ..]) => {
            let kind = rng.pick(&[1, 2, 3, 4, 5, 6, 7, 8, 9, 10, 10]);
            let number = if matches!(kind, 1 | 2 | 7 | 8) { line.box_ahead(usize::from(train)) } else { 0 };
            return [kind, train + 1, number];
        }
        (Aim::Radio, &[[_, train, ..], ..]) => return [rng.between(9, 10) as u8, train + 1, 0],
        _ => {}
    }
    let k = line.trains.len();
    let about = changes.iter().find(|c| matches!(c[0], b't' | b'm') && (c[1] as usize) < k);
    let i = match about {
        Some(change) if rng.chance(80) => change[1] as usize,
        _ => rng.below(k.max(1)),
    };
    let me = i as u8 + 1;
    if k == 0 || rng.chance(6) {
        return [rng.below(13) as u8, rng.below(k + 2) as u8, rng.below(3) as u8];
    }
    let m = line.boxes.len();
    let (near, far) = match ends_of_next(line, i) {
        Some((_, near, far, _)) => (near, far),
        None => (line.box_ahead(i), rng.between(1, m) as u8),
    };
    let requests = [[1, me, near], [1, me, far], [2, me, near], [rng.between(1, 2) as u8, me, rng.between(1, m) as u8]];
    let backs = [[7, me, near], [7, me, far], [8, me, near], [rng.between(7, 8) as u8, me, rng.between(1, m) as u8]];
    match line.trains[i].message {
        Message::Sent(_) if rng.chance(75) => [3, me, 0],
        Message::Answered(..) if rng.chance(75) => [4, me, 0],
        Message::Lost(_) if rng.chance(60) => [10, me, 0],
        _ => match rng.below(13) {
            0..=3 => rng.pick(&requests),
            8..=10 => rng.pick(&backs),
            4 | 5 => [5, me, 0],
            6 => [6, me, 0],
            11 | 12 => [rng.between(9, 10) as u8, me, 0],
            _ => [rng.between(3, 4) as u8, me, 0],
        },
    }
}
