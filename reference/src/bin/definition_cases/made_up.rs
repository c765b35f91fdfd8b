//! Single steps on records made up from lines that steps have reached.

use crate::alter_table;
use crate::text::{line_text, step_text, theorem};
use reference::generate::lock_asked::{LockAsked, LOCKS_ASKED};
use reference::generate::made_up::{changes, lock_changes, step_on, Aim};
use reference::generate::prng::Prng;
use reference::generate::steps::{drive, Driver};
use reference::generate::tables::accepted_table;
use reference::line::*;
use reference::numbers::{ends_of_next, line_numbers};
use reference::record::Record;
use reference::step::{step_checked, Step};
use reference::step_request::is_point;
use reference::table::Table;

/// A step on a record that differs in a few places from one that steps have reached.
pub fn made_up_case(rng: &mut Prng, case: u64, table: &Table, steps: usize) {
    for change in 0..5 {
        let mut line = start_line(table);
        let length = rng.between(0, steps);
        drive(rng, &mut line, length);
        let mut meant = None;
        match change {
            0 => alter_route(rng, &mut line),
            1 => meant = alter_for_back(rng, &mut line),
            2 => meant = alter_for_radio(rng, &mut line),
            _ => (0..rng.between(1, 3)).for_each(|_| alter(rng, &mut line)),
        }
        if meant.is_none() && rng.chance(10) {
            alter_table(rng, &mut line.table);
        }
        let bytes = meant.unwrap_or_else(|| Driver::new(rng).next_step(rng, &line));
        checked_step(&format!("made_up_{case}_{change}"), &line, bytes);
    }
}

/// A theorem about a step on a record; the line after it.
fn checked_step(name: &str, line: &Line, bytes: Step) -> Line {
    let mut after = line.clone();
    let mut numbers = vec![step_checked(&mut after, bytes)];
    numbers.extend(line_numbers(&after));
    theorem(name, &format!("checked_line {} ({})", line_text(line), step_text(bytes)), &numbers);
    after
}

/// A box's answer to a lock, with what it finds changed from a line that steps have reached, and the answer heard.
pub fn lock_case(rng: &mut Prng, case: u64, steps: usize) {
    let asked = LockAsked::all()[case as usize % LOCKS_ASKED];
    let (reached, changes) = loop {
        let mut line = start_line(&accepted_table(rng));
        let length = rng.between(0, steps);
        drive(rng, &mut line, length);
        if let Some(changes) = lock_changes(rng, &line, asked) {
            break (line, changes);
        }
    };
    let line = Record::changed(&reached, &changes).line();
    let answer = step_on(rng, &line, &changes, Aim::LockAsked);
    let after = checked_step(&format!("lock_{case}"), &line, answer);
    checked_step(&format!("lock_heard_{case}"), &after, [4, answer[1], 0]);
}

/// What is made up about one-way segments, in turn.
const WAY_AIMS: [Aim; 9] = [
    Aim::WayAsked(0),
    Aim::WayAsked(1),
    Aim::WayAsked(2),
    Aim::WayHeard,
    Aim::WayCode(2),
    Aim::WayCode(7),
    Aim::StartsAgainst,
    Aim::Table(32),
    Aim::WayAboveTwo,
];

/// A step on a record with a one-way segment made up, from a line that steps have reached, and, where it is a box's
/// answer, the answer heard.
pub fn way_case(rng: &mut Prng, case: u64, steps: usize) {
    let aim = WAY_AIMS[case as usize % WAY_AIMS.len()];
    let (line, changes) = loop {
        let mut line = start_line(&accepted_table(rng));
        let length = rng.between(0, steps);
        drive(rng, &mut line, length);
        if let Some(changes) = changes(rng, &line, aim).filter(|changes| !changes.is_empty()) {
            break (Record::changed(&line, &changes).line(), changes);
        }
    };
    let bytes = step_on(rng, &line, &changes, aim);
    let after = checked_step(&format!("way_{case}"), &line, bytes);
    if let [3, train, _] = bytes {
        checked_step(&format!("way_heard_{case}"), &after, [4, train, 0]);
    }
}

/// Puts another segment of the table at one place of a route as it stands, which then most often jumps.
fn alter_route(rng: &mut Prng, line: &mut Line) {
    let (train, segment) = (rng.below(line.trains.len()), rng.between(1, line.table.segments.len()) as u8);
    if let Some(train) = line.trains.get_mut(train) {
        let place = rng.below(train.route.len());
        train.route[place] = segment;
    }
}

/// Gives a train that has a next a give-back to send, or one that is sent or answered, with any holder at the box; the
/// step that it is meant for.
fn alter_for_back(rng: &mut Prng, line: &mut Line) -> Option<Step> {
    let (k, first) = (line.trains.len(), rng.below(line.trains.len()));
    let i = (0..k).map(|i| (i + first) % k).find(|&i| line.trains[i].next_segment().is_some())?;
    let (next, near, far, ahead) = ends_of_next(line, i)?;
    let (me, any) = (i as u8 + 1, rng.between(1, k) as u8);
    let point = is_point(line, ahead);
    let lock = rng.chance(if point { 60 } else { 10 });
    let (wish, number) = match lock {
        true => (Wish::LockBack, ahead),
        false => (Wish::ReservationBack, rng.pick(&[near, far])),
    };
    let holder = rng.pick(&[me, me, 0, any]);
    match line.box_state_mut(number) {
        Some(state) if lock => state.lock = holder,
        _ => line.set_reservation(next, number, holder),
    }
    let request = Request { wish, number };
    let (kind, message) = match rng.below(10) {
        0..=4 => (3, Message::Sent(request)),
        5 | 6 => (4, Message::Answered(request, 0)),
        7 => (4, Message::Answered(request, rng.pick(&[22, 22, 24, 29, 31]))),
        _ => (wish as u8, Message::None),
    };
    let (table, train) = (&line.table, &mut line.trains[i]);
    train.message = message;
    if rng.chance(60) {
        train.holdings.add_reservation(table, next, near);
        train.holdings.add_reservation(table, next, far);
        train.holdings.add_lock(ahead);
    }
    Some([kind, me, if kind < 7 { 0 } else { number }])
}

/// Gives a train that has a next any message, a lost one most often, with any holders at its box; the step that it is
/// meant for: one that loses it or sends it again, its answer, or one that it stops.
fn alter_for_radio(rng: &mut Prng, line: &mut Line) -> Option<Step> {
    let (k, first) = (line.trains.len(), rng.below(line.trains.len()));
    let i = (0..k).map(|i| (i + first) % k).find(|&i| line.trains[i].next_segment().is_some())?;
    let (next, near, far, ahead) = ends_of_next(line, i)?;
    let (me, any) = (i as u8 + 1, rng.between(1, k) as u8);
    let wish = rng.pick(if is_point(line, ahead) { &WISHES } else { &[Wish::Reservation, Wish::ReservationBack] });
    let number = if wish.of_lock() { ahead } else { rng.pick(&[near, far]) };
    let holder = rng.pick(&[me, me, 0, any]);
    match line.box_state_mut(number) {
        Some(state) if wish.of_lock() => (state.lock, state.sensor) = (holder, rng.chance(30)),
        _ => line.set_reservation(next, number, holder),
    }
    let request = Request { wish, number };
    let no = match wish {
        Wish::Reservation => rng.pick(&[22, 31]),
        Wish::Lock => 24,
        _ => 0,
    };
    line.trains[i].message = match rng.below(10) {
        0 | 1 => Message::Sent(request),
        2 => Message::Answered(request, 0),
        3 => Message::Answered(request, no),
        4 => Message::None,
        _ => Message::Lost(request),
    };
    Some(match rng.below(10) {
        0..=2 => [9, me, 0],
        3..=5 => [10, me, 0],
        6 | 7 => [rng.between(3, 4) as u8, me, 0],
        8 => [5, me, 0],
        _ => [wish as u8, me, number],
    })
}

/// Alters one part of a record, mostly into something that no steps reach.
fn alter(rng: &mut Prng, line: &mut Line) {
    let k = line.trains.len();
    let holder = rng.below(k + 2) as u8;
    if k == 0 || rng.chance(40) {
        let b = rng.below(line.boxes.len());
        let state = &mut line.boxes[b];
        match rng.below(6) {
            0 => state.sensor = !state.sensor,
            1 => state.position = rng.below(4) as u8,
            2 => state.lock = holder,
            place => state.reserved[place - 3] = holder,
        }
        return;
    }
    let i = rng.below(k);
    let m = line.boxes.len();
    let ends = ends_of_next(line, i);
    let table = line.table.clone();
    let other = rng.below(k);
    let train = &mut line.trains[i];
    match rng.below(12) {
        0 => train.direction = rng.below(3) as u8,
        9..=11 => {
            let entry = &table.trains[other];
            train.direction = entry.direction;
            train.route = entry.route.clone();
            train.front = train.front.min(train.route.len() - 1);
        }
        1 => train.front = rng.below(train.route.len() + 1),
        2 => train.covered = rng.below(4) as u8,
        3 => {
            let at = rng.below(train.route.len());
            train.route[at] = rng.below(table.segments.len() + 2) as u8;
        }
        4 => train.route.truncate(rng.between(1, train.route.len())),
        5 | 6 => {
            if let Some((next, near, far, ahead)) = ends {
                train.holdings.add_reservation(&table, next, near);
                train.holdings.add_reservation(&table, next, far);
                train.holdings.add_lock(ahead);
            }
        }
        _ => {
            let wish = rng.pick(&WISHES);
            let number = match ends {
                Some((_, near, far, _)) if rng.chance(80) => rng.pick(&[near, far]),
                _ => rng.below(m + 2) as u8,
            };
            let request = Request { wish, number };
            train.message = match rng.below(4) {
                0 => Message::Sent(request),
                1 => Message::Answered(request, 0),
                2 => Message::Lost(request),
                _ => Message::Answered(request, rng.pick(&[21, 22, 23, 24, 25, 26, 31])),
            };
        }
    }
}
