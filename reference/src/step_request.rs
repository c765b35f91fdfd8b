//! Kinds 1 to 4: the train sends a request, the box answers, the train
//! hears. What a box does about a give-back is in `step_give_back`.

use crate::fault::Fault;
use crate::line::*;
use crate::step_give_back::{drop_record, free};
use crate::step_radio::lost_no;
use crate::table::POINT;

/// Kinds 1 and 2: the train sends a request.
pub fn send(line: &mut Line, train: usize, request: Request, fault: Fault) -> u8 {
    let stopped = request_stopped(line, train, request);
    if fault == Fault::NextBeforeMessage && stopped == 16 {
        return 16;
    }
    if message_open(line, train, fault) {
        return 15;
    }
    if fault == Fault::RecordedBeforePlace && holds(line, train, request) {
        return 18;
    }
    if stopped != 0 {
        return stopped;
    }
    if holds(line, train, request) && fault != Fault::AskedAgain {
        return 18;
    }
    if fault == Fault::CrossingMayNotAsk && line.trains[train].crossing() {
        return 20;
    }
    let reservation = request.wish == Wish::Reservation;
    if fault == Fault::WayRefusedAtSending && reservation && against_way(line, train, request.number, fault) {
        return 31;
    }
    line.trains[train].message = Message::Sent(request);
    if fault == Fault::RecordedWhenSent {
        record(line, train, request);
    }
    at_sending(line, train, request, fault);
    0
}

/// 15: a message is open, a lost one too.
pub fn message_open(line: &Line, train: usize, fault: Fault) -> bool {
    match line.trains[train].message {
        Message::None => false,
        Message::Lost(_) if fault == Fault::LostLetsAsk => false,
        _ => fault != Fault::OpenMessageIgnored,
    }
}

/// What a box does at once with some faults when it is sent something, for
/// the first time or again.
pub fn at_sending(line: &mut Line, train: usize, request: Request, fault: Fault) {
    match (fault, request.wish.gives_back()) {
        (Fault::GrantAtSending, false) if box_code(line, train, request, fault) == 0 => {
            grant(line, train, request, fault)
        }
        (Fault::FreedAtSending, true) => free(line, train, request, fault),
        _ => {}
    }
}

/// 16 or 17 if one of them stops the request, else 0. They are the same for
/// giving back.
pub fn request_stopped(line: &Line, train: usize, request: Request) -> u8 {
    let number = request.number;
    let Some(next) = line.trains[train].next_segment() else {
        return 16;
    };
    let fits = match request.wish.of_lock() {
        false => line.table.segment(next).is_some_and(|s| s.a == number || s.b == number),
        true => number == line.box_ahead(train) && is_point(line, number),
    };
    match fits {
        true => 0,
        false => 17,
    }
}

pub fn is_point(line: &Line, number: u8) -> bool {
    line.table.switch_box(number).is_some_and(|b| b.kind == POINT)
}

/// Whether the train has recorded what the request is about.
pub fn holds(line: &Line, train: usize, request: Request) -> bool {
    let t = &line.trains[train];
    match request.wish.of_lock() {
        false => {
            let next = t.next_segment().unwrap_or(0);
            t.holdings.reservation(&line.table, next, request.number)
        }
        true => t.holdings.lock(request.number),
    }
}

/// The train records what the request is about.
pub fn record(line: &mut Line, train: usize, request: Request) {
    let t = &mut line.trains[train];
    match request.wish.of_lock() {
        false => {
            let next = t.next_segment().unwrap_or(0);
            t.holdings.add_reservation(&line.table, next, request.number);
        }
        true => t.holdings.add_lock(request.number),
    }
}

/// Kind 3: the box answers the sent message.
pub fn answer(line: &mut Line, train: usize, fault: Fault) -> u8 {
    let request = match line.trains[train].message {
        Message::Sent(request) => request,
        Message::Answered(request, _) if fault == Fault::AnswersAgain => request,
        Message::Lost(request) if fault == Fault::LostAnswered => request,
        _ => return 21,
    };
    let code = match fault {
        Fault::GrantAtSending => show_code(line, train, request),
        _ => box_code(line, train, request, fault),
    };
    let again = granted_already(line, train, request) && fault != Fault::RepeatSetsPosition;
    if code == 0 && !again {
        grant(line, train, request, fault);
    }
    let at_grant = matches!(fault, Fault::RecordedWhenGranted | Fault::GrantIsHearing);
    if at_grant && code == 0 && !request.wish.gives_back() {
        record(line, train, request);
    }
    line.trains[train].message = match fault {
        Fault::NoNeedsNoHearing if code != 0 => Message::None,
        _ => Message::Answered(request, code),
    };
    code
}

/// Whether the box holds what the train asks for, a segment or its lock, for
/// that train. A give-back asks for nothing.
fn granted_already(line: &Line, train: usize, request: Request) -> bool {
    let me = (train + 1) as u8;
    match request.wish {
        Wish::Reservation => {
            let next = line.trains[train].next_segment().unwrap_or(0);
            line.reservation(next, request.number) == me
        }
        Wish::Lock => line.box_state(request.number).is_some_and(|state| state.lock == me),
        Wish::ReservationBack | Wish::LockBack => false,
    }
}

/// 31: next runs against the train's direction, whichever of its ends the
/// box is at.
fn against_way(line: &Line, train: usize, number: u8, fault: Fault) -> bool {
    let t = &line.trains[train];
    let next = t.next_segment().unwrap_or(0);
    let direction = if fault == Fault::WaysSwapped { t.direction ^ 1 } else { t.direction };
    let asked = match fault {
        Fault::WayAtNearEndOnly => number == line.table.near_box(next, t.direction),
        Fault::WayAtFarEndOnly => number == line.table.far_box(next, t.direction),
        _ => true,
    };
    asked && line.table.runs_against(next, direction)
}

/// The decision of the box: 0 yes, 22 to 25 and 31 no. What it has granted to
/// the train already is a yes before any other check; a give-back has a yes
/// always.
fn box_code(line: &Line, train: usize, request: Request, fault: Fault) -> u8 {
    let me = (train + 1) as u8;
    let number = request.number;
    let front = line.trains[train].front_segment();
    let next = line.trains[train].next_segment().unwrap_or(0);
    let state = line.box_state(number).copied().unwrap_or_default();
    let other = |holder: u8| holder != 0 && holder != me;
    match request.wish {
        Wish::Reservation => {
            let holder = line.reservation(next, number);
            let against = against_way(line, train, number, fault) && fault != Fault::WayRefusedAtSending;
            match fault {
                Fault::BoxesAlwaysNo => 22,
                Fault::OwnSegmentRefused if holder == me => 22,
                Fault::WayBeforeGranted if against => 31,
                _ if holder == me => 0,
                Fault::HolderBeforeWay if holder != 0 => 22,
                _ if against => 31,
                Fault::No22WithoutHolder if holder == 0 && number % 2 == 1 => 22,
                Fault::ReservationTakenOver => 0,
                _ if holder != 0 => 22,
                _ => 0,
            }
        }
        Wish::Lock => {
            let active = state.sensor && fault != Fault::SensorNotAsked;
            let locked = other(state.lock) && fault != Fault::LockTakenOver;
            let missing = missing_here(line, me, front, next, number, fault);
            match fault {
                Fault::BoxesAlwaysNo => 24,
                Fault::LockAlwaysGiven => 0,
                Fault::OwnLockRefused if state.lock == me => 24,
                _ if state.lock == me && fault != Fault::RowsBeforeGranted => 0,
                Fault::LockAsksWay if against_way(line, train, number, fault) => 31,
                Fault::No24WithoutHolder if state.lock == 0 && number % 2 == 1 => 24,
                Fault::SensorBeforeLock if active => 23,
                Fault::ReservationsFirst if missing => 25,
                _ if locked => 24,
                Fault::ReservationsBeforeSensor if missing => 25,
                _ if active => 23,
                _ if missing => 25,
                _ => 0,
            }
        }
        Wish::ReservationBack if fault == Fault::BackMayBeRefused && line.reservation(next, number) != me => 22,
        Wish::LockBack if fault == Fault::BackMayBeRefused && state.lock != me => 24,
        Wish::ReservationBack | Wish::LockBack => 0,
    }
}

/// The answer as a show: yes only if the box gave at sending.
fn show_code(line: &Line, train: usize, request: Request) -> u8 {
    let me = (train + 1) as u8;
    let next = line.trains[train].next_segment().unwrap_or(0);
    let lock = line.box_state(request.number).map_or(0, |b| b.lock);
    match request.wish {
        Wish::Reservation if line.reservation(next, request.number) == me => 0,
        Wish::Lock if lock == me => 0,
        Wish::Reservation => match box_code(line, train, request, Fault::None) {
            0 => 22,
            code => code,
        },
        Wish::Lock => match box_code(line, train, request, Fault::None) {
            0 => 24,
            code => code,
        },
        Wish::ReservationBack | Wish::LockBack => 0,
    }
}

/// Whether front or next is not reserved for the train at the box.
fn missing_here(line: &Line, me: u8, front: u8, next: u8, number: u8, fault: Fault) -> bool {
    let front_missing = line.reservation(front, number) != me;
    let next_missing = line.reservation(next, number) != me;
    match fault {
        Fault::LockNeedsNoReservation => false,
        Fault::LockNeedsNextOnly => next_missing,
        Fault::LockNeedsFrontOnly => front_missing,
        _ => front_missing || next_missing,
    }
}

/// The box says yes to what it has not granted already: the holder is set, or
/// position and lock; or what is given back becomes free.
fn grant(line: &mut Line, train: usize, request: Request, fault: Fault) {
    let me = (train + 1) as u8;
    let front = line.trains[train].front_segment();
    let next = line.trains[train].next_segment().unwrap_or(0);
    match request.wish {
        Wish::Reservation => {
            line.set_reservation(next, request.number, me);
            if fault == Fault::ReservesBothEnds {
                let far = line.table.far_box(next, line.trains[train].direction);
                line.set_reservation(next, far, me);
            }
        }
        Wish::Lock => {
            let b = line.table.switch_box(request.number).copied().unwrap_or_default();
            if let Some(state) = line.box_state_mut(request.number) {
                state.lock = me;
                match fault {
                    Fault::PositionNotSet | Fault::PositionSetAtEnter => {}
                    Fault::PositionByNextOnly => {
                        state.position = if b.right == next { 2 } else { 1 }
                    }
                    Fault::PositionTurned => state.position = 3 - b.joining(front, next).clamp(1, 2),
                    _ => state.position = b.joining(front, next),
                }
            }
        }
        Wish::ReservationBack | Wish::LockBack if fault == Fault::FreedAtSending => {}
        Wish::ReservationBack | Wish::LockBack => free(line, train, request, fault),
    }
}

/// Kind 4: the train hears the answer; the message is gone.
pub fn hear(line: &mut Line, train: usize, fault: Fault) -> u8 {
    let (request, code) = match line.trains[train].message {
        Message::Answered(_, code) if lost_no(code, fault) => return 21,
        Message::Answered(request, code) => (request, code),
        Message::Sent(request) if fault == Fault::HearsUnanswered => (request, 0),
        _ => return 21,
    };
    let heard = code == 0 && fault != Fault::GrantIsHearing;
    match request.wish.gives_back() {
        false if heard || fault == Fault::NoHeardAsYes => record(line, train, request),
        true if fault == Fault::BackHeardAsHolding => record(line, train, request),
        true if fault == Fault::DroppedWhenHeard => drop_record(line, train, request, fault),
        _ => {}
    }
    if code == 0 || fault != Fault::NoStaysOpen {
        line.trains[train].message = Message::None;
    }
    match fault {
        Fault::NoHeardIsZero => 0,
        _ => code,
    }
}
