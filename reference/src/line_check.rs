//! Code 27: what a line record must hold before any call works on it.

use crate::fault::Fault;
use crate::line::*;
use crate::step_request::request_stopped;
use crate::table_check::{check_table_with, route_code};

/// The clause of code 27 that a record breaks.
#[derive(Clone, Copy, Debug, PartialEq, Eq)]
pub enum RecordFault {
    /// The table part fails with this code (3, 4, 6 to 12, 28 or 32).
    TablePart(u8),
    /// Not one box state per box or one train state per train.
    Extent,
    /// The route of a train as it stands fails 10, 11 or 28.
    Route(u8),
    /// Front or tail is not on the route.
    OutsideRoute,
    /// A train covers no segment, or more than two.
    Covering,
    /// A position that does not fit the kind of its box.
    Position,
    /// A lock or reservation holder above the number of trains.
    Holder,
    /// A message that 16 or 17 would stop.
    Message,
    /// An answer code that is neither 0 nor one the box gives; to a give-back
    /// it gives 0 alone.
    AnswerCode,
}

/// 0 if the record holds, else 27.
pub fn record_code(line: &Line) -> u8 {
    match record_fault(line) {
        None => 0,
        Some(_) => 27,
    }
}

/// The first clause of code 27 that the record breaks.
pub fn record_fault(line: &Line) -> Option<RecordFault> {
    record_fault_with(line, Fault::None)
}

/// As `record_fault`, with a fault switched on.
pub fn record_fault_with(line: &Line, fault: Fault) -> Option<RecordFault> {
    match check_table_with(&line.table, fault) {
        Err(refusal) if refusal.code == 28 && fault == Fault::TableMayJump => {}
        Err(refusal) if refusal.code == 32 && fault == Fault::TableMayStartAgainst => {}
        Err(refusal) => return Some(RecordFault::TablePart(refusal.code)),
        Ok(()) => {}
    }
    if line.boxes.len() != line.table.boxes.len() || line.trains.len() != line.table.trains.len() {
        return Some(RecordFault::Extent);
    }
    for t in &line.trains {
        match route_code(&line.table, t.direction, &t.route) {
            0 => {}
            28 if fault == Fault::RouteInForceMayJump => {}
            code => return Some(RecordFault::Route(code)),
        }
        if fault == Fault::RouteInForceAsksWay && line.table.runs_against(t.route[0], t.direction) {
            return Some(RecordFault::Route(32));
        }
        if t.covered == 0 || t.covered > 2 {
            return Some(RecordFault::Covering);
        }
        if t.front >= t.route.len() || (t.covered == 2 && t.front == 0) {
            return Some(RecordFault::OutsideRoute);
        }
    }
    let k = line.trains.len();
    for (b, state) in line.table.boxes.iter().zip(&line.boxes) {
        if !b.position_fits(state.position) {
            return Some(RecordFault::Position);
        }
        let above = |&holder: &u8| holder as usize > k;
        if above(&state.lock) || state.reserved.iter().any(above) {
            return Some(RecordFault::Holder);
        }
    }
    (0..k).find_map(|i| message_fault(line, i, fault))
}

/// The clauses on the message of one train.
fn message_fault(line: &Line, train: usize, fault: Fault) -> Option<RecordFault> {
    let (request, code) = match line.trains[train].message {
        Message::None => return None,
        Message::Lost(_) if fault == Fault::LostNotInRecord => return None,
        Message::Sent(request) | Message::Lost(request) => (request, 0),
        Message::Answered(request, code) => (request, code),
    };
    let unasked = request.wish.gives_back() && fault == Fault::BackMessageAnywhere;
    if request_stopped(line, train, request) != 0 && !unasked {
        return Some(RecordFault::Message);
    }
    let known = match request.wish {
        Wish::Reservation if fault == Fault::WayAnswerRefused => matches!(code, 0 | 22),
        Wish::Reservation => matches!(code, 0 | 22 | 31),
        _ if fault == Fault::WayAnswerToAll && code == 31 => true,
        Wish::Lock if fault == Fault::SensorAnswerRefused => matches!(code, 0 | 24 | 25),
        Wish::Lock => matches!(code, 0 | 23..=25),
        Wish::ReservationBack if fault == Fault::BackCodesOfRequests => matches!(code, 0 | 22 | 31),
        Wish::LockBack if fault == Fault::BackCodesOfRequests => matches!(code, 0 | 23..=25),
        Wish::ReservationBack | Wish::LockBack => code == 0,
    };
    (!known).then_some(RecordFault::AnswerCode)
}
