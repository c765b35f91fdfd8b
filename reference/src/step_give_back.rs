//! Kinds 7 and 8: the train gives back the reservation of next at a box, or
//! the lock of the box ahead. It drops its record when it sends; the box
//! frees when it answers, which is always a yes.

use crate::fault::Fault;
use crate::line::*;
use crate::step_request::{at_sending, holds, message_open, request_stopped};

/// Kinds 7 and 8: the train sends.
pub fn give_back(line: &mut Line, train: usize, request: Request, fault: Fault) -> u8 {
    let recorded = recorded(line, train, request, fault);
    let stopped = match request_stopped(line, train, request) {
        17 if fault == Fault::LockBackAnywhere && request.wish.of_lock() => 0,
        17 if fault == Fault::NothingBeforePlace && !recorded => 29,
        code => code,
    };
    if fault == Fault::NextBeforeMessage && stopped == 16 {
        return 16;
    }
    if message_open(line, train, fault) && fault != Fault::BackWhileOpen {
        return 15;
    }
    if stopped != 0 {
        return stopped;
    }
    if !recorded {
        return if fault == Fault::NothingToGiveIs18 { 18 } else { 29 };
    }
    if fault == Fault::CrossingMayNotAsk && line.trains[train].crossing() {
        return 20;
    }
    if fault != Fault::DroppedWhenHeard {
        drop_record(line, train, request, fault);
    }
    line.trains[train].message = Message::Sent(request);
    at_sending(line, train, request, fault);
    0
}

/// Whether the train has recorded what it gives back; if not, 29.
fn recorded(line: &Line, train: usize, request: Request, fault: Fault) -> bool {
    let next = line.trains[train].next_segment().unwrap_or(0);
    match line.table.segment(next) {
        Some(s) if fault == Fault::EitherEndToGive && !request.wish.of_lock() => {
            [s.a, s.b].into_iter().any(|number| holds(line, train, Request { number, ..request }))
        }
        _ => holds(line, train, request),
    }
}

/// The train drops its record of what it gives back.
pub fn drop_record(line: &mut Line, train: usize, request: Request, fault: Fault) {
    let t = &mut line.trains[train];
    let next = t.next_segment().unwrap_or(0);
    match request.wish.of_lock() {
        false => t.holdings.drop_reservation(&line.table, next, request.number),
        true => t.holdings.drop_lock(request.number),
    }
    if let (Fault::DropsBothEnds, false, Some(s)) = (fault, request.wish.of_lock(), line.table.segment(next)) {
        t.holdings.drop_reservation(&line.table, next, s.a);
        t.holdings.drop_reservation(&line.table, next, s.b);
    }
}

/// The box frees what the train gives back, if it is the train's.
pub fn free(line: &mut Line, train: usize, request: Request, fault: Fault) {
    let me = (train + 1) as u8;
    let t = &line.trains[train];
    let (front, next, direction) = (t.front_segment(), t.next_segment().unwrap_or(0), t.direction);
    let number = request.number;
    let far = line.table.far_box(next, direction);
    match (request.wish.of_lock(), fault) {
        (_, Fault::BackNeverFrees) => {}
        (false, Fault::BackFreesFront) => free_segments(line, me, &[(next, number), (front, number)], fault),
        (false, Fault::BackFreesBothEnds) => {
            let near = line.table.near_box(next, direction);
            free_segments(line, me, &[(next, near), (next, far)], fault);
        }
        (false, _) => {
            free_segments(line, me, &[(next, number)], fault);
            if fault == Fault::BackFreesLock {
                free_lock(line, me, number, fault);
            }
        }
        (true, _) => {
            free_lock(line, me, number, fault);
            if fault == Fault::LockBackFreesSegments {
                free_segments(line, me, &[(front, number), (next, number)], fault);
            }
        }
    }
}

/// Frees segments at boxes where the train has them reserved.
fn free_segments(line: &mut Line, me: u8, segments: &[(u8, u8)], fault: Fault) {
    for &(segment, number) in segments {
        if line.reservation(segment, number) == me || fault == Fault::BackFreesAnyone {
            line.set_reservation(segment, number, 0);
        }
    }
}

/// Frees the lock of a box if it is the train's. The position stays.
fn free_lock(line: &mut Line, me: u8, number: u8, fault: Fault) {
    let start = line.table.switch_box(number).map_or(0, |b| b.position);
    if let Some(state) = line.box_state_mut(number) {
        if state.lock == me || fault == Fault::BackFreesAnyone {
            state.lock = 0;
        }
        if fault == Fault::LockBackTurnsPoint {
            state.position = start;
        }
    }
}
