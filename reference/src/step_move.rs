//! Kinds 5 and 6: the train moves.

use crate::fault::Fault;
use crate::line::*;
use crate::step_request::is_point;
use crate::table::POINT;

/// Kind 5: the front passes the box ahead.
pub fn enter(line: &mut Line, train: usize, fault: Fault) -> u8 {
    let t = &line.trains[train];
    if fault == Fault::NextBeforeCrossing && t.next_segment().is_none() {
        return 16;
    }
    if t.crossing() && fault != Fault::EnterWhileCrossing {
        return 20;
    }
    let Some(next) = t.next_segment() else {
        return 16;
    };
    if fault == Fault::OpenMessageHoldsTrain && t.message != Message::None {
        return 15;
    }
    if fault == Fault::EveryTrainStands || holding_missing(line, train, next, fault) {
        return 19;
    }
    let (me, front, number) = ((train + 1) as u8, t.front_segment(), line.box_ahead(train));
    let b = line.table.switch_box(number).copied().unwrap_or_default();
    if let Some(state) = line.box_state_mut(number) {
        state.sensor = fault != Fault::SensorStaysPassive;
        if fault == Fault::LockFreedAtEnter && state.lock == me {
            state.lock = 0;
        }
        if fault == Fault::PositionSetAtEnter && b.kind == POINT {
            state.position = b.joining(front, next);
        }
    }
    let t = &mut line.trains[train];
    t.front += 1;
    t.covered = 2;
    0
}

/// 19: next not recorded at both its ends, or no recorded lock at a point.
fn holding_missing(line: &Line, train: usize, next: u8, fault: Fault) -> bool {
    let t = &line.trains[train];
    let ahead = line.box_ahead(train);
    let beyond = line.table.far_box(next, t.direction);
    let near = t.holdings.reservation(&line.table, next, ahead);
    let far = t.holdings.reservation(&line.table, next, beyond);
    let ends = match fault {
        Fault::OneEndEnough => near || far,
        Fault::NearEndEnough => near,
        _ => near && far,
    };
    let lock = match fault {
        Fault::PointNeedsNoLock => true,
        Fault::LinkNeedsLock => t.holdings.lock(ahead),
        _ => !is_point(line, ahead) || t.holdings.lock(ahead),
    };
    !(ends && lock)
}

/// Kind 6: the tail leaves the box behind the front.
pub fn clear(line: &mut Line, train: usize, fault: Fault) -> u8 {
    let t = &line.trains[train];
    if !t.crossing() || fault == Fault::EveryTrainStands {
        return 20;
    }
    let (front, tail, number) = (t.front_segment(), t.tail_segment(), line.box_behind(train));
    let ahead = line.box_ahead(train);
    if fault == Fault::OpenMessageHoldsTrain && t.message != Message::None {
        return 15;
    }
    line.trains[train].covered = 1;
    if fault == Fault::ClearFreesNothing {
        return 0;
    }
    if let Some(state) = line.box_state_mut(number) {
        state.sensor = false;
        if fault != Fault::ClearKeepsLock {
            state.lock = 0;
        }
        if fault == Fault::ClearFreesWholeBox {
            state.reserved = [0; 3];
        }
    }
    line.set_reservation(tail, number, 0);
    if fault != Fault::ClearFreesTailOnly {
        line.set_reservation(front, number, 0);
    }
    if fault == Fault::ClearFreesFarEnd {
        line.set_reservation(front, ahead, 0);
    }
    if fault != Fault::RecordsKept {
        let table = &line.table;
        line.trains[train].holdings.drop_at(table, number);
    }
    0
}
