//! One step of the line: kinds 1 to 10, codes 13 to 25 and 29 to 31. Requests and
//! answers are in `step_request`, give-backs in `step_give_back`, moves in
//! `step_move`, messages that are lost and sent again in `step_radio`.

use crate::fault::Fault;
use crate::line::*;
use crate::line_check::record_code;
use crate::step_give_back::give_back;
use crate::step_move::{clear, enter};
use crate::step_radio::{lose, send_again};
use crate::step_request::{answer, hear, send};

/// A step: kind, train, box.
pub type Step = [u8; 3];

/// Takes a step on any record: 27 first, then as `step`.
pub fn step_checked(line: &mut Line, step_bytes: Step) -> u8 {
    match record_code(line) {
        0 => step(line, step_bytes),
        code => code,
    }
}

/// Takes a step on a record that holds, and gives its code. The line is as
/// it was for codes 13 to 21, 29 and 30.
pub fn step(line: &mut Line, step_bytes: Step) -> u8 {
    step_with(line, step_bytes, Fault::None)
}

/// As `step`, with a fault switched on.
pub fn step_with(line: &mut Line, step_bytes: Step, fault: Fault) -> u8 {
    match fault {
        Fault::OneCodeRefuses => 13,
        Fault::OneCodeAccepts => {
            decide(line, step_bytes, Fault::None);
            0
        }
        _ => decide(line, step_bytes, fault),
    }
}

/// The step by its kind.
fn decide(line: &mut Line, [kind, train, number]: Step, fault: Fault) -> u8 {
    match kind {
        1 | 2 => {}
        7 | 8 if number == 0 || fault != Fault::BackTakesNoBox => {}
        3..=6 if number == 0 || fault == Fault::BoxByteIgnored => {}
        9 | 10 if number == 0 || fault == Fault::RadioTakesBox => {}
        _ if fault == Fault::TrainBeforeKind && no_train(line, train) => return 14,
        _ => return 13,
    }
    if no_train(line, train) {
        return if fault == Fault::NothingLostBeforeTrain && kind > 8 { 30 } else { 14 };
    }
    let index = train as usize - 1;
    match kind {
        1 => send(line, index, Request { wish: Wish::Reservation, number }, fault),
        2 => send(line, index, Request { wish: Wish::Lock, number }, fault),
        3 => answer(line, index, fault),
        4 => hear(line, index, fault),
        5 => enter(line, index, fault),
        6 => clear(line, index, fault),
        7 => give_back(line, index, Request { wish: Wish::ReservationBack, number }, fault),
        8 => give_back(line, index, Request { wish: Wish::LockBack, number }, fault),
        9 => lose(line, index, fault),
        _ => send_again(line, index, fault),
    }
}

/// 14: the train byte is 0 or above the number of trains.
fn no_train(line: &Line, train: u8) -> bool {
    train == 0 || train as usize > line.trains.len()
}
