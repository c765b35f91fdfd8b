//! Kinds 9 and 10: the train's message is lost under way, and the waiting
//! train sends it again.

use crate::fault::Fault;
use crate::line::*;
use crate::step_request::{at_sending, record};

/// With the fault `LostNoStays` the code of a no that is lost has this much
/// more until it is sent again.
const LOST_NO: u8 = 128;

/// Kind 9: what is under way, the request or its answer, is lost. The train
/// waits on.
pub fn lose(line: &mut Line, train: usize, fault: Fault) -> u8 {
    let (request, answer) = match line.trains[train].message {
        Message::Sent(request) => (request, None),
        Message::Answered(_, code) if lost_no(code, fault) => return 30,
        Message::Answered(request, code) => (request, Some(code)),
        Message::Lost(_) if fault == Fault::LostLosesAgain => return 0,
        Message::None | Message::Lost(_) => return 30,
    };
    line.trains[train].message = match (fault, answer) {
        (Fault::LossForgets, _) | (Fault::LostYesHeard, Some(0)) => Message::None,
        (Fault::LostNoStays, Some(code)) if code != 0 => Message::Answered(request, LOST_NO + code),
        _ => Message::Lost(request),
    };
    match (fault, request.wish.gives_back()) {
        (Fault::LostYesHeard, false) if answer == Some(0) => record(line, train, request),
        (Fault::LossPutsRecordBack, true) => record(line, train, request),
        _ => {}
    }
    0
}

/// Kind 10: the lost message is sent again, as it was sent before.
pub fn send_again(line: &mut Line, train: usize, fault: Fault) -> u8 {
    let request = match line.trains[train].message {
        Message::Lost(request) => request,
        Message::Answered(request, code) if lost_no(code, fault) => {
            line.trains[train].message = Message::Answered(request, code - LOST_NO);
            return 0;
        }
        Message::Sent(request) | Message::Answered(request, _) if fault == Fault::RepeatUnderWay => request,
        _ => return 30,
    };
    line.trains[train].message = Message::Sent(request);
    at_sending(line, train, request, fault);
    0
}

/// Whether an answer is a no that was lost, which no engine but that with the
/// fault `LostNoStays` has.
pub fn lost_no(code: u8, fault: Fault) -> bool {
    fault == Fault::LostNoStays && code >= LOST_NO
}
