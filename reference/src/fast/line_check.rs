//! Code 27: what a line record must hold before a step is taken on it.

use super::line::{Line, Message, State, Train};
use super::records::Records;
use crate::line::Wish;
use crate::table::POINT;

impl Line {
    /// Whether any clause of code 27 is broken.
    pub(super) fn fails(&self) -> bool {
        match self.table.checked() {
            Ok(records) => self.boxes_fail() || self.trains_fail(&records),
            Err(_) => true,
        }
    }

    /// A position that does not fit its box, or a holder above k.
    fn boxes_fail(&self) -> bool {
        let [_, m, k] = self.table.counts();
        let above = |&holder: &u8| usize::from(holder) > k;
        let boxes = self.table.boxes[..m].iter().zip(&self.boxes);
        boxes.fold(false, |fails, ([kind, ..], state)| {
            let fits = if *kind == POINT { matches!(state.position, 1 | 2) } else { state.position == 0 };
            fails | !fits | above(&state.lock)
        }) || self.holders[..3 * m].iter().fold(false, |fails, holder| fails | above(holder))
    }

    /// A route that fails 10, 11 or 28, a train outside it or covering what it may not, or its message.
    fn trains_fail<const N: usize>(&self, records: &Records<N>) -> bool {
        let routes = self.routes.iter().zip(records.routes());
        routes.zip(&self.trains).any(|((route, &read), train)| {
            // The route that was read has been checked with the table.
            let own = (route.direction, route.segments());
            (own != read && records.route_fails(own.0, own.1))
                || !matches!(train.covered, 1 | 2)
                || train.place < train.covered
                || train.place > route.length
                || message_fails(train)
        })
    }
}

/// A message that 16 or 17 would stop, or a code that is not 0 and none of the box's.
fn message_fails(train: &Train) -> bool {
    let (Message { state, request, code }, around) = (train.message, &train.around);
    let code = if state == State::Answered { code } else { 0 };
    let at_end = request.number == around.ahead || request.number == around.beyond;
    let at_point = request.number == around.ahead && around.point;
    let fits = match request.wish {
        Wish::Reservation => matches!(code, 0 | 22 | 31) && at_end,
        Wish::Lock => matches!(code, 0 | 23..=25) && at_point,
        Wish::ReservationBack => code == 0 && at_end,
        Wish::LockBack => code == 0 && at_point,
    };
    state != State::None && (around.next == 0 || !fits)
}
