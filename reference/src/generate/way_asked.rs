//! What boxes find that answer a reservation: whether next runs against the train, at which of its ends the box is, and
//! whom it holds next for. And how often trains hear 31.

use super::lock_asked::{Holder, HOLDERS};
use crate::line::{Line, Message, Request, Wish};
use crate::step::Step;
use std::fmt::{Display, Formatter, Result};

/// Counts over steps.
#[derive(Clone, Copy, Debug, Default)]
pub struct WayCounts {
    /// With next along the train's way or both ways, and against it; at the near end and at the far end; by holder.
    answered: [[[usize; 3]; 2]; 2],
    heard: usize,
}

impl WayCounts {
    /// Counts a step on a line that is as it was before it, if it is a box's answer to a reservation, or 31 heard.
    pub fn add(&mut self, line: &Line, [kind, train, number]: Step) {
        let Some(t) = line.trains.get(usize::from(train).wrapping_sub(1)).filter(|_| number == 0) else {
            return;
        };
        match (kind, t.message, t.next_segment()) {
            (4, Message::Answered(_, 31), _) => self.heard += 1,
            (3, Message::Sent(Request { wish: Wish::Reservation, number: at }), Some(next)) => {
                let against = line.table.runs_against(next, t.direction);
                let far = at == line.table.far_box(next, t.direction);
                let holder = Holder::of(line.reservation(next, at), train);
                self.answered[usize::from(against)][usize::from(far)][holder as usize] += 1;
            }
            _ => {}
        }
    }

    /// How often the rarest comes of what lists of steps from a start have against the way: next is free or
    /// another's, at either end; and 31 is heard.
    pub fn fewest_in_lists(&self) -> usize {
        let [near, far] = self.answered[1].map(|by| [by[Holder::Nobody as usize], by[Holder::Another as usize]]);
        near.into_iter().chain(far).chain([self.heard]).min().unwrap_or(0)
    }

    /// How often the rarest comes of all that a box can find against the way.
    pub fn fewest(&self) -> usize {
        self.answered[1].into_iter().flatten().chain([self.heard]).min().unwrap_or(0)
    }
}

impl Display for WayCounts {
    fn fmt(&self, f: &mut Formatter) -> Result {
        let holders = HOLDERS.map(|holder| format!("{holder:?}")).join(", ");
        writeln!(f, "answers to a reservation at the near end and at the far end, held for {holders}")?;
        for (name, [near, far]) in ["along or both ways", "against the way"].into_iter().zip(self.answered) {
            writeln!(f, "{name:18} {near:7?} {far:7?}")?;
        }
        writeln!(f, "31 heard {}", self.heard)
    }
}
