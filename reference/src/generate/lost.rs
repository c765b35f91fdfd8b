//! What becomes of messages that are lost and sent again, counted by kind.

use crate::counts::says_no;
use crate::line::{Line, Message, Request, Wish, WISHES};
use crate::numbers::message_numbers;
use crate::step::Step;
use std::fmt::{Display, Formatter, Result};

/// What a box finds that answers a message sent again.
#[derive(Clone, Copy, Debug, PartialEq, Eq)]
pub enum Found {
    /// Of a request: what it asks for is granted for the first time. Of a give-back: the box holds it for the train.
    First,
    /// Of a request: the box holds it for the train already. Of a give-back: it is free.
    Done,
    /// Of a request: a no. Of a give-back: another train has it.
    Anothers,
}

/// What a step finds: the train, its message and who holds what the message is about.
#[derive(Clone, Copy, Debug)]
pub struct Watched {
    train: usize,
    message: Message,
    holder: u8,
}

impl Watched {
    /// What a step finds, looked at before it is taken; `None` where it is of no train.
    pub fn of(line: &Line, [_, train, _]: Step) -> Option<Watched> {
        let train = usize::from(train).checked_sub(1).filter(|&i| i < line.trains.len())?;
        let t = &line.trains[train];
        let holder = match t.message {
            Message::Sent(Request { wish, number }) if wish.of_lock() => line.box_state(number).map_or(0, |b| b.lock),
            Message::Sent(Request { number, .. }) => line.reservation(t.next_segment().unwrap_or(0), number),
            _ => 0,
        };
        Some(Watched { train, message: t.message, holder })
    }
}

/// Counts over lists of steps, each row for a wish.
#[derive(Clone, Debug, Default)]
pub struct LostCounts {
    /// Lost as it was sent, as a yes, as a no.
    pub lost: [[usize; 3]; 4],
    /// Sent again.
    pub again: [usize; 4],
    /// Answered after it was sent again, by what the box finds.
    pub found: [[usize; 3]; 4],
    /// Kinds 9 and 10 that are refused by 30, by the message's state: none, sent, answered, lost.
    pub refused: [[usize; 4]; 2],
    /// Whether the message of each train was sent again.
    repeated: Vec<bool>,
}

impl LostCounts {
    /// Another line begins.
    pub fn start(&mut self) {
        self.repeated.clear();
    }

    /// Counts a step with its code and what it found.
    pub fn add(&mut self, watched: Option<Watched>, [kind, ..]: Step, code: u8) {
        let Some(Watched { train: i, message, holder }) = watched else {
            return;
        };
        if self.repeated.len() <= i {
            self.repeated.resize(i + 1, false);
        }
        match (kind, code, message) {
            (9 | 10, 30, _) => self.refused[usize::from(kind == 10)][usize::from(message_numbers(message)[0])] += 1,
            (9, 0, Message::Sent(request)) => self.lost[row(request.wish)][0] += 1,
            (9, 0, Message::Answered(request, answer)) => {
                self.lost[row(request.wish)][1 + usize::from(answer != 0)] += 1;
            }
            (10, 0, Message::Lost(request)) => {
                self.again[row(request.wish)] += 1;
                self.repeated[i] = true;
            }
            (3, _, Message::Sent(request)) if self.repeated[i] && (code == 0 || says_no(code)) => {
                let found = found(request.wish, holder, i as u8 + 1, code);
                self.found[row(request.wish)][found as usize] += 1;
            }
            (1 | 2 | 7 | 8, 0, _) => self.repeated[i] = false,
            _ => {}
        }
    }

    /// How many boxes found this of a wish.
    pub fn count(&self, wish: Wish, what: Found) -> usize {
        self.found[row(wish)][what as usize]
    }

    /// The rarest of all that can be: each way to be lost, to be sent again and to be answered then, and each 30. A
    /// give-back has no no.
    pub fn fewest(&self) -> usize {
        let lost = WISHES.into_iter().flat_map(|wish| {
            let ways = if wish.gives_back() { 2 } else { 3 };
            self.lost[row(wish)].into_iter().take(ways)
        });
        let [lose, again] = self.refused;
        let refused = [lose[0], lose[3], again[0], again[1], again[2]];
        lost.chain(self.again).chain(self.found.into_iter().flatten()).chain(refused).min().unwrap_or(0)
    }

    /// Messages lost, sent again, and granted again, which were granted before.
    pub fn sums(&self) -> [usize; 3] {
        let granted = [Wish::Reservation, Wish::Lock].map(|wish| self.count(wish, Found::Done));
        [self.lost.iter().flatten().sum(), self.again.iter().sum(), granted.iter().sum()]
    }
}

/// What the box finds that answers a train with this code, from who holds what is asked for or given back.
fn found(wish: Wish, holder: u8, me: u8, code: u8) -> Found {
    match (wish.gives_back(), holder) {
        (false, _) if code != 0 => Found::Anothers,
        (false, holder) if holder == me => Found::Done,
        (false, _) => Found::First,
        (true, 0) => Found::Done,
        (true, holder) if holder == me => Found::First,
        (true, _) => Found::Anothers,
    }
}

/// The kinds of steps that are about a message under way or lost.
const KINDS: [u8; 4] = [3, 4, 9, 10];

/// How often steps of these kinds meet a message of each state: none, sent, answered, lost.
#[derive(Clone, Copy, Debug, Default)]
pub struct StateCounts([[usize; 4]; 4]);

impl StateCounts {
    /// Counts a step on a line, if it is one of these, of a train that there is and with no box byte.
    pub fn add(&mut self, line: &Line, [kind, train, number]: Step) {
        let train = line.trains.get(usize::from(train).wrapping_sub(1)).filter(|_| number == 0);
        if let (Some(train), Some(row)) = (train, KINDS.iter().position(|&other| other == kind)) {
            self.0[row][usize::from(message_numbers(train.message)[0])] += 1;
        }
    }

    /// How often the rarest comes.
    pub fn fewest(&self) -> usize {
        self.0.into_iter().flatten().min().unwrap_or(0)
    }
}

impl Display for StateCounts {
    fn fmt(&self, f: &mut Formatter) -> Result {
        writeln!(f, "steps with no message, one sent, answered, lost")?;
        KINDS.into_iter().zip(self.0).try_for_each(|(kind, counts)| writeln!(f, "kind {kind:2} {counts:6?}"))
    }
}

fn row(wish: Wish) -> usize {
    WISHES.iter().position(|&other| other == wish).expect("all wishes are listed")
}

impl Display for LostCounts {
    fn fmt(&self, f: &mut Formatter) -> Result {
        writeln!(f, "kind  lost as sent, as a yes, as a no; sent again; then of a request: granted first,")?;
        writeln!(f, "      granted before, refused; of a give-back: freed, free by now, another's by now")?;
        for (i, wish) in WISHES.into_iter().enumerate() {
            writeln!(f, "{:4} {:6?} {:6} {:6?}", wish as u8, self.lost[i], self.again[i], self.found[i])?;
        }
        let [lose, again] = self.refused;
        writeln!(f, "30 with no message, sent, answered, lost: kind 9 {lose:?}, kind 10 {again:?}")
    }
}
