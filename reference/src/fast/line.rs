//! The line record: table, boxes and trains, each train with what stands around it.

use super::records::{Head, Records};
use super::table::{Route, Table};
use crate::line::{self, Request, Wish};
use crate::numbers::{BOX_NUMBERS, TRAIN_NUMBERS};
use crate::refusal::Refusal;
use crate::table::*;

/// A box, but for who holds its segments.
#[derive(Clone, Copy, Debug)]
pub struct BoxState {
    pub sensor: bool,
    pub position: u8,
    /// The train that has the lock, or 0.
    pub lock: u8,
}

#[derive(Clone, Copy, Debug, PartialEq, Eq)]
pub enum State {
    None,
    Sent,
    Answered,
    Lost,
}

/// The one message of a train; where it is none, the rest plays no part. The code is 0 where it is sent or lost.
#[derive(Clone, Copy, Debug)]
pub struct Message {
    pub state: State,
    pub request: Request,
    pub code: u8,
}

impl Message {
    const NONE: Message = Message { state: State::None, request: Request { wish: Wish::Reservation, number: 0 }, code: 0 };
}

impl From<line::Message> for Message {
    fn from(message: line::Message) -> Self {
        match message {
            line::Message::None => Message::NONE,
            line::Message::Sent(request) => Message { state: State::Sent, request, code: 0 },
            line::Message::Answered(request, code) => Message { state: State::Answered, request, code },
            line::Message::Lost(request) => Message { state: State::Lost, request, code: 0 },
        }
    }
}

/// A train: place of the front on its route, from 1; segments covered; what it knows that it holds of next (the
/// reservations at its near and its far end, and the lock of the box ahead); its message. 32 bytes, so that a train
/// is found by a shift.
#[derive(Clone, Copy, Debug)]
#[repr(align(32))]
pub struct Train {
    pub place: u8,
    pub covered: u8,
    pub near: bool,
    pub far: bool,
    pub lock: bool,
    pub message: Message,
    pub around: Around,
}

/// What stands around a train; 0 where there is none. It follows from table, route and place, and is set by
/// `Line::look_around` alone.
#[derive(Clone, Copy, Debug)]
pub struct Around {
    pub next: u8,
    /// Whether the train runs against the way of next.
    pub against: bool,
    /// The box ahead, at the near end of next, and whether it is a point.
    pub ahead: u8,
    pub point: bool,
    /// The position that joins front and next there.
    pub joining: u8,
    /// The box at the far end of next.
    pub beyond: u8,
    /// The box between tail and front.
    pub passed: u8,
    /// Where in `Line::holders` it stands who holds a segment at a box.
    pub front_ahead: u16,
    pub next_ahead: u16,
    pub next_beyond: u16,
    pub front_passed: u16,
    pub tail_passed: u16,
}

impl Train {
    /// A train that is nowhere.
    pub(crate) const NONE: Train = Train {
        place: 0,
        covered: 0,
        near: false,
        far: false,
        lock: false,
        message: Message::NONE,
        around: Around {
            next: 0,
            against: false,
            ahead: 0,
            point: false,
            joining: 0,
            beyond: 0,
            passed: 0,
            front_ahead: 0,
            next_ahead: 0,
            next_beyond: 0,
            front_passed: 0,
            tail_passed: 0,
        },
    };
}

#[derive(Clone, Debug)]
pub struct Line {
    pub(crate) table: Table,
    pub(crate) boxes: [BoxState; MAX_BOXES],
    /// Three for each box, at stem, left and right: the train that holds the segment there, or 0.
    pub(crate) holders: [u8; 3 * MAX_BOXES],
    pub(crate) trains: [Train; MAX_TRAINS],
    /// The routes as they stand.
    pub(crate) routes: [Route; MAX_TRAINS],
}

impl Line {
    /// A record of no line: it fails 27.
    pub const NONE: Line = Line {
        table: Table::NONE,
        boxes: [BoxState { sensor: false, position: 0, lock: 0 }; MAX_BOXES],
        holders: [0; 3 * MAX_BOXES],
        trains: [Train::NONE; MAX_TRAINS],
        routes: [Route::NONE; MAX_TRAINS],
    };

    /// Makes this the start line of a file. Refused by 1 to 12, 28 or 32, with the line as it was.
    pub fn read(&mut self, file: &[u8]) -> Result<(), Refusal> {
        let (head, body) = Head::of(file)?;
        match head.version {
            VERSION_1 => self.read_body::<{ segment_bytes(VERSION_1) }>(head, body),
            _ => self.read_body::<{ segment_bytes(VERSION_2) }>(head, body),
        }
    }

    /// The same from the bytes behind the head, with N bytes for a segment. Refused by 5 to 12, 28 or 32.
    fn read_body<const N: usize>(&mut self, head: Head, body: &[u8]) -> Result<(), Refusal> {
        let records = Records::<N>::in_body(head, body).ok_or(Refusal::by(5))?;
        records.check()?;
        self.start(&records);
        Ok(())
    }

    /// The start line of records that were accepted.
    fn start<const N: usize>(&mut self, records: &Records<N>) {
        self.table.set(records);
        for (state, &[.., position]) in self.boxes.iter_mut().zip(records.boxes) {
            *state = BoxState { sensor: false, position, lock: 0 };
        }
        self.holders[..3 * records.boxes.len()].fill(0);
        for (i, &(direction, segments)) in records.routes().iter().enumerate() {
            self.routes[i].set(direction, segments);
            self.trains[i] = Train { place: 1, covered: 1, ..Train::NONE };
            self.look_around(i);
            self.holders[usize::from(self.trains[i].around.front_ahead)] = i as u8 + 1;
        }
    }

    /// Writes the file of the table to the front of the buffer and gives its length. Refused by 3, 4, 6 to 12, 28,
    /// 32 or 26, with the buffer as it was.
    pub fn write(&self, buffer: &mut [u8]) -> Result<usize, Refusal> {
        self.table.write(buffer)
    }

    /// Makes anew what stands around a train, whose place may be any.
    pub(crate) fn look_around(&mut self, train: usize) {
        let route = &self.routes[train];
        let place = self.trains[train].place;
        let [tail, front, next] = [2, 1, 0].map(|back| route.segment(place.wrapping_sub(back)));
        let far = usize::from(route.direction == 0);
        let (front_record, next_record) = (self.table.segment(front), self.table.segment(next));
        let (passed, ahead, beyond) = (front_record[1 - far], front_record[far], next_record[far]);
        let (kind, front_place) = self.place_of(ahead, front);
        let (_, next_place) = self.place_of(ahead, next);
        let holder = |number: u8, segment: u8| slot(number, self.place_of(number, segment).1);
        self.trains[train].around = Around {
            next,
            against: against(next_record[2], route.direction),
            ahead,
            point: kind == POINT,
            joining: front_place.max(next_place),
            beyond,
            passed,
            front_ahead: slot(ahead, front_place),
            next_ahead: slot(ahead, next_place),
            next_beyond: holder(beyond, next),
            front_passed: holder(passed, front),
            tail_passed: holder(passed, tail),
        };
    }

    /// The kind of a box, and at which place it lists the segment: 0 stem, 1 left, 2 right.
    fn place_of(&self, number: u8, segment: u8) -> (u8, u8) {
        match self.table.boxes.get(usize::from(number).wrapping_sub(1)) {
            Some(&[kind, stem, ..]) if stem == segment => (kind, 0),
            Some(&[kind, _, left, ..]) => (kind, if left == segment { 1 } else { 2 }),
            None => (BORDER, 0),
        }
    }

    /// Numbers of a train (from 0), as `numbers::train_numbers` has them.
    pub fn train_numbers(&self, train: usize) -> [u8; TRAIN_NUMBERS] {
        let (t, route) = (&self.trains[train], &self.routes[train]);
        let [near, far, lock] = [t.near, t.far, t.lock].map(u8::from);
        let Message { state, request, code } = t.message;
        let [state, kind, number, code] = match state {
            State::None => [0; 4],
            _ => [state as u8, request.wish as u8, request.number, code],
        };
        [route.direction, route.length, t.place, t.covered, near, far, lock, state, kind, number, code]
    }

    /// Numbers of a box (from 0), as `numbers::box_numbers` has them.
    pub fn box_numbers(&self, number: usize) -> [u8; BOX_NUMBERS] {
        let BoxState { sensor, position, lock } = self.boxes[number];
        let at = |place| self.holders[3 * number + place];
        [u8::from(sensor), position, lock, at(0), at(1), at(2)]
    }
}

/// Where a box has who holds the segment at a place.
fn slot(number: u8, place: u8) -> u16 {
    3 * u16::from(number.saturating_sub(1)) + u16::from(place)
}
