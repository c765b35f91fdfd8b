//! The line record: all boxes and trains of a line, and its start.

use crate::fault::Fault;
use crate::table::*;

/// One box: sensor, position, lock holder and a reservation holder for each
/// place (stem, left, right). Holders are train numbers, 0 is nobody.
#[derive(Clone, Copy, Debug, PartialEq, Eq, Hash, Default)]
pub struct BoxState {
    pub sensor: bool,
    pub position: u8,
    pub lock: u8,
    pub reserved: [u8; 3],
}

/// What a request asks for, with the kind of its step as number. Giving back is asked for as well.
#[derive(Clone, Copy, Debug, PartialEq, Eq, Hash)]
#[repr(u8)]
pub enum Wish {
    /// A reservation of the next segment (kind 1).
    Reservation = 1,
    /// The lock of the box ahead (kind 2).
    Lock = 2,
    /// That the box takes the reservation back (kind 7).
    ReservationBack = 7,
    /// That the box takes the lock back (kind 8).
    LockBack = 8,
}

/// All wishes.
pub const WISHES: [Wish; 4] = [Wish::Reservation, Wish::Lock, Wish::ReservationBack, Wish::LockBack];

impl Wish {
    /// The wish of a kind of step; `None` for a kind that asks for nothing.
    pub fn of_kind(kind: u8) -> Option<Wish> {
        WISHES.into_iter().find(|&wish| wish as u8 == kind)
    }

    /// Whether it is about the lock, not about a reservation.
    pub fn of_lock(self) -> bool {
        matches!(self, Wish::Lock | Wish::LockBack)
    }

    /// Whether it gives back what it is about.
    pub fn gives_back(self) -> bool {
        matches!(self, Wish::ReservationBack | Wish::LockBack)
    }
}

/// A request to one box. The segments meant are the train's front and next.
#[derive(Clone, Copy, Debug, PartialEq, Eq, Hash)]
pub struct Request {
    pub wish: Wish,
    pub number: u8,
}

/// The one message of a train.
#[derive(Clone, Copy, Debug, PartialEq, Eq, Hash, Default)]
pub enum Message {
    #[default]
    None,
    /// Sent, the box has not answered.
    Sent(Request),
    /// Answered with this code, the train has not heard it.
    Answered(Request, u8),
    /// Lost as it was sent or as it was answered. The train still waits, and
    /// nothing is under way.
    Lost(Request),
}

/// What a train knows it holds: bit `s - 1` of `at_a` is the reservation of
/// segment s at its A end, `at_b` at its B end; bit `b - 1` of `locks` is
/// the lock of box b.
#[derive(Clone, Copy, Debug, PartialEq, Eq, Hash, Default)]
pub struct Holdings {
    pub at_a: u128,
    pub at_b: u128,
    pub locks: u128,
}

/// One train: direction and route as they stand, place, holdings, message.
#[derive(Clone, Debug, PartialEq, Eq, Hash, Default)]
pub struct TrainState {
    pub direction: u8,
    pub route: Vec<u8>,
    /// Index of the front in the route.
    pub front: usize,
    /// Segments covered: 1 single, 2 crossing.
    pub covered: u8,
    pub holdings: Holdings,
    pub message: Message,
}

/// The line: the table as read, and the state of boxes and trains.
#[derive(Clone, Debug, PartialEq, Eq, Default)]
pub struct Line {
    pub table: Table,
    pub boxes: Vec<BoxState>,
    pub trains: Vec<TrainState>,
}

/// The bit of a number that counts from 1; no bit for one beyond 128.
fn bit(number: u8) -> u128 {
    match number {
        1..=128 => 1u128 << (number - 1),
        _ => 0,
    }
}

impl Holdings {
    /// Whether the reservation of the segment at the box is known.
    pub fn reservation(&self, table: &Table, segment: u8, number: u8) -> bool {
        table.segment(segment).is_some_and(|s| {
            (s.a == number && self.at_a & bit(segment) != 0)
                || (s.b == number && self.at_b & bit(segment) != 0)
        })
    }

    /// Records the reservation of the segment at the box.
    pub fn add_reservation(&mut self, table: &Table, segment: u8, number: u8) {
        if let Some(s) = table.segment(segment) {
            if s.a == number {
                self.at_a |= bit(segment);
            }
            if s.b == number {
                self.at_b |= bit(segment);
            }
        }
    }

    /// Drops the record of the segment's reservation at the box.
    pub fn drop_reservation(&mut self, table: &Table, segment: u8, number: u8) {
        if let Some(s) = table.segment(segment) {
            if s.a == number {
                self.at_a &= !bit(segment);
            }
            if s.b == number {
                self.at_b &= !bit(segment);
            }
        }
    }

    /// Whether the lock of the box is known.
    pub fn lock(&self, number: u8) -> bool {
        self.locks & bit(number) != 0
    }

    /// Records the lock of the box.
    pub fn add_lock(&mut self, number: u8) {
        self.locks |= bit(number);
    }

    /// Drops the record of the box's lock.
    pub fn drop_lock(&mut self, number: u8) {
        self.locks &= !bit(number);
    }

    /// Drops every record at the box.
    pub fn drop_at(&mut self, table: &Table, number: u8) {
        self.drop_lock(number);
        for segment in 1..=table.segments.len() as u8 {
            self.drop_reservation(table, segment, number);
        }
    }
}

impl TrainState {
    /// The front segment; 0 if the train is outside its route.
    pub fn front_segment(&self) -> u8 {
        self.route.get(self.front).copied().unwrap_or(0)
    }

    /// The tail segment of a crossing train; 0 if single.
    pub fn tail_segment(&self) -> u8 {
        match (self.crossing(), self.front.checked_sub(1)) {
            (true, Some(tail)) => self.route.get(tail).copied().unwrap_or(0),
            _ => 0,
        }
    }

    /// The segment after the front; `None` at the end of the route.
    pub fn next_segment(&self) -> Option<u8> {
        self.route.get(self.front.checked_add(1)?).copied()
    }

    pub fn crossing(&self) -> bool {
        self.covered >= 2
    }
}

/// The start line of a table that was accepted.
pub fn start_line(table: &Table) -> Line {
    start_line_with(table, Fault::None)
}

/// As `start_line`, with a fault switched on.
pub fn start_line_with(table: &Table, fault: Fault) -> Line {
    let mut line = Line {
        table: table.clone(),
        boxes: table
            .boxes
            .iter()
            .map(|b| BoxState { position: b.position, ..BoxState::default() })
            .collect(),
        trains: Vec::new(),
    };
    for (i, entry) in table.trains.iter().enumerate() {
        let mut train = TrainState {
            direction: entry.direction,
            route: entry.route.clone(),
            covered: 1,
            ..TrainState::default()
        };
        let first = train.front_segment();
        let ahead = table.far_box(first, entry.direction);
        let behind = table.near_box(first, entry.direction);
        train.holdings.add_reservation(table, first, ahead);
        if fault != Fault::StartUnreserved {
            line.set_reservation(first, ahead, (i + 1) as u8);
        }
        if fault == Fault::StartReservesBehind {
            line.set_reservation(first, behind, (i + 1) as u8);
        }
        line.trains.push(train);
    }
    line
}

impl Line {
    /// The state of the box with this number.
    pub fn box_state(&self, number: u8) -> Option<&BoxState> {
        self.boxes.get((number as usize).checked_sub(1)?)
    }

    pub fn box_state_mut(&mut self, number: u8) -> Option<&mut BoxState> {
        self.boxes.get_mut((number as usize).checked_sub(1)?)
    }

    /// Who holds the segment at the box; 0 nobody.
    pub fn reservation(&self, segment: u8, number: u8) -> u8 {
        let place = self.table.switch_box(number).and_then(|b| b.place_of(segment));
        match (place, self.box_state(number)) {
            (Some(p), Some(state)) => state.reserved[p],
            _ => 0,
        }
    }

    /// Sets who holds the segment at the box.
    pub fn set_reservation(&mut self, segment: u8, number: u8, holder: u8) {
        let place = self.table.switch_box(number).and_then(|b| b.place_of(segment));
        if let (Some(p), Some(state)) = (place, self.box_state_mut(number)) {
            state.reserved[p] = holder;
        }
    }

    /// The box at the far end of the front of a train (index from 0).
    pub fn box_ahead(&self, train: usize) -> u8 {
        let t = &self.trains[train];
        self.table.far_box(t.front_segment(), t.direction)
    }

    /// The box at the near end of the front of a train (index from 0).
    pub fn box_behind(&self, train: usize) -> u8 {
        let t = &self.trains[train];
        self.table.near_box(t.front_segment(), t.direction)
    }
}
