//! A line record in fixed arrays, as the crates have it: 96 segments and boxes, 16 trains, 64 places
//! a route, a train's holdings those of its next segment. It may be changed field by field into
//! something that no steps reach, and read as a line of either engine.

use crate::fast;
use crate::line::*;
use crate::numbers::*;
use crate::table::*;

/// A change of one field: part, index of the record there (from 0), field (from 0), value.
///
/// | Part | Fields |
/// |---|---|
/// | `h` | the table's head: version's high byte and low byte, n, m, k (index 0) |
/// | `s` | a segment: A end, B end, way |
/// | `p` | a box in the table: kind, stem, left, right, position |
/// | `d` | a train in the table: direction, length |
/// | `r` | a train's route in the table: a field for each place |
/// | `R` | a train's route in force: a field for each place |
/// | `b` | a box: sensor, position, lock, holders at stem, left and right |
/// | `t` | a train: direction, length, place, covered, near, far, lock |
/// | `m` | a train's message: none (0); a reservation or a lock of box `value`, sent (1, 2) or answered yes (3, 4); the answer's code (5); a reservation or a lock given back to box `value`, sent (6, 7) or answered yes (8, 9); lost: a reservation, a lock (10, 11), a reservation or a lock given back (12, 13) to box `value` |
pub type Change = [u8; 4];

/// The record.
#[derive(Clone, Debug, PartialEq, Eq)]
pub struct Record {
    head: [u8; 5],
    segments: [[u8; 3]; MAX_SEGMENTS],
    plans: [[u8; 5]; MAX_BOXES],
    train_plans: [[u8; 2]; MAX_TRAINS],
    table_routes: [[u8; MAX_ROUTE]; MAX_TRAINS],
    routes: [[u8; MAX_ROUTE]; MAX_TRAINS],
    boxes: [[u8; BOX_NUMBERS]; MAX_BOXES],
    trains: [[u8; TRAIN_NUMBERS]; MAX_TRAINS],
}

impl Record {
    /// The record of a line that steps have reached.
    pub fn of(line: &Line) -> Record {
        let table = &line.table;
        let [high, low] = table.version.to_be_bytes();
        let [n, m, k] = [table.segments.len(), table.boxes.len(), table.trains.len()].map(|c| c as u8);
        let mut record = Record {
            head: [high, low, n, m, k],
            segments: [[0; 3]; MAX_SEGMENTS],
            plans: [[0; 5]; MAX_BOXES],
            train_plans: [[0; 2]; MAX_TRAINS],
            table_routes: [[0; MAX_ROUTE]; MAX_TRAINS],
            routes: [[0; MAX_ROUTE]; MAX_TRAINS],
            boxes: [[0; BOX_NUMBERS]; MAX_BOXES],
            trains: [[0; TRAIN_NUMBERS]; MAX_TRAINS],
        };
        for (i, s) in table.segments.iter().enumerate() {
            record.segments[i] = [s.a, s.b, s.way];
        }
        for (i, b) in table.boxes.iter().enumerate() {
            record.plans[i] = [b.kind, b.stem, b.left, b.right, b.position];
            record.boxes[i] = box_numbers(&line.boxes[i]);
        }
        for (i, t) in table.trains.iter().enumerate() {
            record.train_plans[i] = [t.direction, t.route.len() as u8];
            record.table_routes[i][..t.route.len()].copy_from_slice(&t.route);
            let route = &line.trains[i].route;
            record.routes[i][..route.len()].copy_from_slice(route);
            record.trains[i] = train_numbers(line, i);
        }
        record
    }

    /// The record of a line that steps have reached, with fields changed.
    pub fn changed(line: &Line, changes: &[Change]) -> Record {
        let mut record = Record::of(line);
        changes.iter().for_each(|&change| record.change(change));
        record
    }

    /// The record with one field changed.
    fn change(&mut self, [part, index, field, value]: Change) {
        let (index, field) = (index as usize, field as usize);
        match part {
            b'h' => self.head[field] = value,
            b's' => self.segments[index][field] = value,
            b'p' => self.plans[index][field] = value,
            b'd' => self.train_plans[index][field] = value,
            b'r' => self.table_routes[index][field] = value,
            b'R' => self.routes[index][field] = value,
            b'b' => self.boxes[index][field] = value,
            b't' => self.trains[index][..7][field] = value,
            b'm' => {
                let message = &mut self.trains[index][7..];
                let mut set = |state: u8, wish: Wish| message.copy_from_slice(&[state, wish as u8, value, 0]);
                match field {
                    0 => message.fill(0),
                    1 => set(1, Wish::Reservation),
                    2 => set(1, Wish::Lock),
                    3 => set(2, Wish::Reservation),
                    4 => set(2, Wish::Lock),
                    5 => message[3] = value,
                    6 => set(1, Wish::ReservationBack),
                    7 => set(1, Wish::LockBack),
                    8 => set(2, Wish::ReservationBack),
                    9 => set(2, Wish::LockBack),
                    10 => set(3, Wish::Reservation),
                    11 => set(3, Wish::Lock),
                    12 => set(3, Wish::ReservationBack),
                    13 => set(3, Wish::LockBack),
                    _ => panic!("a message has no field {field}"),
                }
            }
            _ => panic!("a record has no part {part}"),
        }
    }

    /// The line of this implementation that the record describes. Records beyond the arrays are empty.
    pub fn line(&self) -> Line {
        let [high, low, n, m, k] = self.head;
        let route = |routes: &[[u8; MAX_ROUTE]; MAX_TRAINS], i: usize, length: u8| -> Vec<u8> {
            let mut route = routes.get(i).map_or(vec![], |r| r.to_vec());
            route.resize(length as usize, 0);
            route
        };
        let plan = |i: usize| self.train_plans.get(i).copied().unwrap_or_default();
        let table = Table {
            version: u16::from_be_bytes([high, low]),
            segments: (0..n as usize)
                .map(|i| {
                    let [a, b, way] = self.segments.get(i).copied().unwrap_or_default();
                    Segment { a, b, way }
                })
                .collect(),
            boxes: (0..m as usize)
                .map(|i| {
                    let [kind, stem, left, right, position] = self.plans.get(i).copied().unwrap_or_default();
                    SwitchBox { kind, stem, left, right, position }
                })
                .collect(),
            trains: (0..k as usize)
                .map(|i| TrainEntry { direction: plan(i)[0], route: route(&self.table_routes, i, plan(i)[1]) })
                .collect(),
        };
        let boxes = (0..m as usize)
            .map(|i| {
                let [sensor, position, lock, reserved @ ..] = self.boxes.get(i).copied().unwrap_or_default();
                BoxState { sensor: sensor != 0, position, lock, reserved }
            })
            .collect();
        let trains = (0..k as usize)
            .map(|i| {
                let [direction, length, place, covered, ..] = self.train(i);
                TrainState {
                    direction,
                    route: route(&self.routes, i, length),
                    front: (place as usize).wrapping_sub(1),
                    covered,
                    holdings: Holdings::default(),
                    message: self.message(i),
                }
            })
            .collect();
        let mut line = Line { table, boxes, trains };
        for i in 0..k as usize {
            self.record_holdings(&mut line, i);
        }
        line
    }

    /// The line of the fast engine that the record describes.
    pub fn fast_line(&self) -> fast::Line {
        let [high, low, counts @ ..] = self.head;
        let mut line = fast::Line::NONE;
        line.table.version = u16::from_be_bytes([high, low]);
        line.table.counts = counts;
        line.table.segments = self.segments;
        line.table.boxes = self.plans;
        for (i, &[sensor, position, lock, reserved @ ..]) in self.boxes.iter().enumerate() {
            line.boxes[i] = fast::BoxState { sensor: sensor != 0, position, lock };
            line.holders[3 * i..][..3].copy_from_slice(&reserved);
        }
        for i in 0..MAX_TRAINS {
            let [direction, length] = self.train_plans[i];
            line.table.routes[i] = fast::Route { direction, length, places: self.table_routes[i] };
            let [direction, length, place, covered, known @ .., _, _, _, _] = self.trains[i];
            line.routes[i] = fast::Route { direction, length, places: self.routes[i] };
            let message = self.message(i).into();
            line.trains[i] = fast::Train { place, covered, message, ..fast::Train::NONE };
            line.look_around(i);
            let train = &mut line.trains[i];
            [train.near, train.far, train.lock] = known.map(|known| known != 0 && train.around.next != 0);
        }
        line
    }

    fn train(&self, i: usize) -> [u8; TRAIN_NUMBERS] {
        self.trains.get(i).copied().unwrap_or_default()
    }

    /// The message of a train.
    fn message(&self, i: usize) -> Message {
        let [.., state, kind, number, code] = self.train(i);
        let wish = Wish::of_kind(kind).unwrap_or(Wish::Reservation);
        match state {
            0 => Message::None,
            1 => Message::Sent(Request { wish, number }),
            3 => Message::Lost(Request { wish, number }),
            _ => Message::Answered(Request { wish, number }, code),
        }
    }

    /// The train of the line knows what the record has of its next segment, where there is one.
    fn record_holdings(&self, line: &mut Line, i: usize) {
        let [_, _, _, _, near, far, lock, ..] = self.train(i);
        let Some((next, near_end, far_end, ahead)) = ends_of_next(line, i) else {
            return;
        };
        let holdings = &mut line.trains[i].holdings;
        if near != 0 {
            holdings.add_reservation(&line.table, next, near_end);
        }
        if far != 0 {
            holdings.add_reservation(&line.table, next, far_end);
        }
        if lock != 0 {
            holdings.add_lock(ahead);
        }
    }

    /// The numbers of the trains 1 to k, and those of the boxes 1 to m.
    pub fn numbers(&self) -> [Vec<u8>; 2] {
        let [_, _, _, m, k] = self.head;
        [
            self.trains.iter().take(k as usize).flatten().copied().collect(),
            self.boxes.iter().take(m as usize).flatten().copied().collect(),
        ]
    }
}
