//! Atomic steps: places folded from accepted moves, the order of atomic
//! steps made from steps and answers alone, and the whole line that takes
//! this order in a state of its own, without messages.

use crate::fault::Fault;
use crate::step::Step;
use crate::table::*;
use std::collections::BTreeSet;

/// A train's place as indices in its route: it covers `tail..=front`.
#[derive(Clone, Copy, Debug, PartialEq, Eq, Hash, Default)]
pub struct Place {
    pub tail: usize,
    pub front: usize,
}

impl Place {
    /// The place after an accepted step of this kind.
    pub fn after(self, kind: u8) -> Place {
        match kind {
            5 => Place { front: self.front + 1, ..self },
            6 => Place { tail: self.front, ..self },
            _ => self,
        }
    }
}

/// The places of all trains, folded from accepted moves alone.
pub fn fold_places(trains: usize, steps: &[(Step, u8)]) -> Vec<Place> {
    let mut places = vec![Place::default(); trains];
    for &(step, answer) in steps {
        fold_place(&mut places, step, answer);
    }
    places
}

/// Folds one step with its answer into the places.
pub fn fold_place(places: &mut [Place], [kind, train, _]: Step, answer: u8) {
    let index = (train as usize).wrapping_sub(1);
    if let (0, Some(place)) = (answer, places.get_mut(index)) {
        *place = place.after(kind);
    }
}

/// The last request or give-back of a train byte that was answered 0, and
/// whether its box has said yes to it.
#[derive(Clone, Copy, Debug, PartialEq, Eq, Hash)]
pub struct Kept {
    pub step: Step,
    pub granted: bool,
}

/// Makes the order of atomic steps. It keeps one request or give-back per
/// train byte, which stands in the order at its first grant.
#[derive(Clone, Debug)]
pub struct OrderMaker {
    last: Vec<Option<Kept>>,
    fault: Fault,
}

impl OrderMaker {
    /// Before any step, with a fault switched on or `Fault::None`.
    pub fn new(fault: Fault) -> Self {
        OrderMaker { last: vec![None; 256], fault }
    }

    /// What is kept for a train byte.
    pub fn kept(&self, train: u8) -> Option<Kept> {
        self.last[train as usize]
    }

    /// The atomic step that this step with its answer adds, if any: the first
    /// yes of the box adds what is kept, an accepted move adds itself. A yes
    /// to what has been granted adds nothing.
    pub fn add(&mut self, step: Step, answer: u8) -> Option<Step> {
        let [kind, train, _] = step;
        if answer != 0 {
            return None;
        }
        let kept = &mut self.last[train as usize];
        match kind {
            7 | 8 if matches!(self.fault, Fault::BackOrderedWhenSent | Fault::BackNotOrdered) => {
                *kept = None;
                Some(step).filter(|_| self.fault == Fault::BackOrderedWhenSent)
            }
            1 | 2 | 7 | 8 => {
                *kept = Some(Kept { step, granted: false });
                None
            }
            3 => {
                let kept = kept.as_mut()?;
                let first = !std::mem::replace(&mut kept.granted, true);
                (first || self.fault == Fault::RepeatOrderedAgain).then_some(kept.step)
            }
            10 if self.fault == Fault::RepeatNotOrdered => {
                kept.iter_mut().for_each(|kept| kept.granted = true);
                None
            }
            5 | 6 => Some(step),
            _ => None,
        }
    }
}

/// The whole order of a list of steps with answers.
pub fn atomic_order(steps: &[(Step, u8)]) -> Vec<Step> {
    let mut maker = OrderMaker::new(Fault::None);
    steps
        .iter()
        .filter_map(|&(step, answer)| maker.add(step, answer))
        .collect()
}

/// A train of the whole line: its route is that of the table.
#[derive(Clone, Debug, PartialEq, Eq, Hash, Default)]
pub struct WholeTrain {
    pub place: Place,
    /// Reservations held, as segment and box.
    pub reservations: BTreeSet<(u8, u8)>,
    /// Boxes locked.
    pub locks: BTreeSet<u8>,
}

/// A box of the whole line; `holders` go with stem, left, right.
#[derive(Clone, Copy, Debug, PartialEq, Eq, Hash, Default)]
pub struct WholeBox {
    pub sensor: bool,
    pub position: u8,
    pub lock: u8,
    pub holders: [u8; 3],
}

/// The whole line.
#[derive(Clone, Debug, PartialEq, Eq)]
pub struct WholeLine<'a> {
    pub table: &'a Table,
    pub trains: Vec<WholeTrain>,
    pub boxes: Vec<WholeBox>,
}

impl<'a> WholeLine<'a> {
    /// The start: as the line starts.
    pub fn start(table: &'a Table) -> Self {
        let mut whole = WholeLine {
            table,
            trains: vec![WholeTrain::default(); table.trains.len()],
            boxes: table
                .boxes
                .iter()
                .map(|b| WholeBox { position: b.position, ..WholeBox::default() })
                .collect(),
        };
        for (i, entry) in table.trains.iter().enumerate() {
            let first = entry.route[0];
            let ahead = table.far_box(first, entry.direction);
            whole.set_holder(first, ahead, (i + 1) as u8);
            whole.trains[i].reservations.insert((first, ahead));
        }
        whole
    }

    /// Takes one atomic step: 0, or the code that stops it, and then
    /// nothing changes.
    pub fn take(&mut self, [kind, train, number]: Step) -> u8 {
        if train == 0 || train as usize > self.trains.len() {
            return 14;
        }
        let i = train as usize - 1;
        match kind {
            1 => self.reserve(i, number),
            2 => self.lock(i, number),
            5 => self.enter(i),
            6 => self.clear(i),
            7 => self.give_back(i, number),
            8 => self.unlock(i, number),
            _ => 13,
        }
    }

    /// The segment at an index of a train's route.
    fn at(&self, i: usize, index: usize) -> Option<u8> {
        self.table.trains[i].route.get(index).copied()
    }

    /// Front of a train and the segment after it.
    fn front_next(&self, i: usize) -> (u8, Option<u8>) {
        let front = self.trains[i].place.front;
        (self.at(i, front).unwrap_or(0), self.at(i, front + 1))
    }

    /// The reservation holder of a segment at a box; 0 where the box does
    /// not list the segment.
    fn holder(&self, segment: u8, number: u8) -> u8 {
        let b = number as usize - 1;
        let place = self.table.boxes[b].place_of(segment);
        place.map_or(0, |p| self.boxes[b].holders[p])
    }

    /// Sets the holder, where the box lists the segment.
    fn set_holder(&mut self, segment: u8, number: u8, holder: u8) {
        let b = number as usize - 1;
        if let Some(p) = self.table.boxes[b].place_of(segment) {
            self.boxes[b].holders[p] = holder;
        }
    }

    fn is_point(&self, number: u8) -> bool {
        self.table.boxes[number as usize - 1].kind == POINT
    }

    /// Kind 1 with 3 and 4 in one.
    fn reserve(&mut self, i: usize, number: u8) -> u8 {
        let (_, Some(next)) = self.front_next(i) else {
            return 16;
        };
        let ends = self.table.segments[next as usize - 1];
        if number != ends.a && number != ends.b {
            return 17;
        }
        if self.trains[i].reservations.contains(&(next, number)) {
            return 18;
        }
        let me = (i + 1) as u8;
        match self.holder(next, number) {
            // Granted already.
            holder if holder == me => {}
            _ if self.table.runs_against(next, self.table.trains[i].direction) => return 31,
            0 => self.set_holder(next, number, me),
            _ => return 22,
        }
        self.trains[i].reservations.insert((next, number));
        0
    }

    /// Kind 2 with 3 and 4 in one.
    fn lock(&mut self, i: usize, number: u8) -> u8 {
        let (front, Some(next)) = self.front_next(i) else {
            return 16;
        };
        let ahead = self.table.far_box(front, self.table.trains[i].direction);
        if number != ahead || !self.is_point(number) {
            return 17;
        }
        if self.trains[i].locks.contains(&number) {
            return 18;
        }
        let me = (i + 1) as u8;
        let b = number as usize - 1;
        if self.boxes[b].lock == me {
            // Granted already.
            self.trains[i].locks.insert(number);
            return 0;
        }
        if self.boxes[b].lock != 0 {
            return 24;
        }
        if self.boxes[b].sensor {
            return 23;
        }
        if self.holder(front, number) != me || self.holder(next, number) != me {
            return 25;
        }
        self.boxes[b].lock = me;
        self.boxes[b].position = self.table.boxes[b].joining(front, next);
        self.trains[i].locks.insert(number);
        0
    }

    /// Kind 7 with 3 and 4 in one.
    fn give_back(&mut self, i: usize, number: u8) -> u8 {
        let (_, Some(next)) = self.front_next(i) else {
            return 16;
        };
        let ends = self.table.segments[next as usize - 1];
        if number != ends.a && number != ends.b {
            return 17;
        }
        let held = (next, number);
        if !self.trains[i].reservations.contains(&held) {
            return 29;
        }
        if self.holder(next, number) == (i + 1) as u8 {
            self.set_holder(next, number, 0);
        }
        self.trains[i].reservations.remove(&held);
        0
    }

    /// Kind 8 with 3 and 4 in one.
    fn unlock(&mut self, i: usize, number: u8) -> u8 {
        let (front, Some(_)) = self.front_next(i) else {
            return 16;
        };
        let ahead = self.table.far_box(front, self.table.trains[i].direction);
        if number != ahead || !self.is_point(number) {
            return 17;
        }
        if !self.trains[i].locks.contains(&number) {
            return 29;
        }
        let b = number as usize - 1;
        if self.boxes[b].lock == (i + 1) as u8 {
            self.boxes[b].lock = 0;
        }
        self.trains[i].locks.remove(&number);
        0
    }

    /// Kind 5.
    fn enter(&mut self, i: usize) -> u8 {
        let place = self.trains[i].place;
        if place.tail != place.front {
            return 20;
        }
        let (front, Some(next)) = self.front_next(i) else {
            return 16;
        };
        let direction = self.table.trains[i].direction;
        let ahead = self.table.far_box(front, direction);
        let ends = self.table.segments[next as usize - 1];
        let t = &self.trains[i];
        let reserved = [ends.a, ends.b]
            .iter()
            .all(|&end| t.reservations.contains(&(next, end)));
        if !reserved || (self.is_point(ahead) && !t.locks.contains(&ahead)) {
            return 19;
        }
        self.boxes[ahead as usize - 1].sensor = true;
        self.trains[i].place = place.after(5);
        0
    }

    /// Kind 6.
    fn clear(&mut self, i: usize) -> u8 {
        let place = self.trains[i].place;
        if place.tail == place.front {
            return 20;
        }
        let (front, _) = self.front_next(i);
        let tail = self.at(i, place.tail).unwrap_or(0);
        let passed = self.table.near_box(front, self.table.trains[i].direction);
        let b = passed as usize - 1;
        self.boxes[b].sensor = false;
        self.boxes[b].lock = 0;
        for (p, segment) in self.table.boxes[b].places().into_iter().enumerate() {
            if segment == front || segment == tail {
                self.boxes[b].holders[p] = 0;
            }
        }
        let t = &mut self.trains[i];
        t.place = place.after(6);
        t.reservations.retain(|&(_, number)| number != passed);
        t.locks.retain(|&number| number != passed);
        0
    }
}
