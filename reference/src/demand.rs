//! The third demand: what must hold after every list of steps. Each clause
//! has its own name, so that a violation says which one broke. Beside the
//! demand stands that no step is answered 23, that a box says yes again to
//! what it has granted, which changes no box, and that no train covers a
//! segment against its way.

use crate::atomic::*;
use crate::counts::says_no;
use crate::fault::Fault;
use crate::line::{BoxState, Line};
use crate::step::Step;
use crate::table::*;

/// One clause, of the demand or beside it.
#[derive(Clone, Copy, Debug, PartialEq, Eq)]
#[repr(u8)]
pub enum Clause {
    /// A segment is covered by two trains.
    TwoTrainsOneSegment,
    /// A front is beyond its route.
    FrontBeyondRoute,
    /// The position of a point crossed does not join the two segments.
    PositionNotJoining,
    /// A step changed the position of a box that a train crosses.
    PositionChangedUnderTrain,
    /// Something in the atomic order was stopped.
    OrderStopped,
    /// The recorded place is not the one that accepted moves give.
    PlaceNotFolded,
    /// Line and whole line differ in a train's place.
    PlaceDiffers,
    /// Line and whole line differ in a sensor.
    SensorDiffers,
    /// Line and whole line differ in a position.
    PositionDiffers,
    /// Line and whole line differ in a lock holder.
    LockDiffers,
    /// Line and whole line differ in a reservation holder.
    ReservationDiffers,
    /// Beside the demand: a step is answered 23, by the box or when the train
    /// hears it. A train on a point has its lock, so that another is told 24.
    Answered23,
    /// Beside the demand: a box says no to what it has granted.
    RepeatRefused,
    /// Beside the demand: a box says yes to what it has granted, and some box
    /// is not as it was before.
    RepeatChangesBox,
    /// Beside the demand: a train covers a segment against its way.
    CoversAgainstWay,
}

impl Clause {
    /// Whether the clause is one of the demand.
    pub fn in_demand(self) -> bool {
        !matches!(
            self,
            Clause::Answered23 | Clause::RepeatRefused | Clause::RepeatChangesBox | Clause::CoversAgainstWay
        )
    }
}

/// All clauses, in the order of their numbers.
pub const CLAUSES: [Clause; 15] = [
    Clause::TwoTrainsOneSegment,
    Clause::FrontBeyondRoute,
    Clause::PositionNotJoining,
    Clause::PositionChangedUnderTrain,
    Clause::OrderStopped,
    Clause::PlaceNotFolded,
    Clause::PlaceDiffers,
    Clause::SensorDiffers,
    Clause::PositionDiffers,
    Clause::LockDiffers,
    Clause::ReservationDiffers,
    Clause::Answered23,
    Clause::RepeatRefused,
    Clause::RepeatChangesBox,
    Clause::CoversAgainstWay,
];

/// A set of clauses.
#[derive(Clone, Copy, Debug, PartialEq, Eq, Default)]
pub struct Clauses(pub u16);

impl Clauses {
    pub fn add(&mut self, clause: Clause) {
        self.0 |= 1 << clause as u8;
    }

    pub fn join(&mut self, other: Clauses) {
        self.0 |= other.0;
    }

    pub fn has(self, clause: Clause) -> bool {
        self.0 & (1 << clause as u8) != 0
    }

    pub fn is_empty(self) -> bool {
        self.0 == 0
    }

    /// Whether a clause of the demand is among them.
    pub fn breaks_demand(self) -> bool {
        CLAUSES.into_iter().any(|clause| clause.in_demand() && self.has(clause))
    }
}

/// A checker's state without its table.
#[derive(Clone, Debug, PartialEq, Eq, Hash)]
pub struct CheckerState {
    places: Vec<Place>,
    kept: Vec<Option<Kept>>,
    trains: Vec<WholeTrain>,
    boxes: Vec<WholeBox>,
    stopped: bool,
}

/// Follows a line step by step and tells which clauses are broken.
#[derive(Clone)]
pub struct Checker<'a> {
    table: &'a Table,
    places: Vec<Place>,
    order: OrderMaker,
    whole: WholeLine<'a>,
    /// The boxes of the line before the step.
    before: Vec<BoxState>,
    stopped: bool,
    /// Length of the atomic order so far.
    pub order_length: u64,
}

impl<'a> Checker<'a> {
    /// Before any step. The line given is only read for its boxes.
    pub fn new(table: &'a Table, line: &Line) -> Self {
        Checker::new_with(table, line, Fault::None)
    }

    /// As `new`, with a fault in the demand switched on.
    pub fn new_with(table: &'a Table, line: &Line, fault: Fault) -> Self {
        Checker {
            table,
            places: vec![Place::default(); table.trains.len()],
            order: OrderMaker::new(fault),
            whole: WholeLine::start(table),
            before: line.boxes.clone(),
            stopped: false,
            order_length: 0,
        }
    }

    /// All that later steps depend on, for a search over lists of steps.
    pub fn state(&self) -> CheckerState {
        let trains = 1..=self.places.len() as u8;
        CheckerState {
            places: self.places.clone(),
            kept: trains.map(|train| self.order.kept(train)).collect(),
            trains: self.whole.trains.clone(),
            boxes: self.whole.boxes.clone(),
            stopped: self.stopped,
        }
    }

    /// The places folded so far.
    pub fn places(&self) -> &[Place] {
        &self.places
    }

    /// Takes a step with its answer and the line it returned; gives the
    /// clauses that are broken after it.
    pub fn observe(&mut self, step: Step, answer: u8, line: &Line) -> Clauses {
        let mut broken = Clauses::default();
        if answer == 23 {
            broken.add(Clause::Answered23);
        }
        if step[0] == 3 && self.order.kept(step[1]).is_some_and(|kept| kept.granted) {
            match answer {
                0 if self.before != line.boxes => broken.add(Clause::RepeatChangesBox),
                _ if says_no(answer) => broken.add(Clause::RepeatRefused),
                _ => {}
            }
        }
        if self.position_changed_under_train(line) {
            broken.add(Clause::PositionChangedUnderTrain);
        }
        self.before.copy_from_slice(&line.boxes);
        fold_place(&mut self.places, step, answer);
        if let Some(atomic) = self.order.add(step, answer) {
            self.order_length += 1;
            self.stopped |= self.whole.take(atomic) != 0;
        }
        broken.join(self.state_clauses(line));
        broken
    }

    /// The clauses on the state that are broken now.
    pub fn state_clauses(&self, line: &Line) -> Clauses {
        let mut broken = Clauses::default();
        self.cover_clauses(line, &mut broken);
        if self.stopped {
            broken.add(Clause::OrderStopped);
        }
        for (i, t) in line.trains.iter().enumerate() {
            let place = line_place(t.front, t.covered);
            if place != Some(self.places[i]) {
                broken.add(Clause::PlaceNotFolded);
            }
            if place != Some(self.whole.trains[i].place) {
                broken.add(Clause::PlaceDiffers);
            }
        }
        for (l, w) in line.boxes.iter().zip(&self.whole.boxes) {
            if l.sensor != w.sensor {
                broken.add(Clause::SensorDiffers);
            }
            if l.position != w.position {
                broken.add(Clause::PositionDiffers);
            }
            if l.lock != w.lock {
                broken.add(Clause::LockDiffers);
            }
            if l.reserved != w.holders {
                broken.add(Clause::ReservationDiffers);
            }
        }
        broken
    }

    /// Clauses on covered segments and points crossed, by folded places.
    fn cover_clauses(&self, line: &Line, broken: &mut Clauses) {
        let mut seen = 0u128;
        for (i, place) in self.places.iter().enumerate() {
            let entry = &self.table.trains[i];
            if place.front >= entry.route.len() {
                broken.add(Clause::FrontBeyondRoute);
            }
            let end = entry.route.len().min(place.front + 1);
            let covered = &entry.route[place.tail.min(end)..end];
            let mut own = 0u128;
            for &segment in covered {
                own |= 1 << (segment - 1);
            }
            if seen & own != 0 {
                broken.add(Clause::TwoTrainsOneSegment);
            }
            seen |= own;
            if covered.iter().any(|&segment| self.table.runs_against(segment, entry.direction)) {
                broken.add(Clause::CoversAgainstWay);
            }
            for pair in covered.windows(2) {
                let number = self.table.far_box(pair[0], entry.direction) as usize;
                let b = &self.table.boxes[number - 1];
                let joining = b.joining(pair[0], pair[1]);
                let position = line.boxes[number - 1].position;
                if b.kind == POINT && (joining == 0 || joining != position) {
                    broken.add(Clause::PositionNotJoining);
                }
            }
        }
    }

    /// Whether a box that a train crossed before this step has a position
    /// other than the one before it.
    fn position_changed_under_train(&self, line: &Line) -> bool {
        self.places.iter().enumerate().any(|(i, place)| {
            let entry = &self.table.trains[i];
            (place.tail..place.front.min(entry.route.len())).any(|index| {
                let number = self.table.far_box(entry.route[index], entry.direction) as usize;
                line.boxes[number - 1].position != self.before[number - 1].position
            })
        })
    }
}

/// The place of a line's train as folded places tell it.
fn line_place(front: usize, covered: u8) -> Option<Place> {
    let tail = (front + 1).checked_sub(covered as usize)?;
    Some(Place { tail, front })
}

/// The first violation of a list of steps on the right engine: after how
/// many steps, and which clauses. `None` if all of them hold throughout.
pub fn check_demand(table: &Table, steps: &[Step]) -> Option<(usize, Clauses)> {
    let mut line = crate::line::start_line(table);
    let mut checker = Checker::new(table, &line);
    let at_start = checker.state_clauses(&line);
    if !at_start.is_empty() {
        return Some((0, at_start));
    }
    for (i, &step) in steps.iter().enumerate() {
        let answer = crate::step::step(&mut line, step);
        let broken = checker.observe(step, answer, &line);
        if !broken.is_empty() {
            return Some((i + 1, broken));
        }
    }
    None
}
