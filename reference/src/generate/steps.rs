//! Step lists: mostly what a driver would do next, with impatient and
//! garbage steps among them. A driver gives something back now and then, to
//! ask for it again or for another train that waits for it. Messages are lost
//! and, after a while in which other trains may go on, sent again.

use super::prng::Prng;
use crate::line::*;
use crate::step::{step, Step};
use crate::step_request::is_point;

/// How the steps are mixed, in percent; the rest is garbage.
#[derive(Clone, Copy, Debug)]
pub struct Mix {
    /// What the train needs next.
    pub purposeful: usize,
    /// Well-formed steps at a random moment.
    pub impatient: usize,
    /// Of the purposeful ones of a train that has something recorded and no
    /// message: giving something back for no reason, and giving back what
    /// another train waits for.
    pub back: [usize; 2],
    /// Of the purposeful ones of a train whose message is under way: the
    /// message is lost. With 0 there are no kinds 9 and 10.
    pub lost: usize,
}

pub const MIXES: [Mix; 5] = [
    Mix { purposeful: 96, impatient: 3, back: [1, 4], lost: 2 },
    Mix { purposeful: 80, impatient: 17, back: [3, 10], lost: 6 },
    Mix { purposeful: 50, impatient: 40, back: [6, 20], lost: 10 },
    Mix { purposeful: 88, impatient: 10, back: [1, 30], lost: 5 },
    Mix { purposeful: 90, impatient: 8, back: [2, 30], lost: 30 },
];
/// Kinds of impatient steps.
const KINDS: &[u8] = &[1, 1, 2, 2, 3, 4, 5, 5, 5, 6, 7, 7, 8, 9, 10, 10];
const KINDS_WITHOUT_LOSS: &[u8] = &[1, 1, 2, 2, 3, 4, 5, 5, 5, 6, 7, 7, 8];
const FIRST_KINDS: &[u8] = &[1, 1, 2, 2, 3, 4, 5, 5, 6];

/// Chooses steps one by one from the line as it stands.
#[derive(Clone, Debug)]
pub struct Driver {
    mix: Mix,
    /// The highest kind among the steps: 6, 8 or 10.
    kinds: u8,
    current: usize,
    /// The train for which the current one has given something back.
    heir: Option<usize>,
}

impl Driver {
    pub fn new(rng: &mut Prng) -> Self {
        Driver::of(rng.pick(&MIXES))
    }

    /// A driver of this mix.
    pub fn of(mix: Mix) -> Self {
        Driver { mix, kinds: if mix.lost > 0 { 10 } else { 8 }, current: 0, heir: None }
    }

    /// A driver that knows the kinds 1 to 6 alone; a garbage step has 128 more
    /// in the place of 7 to 10.
    pub fn of_first_kinds(rng: &mut Prng) -> Self {
        let mix = Mix { lost: 0, ..rng.pick(&MIXES) };
        Driver { kinds: 6, ..Driver::of(mix) }
    }

    /// The next step.
    pub fn next_step(&mut self, rng: &mut Prng, line: &Line) -> Step {
        let k = line.trains.len();
        if k == 0 {
            return self.garbage(rng, line);
        }
        if let (Some(heir), true) = (self.heir, self.idle(line)) {
            match for_another(line, self.current, heir) {
                Some(step) if rng.chance(60) => return step,
                _ => (self.current, self.heir) = (heir, None),
            }
        }
        if self.kinds > 8 && rng.chance(50) {
            if let Some(step) = taking(line) {
                return step;
            }
        }
        // While a message is lost, another train goes on now and then.
        if self.lost(line) && rng.chance(30) {
            self.current = self.heir.take().unwrap_or_else(|| rng.below(k));
        }
        if self.current >= k || rng.chance(25) || finished(line, self.current) {
            self.current = rng.below(k);
        }
        // A train whose next runs against it comes no further, and asks now and then.
        if stands_for_good(line, self.current) && rng.chance(60) {
            self.current = rng.below(k);
        }
        if finished(line, self.current) {
            let under_way = (0..k).find(|&train| !finished(line, train));
            self.current = under_way.unwrap_or(self.current);
        }
        let ticket = rng.below(100);
        if ticket < self.mix.purposeful {
            self.giving_back(rng, line).unwrap_or_else(|| self.purposeful(rng, line))
        } else if ticket < self.mix.purposeful + self.mix.impatient {
            self.impatient(rng, line)
        } else {
            self.garbage(rng, line)
        }
    }

    /// Whether the current train has no message.
    fn idle(&self, line: &Line) -> bool {
        line.trains.get(self.current).is_some_and(|t| t.message == Message::None)
    }

    /// Whether the message of the current train is lost.
    fn lost(&self, line: &Line) -> bool {
        line.trains.get(self.current).is_some_and(|t| matches!(t.message, Message::Lost(_)))
    }

    /// Something that the current train gives back, if it does.
    fn giving_back(&mut self, rng: &mut Prng, line: &Line) -> Option<Step> {
        if self.kinds < 8 || !self.idle(line) {
            return None;
        }
        let recorded = to_give_back(line, self.current);
        if recorded.is_empty() {
            return None;
        }
        let [for_nothing, for_one] = self.mix.back;
        if rng.chance(for_nothing) {
            return Some(rng.pick(&recorded));
        }
        if !rng.chance(for_one) {
            return None;
        }
        let step = |heir| Some((heir, for_another(line, self.current, heir)?));
        let (heir, step) = (0..line.trains.len()).find_map(step)?;
        self.heir = Some(heir);
        Some(step)
    }
}

/// Takes so many steps, chosen from the line as it stands; the steps with their codes.
pub fn drive(rng: &mut Prng, line: &mut Line, count: usize) -> Vec<(Step, u8)> {
    let driver = Driver::new(rng);
    drive_by(driver, rng, line, count)
}

/// As `drive`, with this driver.
pub fn drive_by(mut driver: Driver, rng: &mut Prng, line: &mut Line, count: usize) -> Vec<(Step, u8)> {
    let mut events = Vec::new();
    for _ in 0..count {
        let bytes = driver.next_step(rng, line);
        events.push((bytes, step(line, bytes)));
    }
    events
}

/// The bytes of steps, in order.
pub fn step_bytes(events: &[(Step, u8)]) -> Vec<u8> {
    events.iter().flat_map(|&(bytes, _)| bytes).collect()
}

/// Whether the train stands at the end of its route.
fn finished(line: &Line, train: usize) -> bool {
    let t = &line.trains[train];
    t.next_segment().is_none() && !t.crossing()
}

/// Whether next of the train runs against its way.
fn stands_for_good(line: &Line, train: usize) -> bool {
    let t = &line.trains[train];
    t.next_segment().is_some_and(|next| line.table.runs_against(next, t.direction))
}

/// What a train must have to enter next, as requests: next at the box ahead
/// and beyond, and the lock of a point; with whether it has it recorded.
fn all_needed(line: &Line, train: usize) -> Vec<(Step, bool)> {
    let (t, me, ahead) = (&line.trains[train], (train + 1) as u8, line.box_ahead(train));
    let Some(next) = t.next_segment() else {
        return vec![];
    };
    let ends = [ahead, line.table.far_box(next, t.direction)];
    let mut all: Vec<(Step, bool)> =
        ends.map(|number| ([1, me, number], t.holdings.reservation(&line.table, next, number))).to_vec();
    if is_point(line, ahead) {
        all.push(([2, me, ahead], t.holdings.lock(ahead)));
    }
    all
}

/// What the train lacks, as requests.
fn needs(line: &Line, train: usize) -> Vec<Step> {
    all_needed(line, train).into_iter().filter(|(_, has)| !has).map(|(step, _)| step).collect()
}

/// What the train has recorded, as steps that give it back.
fn to_give_back(line: &Line, train: usize) -> Vec<Step> {
    let all = all_needed(line, train).into_iter().filter(|(_, has)| *has);
    all.map(|([kind, me, number], _)| [kind + 6, me, number]).collect()
}

/// A step by which the train gives back what another one needs, if there is
/// any: next of both, or the lock of the box ahead of both. What it has at the
/// box ahead comes first, so that the other can get the lock.
fn for_another(line: &Line, train: usize, other: usize) -> Option<Step> {
    let same_next = line.trains[train].next_segment() == line.trains[other].next_segment();
    let needs = needs(line, other);
    let needed = |&[kind, _, number]: &Step| {
        needs.iter().any(|&[need, _, at]| need == kind - 6 && at == number && (need == 2 || same_next))
    };
    let given = to_give_back(line, train).into_iter().filter(|step| other != train && needed(step));
    given.min_by_key(|&[_, _, number]| number != line.box_ahead(train))
}

impl Driver {
    /// What brings the train on.
    fn purposeful(&self, rng: &mut Prng, line: &Line) -> Step {
        let t = &line.trains[self.current];
        let me = (self.current + 1) as u8;
        let under_way = matches!(t.message, Message::Sent(_) | Message::Answered(..));
        if under_way && self.kinds > 8 && rng.chance(self.mix.lost) {
            return [9, me, 0];
        }
        match t.message {
            Message::Sent(_) => return [3, me, 0],
            Message::Answered(..) => return [4, me, 0],
            Message::Lost(_) => return [10, me, 0],
            Message::None => {}
        }
        if t.crossing() && rng.chance(60) {
            return [6, me, 0];
        }
        if t.next_segment().is_none() {
            return if t.crossing() { [6, me, 0] } else { self.impatient(rng, line) };
        }
        let needs = needs(line, self.current);
        match needs.first() {
            None if t.crossing() => [6, me, 0],
            None => [5, me, 0],
            Some(_) if stands_for_good(line, self.current) => rng.pick(&needs),
            Some(&first) if rng.chance(80) => first,
            Some(_) => rng.pick(&needs),
        }
    }

    /// A well-formed step of any kind for this or another train.
    fn impatient(&self, rng: &mut Prng, line: &Line) -> Step {
        let train = match rng.chance(70) {
            true => self.current,
            false => rng.below(line.trains.len()),
        };
        if let (true, Some(step)) = (rng.chance(30), meddling(line)) {
            return step;
        }
        let me = (train + 1) as u8;
        let kind = rng.pick(match self.kinds {
            6 => FIRST_KINDS,
            8 => KINDS_WITHOUT_LOSS,
            _ => KINDS,
        });
        if matches!(kind, 3..=6 | 9 | 10) {
            return [kind, me, 0];
        }
        let t = &line.trains[train];
        let ahead = line.box_ahead(train);
        let beyond = line.table.far_box(t.next_segment().unwrap_or(0), t.direction);
        let any = rng.between(1, line.boxes.len()) as u8;
        [kind, me, rng.pick(&[ahead, ahead, beyond, line.box_behind(train), any])]
    }

    /// Any bytes, most of them near the limits.
    fn garbage(&self, rng: &mut Prng, line: &Line) -> Step {
        let kind = match rng.chance(80) {
            true => rng.below(usize::from(self.kinds) + 2) as u8,
            false => rng.byte(),
        };
        let kind = match kind {
            7..=10 if kind > self.kinds => kind + 128,
            _ => kind,
        };
        let train = match rng.chance(80) {
            true => rng.below(line.trains.len() + 2) as u8,
            false => rng.byte(),
        };
        let number = match rng.below(3) {
            0 => 0,
            1 => rng.below(line.boxes.len() + 2) as u8,
            _ => rng.byte(),
        };
        [kind, train, number]
    }
}

/// A train asks for what another has given back, whose give-back is lost and
/// which is free, after whatever message it has; for a lock it reserves next
/// first.
fn taking(line: &Line) -> Option<Step> {
    let trains = 0..line.trains.len();
    let lost_backs = trains.clone().filter_map(|giver| match line.trains[giver].message {
        Message::Lost(request) if request.wish.gives_back() => Some((giver, request)),
        _ => None,
    });
    lost_backs.into_iter().find_map(|(giver, Request { wish, number })| {
        let given = line.trains[giver].next_segment();
        let holder = match wish.of_lock() {
            true => line.box_state(number)?.lock,
            false => line.reservation(given?, number),
        };
        let step = |taker: usize| {
            let needs = needs(line, taker);
            let wanted = [wish as u8 - 6, taker as u8 + 1, number];
            let same_next = wish.of_lock() || line.trains[taker].next_segment() == given;
            let wants = taker != giver && same_next && needs.contains(&wanted);
            let near = needs.into_iter().find(|&[kind, _, at]| wish.of_lock() && (kind, at) == (1, number));
            wants.then(|| on_with(line, taker, near.unwrap_or(wanted)))
        };
        trains.clone().find_map(step).filter(|_| holder == 0)
    })
}

/// The request of a train that has no message, else what brings its message on.
fn on_with(line: &Line, train: usize, request: Step) -> Step {
    let me = (train + 1) as u8;
    match line.trains[train].message {
        Message::None => request,
        Message::Sent(_) => [3, me, 0],
        Message::Answered(..) => [4, me, 0],
        Message::Lost(_) => [10, me, 0],
    }
}

/// A train asks for the lock of a point that another crosses or has locked,
/// and is answered, after whatever message it has.
fn meddling(line: &Line) -> Option<Step> {
    (0..line.trains.len()).find_map(|train| {
        let (t, me, ahead) = (&line.trains[train], (train + 1) as u8, line.box_ahead(train));
        let state = line.box_state(ahead).filter(|_| is_point(line, ahead))?;
        let busy = state.sensor || (state.lock != 0 && state.lock != me);
        t.next_segment().filter(|_| busy)?;
        Some(on_with(line, train, [2, me, ahead]))
    })
}
