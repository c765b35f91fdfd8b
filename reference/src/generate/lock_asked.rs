//! What a box can find when it answers a request for its lock: its sensor, and whom its lock, the train's
//! front and its next are held for there. Its answer depends on nothing else.

use crate::line::{Line, Message, Request, Wish};
use crate::step::Step;
use std::fmt::{Display, Formatter, Result};

/// Whom something is held for.
#[derive(Clone, Copy, Debug, PartialEq, Eq)]
pub enum Holder {
    Nobody,
    Asker,
    Another,
}

/// All of them, in their order.
pub const HOLDERS: [Holder; 3] = [Holder::Nobody, Holder::Asker, Holder::Another];

impl Holder {
    /// Whom a box holds something for, if a train asks.
    pub fn of(holder: u8, asker: u8) -> Holder {
        match holder {
            0 => Holder::Nobody,
            _ if holder == asker => Holder::Asker,
            _ => Holder::Another,
        }
    }
}

/// What the box finds.
#[derive(Clone, Copy, Debug, PartialEq, Eq)]
pub struct LockAsked {
    pub sensor: bool,
    pub lock: Holder,
    pub front: Holder,
    pub next: Holder,
}

/// How many there are.
pub const LOCKS_ASKED: usize = 2 * 3 * 3 * 3;

impl LockAsked {
    /// All that a box can find.
    pub fn all() -> [LockAsked; LOCKS_ASKED] {
        std::array::from_fn(|i| LockAsked {
            sensor: i / 27 == 1,
            lock: HOLDERS[i / 9 % 3],
            front: HOLDERS[i / 3 % 3],
            next: HOLDERS[i % 3],
        })
    }

    /// What the box finds, if the step is its answer to a train's request for its lock.
    pub fn of(line: &Line, [kind, train, number]: Step) -> Option<LockAsked> {
        let t = line.trains.get(usize::from(train).checked_sub(1)?)?;
        let Message::Sent(Request { wish: Wish::Lock, number: at }) = t.message else {
            return None;
        };
        let who = |holder: u8| Holder::of(holder, train);
        let state = line.box_state(at).filter(|_| (kind, number) == (3, 0))?;
        Some(LockAsked {
            sensor: state.sensor,
            lock: who(state.lock),
            front: who(line.reservation(t.front_segment(), at)),
            next: who(line.reservation(t.next_segment()?, at)),
        })
    }
}

/// How often boxes found each.
#[derive(Clone, Copy, Debug)]
pub struct LockCounts([usize; LOCKS_ASKED]);

impl Default for LockCounts {
    fn default() -> Self {
        LockCounts([0; LOCKS_ASKED])
    }
}

impl LockCounts {
    /// Counts the step, if it is an answer to a lock.
    pub fn add(&mut self, line: &Line, step: Step) {
        if let Some(asked) = LockAsked::of(line, step) {
            let place = LockAsked::all().iter().position(|&other| other == asked);
            self.0[place.expect("all are listed")] += 1;
        }
    }

    /// How often boxes found one of which this holds.
    pub fn count(&self, of: impl Fn(LockAsked) -> bool) -> usize {
        LockAsked::all().into_iter().zip(self.0).filter(|&(asked, _)| of(asked)).map(|(_, count)| count).sum()
    }

    /// How often boxes were locked for another train, with the sensor active or passive.
    pub fn locked(&self, sensor: bool) -> usize {
        self.count(|asked| asked.lock == Holder::Another && asked.sensor == sensor)
    }

    /// How often boxes found the rarest one.
    pub fn fewest(&self) -> usize {
        self.0.into_iter().min().unwrap_or(0)
    }
}

impl Display for LockCounts {
    fn fmt(&self, f: &mut Formatter) -> Result {
        writeln!(f, "answers to a lock; front and next held for the asker: both, front alone, next alone, neither")?;
        for sensor in [false, true] {
            for lock in HOLDERS {
                let counts = [(true, true), (true, false), (false, true), (false, false)].map(|held| {
                    let own = |asked: LockAsked| (asked.front == Holder::Asker, asked.next == Holder::Asker);
                    self.count(|asked| (asked.sensor, asked.lock) == (sensor, lock) && own(asked) == held)
                });
                let sensor = if sensor { "active" } else { "passive" };
                writeln!(f, "sensor {sensor:7}  lock {:8} {counts:7?}", format!("{lock:?}"))?;
            }
        }
        Ok(())
    }
}
