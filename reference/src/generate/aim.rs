//! What made-up records are to break, or what they are to have a step meet.

use crate::line_check::RecordFault;

/// What a made-up record is to break.
#[derive(Clone, Copy, Debug, PartialEq, Eq)]
pub enum Aim {
    /// The table part, with this code.
    Table(u8),
    /// A train's direction as it stands.
    Direction,
    /// A train's route length as it stands.
    Length,
    /// A segment of a train's route as it stands that the table lacks.
    Route,
    /// A train's route as it stands jumps, in this direction, and has all its segments in the table.
    Jump(u8),
    PlaceZero,
    PlaceBeyond,
    TailOutside,
    CoversNone,
    CoversThree,
    Position,
    /// A holder above k: of the lock, or at a place.
    LockHolder,
    StemHolder,
    LeftHolder,
    RightHolder,
    /// A message of a train with no next (16).
    NoNext,
    /// A message for a box that 17 would stop, sent or answered.
    WrongBox,
    /// An answer's code that is none of the box's.
    AnswerCode,
    /// The same three of a give-back of this kind, 7 or 8.
    BackNoNext(u8),
    BackWrongBox(u8),
    BackCode(u8),
    /// The first two of a lost message.
    LostNoNext,
    LostWrongBox,
    /// Nothing: the record passes.
    Nothing,
    /// Nothing: a box is to answer a lock, with anything that it can find there.
    LockAsked,
    /// Nothing: a train is to hear this code in answer to a lock.
    LockHeard(u8),
    /// Nothing: a box is to answer a reservation that it has granted to the train already.
    ReservedAsked,
    /// Nothing: a box is to answer a give-back of this kind, 7 or 8, of what is free or another's.
    BackOfNone(u8),
    /// Nothing: a train whose message is lost takes a step of any kind.
    LostWaits,
    /// Nothing: the message of a train, or no message, is to be lost or sent again.
    Radio,
    /// The table part by a way in version 1, which is 3, and by one above 2, which is 6.
    WayInVersion1,
    WayAboveTwo,
    /// The answer 31 to a message of this kind, 2, 7 or 8.
    WayCode(u8),
    /// Nothing: a train is to hear 31 in answer to a reservation.
    WayHeard,
    /// Nothing: a box is to answer a reservation against the way, held for nobody (0), the train (1) or another (2).
    WayAsked(u8),
    /// Nothing: the route in force of a train starts against the way.
    StartsAgainst,
}

pub const AIMS: [Aim; 58] = [
    Aim::Table(3),
    Aim::Table(4),
    Aim::Table(6),
    Aim::Table(7),
    Aim::Table(8),
    Aim::Table(9),
    Aim::Table(10),
    Aim::Table(11),
    Aim::Table(12),
    Aim::Table(28),
    Aim::Table(32),
    Aim::Direction,
    Aim::Length,
    Aim::Route,
    Aim::Jump(0),
    Aim::Jump(1),
    Aim::PlaceZero,
    Aim::PlaceBeyond,
    Aim::TailOutside,
    Aim::CoversNone,
    Aim::CoversThree,
    Aim::Position,
    Aim::LockHolder,
    Aim::StemHolder,
    Aim::LeftHolder,
    Aim::RightHolder,
    Aim::NoNext,
    Aim::WrongBox,
    Aim::AnswerCode,
    Aim::BackNoNext(7),
    Aim::BackNoNext(8),
    Aim::BackWrongBox(7),
    Aim::BackWrongBox(8),
    Aim::BackCode(7),
    Aim::BackCode(8),
    Aim::LostNoNext,
    Aim::LostWrongBox,
    Aim::Nothing,
    Aim::LockAsked,
    Aim::LockHeard(0),
    Aim::LockHeard(23),
    Aim::LockHeard(24),
    Aim::LockHeard(25),
    Aim::ReservedAsked,
    Aim::BackOfNone(7),
    Aim::BackOfNone(8),
    Aim::LostWaits,
    Aim::Radio,
    Aim::WayInVersion1,
    Aim::WayAboveTwo,
    Aim::WayCode(2),
    Aim::WayCode(7),
    Aim::WayCode(8),
    Aim::WayHeard,
    Aim::WayAsked(0),
    Aim::WayAsked(1),
    Aim::WayAsked(2),
    Aim::StartsAgainst,
];

impl Aim {
    /// The clause of 27 that the record is to break first.
    pub fn clause(self) -> Option<RecordFault> {
        Some(match self {
            Aim::Table(code) => RecordFault::TablePart(code),
            Aim::WayInVersion1 => RecordFault::TablePart(3),
            Aim::WayAboveTwo => RecordFault::TablePart(6),
            Aim::Direction | Aim::Length => RecordFault::Route(10),
            Aim::Route => RecordFault::Route(11),
            Aim::Jump(_) => RecordFault::Route(28),
            Aim::PlaceZero | Aim::PlaceBeyond | Aim::TailOutside => RecordFault::OutsideRoute,
            Aim::CoversNone | Aim::CoversThree => RecordFault::Covering,
            Aim::Position => RecordFault::Position,
            Aim::LockHolder | Aim::StemHolder | Aim::LeftHolder | Aim::RightHolder => RecordFault::Holder,
            Aim::NoNext | Aim::WrongBox | Aim::BackNoNext(_) | Aim::BackWrongBox(_) => RecordFault::Message,
            Aim::LostNoNext | Aim::LostWrongBox => RecordFault::Message,
            Aim::AnswerCode | Aim::BackCode(_) | Aim::WayCode(_) => RecordFault::AnswerCode,
            Aim::Nothing | Aim::LockAsked | Aim::LockHeard(_) => return None,
            Aim::ReservedAsked | Aim::BackOfNone(_) | Aim::LostWaits | Aim::Radio => return None,
            Aim::WayHeard | Aim::WayAsked(_) | Aim::StartsAgainst => return None,
        })
    }
}
