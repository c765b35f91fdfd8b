//! The codes by name, the same names and numbers as in embedding/lineengine.h. A run's answers are bytes with these values, and
//! `Refusal::code` is one of them. docs/CODES.md has an entry for each.

/// Yes: the table is accepted, the call or the step was carried out.
pub const ACCEPTED: u8 = 0;

/// The table has fewer than 8 bytes.
pub const SHORTER_THAN_HEAD: u8 = 1;
/// The table's first three bytes are not NET.
pub const NO_MARK: u8 = 2;
/// The table's version is neither 1 nor 2.
pub const UNKNOWN_VERSION: u8 = 3;
/// Too few or too many segments, boxes or trains.
pub const COUNT_OUT_OF_RANGE: u8 = 4;
/// The table has another length than its counts and routes say.
pub const WRONG_TABLE_LENGTH: u8 = 5;
/// A segment ends at no box, or at one box twice, or its way is above 2.
pub const SEGMENT_MALFORMED: u8 = 6;
/// Kind, segments or position of a box do not fit together.
pub const BOX_MALFORMED: u8 = 7;
/// Segment records and box records tell different tracks.
pub const SEGMENTS_BOXES_DIFFER: u8 = 8;
/// Segments follow one another back to the first.
pub const TRACK_HAS_LOOP: u8 = 9;
/// A direction is not 0 or 1, or a route has not 1 to 64 segments.
pub const TRAIN_OUT_OF_RANGE: u8 = 10;
/// A route has a segment that there is not; `RoutePlace` says where.
pub const ROUTE_SEGMENT_UNKNOWN: u8 = 11;
/// A segment of a route does not follow the one before; `RoutePlace` says where.
pub const ROUTE_NOT_FOLLOWING: u8 = 28;
/// Two trains start on one segment.
pub const START_SHARED: u8 = 12;
/// A train starts against the way of its one-way segment.
pub const START_AGAINST_THE_WAY: u8 = 32;

/// A step of no kind, with a box byte that is not 0 in kinds 3 to 6, 9 or 10, or a last step cut short.
pub const NO_SUCH_STEP: u8 = 13;
/// The train byte is 0 or above the number of trains.
pub const NO_SUCH_TRAIN: u8 = 14;
/// The train's last request or give-back is not yet answered and heard, or is lost.
pub const REQUEST_OPEN: u8 = 15;
/// The route has no next segment.
pub const ROUTE_ENDED: u8 = 16;
/// The box is no end of the next segment; for a lock, it is not the point ahead.
pub const NOT_THE_BOX_TO_ASK: u8 = 17;
/// The train has that reservation or lock.
pub const HELD_ALREADY: u8 = 18;
/// The train gives back a reservation or lock that it has not.
pub const NOTHING_TO_GIVE_BACK: u8 = 29;
/// The train enters without a reservation or the lock that it needs.
pub const HOLDING_MISSING: u8 = 19;
/// The train enters while it crosses a box, or clears while it crosses none.
pub const MOVE_OUT_OF_TURN: u8 = 20;
/// There is nothing to answer, or nothing to hear.
pub const NO_MESSAGE: u8 = 21;
/// There is nothing to lose, or nothing to send again.
pub const NOTHING_TO_REPEAT: u8 = 30;

/// A box's no: the segment is one-way, and the train goes against its way. Asking again is in vain.
pub const AGAINST_THE_WAY: u8 = 31;
/// A box's no: the segment is reserved for another train.
pub const SEGMENT_RESERVED: u8 = 22;
/// A box's no: the point is locked for another train, which may be on it.
pub const POINT_LOCKED: u8 = 24;
/// A box's no: a train is on the point, and no train has its lock. No function here answers this.
pub const POINT_OCCUPIED: u8 = 23;
/// A box's no: a segment that the point is to join is not reserved for this train.
pub const POINT_NOT_RESERVED: u8 = 25;

/// A lent buffer has less room than the call needs.
pub const BUFFER_TOO_SHORT: u8 = 26;
/// A line record that no line can have; no function here takes one or answers this.
pub const LINE_RECORD_WRONG: u8 = 27;
