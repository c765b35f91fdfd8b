//! The table: segments, switch boxes and trains as the file gives them.
//!
//! Numbers of segments, boxes and trains count from 1; 0 means none.

/// The versions that are read and written: in the first one every segment runs both ways, the second one has a
/// way byte for each segment.
pub const VERSION_1: u16 = 1;
pub const VERSION_2: u16 = 2;
/// Most segments, boxes, trains and route segments.
pub const MAX_SEGMENTS: usize = 96;
pub const MAX_BOXES: usize = 96;
pub const MAX_TRAINS: usize = 16;
pub const MAX_ROUTE: usize = 64;
/// Fewest boxes and segments.
pub const MIN_BOXES: usize = 2;
pub const MIN_SEGMENTS: usize = 1;

/// Kinds of switch box.
pub const BORDER: u8 = 0;
pub const LINK: u8 = 1;
pub const POINT: u8 = 2;

/// Ways of a segment: both, A end to B end, B end to A end.
pub const BOTH_WAYS: u8 = 0;
pub const A_TO_B: u8 = 1;
pub const B_TO_A: u8 = 2;

/// Bytes of a file before its first record, of a box's record, and of a train's before its route.
pub const HEAD_BYTES: usize = 8;
pub const BOX_BYTES: usize = 5;
pub const TRAIN_BYTES: usize = 2;

/// Bytes of a segment's record in a file of this version.
pub const fn segment_bytes(version: u16) -> usize {
    if version < VERSION_2 {
        2
    } else {
        3
    }
}

/// Bytes of a file of this version before its trains, with so many segments and boxes.
pub const fn network_bytes(version: u16, segments: usize, boxes: usize) -> usize {
    HEAD_BYTES + segment_bytes(version) * segments + BOX_BYTES * boxes
}

/// The longest file that code 5 lets through, with length bytes of 255.
pub const LONGEST_FILE: usize =
    network_bytes(VERSION_2, MAX_SEGMENTS, MAX_BOXES) + MAX_TRAINS * (TRAIN_BYTES + u8::MAX as usize);

/// Whether a version is read and written.
pub const fn version_known(version: u16) -> bool {
    matches!(version, VERSION_1 | VERSION_2)
}

/// The way that a train of this direction (0 runs from A ends to B ends) runs against.
pub const fn way_against(direction: u8) -> u8 {
    if direction == 0 {
        B_TO_A
    } else {
        A_TO_B
    }
}

/// Whether a train of this direction runs against the way of a segment.
pub const fn against(way: u8, direction: u8) -> bool {
    way == way_against(direction)
}

/// One segment: the boxes at its A end and at its B end, and its way.
#[derive(Clone, Copy, Debug, PartialEq, Eq, Default)]
pub struct Segment {
    pub a: u8,
    pub b: u8,
    pub way: u8,
}

/// One switch box as the table gives it. Places not used are 0.
#[derive(Clone, Copy, Debug, PartialEq, Eq, Default)]
pub struct SwitchBox {
    pub kind: u8,
    pub stem: u8,
    pub left: u8,
    pub right: u8,
    /// Position at the start: 1 stem to left, 2 stem to right, 0 no point.
    pub position: u8,
}

/// One train as the table gives it.
#[derive(Clone, Debug, PartialEq, Eq, Default)]
pub struct TrainEntry {
    pub direction: u8,
    pub route: Vec<u8>,
}

/// A table value. It may be made up by hand and break every rule.
#[derive(Clone, Debug, PartialEq, Eq, Default)]
pub struct Table {
    pub version: u16,
    pub segments: Vec<Segment>,
    pub boxes: Vec<SwitchBox>,
    pub trains: Vec<TrainEntry>,
}

impl SwitchBox {
    /// The segments in the order stem, left, right; 0 where unused.
    pub fn places(&self) -> [u8; 3] {
        [self.stem, self.left, self.right]
    }

    /// How many of the places a box of this kind uses.
    pub fn used(&self) -> usize {
        match self.kind {
            BORDER => 1,
            LINK => 2,
            _ => 3,
        }
    }

    /// Index of the place (0 stem, 1 left, 2 right) that lists the segment.
    pub fn place_of(&self, segment: u8) -> Option<usize> {
        (0..self.used()).find(|&i| self.places()[i] == segment)
    }

    /// Whether a position fits the kind: 1 or 2 at a point, 0 elsewhere.
    pub fn position_fits(&self, position: u8) -> bool {
        match self.kind {
            POINT => position == 1 || position == 2,
            _ => position == 0,
        }
    }

    /// The position that joins two segments of a point; 0 if none does.
    pub fn joining(&self, s: u8, t: u8) -> u8 {
        match (self.place_of(s), self.place_of(t)) {
            (Some(0), Some(p)) | (Some(p), Some(0)) => p as u8,
            _ => 0,
        }
    }
}

impl Table {
    /// The segment with this number, if the table has it.
    pub fn segment(&self, number: u8) -> Option<&Segment> {
        self.segments.get((number as usize).checked_sub(1)?)
    }

    /// The box with this number, if the table has it.
    pub fn switch_box(&self, number: u8) -> Option<&SwitchBox> {
        self.boxes.get((number as usize).checked_sub(1)?)
    }

    /// The box at the end a train leaves the segment by; 0 if no segment.
    pub fn far_box(&self, segment: u8, direction: u8) -> u8 {
        self.segment(segment)
            .map_or(0, |s| if direction == 0 { s.b } else { s.a })
    }

    /// The box at the end a train comes in by; 0 if no segment.
    pub fn near_box(&self, segment: u8, direction: u8) -> u8 {
        self.segment(segment)
            .map_or(0, |s| if direction == 0 { s.a } else { s.b })
    }

    /// Whether `t` follows `s` in the direction.
    pub fn follows(&self, s: u8, t: u8, direction: u8) -> bool {
        self.segment(s).is_some()
            && self.segment(t).is_some()
            && self.far_box(s, direction) == self.near_box(t, direction)
    }

    /// Whether a train of this direction runs against the way of the segment; never where the table lacks it.
    pub fn runs_against(&self, segment: u8, direction: u8) -> bool {
        self.segment(segment).is_some_and(|s| against(s.way, direction))
    }

    /// Length of the file that holds this table.
    pub fn file_length(&self) -> usize {
        network_bytes(self.version, self.segments.len(), self.boxes.len())
            + self.trains.iter().map(|t| TRAIN_BYTES + t.route.len()).sum::<usize>()
    }
}
