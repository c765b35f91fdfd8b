//! The records of a table where they stand, in a file or in a line, and how they are refused:
//! by 1 to 5 for a file, by 6 to 12, 28 and 32 for both.

use crate::refusal::Refusal;
use crate::table::*;
use crate::table_read::MARK;

/// Bytes of a segment's record in a line: those of version 2.
pub const LINE_SEGMENT: usize = segment_bytes(VERSION_2);

/// Records with N bytes for a segment.
pub struct Records<'a, const N: usize> {
    pub version: u16,
    /// Boxes at the A end and at the B end; with three bytes, the way.
    pub segments: &'a [[u8; N]],
    /// Kind, stem, left, right and position at the start.
    pub boxes: &'a [[u8; 5]],
    trains: usize,
    /// Direction and segments; those beyond the number of trains are empty.
    routes: [(u8, &'a [u8]); MAX_TRAINS],
}

/// What a file begins with, behind the mark.
pub struct Head {
    pub version: u16,
    /// n, m and k.
    counts: [u8; 3],
}

impl Head {
    /// The head of a file, and the bytes behind it; refused by 1 to 4.
    pub fn of(file: &[u8]) -> Result<(Head, &[u8]), Refusal> {
        let Some((&[x, y, z, high, low, ref counts @ ..], body)) = file.split_first_chunk::<HEAD_BYTES>() else {
            return Err(Refusal::by(1));
        };
        let head = Head { version: u16::from_be_bytes([high, low]), counts: *counts };
        match () {
            _ if [x, y, z] != MARK => Err(Refusal::by(2)),
            _ if !version_known(head.version) => Err(Refusal::by(3)),
            _ if counts_fail(head.counts) => Err(Refusal::by(4)),
            _ => Ok((head, body)),
        }
    }
}

/// 4: a count outside its limits.
pub fn counts_fail(counts: [u8; 3]) -> bool {
    let [n, m, k] = counts.map(usize::from);
    !((MIN_SEGMENTS..=MAX_SEGMENTS).contains(&n) && (MIN_BOXES..=MAX_BOXES).contains(&m) && k <= MAX_TRAINS)
}

/// The way in a segment's record, which is both ways where it has no byte for it.
pub fn way<const N: usize>(record: &[u8; N]) -> u8 {
    record.get(2).copied().unwrap_or(BOTH_WAYS)
}

/// Whether a number is 0 or above the last one.
fn outside(number: u8, last: usize) -> bool {
    usize::from(number).wrapping_sub(1) >= last
}

impl<'a, const N: usize> Records<'a, N> {
    /// The records of a line's table, of which the trains are given.
    pub fn new(
        version: u16,
        segments: &'a [[u8; N]],
        boxes: &'a [[u8; 5]],
        trains: impl Iterator<Item = (u8, &'a [u8])>,
    ) -> Self {
        let mut records = Records { version, segments, boxes, trains: 0, routes: [(0, &[]); MAX_TRAINS] };
        for (route, given) in records.routes.iter_mut().zip(trains) {
            *route = given;
            records.trains += 1;
        }
        records
    }

    /// The records behind the head of a file, if they are as long as they say.
    pub fn in_body(Head { version, counts }: Head, body: &'a [u8]) -> Option<Self> {
        let [n, m, k] = counts.map(usize::from);
        let (segments, body) = body.split_at_checked(N * n)?;
        let (boxes, mut body) = body.split_at_checked(BOX_BYTES * m)?;
        let mut routes: [(u8, &[u8]); MAX_TRAINS] = [(0, &[]); MAX_TRAINS];
        for route in &mut routes[..k] {
            let (&[direction, length], rest) = body.split_first_chunk()?;
            let (segments, rest) = rest.split_at_checked(usize::from(length))?;
            *route = (direction, segments);
            body = rest;
        }
        let (segments, boxes) = (segments.as_chunks().0, boxes.as_chunks().0);
        body.is_empty().then_some(Records { version, segments, boxes, trains: k, routes })
    }

    pub fn routes(&self) -> &[(u8, &'a [u8])] {
        &self.routes[..self.trains]
    }

    /// Whether 6 to 12, 28 and 32 let the records through.
    pub fn check(&self) -> Result<(), Refusal> {
        let code = match () {
            _ if self.ends_fail() => 6,
            _ if self.places_fail() => 7,
            _ if self.listing_fails() => 8,
            _ if self.has_loop() => 9,
            _ if self.routes().iter().any(|&(direction, route)| shape_fails(direction, route)) => 10,
            _ => 0,
        };
        if code != 0 {
            return Err(Refusal::by(code));
        }
        for (train, &(direction, route)) in (1..).zip(self.routes()) {
            if let Some((code, place)) = self.route_fault(direction, route) {
                return Err(Refusal { code, train, place });
            }
        }
        match () {
            _ if self.firsts_clash() => Err(Refusal::by(12)),
            _ if self.starts_against() => Err(Refusal::by(32)),
            _ => Ok(()),
        }
    }

    /// Whether 10, 11 or 28 stops a route.
    pub fn route_fails(&self, direction: u8, route: &[u8]) -> bool {
        shape_fails(direction, route) || self.route_fault(direction, route).is_some()
    }

    /// 6: an end at no box, both ends at one, or a way that there is not.
    fn ends_fail(&self) -> bool {
        let m = self.boxes.len();
        self.segments.iter().fold(false, |fails, record| {
            let (a, b) = (record[0], record[1]);
            fails | outside(a, m) | outside(b, m) | (a == b) | (way(record) > B_TO_A)
        })
    }

    /// 7: kind, needed and unused places, equal branches, position.
    fn places_fail(&self) -> bool {
        let lacks = |segment| outside(segment, self.segments.len());
        self.boxes.iter().any(|&[kind, stem, left, right, position]| {
            lacks(stem)
                || match kind {
                    BORDER => (left | right | position) != 0,
                    LINK => lacks(left) | ((right | position) != 0),
                    POINT => lacks(left) | lacks(right) | (left == right) | outside(position, 2),
                    _ => true,
                }
        })
    }

    /// 8: a place whose segment does not end at the box on the side it has to, or an end that no place lists. No box
    /// lists a segment twice (7, and the sides), so that each place lists an end of its own and all are listed if
    /// there are as many places as ends.
    fn listing_fails(&self) -> bool {
        let mut places = 0;
        for (number, &[kind, stem, left, right, _]) in (1..).zip(self.boxes) {
            let stem = self.segments[usize::from(stem) - 1];
            // The stem has one of its ends here and each branch the other one.
            let begins = stem[0] == number;
            let branch_end = usize::from(begins);
            let fails = |branch: u8| self.segments[usize::from(branch) - 1][branch_end] != number;
            if !(begins || stem[1] == number) || (kind != BORDER && fails(left)) || (kind == POINT && fails(right)) {
                return true;
            }
            places += usize::from(kind) + 1;
        }
        places != 2 * self.segments.len()
    }

    /// 9: boxes at which no segment ends are taken away, with the segments that begin there, until there are no more
    /// of them; what stays holds a loop. 8 has passed, so that at most two segments begin at a box.
    fn has_loop(&self) -> bool {
        let mut ending = [0u8; MAX_BOXES + 1];
        let mut beyond = [[0u8; 2]; MAX_BOXES + 1];
        for record in self.segments {
            let (a, b) = (record[0], record[1]);
            ending[usize::from(b)] += 1;
            let [first, second] = &mut beyond[usize::from(a)];
            (*first, *second) = (b, *first);
        }
        // The boxes taken away, in order. A box is written behind the last one and stays where it is counted.
        let mut taken = [0u8; MAX_BOXES + 1];
        let mut count = 0;
        for number in 1..=self.boxes.len() {
            taken[count] = number as u8;
            count += usize::from(ending[number] == 0);
        }
        let mut done = 0;
        while done < count {
            for number in beyond[usize::from(taken[done])] {
                if number != 0 {
                    let left = &mut ending[usize::from(number)];
                    *left -= 1;
                    taken[count] = number;
                    count += usize::from(*left == 0);
                }
            }
            done += 1;
        }
        count < self.boxes.len()
    }

    /// The first place of a route, from 1, with a segment that the table lacks (11) or that does not follow the one
    /// before (28).
    fn route_fault(&self, direction: u8, route: &[u8]) -> Option<(u8, u8)> {
        let far = usize::from(direction == 0);
        let ends = |segment: u8| self.segments.get(usize::from(segment).wrapping_sub(1));
        let Some(mut before) = ends(route[0]) else {
            return Some((11, 1));
        };
        for (place, &segment) in (2..).zip(&route[1..]) {
            match ends(segment) {
                Some(after) if before[far] == after[1 - far] => before = after,
                Some(_) => return Some((28, place)),
                None => return Some((11, place)),
            }
        }
        None
    }

    /// 12: two trains with one first segment. Segments have numbers up to 96 (11).
    fn firsts_clash(&self) -> bool {
        let firsts = self.routes().iter().fold(0u128, |firsts, (_, route)| firsts | 1 << route[0]);
        firsts.count_ones() as usize != self.trains
    }

    /// 32: a train that starts against the way of its first segment.
    fn starts_against(&self) -> bool {
        let first_way = |route: &[u8]| way(&self.segments[usize::from(route[0]) - 1]);
        N > 2 && self.routes().iter().any(|&(direction, route)| against(first_way(route), direction))
    }
}

/// 10: a direction above 1, or a length outside 1 to 64.
fn shape_fails(direction: u8, route: &[u8]) -> bool {
    direction > 1 || route.is_empty() || route.len() > MAX_ROUTE
}
