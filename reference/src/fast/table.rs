//! The table part of a line: fixed arrays, of which what lies beyond n, m, k and the length of a route plays
//! no part.

use super::records::{counts_fail, way, Records, LINE_SEGMENT};
use crate::refusal::Refusal;
use crate::table::*;
use crate::table_read::MARK;

/// A train's direction and route.
#[derive(Clone, Copy, Debug)]
pub struct Route {
    pub direction: u8,
    pub length: u8,
    pub places: [u8; MAX_ROUTE],
}

impl Route {
    pub const NONE: Route = Route { direction: 0, length: 0, places: [0; MAX_ROUTE] };

    /// The segments; none where the length is more than a route can have.
    pub fn segments(&self) -> &[u8] {
        self.places.get(..usize::from(self.length)).unwrap_or(&[])
    }

    /// The segment at an index; 0 outside the route.
    pub fn segment(&self, index: u8) -> u8 {
        self.segments().get(usize::from(index)).copied().unwrap_or(0)
    }

    /// Takes over a route of at most 64 segments.
    pub fn set(&mut self, direction: u8, segments: &[u8]) {
        (self.direction, self.length) = (direction, segments.len() as u8);
        self.places[..segments.len()].copy_from_slice(segments);
    }
}

#[derive(Clone, Debug)]
pub struct Table {
    pub version: u16,
    /// n, m and k.
    pub counts: [u8; 3],
    pub segments: [[u8; LINE_SEGMENT]; MAX_SEGMENTS],
    pub boxes: [[u8; 5]; MAX_BOXES],
    pub routes: [Route; MAX_TRAINS],
}

impl Table {
    pub const NONE: Table = Table {
        version: 0,
        counts: [0; 3],
        segments: [[0; LINE_SEGMENT]; MAX_SEGMENTS],
        boxes: [[0; 5]; MAX_BOXES],
        routes: [Route::NONE; MAX_TRAINS],
    };

    /// n, m and k.
    pub fn counts(&self) -> [usize; 3] {
        self.counts.map(usize::from)
    }

    /// The boxes at the A end and at the B end, and the way; 0 for a number that no segment has.
    pub fn segment(&self, segment: u8) -> [u8; LINE_SEGMENT] {
        self.segments.get(usize::from(segment).wrapping_sub(1)).copied().unwrap_or([0; LINE_SEGMENT])
    }

    /// 3: a version that is not read, or a way in version 1.
    fn version_fails(&self) -> bool {
        let [n, ..] = self.counts();
        let one_way = || self.segments.iter().take(n).fold(0, |ways, [_, _, way]| ways | way) != BOTH_WAYS;
        !version_known(self.version) || (self.version == VERSION_1 && one_way())
    }

    /// The records, if neither code 3 nor 4 stops them.
    fn records(&self) -> Result<Records<'_, LINE_SEGMENT>, Refusal> {
        if self.version_fails() {
            return Err(Refusal::by(3));
        }
        if counts_fail(self.counts) {
            return Err(Refusal::by(4));
        }
        let [n, m, k] = self.counts();
        let routes = self.routes[..k].iter().map(|route| (route.direction, route.segments()));
        Ok(Records::new(self.version, &self.segments[..n], &self.boxes[..m], routes))
    }

    /// The records; refused by 3, 4, 6 to 12, 28 or 32.
    pub fn checked(&self) -> Result<Records<'_, LINE_SEGMENT>, Refusal> {
        let records = self.records()?;
        records.check()?;
        Ok(records)
    }

    /// Takes over records that were accepted.
    pub fn set<const N: usize>(&mut self, records: &Records<N>) {
        let (segments, boxes, routes) = (records.segments, records.boxes, records.routes());
        self.version = records.version;
        self.counts = [segments.len(), boxes.len(), routes.len()].map(|count| count as u8);
        for (own, record) in self.segments.iter_mut().zip(segments) {
            *own = [record[0], record[1], way(record)];
        }
        self.boxes[..boxes.len()].copy_from_slice(boxes);
        for (own, &(direction, segments)) in self.routes.iter_mut().zip(routes) {
            own.set(direction, segments);
        }
    }

    /// Writes the file to the front of the buffer and gives its length. Refused by 3, 4, 6 to 12, 28,
    /// 32 or 26.
    pub fn write(&self, buffer: &mut [u8]) -> Result<usize, Refusal> {
        let records = self.checked()?;
        let [n, m, _] = self.counts();
        let routes = records.routes().iter().map(|(_, route)| TRAIN_BYTES + route.len()).sum::<usize>();
        let length = network_bytes(self.version, n, m) + routes;
        let mut rest = buffer.get_mut(..length).ok_or(Refusal::by(26))?;
        let mut put = |bytes: &[u8]| rest.split_off_mut(..bytes.len()).expect("there is room").copy_from_slice(bytes);
        put(&MARK);
        put(&self.version.to_be_bytes());
        put(&self.counts);
        match self.version {
            VERSION_1 => records.segments.iter().for_each(|[a, b, _]| put(&[*a, *b])),
            _ => put(records.segments.as_flattened()),
        }
        put(records.boxes.as_flattened());
        for (direction, route) in records.routes() {
            put(&[*direction, route.len() as u8]);
            put(route);
        }
        Ok(length)
    }
}
