//! Table files of one length, those with the lowest bytes first: the first byte that differs decides.
//!
//! A byte of a record takes every value up to the first one above its limits. Higher ones need no trial:
//! an end above m, a way, a kind or a position above 2, a place or a route's segment above n and a direction
//! above 1 are refused whatever their value is, so that the lowest such value stands for all of them.

use crate::table::*;
use crate::table_check::{box_fails, ends_fail, has_loop, route_code, side_at, way_fails};
use crate::table_write::file_bytes;

/// The files that are looked at.
pub struct Files<'a> {
    pub version: u16,
    pub length: usize,
    /// Records pass all codes of theirs before this one, 11 and 28 being one; all codes where it is 0.
    pub code: u8,
    /// The fewest trains.
    pub trains: usize,
    /// In how many places the files may differ from the file `like`.
    pub differences: usize,
    pub like: &'a [u8],
}

/// What is wanted of a table: something, or to go on.
pub type Found<'a, T> = &'a mut dyn FnMut(&Table) -> Option<T>;

impl<'a> Files<'a> {
    /// All accepted files of a version and a length with so many trains or more, and some that 12 or 32 refuses.
    pub fn accepted(version: u16, length: usize, trains: usize) -> Files<'a> {
        Files { version, length, code: 0, trains, differences: 0, like: &[] }
    }

    /// What `found` gives for the first table for which it gives something. No table has codes 1 to 5.
    pub fn first<T>(&self, found: Found<T>) -> Option<T> {
        let (version, length) = (self.version, self.length);
        let trains = self.trains..=MAX_TRAINS;
        let shapes = (MIN_SEGMENTS..=MAX_SEGMENTS).flat_map(|n| {
            let boxes = (MIN_BOXES..=MAX_BOXES).take_while(move |&m| network_bytes(version, n, m) <= length);
            let trains = trains.clone();
            boxes.flat_map(move |m| trains.clone().map(move |k| (n, m, k)))
        });
        shapes.filter(|&(n, m, k)| self.routes_fit(n, m, k)).find_map(|(n, m, k)| {
            let mut table = Table {
                version,
                segments: vec![Segment::default(); n],
                boxes: vec![SwitchBox::default(); m],
                trains: vec![TrainEntry::default(); k],
            };
            self.segments(&mut table, 0, found)
        })
    }

    /// Whether the bytes beside the other records can be those of k routes: a route has a segment (10), and
    /// where there is no loop it passes none twice.
    fn routes_fit(&self, n: usize, m: usize, k: usize) -> bool {
        let least = if self.past(10) { k } else { 0 };
        let most = if self.past(11) { k * n } else { k * u8::MAX as usize };
        let others = network_bytes(self.version, n, m) + TRAIN_BYTES * k;
        self.length.checked_sub(others).is_some_and(|bytes| (least..=most).contains(&bytes))
    }

    /// Whether records are to pass this code. 28 is looked for together with 11.
    fn past(&self, code: u8) -> bool {
        let aim = if self.code == 28 { 11 } else { self.code };
        aim == 0 || aim > code
    }

    /// Whether the first bytes of the table's file are near enough to those of `like`.
    fn near(&self, table: &Table, bytes: usize) -> bool {
        let differ = |(a, b): &(&u8, &u8)| a != b;
        let count = |file: Vec<u8>| file[..bytes].iter().zip(self.like).filter(differ).count();
        self.like.is_empty() || count(file_bytes(table)) <= self.differences
    }

    /// All tables with these segments before segment `i`, from 0.
    fn segments<T>(&self, table: &mut Table, i: usize, found: Found<T>) -> Option<T> {
        if i == table.segments.len() {
            let stopped = (self.past(8) && !boxes_fit(table)) || (self.past(9) && has_loop(table));
            return if stopped { None } else { self.boxes(table, 0, found) };
        }
        let most = table.boxes.len() as u8 + 1;
        let ways = if self.version == VERSION_1 { BOTH_WAYS..=BOTH_WAYS } else { BOTH_WAYS..=B_TO_A + 1 };
        let ends = (0..=most).flat_map(|a| (0..=most).map(move |b| (a, b)));
        for (a, b, way) in ends.flat_map(|(a, b)| ways.clone().map(move |way| (a, b, way))) {
            let segment = Segment { a, b, way };
            table.segments[i] = segment;
            let fits = !self.past(6) || !(ends_fail(table, &segment) || way_fails(&segment));
            let passes = fits && (!self.past(8) || few_ends(table, i));
            if passes && self.near(table, network_bytes(self.version, i + 1, 0)) {
                if let Some(result) = self.segments(table, i + 1, found) {
                    return Some(result);
                }
            }
        }
        None
    }

    /// All tables with these boxes before box `i`, from 0.
    fn boxes<T>(&self, table: &mut Table, i: usize, found: Found<T>) -> Option<T> {
        if i == table.boxes.len() {
            return self.trains(table, 0, found);
        }
        let ends_here = |segment: u8| side_at(table, segment, (i + 1) as u8).is_some();
        let tried = |&segment: &u8| !self.past(8) || segment == 0 || ends_here(segment);
        let places: Vec<u8> = (0..=table.segments.len() as u8 + 1).filter(tried).collect();
        for plan in plans(&places) {
            table.boxes[i] = plan;
            let passes = (!self.past(7) || !box_fails(table, &plan)) && (!self.past(8) || fits_track(table, i));
            if passes && self.near(table, network_bytes(self.version, table.segments.len(), i + 1)) {
                if let Some(result) = self.boxes(table, i + 1, found) {
                    return Some(result);
                }
            }
        }
        None
    }

    /// All tables with these trains before train `i`, from 0, that fill the length.
    fn trains<T>(&self, table: &mut Table, i: usize, found: Found<T>) -> Option<T> {
        table.trains[i..].fill(TrainEntry::default());
        let room = self.length - table.file_length();
        if i == table.trains.len() {
            return if room == 0 { found(table) } else { None };
        }
        let lengths = if i + 1 == table.trains.len() { room..=room } else { 0..=room };
        for (direction, length) in (0..=2).flat_map(|d| lengths.clone().map(move |r| (d, r))) {
            if self.past(10) && (direction > 1 || !(1..=MAX_ROUTE).contains(&length)) {
                continue;
            }
            table.trains[i] = TrainEntry { direction, route: vec![] };
            if let Some(result) = self.routes(table, i, length, found) {
                return Some(result);
            }
        }
        None
    }

    /// All tables with this beginning of the route of train `i`, from 0, and a route of this length.
    fn routes<T>(&self, table: &mut Table, i: usize, length: usize, found: Found<T>) -> Option<T> {
        let TrainEntry { direction, route } = table.trains[i].clone();
        if !route.is_empty() && self.past(11) && route_code(table, direction, &route) != 0 {
            return None;
        }
        if route.len() == length {
            let mut before = table.clone();
            before.trains.truncate(i + 1);
            return if self.near(table, before.file_length()) { self.trains(table, i + 1, found) } else { None };
        }
        for segment in 0..=table.segments.len() as u8 + 1 {
            let longer = [&route[..], &[segment]].concat();
            table.trains[i] = TrainEntry { direction, route: longer };
            if let Some(result) = self.routes(table, i, length, found) {
                return Some(result);
            }
        }
        None
    }
}

/// All records of a box with these numbers in its places, the lowest bytes first.
fn plans(places: &[u8]) -> impl Iterator<Item = SwitchBox> + '_ {
    let places = move || places.iter().copied();
    (0..=3).flat_map(move |kind| {
        places().flat_map(move |stem| {
            places().flat_map(move |left| {
                places().flat_map(move |right| {
                    (0..=3).map(move |position| SwitchBox { kind, stem, left, right, position })
                })
            })
        })
    })
}

/// Whether the boxes of segment `i`, from 0, have room for the segments up to it: a box lists three.
fn few_ends(table: &Table, i: usize) -> bool {
    let Segment { a, b, .. } = table.segments[i];
    let ends = |number| table.segments[..=i].iter().filter(|s| s.a == number || s.b == number).count();
    ends(a) <= 3 && ends(b) <= 3
}

/// Whether each box has as many ends as some kind of box lists, and not all of two or three on one side.
fn boxes_fit(table: &Table) -> bool {
    (1..=table.boxes.len() as u8).all(|number| {
        let a_ends = table.segments.iter().filter(|s| s.a == number).count();
        let b_ends = table.segments.iter().filter(|s| s.b == number).count();
        matches!((a_ends, b_ends), (0, 1) | (1, 0) | (1, 1) | (1, 2) | (2, 1))
    })
}

/// Whether code 8 finds nothing at box `i`, from 0: each segment listed ends there, no branch is on the
/// stem's side, and each segment that ends there is listed.
fn fits_track(table: &Table, i: usize) -> bool {
    let (b, number) = (&table.boxes[i], (i + 1) as u8);
    let side = |segment: u8| side_at(table, segment, number);
    let (stem, branches) = (side(b.stem), &b.places()[1..b.used()]);
    let other = |&segment: &u8| side(segment).is_some() && side(segment) != stem;
    let listed = |segment: u8| side(segment).is_none() || b.place_of(segment).is_some();
    stem.is_some() && branches.iter().all(other) && (1..=table.segments.len() as u8).all(listed)
}
