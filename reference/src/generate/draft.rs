//! A network that grows from A ends to B ends, so it has no loop: segments
//! whose B end has no box yet are open, and each is closed in the end.

use super::prng::Prng;
use crate::table::*;

/// How often each way of growing is tried.
#[derive(Clone, Copy, Debug)]
pub struct Style {
    pub link: usize,
    pub split: usize,
    pub merge: usize,
    pub diamond: usize,
    pub start: usize,
    pub close: usize,
}

/// A network under way.
pub struct Draft {
    pub segments: Vec<Segment>,
    pub boxes: Vec<SwitchBox>,
    open: Vec<u8>,
    most_segments: usize,
}

impl Draft {
    /// Grows a network of at most so many segments.
    pub fn grow(rng: &mut Prng, style: Style, most_segments: usize) -> Draft {
        let mut draft = Draft {
            segments: Vec::new(),
            boxes: Vec::new(),
            open: Vec::new(),
            most_segments,
        };
        draft.start();
        let mut tries = 0;
        while draft.segments.len() < most_segments && tries < 2000 {
            tries += 1;
            draft.grow_once(rng, style);
        }
        while !draft.open.is_empty() {
            draft.close(rng);
        }
        draft
    }

    fn grow_once(&mut self, rng: &mut Prng, style: Style) {
        let ways = [style.link, style.split, style.merge, style.diamond, style.start, style.close];
        let mut ticket = rng.below(ways.iter().sum());
        let way = ways.iter().position(|&weight| {
            let found = ticket < weight;
            ticket = ticket.wrapping_sub(weight);
            found
        });
        match way {
            Some(0) if self.room(1, 1, 0) => self.link(rng),
            Some(1) if self.room(2, 1, 1) => self.split(rng),
            Some(2) if self.room(1, 1, -1) && self.open.len() > 1 => self.merge(rng),
            Some(3) if self.room(3, 2, 0) => self.diamond(rng),
            Some(4) if self.room(1, 1, 1) => self.start(),
            Some(5) if self.open.len() > 1 => self.close(rng),
            _ => {}
        }
    }

    /// Whether the limits leave room; every open end needs one more box.
    fn room(&self, segments: usize, boxes: usize, open: isize) -> bool {
        let boxes_at_end = (self.boxes.len() + boxes + self.open.len()) as isize + open;
        self.segments.len() + segments <= self.most_segments && boxes_at_end <= MAX_BOXES as isize
    }

    /// Takes an open segment, whose B end goes to the box to be added.
    fn take_open(&mut self, rng: &mut Prng) -> u8 {
        let segment = self.open.swap_remove(rng.below(self.open.len()));
        self.segments[segment as usize - 1].b = (self.boxes.len() + 1) as u8;
        segment
    }

    /// Adds an open segment from the box to be added.
    fn put_open(&mut self) -> u8 {
        let a = (self.boxes.len() + 1) as u8;
        self.segments.push(Segment { a, ..Segment::default() });
        let segment = self.segments.len() as u8;
        self.open.push(segment);
        segment
    }

    fn add_box(&mut self, kind: u8, stem: u8, left: u8, right: u8) {
        self.boxes.push(SwitchBox { kind, stem, left, right, position: 0 });
    }

    fn start(&mut self) {
        let stem = self.put_open();
        self.add_box(BORDER, stem, 0, 0);
    }

    fn close(&mut self, rng: &mut Prng) {
        let stem = self.take_open(rng);
        self.add_box(BORDER, stem, 0, 0);
    }

    fn link(&mut self, rng: &mut Prng) {
        let (from, to) = (self.take_open(rng), self.put_open());
        match rng.chance(50) {
            true => self.add_box(LINK, from, to, 0),
            false => self.add_box(LINK, to, from, 0),
        }
    }

    fn add_point(&mut self, rng: &mut Prng, stem: u8, mut branches: [u8; 2]) {
        rng.shuffle(&mut branches);
        self.add_box(POINT, stem, branches[0], branches[1]);
        let last = self.boxes.len() - 1;
        self.boxes[last].position = rng.between(1, 2) as u8;
    }

    fn split(&mut self, rng: &mut Prng) {
        let stem = self.take_open(rng);
        let branches = [self.put_open(), self.put_open()];
        self.add_point(rng, stem, branches);
    }

    fn merge(&mut self, rng: &mut Prng) {
        let branches = [self.take_open(rng), self.take_open(rng)];
        let stem = self.put_open();
        self.add_point(rng, stem, branches);
    }

    /// A point, two parallel tracks and a point.
    fn diamond(&mut self, rng: &mut Prng) {
        self.split(rng);
        let tracks = [self.open.pop().unwrap_or(0), self.open.pop().unwrap_or(0)];
        for track in tracks {
            self.segments[track as usize - 1].b = (self.boxes.len() + 1) as u8;
        }
        let stem = self.put_open();
        self.add_point(rng, stem, tracks);
    }
}
