//! Memory that is lent to the library: a part of a larger one, whose margins are watched.

use reference::generate::prng::Prng;
use reference::refusal::Refusal;
use std::ptr::{null, null_mut};

const MARGIN: usize = 24;

/// The pointer that a program in C may pass for these bytes: a null pointer where there are none.
pub fn pointer(bytes: &[u8]) -> *const u8 {
    match bytes.is_empty() {
        true => null(),
        false => bytes.as_ptr(),
    }
}

/// Bytes of any content, of which the middle is lent.
pub struct Lent {
    bytes: Vec<u8>,
    room: usize,
    margins: Vec<u8>,
}

impl Lent {
    pub fn new(rng: &mut Prng, room: usize) -> Lent {
        let bytes: Vec<u8> = (0..room + 2 * MARGIN).map(|_| rng.byte()).collect();
        let mut lent = Lent { bytes, room, margins: Vec::new() };
        lent.margins = lent.outside();
        lent
    }

    /// What is lent.
    pub fn part(&mut self) -> &mut [u8] {
        &mut self.bytes[MARGIN..MARGIN + self.room]
    }

    /// The pointer to it that a program in C may pass: a null pointer where nothing is lent.
    pub fn pointer(&mut self) -> *mut u8 {
        match self.room {
            0 => null_mut(),
            _ => self.part().as_mut_ptr(),
        }
    }

    /// What is lent, as it stands.
    pub fn content(&self) -> &[u8] {
        &self.bytes[MARGIN..MARGIN + self.room]
    }

    /// Whether nothing was written beside it.
    pub fn kept(&self) -> bool {
        self.outside() == self.margins
    }

    fn outside(&self) -> Vec<u8> {
        [&self.bytes[..MARGIN], &self.bytes[MARGIN + self.room..]].concat()
    }
}

/// The two bytes for train and place, which hold other numbers than the call is to set.
pub struct Place {
    pub train: Lent,
    pub place: Lent,
}

impl Place {
    pub fn unlike(rng: &mut Prng, expected: Refusal) -> Place {
        let mut other = |byte: u8| {
            let mut lent = Lent::new(rng, 1);
            lent.part()[0] = byte.wrapping_add(rng.between(1, 255) as u8);
            lent
        };
        Place { train: other(expected.train), place: other(expected.place) }
    }

    /// What a call has given: its code, and what it has set.
    pub fn with(&self, code: u8) -> Refusal {
        Refusal { code, train: self.train.content()[0], place: self.place.content()[0] }
    }

    /// Whether nothing was written beside the two bytes.
    pub fn kept(&self) -> bool {
        self.train.kept() && self.place.kept()
    }
}
