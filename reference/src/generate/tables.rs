//! Accepted tables: grown networks, renumbered in shuffled order, with
//! trains of both directions, of both versions.

use super::draft::{Draft, Style};
use super::prng::Prng;
use super::ways::any_version;
use crate::table::*;

const STYLES: [Style; 5] = [
    // Chains of links with some diamonds.
    Style { link: 8, split: 0, merge: 0, diamond: 2, start: 0, close: 0 },
    // Diamonds one after the other.
    Style { link: 1, split: 0, merge: 0, diamond: 9, start: 0, close: 0 },
    // Points of both orientations, tangled.
    Style { link: 2, split: 5, merge: 5, diamond: 1, start: 1, close: 1 },
    // Yards: wide, then narrow.
    Style { link: 2, split: 3, merge: 2, diamond: 2, start: 2, close: 1 },
    // Mostly merging and splitting, few borders: many segments per box.
    Style { link: 0, split: 5, merge: 6, diamond: 4, start: 0, close: 0 },
];

/// A random accepted table; one in eight is as large as its style allows.
pub fn accepted_table(rng: &mut Prng) -> Table {
    let style = rng.pick(&STYLES);
    let most = match rng.below(8) {
        0 => MAX_SEGMENTS,
        1..=3 => rng.between(1, 8),
        4 | 5 => rng.between(5, 30),
        _ => rng.between(20, MAX_SEGMENTS),
    };
    let trains = match rng.below(4) {
        0 => rng.between(0, 2),
        1 | 2 => rng.between(1, 6),
        _ => rng.between(4, MAX_TRAINS),
    };
    let mut table = table_of(rng, style, most, trains);
    any_version(rng, &mut table);
    table
}

/// An accepted table with 96 segments and 16 trains.
pub fn largest_table(rng: &mut Prng) -> Table {
    let mut table = largest_both_ways(rng);
    any_version(rng, &mut table);
    table
}

/// An accepted table of version 1 with 96 segments and 16 trains.
pub fn largest_both_ways(rng: &mut Prng) -> Table {
    loop {
        let style = rng.pick(&[STYLES[1], STYLES[4], STYLES[0]]);
        let table = table_of(rng, style, MAX_SEGMENTS, MAX_TRAINS);
        if table.segments.len() == MAX_SEGMENTS && table.trains.len() == MAX_TRAINS {
            return table;
        }
    }
}

/// A table of version 1, of one style, with so many segments and trains at most.
pub fn table_of(rng: &mut Prng, style: Style, most: usize, trains: usize) -> Table {
    let draft = Draft::grow(rng, style, most);
    let mut table = renumbered(rng, &draft);
    add_trains(rng, &mut table, trains);
    table
}

/// The network with segments and boxes numbered in shuffled order.
fn renumbered(rng: &mut Prng, draft: &Draft) -> Table {
    let mut segment_numbers: Vec<u8> = (1..=draft.segments.len() as u8).collect();
    let mut box_numbers: Vec<u8> = (1..=draft.boxes.len() as u8).collect();
    rng.shuffle(&mut segment_numbers);
    rng.shuffle(&mut box_numbers);
    let new_segment = |old: u8| match old {
        0 => 0,
        _ => segment_numbers[old as usize - 1],
    };
    let new_box = |old: u8| box_numbers[old as usize - 1];
    let mut table = Table {
        version: VERSION_1,
        segments: vec![Segment::default(); draft.segments.len()],
        boxes: vec![SwitchBox::default(); draft.boxes.len()],
        trains: Vec::new(),
    };
    for (i, s) in draft.segments.iter().enumerate() {
        let to = segment_numbers[i] as usize - 1;
        table.segments[to] = Segment { a: new_box(s.a), b: new_box(s.b), ..*s };
    }
    for (i, b) in draft.boxes.iter().enumerate() {
        table.boxes[box_numbers[i] as usize - 1] = SwitchBox {
            stem: new_segment(b.stem),
            left: new_segment(b.left),
            right: new_segment(b.right),
            ..*b
        };
    }
    table
}

/// Adds trains with first segments of their own.
fn add_trains(rng: &mut Prng, table: &mut Table, trains: usize) {
    let directions: &[u8] = rng.pick(&[&[0][..], &[1], &[0, 1], &[0, 1]]);
    let mut free: Vec<u8> = (1..=table.segments.len() as u8).collect();
    rng.shuffle(&mut free);
    for _ in 0..trains.min(free.len()) {
        let direction = rng.pick(directions);
        let from_border = |&s: &u8| {
            let near = table.near_box(s, direction);
            table.switch_box(near).is_some_and(|b| b.kind == BORDER)
        };
        let at = match rng.chance(40) {
            true => free.iter().position(from_border).unwrap_or(0),
            false => 0,
        };
        let first = free.swap_remove(at);
        let most = match rng.chance(30) {
            true => rng.between(1, 6),
            false => MAX_ROUTE,
        };
        let route = walk(rng, table, first, direction, most);
        table.trains.push(TrainEntry { direction, route });
    }
}

/// A random route from a segment, as long as the network and `most` allow.
pub fn walk(rng: &mut Prng, table: &Table, first: u8, direction: u8, most: usize) -> Vec<u8> {
    let mut route = vec![first];
    while route.len() < most {
        let last = route[route.len() - 1];
        let after: Vec<u8> = (1..=table.segments.len() as u8)
            .filter(|&t| table.follows(last, t, direction))
            .collect();
        if after.is_empty() {
            break;
        }
        route.push(rng.pick(&after));
    }
    route
}
