//! Damaged files: directed changes for each code of a file and blind ones.
//! A directed change may still give another code, or none.

use super::prng::Prng;
use crate::table::*;
use crate::table_write::file_bytes;

/// The codes of records in the order in which they are looked at, 11 and 28 together.
const RECORD_CODES: [u8; 9] = [6, 7, 8, 9, 10, 11, 28, 12, 32];

/// Aims below this are of every sort.
pub const DAMAGES: u8 = 22;

/// The file of a table, damaged in a way meant for code `aim`. Other aims below `DAMAGES` put more than one damage in
/// a table, so that the order of codes shows: 13 and 14 two of any codes, 15 to 17 some faults on routes, 18
/// some faults of trains. 19 is meant for code 28 too, 20 for 32, now and then beside 12, 21 for 6 by the way of a
/// segment. Any other aim damages blindly.
pub fn damaged_file(rng: &mut Prng, table: &Table, aim: u8) -> Vec<u8> {
    let mut t = table.clone();
    match aim {
        6..=12 | 28 | 32 => damage_table(rng, &mut t, aim),
        13 | 14 => {
            let later = rng.between(1, RECORD_CODES.len() - 1);
            let earlier = rng.below(later);
            damage_table(rng, &mut t, RECORD_CODES[later]);
            damage_table(rng, &mut t, RECORD_CODES[earlier]);
        }
        15..=17 => damage_routes(rng, &mut t),
        18 => damage_trains(rng, &mut t),
        19 => damage_table(rng, &mut t, 28),
        20 => {
            damage_table(rng, &mut t, 32);
            if rng.chance(20) {
                repeat_first(rng, &mut t);
            }
        }
        21 => damage_way(rng, &mut t),
        _ => {}
    }
    let mut file = file_bytes(&t);
    match aim {
        1 => file.truncate(rng.below(8)),
        2 => file[rng.below(3)] ^= 1 << rng.below(8),
        3 if rng.chance(40) => file[4] = 3,
        3 => file[3 + rng.below(2)] ^= 1 << rng.below(8),
        4 => {
            let field = rng.below(3);
            let wrong: [&[u8]; 3] = [&[0, 97, 98, 255], &[0, 1, 97, 255], &[17, 18, 255]];
            file[5 + field] = rng.pick(wrong[field]);
        }
        5 => change_length(rng, &t, &mut file),
        6..=21 | 28 | 32 => {}
        _ => blind_damage(rng, &mut file),
    }
    file
}

/// Some bytes, whatever they mean.
fn blind_damage(rng: &mut Prng, file: &mut [u8]) {
    for _ in 0..rng.between(1, 3) {
        let at = rng.below(file.len());
        file[at] = match rng.below(3) {
            0 => rng.byte(),
            1 => file[at].wrapping_add(1),
            _ => rng.below(6) as u8,
        };
    }
}

/// Damages one record in a way meant for a code of `RECORD_CODES`.
fn damage_table(rng: &mut Prng, t: &mut Table, aim: u8) {
    match aim {
        6 => damage_ends(rng, t),
        7 => damage_box(rng, t),
        8 => damage_listing(rng, t),
        9 => close_loop(rng, t),
        12 => repeat_first(rng, t),
        32 => start_against(rng, t),
        _ if t.trains.is_empty() => {}
        10 => {
            let at = rng.below(t.trains.len());
            damage_route_shape(rng, t, at);
        }
        _ => {
            let at = rng.below(t.trains.len());
            damage_route(rng, t, at, aim);
        }
    }
}

/// 5: bytes missing or too many, the records of the other version, or a route length that is not true.
fn change_length(rng: &mut Prng, t: &Table, file: &mut Vec<u8>) {
    match rng.below(4) {
        3 => file[4] = (VERSION_1 + VERSION_2 - t.version) as u8,
        0 => file.truncate(rng.between(8, file.len() - 1)),
        1 => {
            for _ in 0..rng.between(1, 5) {
                file.push(rng.byte());
            }
        }
        _ => {
            let at = network_bytes(t.version, t.segments.len(), t.boxes.len()) + 1;
            match file.get_mut(at) {
                Some(r) => *r = r.wrapping_add(1 + rng.below(255) as u8),
                None => file.push(0),
            }
        }
    }
}

/// 6: a way above 2, in version 2.
fn damage_way(rng: &mut Prng, t: &mut Table) {
    let at = rng.below(t.segments.len());
    t.version = VERSION_2;
    t.segments[at].way = rng.pick(&[3, 3, 4, 255]);
}

/// 32: train 1, the last one or any one starts against the way of its segment, in version 2.
fn start_against(rng: &mut Prng, t: &mut Table) {
    let any = rng.below(t.trains.len());
    let at = rng.pick(&[0, any, t.trains.len().saturating_sub(1)]);
    let Some(TrainEntry { direction, route }) = t.trains.get(at).filter(|train| !train.route.is_empty()) else {
        return;
    };
    if let Some(segment) = t.segments.get_mut(usize::from(route[0]).wrapping_sub(1)) {
        (segment.way, t.version) = (way_against(*direction), VERSION_2);
    }
}

/// 6: an end without box, or both ends at one; or a way that there is not.
fn damage_ends(rng: &mut Prng, t: &mut Table) {
    let at = rng.below(t.segments.len());
    let wrong = rng.pick(&[0, t.boxes.len() as u8 + 1, 255]);
    let s = &mut t.segments[at];
    match rng.below(4) {
        0 => s.a = wrong,
        1 => s.b = wrong,
        2 => s.a = s.b,
        _ => damage_way(rng, t),
    }
}

/// 7: one field of one box.
fn damage_box(rng: &mut Prng, t: &mut Table) {
    let wrong = rng.pick(&[0, t.segments.len() as u8 + 1, 255]);
    let at = rng.below(t.boxes.len());
    let b = &mut t.boxes[at];
    match rng.below(7) {
        0 => b.kind = rng.between(3, 255) as u8,
        1 => b.kind = (b.kind + 1) % 3,
        2 => b.stem = wrong,
        3 => b.left = wrong.max(b.right),
        4 => b.right = b.left.max(1),
        5 => b.position = (b.position + 1) % 4,
        _ => b.position = 3,
    }
}

/// 8: places and ends that do not match.
fn damage_listing(rng: &mut Prng, t: &mut Table) {
    let at = rng.below(t.boxes.len());
    let other = rng.between(1, t.segments.len()) as u8;
    let s = rng.below(t.segments.len());
    let any_box = rng.between(1, t.boxes.len()) as u8;
    match rng.below(5) {
        // One more segment beside another one, in no box's list.
        0 if t.segments.len() < MAX_SEGMENTS => t.segments.push(t.segments[s]),
        0 | 4 => t.boxes[at].stem = other,
        1 => {
            let points: Vec<usize> = (0..t.boxes.len()).filter(|&i| t.boxes[i].kind == POINT).collect();
            if !points.is_empty() {
                let b = &mut t.boxes[rng.pick(&points)];
                (b.stem, b.left) = (b.left, b.stem);
            }
        }
        2 => {
            let links: Vec<usize> = (0..t.boxes.len()).filter(|&i| t.boxes[i].kind == LINK).collect();
            if !links.is_empty() {
                let left = t.boxes[rng.pick(&links)].left as usize - 1;
                let segment = &mut t.segments[left];
                (segment.a, segment.b) = (segment.b, segment.a);
            }
        }
        _ => {
            if t.segments[s].a != any_box {
                t.segments[s].b = any_box;
            }
        }
    }
}

/// 9: a border where tracks start and one where they end, joined to a link.
fn close_loop(rng: &mut Prng, t: &mut Table) {
    let borders: Vec<usize> = (0..t.boxes.len()).filter(|&i| t.boxes[i].kind == BORDER).collect();
    let starts = |t: &Table, i: usize| t.segments[t.boxes[i].stem as usize - 1].a as usize == i + 1;
    let from: Vec<usize> = borders.iter().copied().filter(|&i| starts(t, i)).collect();
    let to: Vec<usize> = borders.iter().copied().filter(|&i| !starts(t, i)).collect();
    if from.is_empty() || to.is_empty() || t.boxes.len() < 3 {
        return;
    }
    let (gone, kept) = (rng.pick(&from), rng.pick(&to));
    let segment = t.boxes[gone].stem;
    t.boxes[kept].kind = LINK;
    t.boxes[kept].left = segment;
    t.segments[segment as usize - 1].a = kept as u8 + 1;
    t.boxes.remove(gone);
    for s in &mut t.segments {
        for end in [&mut s.a, &mut s.b] {
            if *end as usize > gone + 1 {
                *end -= 1;
            }
        }
    }
}

/// 10: direction or length.
fn damage_route_shape(rng: &mut Prng, t: &mut Table, at: usize) {
    let train = &mut t.trains[at];
    match rng.below(3) {
        0 => train.direction = rng.between(2, 255) as u8,
        1 => train.route.clear(),
        _ => train.route = vec![train.route[0]; rng.between(65, 255)],
    }
}

/// 11: a segment that the table lacks; 28: a route that jumps, all its segments in the table.
fn damage_route(rng: &mut Prng, t: &mut Table, at: usize, aim: u8) {
    let n = t.segments.len();
    let train = &mut t.trains[at];
    let (length, any) = (train.route.len(), rng.between(1, n) as u8);
    let place = rng.below(length);
    match (aim, rng.below(8)) {
        (11, 0..=3) => train.route[place] = 0,
        (11, 4 | 5) => train.route[place] = n as u8 + 1,
        (11, _) => train.route[place] = rng.between(n + 1, 255) as u8,
        (_, 0) if length < MAX_ROUTE => train.route.push(any),
        (_, _) if length == 1 => train.route.push(train.route[0]),
        (_, 0 | 1) => train.direction = 1 - train.direction,
        (_, 2) => train.route.reverse(),
        // A segment left out, or named twice.
        (_, 3) if place > 0 => drop(train.route.remove(place)),
        (_, 4) if place > 0 => train.route[place] = train.route[place - 1],
        _ => train.route[place] = any,
    }
}

/// Two to four faults of both kinds on routes, some of them on one route.
fn damage_routes(rng: &mut Prng, t: &mut Table) {
    if t.trains.is_empty() {
        return;
    }
    let mut at = rng.below(t.trains.len());
    for _ in 0..rng.between(2, 4) {
        let code = rng.pick(&[11, 28]);
        damage_route(rng, t, at, code);
        if rng.chance(60) {
            at = rng.below(t.trains.len());
        }
    }
}

/// A fault on the first route or on any other, and two trains with one first segment, or direction or
/// length of the last train, or both of these.
fn damage_trains(rng: &mut Prng, t: &mut Table) {
    if t.trains.is_empty() {
        return;
    }
    let also = rng.below(3);
    if also != 0 {
        repeat_first(rng, t);
    }
    let (any, code) = (rng.below(t.trains.len()), rng.pick(&[11, 28]));
    let at = rng.pick(&[0, any]);
    damage_route(rng, t, at, code);
    if also != 1 {
        damage_route_shape(rng, t, t.trains.len() - 1);
    }
}

/// 12: two trains with one first segment.
fn repeat_first(rng: &mut Prng, t: &mut Table) {
    if let (true, Some(train)) = (t.trains.len() < MAX_TRAINS, t.trains.last().cloned()) {
        let first = train.route[0];
        match rng.chance(50) {
            true => t.trains.push(train),
            false => t.trains.insert(0, TrainEntry { direction: rng.below(2) as u8, route: vec![first] }),
        }
    } else if t.trains.len() > 1 {
        t.trains[0] = t.trains[1].clone();
    }
}
