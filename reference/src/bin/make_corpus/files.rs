//! The files of the corpus: table S and its changes, generated tables, damaged ones, and some by hand; tables
//! in which code 8 finds one thing alone.

use crate::corpus::{Corpus, FEWEST, S, SEED};
use reference::counts::FILE_CODES;
use reference::generate::damage::{damaged_file, DAMAGES};
use reference::generate::draft::Style;
use reference::generate::listing::{damaged_listing, found_in, FINDINGS};
use reference::generate::prng::Prng;
use reference::generate::tables::{accepted_table, largest_table, table_of};
use reference::generate::ways::{add_ways, any_version};
use reference::refusal::code_of;
use reference::table::*;
use reference::table_read::read_table;
use reference::table_write::file_bytes;

/// How many files have each finding of code 8 alone, of at most so many bytes, and how many tables are tried for them.
pub const FEWEST_FOUND: usize = 24;
const MOST_LISTING: usize = 90;
const LISTINGS_TRIED: u64 = 5_000;

/// Table S, each of its prefixes and each change of one byte.
pub fn table_s(corpus: &mut Corpus) {
    corpus.file(S);
    for length in 0..S.len() {
        corpus.prefix(length);
    }
    for place in 0..S.len() {
        for value in (0..=255).filter(|&value| value != S[place]) {
            corpus.change(place, value);
        }
    }
}

/// Accepted tables of all sizes, each with some prefixes, counts at their limits and random changes.
pub fn accepted(corpus: &mut Corpus) {
    for case in 0..60 {
        let mut rng = Prng::for_case(SEED, case);
        let table = match case % 10 {
            9 => largest_table(&mut rng),
            4 => {
                let mut table = fullest_table(&mut rng);
                any_version(&mut rng, &mut table);
                table
            }
            _ => accepted_table(&mut rng),
        };
        corpus.table(&table);
        for _ in 0..4 {
            corpus.prefix(rng.below(corpus.base.len()));
        }
        for (place, value) in [(5, 0), (5, 97), (6, 1), (6, 97), (7, 17)] {
            corpus.change(place, value);
        }
        for _ in 0..16 {
            random_change(&mut rng, corpus);
        }
    }
}

/// An accepted table of version 1 with 96 segments, 96 boxes, 16 trains and a route of 64.
fn fullest_table(rng: &mut Prng) -> Table {
    let style = Style { link: 30, split: 0, merge: 0, diamond: 1, start: 0, close: 0 };
    loop {
        let table = table_of(rng, style, MAX_SEGMENTS, MAX_TRAINS);
        let full = table.segments.len() == MAX_SEGMENTS && table.boxes.len() == MAX_BOXES;
        if full && table.trains.iter().any(|t| t.route.len() == MAX_ROUTE) {
            return table;
        }
    }
}

/// A change of one byte of the base file, most often to a small number or one nearby.
fn random_change(rng: &mut Prng, corpus: &mut Corpus) {
    let place = rng.below(corpus.base.len());
    let old = corpus.base[place];
    let value = match rng.below(4) {
        0 => rng.byte(),
        1 => old.wrapping_add(1),
        2 => old.wrapping_sub(1),
        _ => rng.below(6) as u8,
    };
    corpus.change(place, if value == old { old ^ 3 } else { value });
}

/// Files damaged for each code that have it, then files with two damages or blind ones.
pub fn damaged(corpus: &mut Corpus) {
    let mut case = 1000;
    for aim in FILE_CODES {
        let most = corpus.counts[aim as usize] + FEWEST + 2;
        while corpus.counts[aim as usize] < most {
            let mut rng = Prng::for_case(SEED, case);
            case += 1;
            let file = damaged_file(&mut rng, &modest_table(case), aim);
            if code_of(&read_table(&file)) == aim {
                corpus.file(&file);
            }
        }
    }
    for aim in [13, 14, 15, 16, 17, 18, 19, DAMAGES] {
        for _ in 0..6 {
            let mut rng = Prng::for_case(SEED, case);
            case += 1;
            corpus.file(&damaged_file(&mut rng, &modest_table(case), aim));
        }
    }
}

/// An accepted table with at least two trains, of at most 150 bytes but for one in six.
fn modest_table(case: u64) -> Table {
    let mut rng = Prng::for_case(SEED + 1, case);
    loop {
        let table = accepted_table(&mut rng);
        if table.trains.len() > 1 && (case % 6 == 0 || table.file_length() <= 150) {
            return table;
        }
    }
}

/// Small tables in which code 8 finds one thing alone, as many for each thing that it can find.
pub fn listings(corpus: &mut Corpus) {
    let mut made = [0; FINDINGS.len()];
    for case in 0..LISTINGS_TRIED {
        let mut rng = Prng::for_case(SEED + 4, case);
        let whole = accepted_table(&mut rng);
        let table = damaged_listing(&mut rng, &whole);
        let fits = table.file_length() <= MOST_LISTING && !corpus.files.contains(&file_bytes(&table));
        match found_in(&table)[..] {
            [finding] if fits && made[finding as usize] < FEWEST_FOUND => {
                made[finding as usize] += 1;
                corpus.listings.add(&table);
                corpus.table(&table);
            }
            _ => {}
        }
    }
}

/// Files made by hand, most of them from table S: routes, lengths, boxes that do not fit the track,
/// counts beyond their limits with as many records, rings, and the one segment of the paper.
pub fn by_hand(corpus: &mut Corpus) {
    let s = read_table(S).expect("table S is accepted");
    let with = |change: &dyn Fn(&mut Table)| {
        let mut table = s.clone();
        change(&mut table);
        table
    };
    for length in [0, 1, 2, 64, 65, 66, 127, 128, 254, 255] {
        for train in 0..2 {
            corpus.table(&with(&|t| t.trains[train].route = vec![1; length]));
        }
    }
    for train in 0..2 {
        corpus.table(&with(&|t| t.trains[train].direction = 2));
        corpus.table(&with(&|t| t.trains[train].route = vec![2, 3]));
        corpus.table(&with(&|t| t.trains[train].route.reverse()));
        corpus.table(&with(&|t| t.trains[train].route = s.trains[1 - train].route.clone()));
    }
    // Two codes in two trains: the smaller counts, whichever train has it.
    for train in 0..2 {
        corpus.table(&with(&|t| {
            t.trains[train].route = vec![2, 3];
            t.trains[1 - train].direction = 2;
        }));
        corpus.table(&with(&|t| {
            t.trains[train].route = vec![9];
            t.trains[1 - train].route.clear();
        }));
    }
    route_faults(corpus, &s);
    // Length bytes that run past the end, by one, by a few and by as much as can be.
    for value in [4, 9, 10, 11, 255] {
        corpus.file(S);
        corpus.change(37, value);
        corpus.change(42, value);
    }
    // The stem's side and a branch's side exchanged; a segment that no box lists; left = right.
    corpus.table(&with(&|t| (t.boxes[1].stem, t.boxes[1].left) = (2, 1)));
    corpus.table(&with(&|t| (t.boxes[2].stem, t.boxes[2].right) = (3, 4)));
    corpus.table(&with(&|t| (t.boxes[1].left, t.boxes[2].left) = (1, 4)));
    corpus.table(&with(&|t| t.segments.push(Segment { a: 2, b: 3, ..Segment::default() })));
    corpus.table(&with(&|t| t.segments.push(Segment { a: 4, b: 1, ..Segment::default() })));
    corpus.table(&with(&|t| t.boxes[1].right = 2));
    corpus.table(&with(&|t| t.boxes[2].left = 3));
    corpus.table(&with(&|t| t.boxes.push(SwitchBox { stem: 4, ..SwitchBox::default() })));
    corpus.table(&with(&|t| t.boxes.truncate(1)));
    beyond_limits(corpus);
    for boxes in 2..6 {
        corpus.table(&ring(boxes));
    }
    corpus.file(&[0x4E, 0x45, 0x54, 0, 1, 1, 2, 0, 1, 2, 0, 1, 0, 0, 0, 0, 1, 0, 0, 0]);
}

/// Table S with routes at fault: of both kinds, in both orders, on one route and on two, at one place, beside
/// 10 in the last train and beside 12.
fn route_faults(corpus: &mut Corpus, s: &Table) {
    let mut with = |trains: &[(u8, &[u8])]| {
        let trains = trains.iter().map(|&(direction, route)| TrainEntry { direction, route: route.to_vec() });
        corpus.table(&Table { trains: trains.collect(), ..s.clone() });
    };
    let (jump, number): (&[u8], &[u8]) = (&[1, 2, 3], &[5, 3, 1]);
    // Faults in two trains: the first train's counts.
    with(&[(0, jump), (1, number)]);
    with(&[(1, number), (0, jump)]);
    with(&[(0, jump), (1, &[4, 2, 3])]);
    with(&[(0, &[1, 2, 4]), (1, number), (0, jump)]);
    with(&[(0, &[1, 2, 4]), (0, jump), (1, number)]);
    // Faults on one route: the first place counts; at one place 11.
    with(&[(0, &[1, 4, 0])]);
    with(&[(0, &[1, 0, 4])]);
    with(&[(0, &[1, 2, 5, 1])]);
    with(&[(0, &[0, 1])]);
    with(&[(0, &[1, 1])]);
    with(&[(1, &[1, 255])]);
    // 12 after both, 10 of the last train before both.
    with(&[(0, &[1, 2, 4]), (1, &[1, 2])]);
    with(&[(0, &[1, 2, 4]), (1, &[1, 5])]);
    with(&[(0, number), (1, jump), (0, &[])]);
    with(&[(0, jump), (1, number), (2, &[4])]);
    // Sixteen trains with one fault each, and the last one alone at fault.
    let mut trains: Vec<(u8, &[u8])> = vec![(0, &[1, 2, 4]); 16];
    trains[15] = (0, jump);
    with(&trains);
    trains[15] = (0, number);
    with(&trains);
    trains[15] = (2, &[1]);
    trains[0] = (0, number);
    with(&trains);
}

/// As many links as segments, in a ring.
fn ring(size: u8) -> Table {
    let after = |i: u8| i % size + 1;
    let link = |i: u8| SwitchBox { kind: LINK, stem: i, left: after(i), right: 0, position: 0 };
    Table {
        version: VERSION_1,
        segments: (1..=size).map(|i| Segment { a: i, b: after(i), way: BOTH_WAYS }).collect(),
        boxes: (1..=size).map(|i| link(if i == 1 { size } else { i - 1 })).collect(),
        trains: vec![],
    }
}

/// The fullest table with one segment, box or train more; and, of each version, the longest file that has no code below
/// 10.
fn beyond_limits(corpus: &mut Corpus) {
    let full = fullest_table(&mut Prng::for_case(SEED, 500));
    let mut table = full.clone();
    table.segments.push(full.segments[0]);
    corpus.table(&table);
    table = full.clone();
    table.boxes.push(full.boxes[0]);
    corpus.table(&table);
    table = full.clone();
    table.trains.push(full.trains[0].clone());
    corpus.table(&table);
    table = full.clone();
    for train in &mut table.trains {
        train.route = vec![train.route[0]; 255];
    }
    corpus.table(&table);
    let mut one_way = table.clone();
    table.trains[15].route.clear();
    corpus.table(&table);
    add_ways(&mut Prng::for_case(SEED, 501), &mut one_way);
    corpus.table(&one_way);
    assert_eq!(corpus.base.len(), LONGEST_FILE);
}
