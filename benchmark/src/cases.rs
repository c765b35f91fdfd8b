//! Tables, each with several lists of steps. A list that is run again and again alone is learnt by heart by the processor,
//! which then foresees every branch; so each round takes another one.

use reference::generate::draft::Style;
use reference::generate::prng::Prng;
use reference::generate::steps::{drive_by, step_bytes, Driver, Mix};
use reference::generate::tables::{largest_both_ways, table_of};
use reference::line::start_line;
use reference::step::{step, Step};
use reference::table::{Segment, SwitchBox, Table, TrainEntry, BORDER, LINK, MAX_BOXES, MAX_SEGMENTS, MAX_TRAINS, POINT};
use reference::table_read::read_table;
use reference::table_write::file_bytes;

const S: &[u8] = include_bytes!("../../samples/s/net");
/// Lists of a table, and steps of a list.
pub const LISTS: usize = 16;
pub const STEPS: usize = 20_000;

pub struct Case {
    pub name: String,
    pub file: Vec<u8>,
    pub lists: Vec<List>,
}

/// Steps, and the codes that the readable engine of the second implementation gives them.
pub struct List {
    pub steps: Vec<u8>,
    pub codes: Vec<u8>,
}

impl Case {
    /// Steps as the generator's driver takes them, with no kinds 7 to 10: a library that lacks these has the same codes.
    fn driven(name: String, table: Table) -> Case {
        Case::new(name, table, |rng, table| {
            let driver = Driver::of_first_kinds(rng);
            drive_by(driver, rng, &mut start_line(table), STEPS)
        })
    }

    /// Steps of a driver that gives back much of what it has, with no kinds 9 and 10.
    fn giving_back(name: String, table: Table) -> Case {
        Case::new(name, table, |rng, table| {
            let driver = Driver::of(Mix { purposeful: 85, impatient: 13, back: [20, 40], lost: 0 });
            drive_by(driver, rng, &mut start_line(table), STEPS)
        })
    }

    /// Steps of a driver that loses a third of all messages, and sends them again.
    fn losing(name: String, table: Table) -> Case {
        Case::new(name, table, |rng, table| {
            let driver = Driver::of(Mix { purposeful: 85, impatient: 13, back: [5, 10], lost: 33 });
            drive_by(driver, rng, &mut start_line(table), STEPS)
        })
    }

    fn new(name: String, table: Table, steps: fn(&mut Prng, &Table) -> Vec<(Step, u8)>) -> Case {
        let list = |case| {
            let events = steps(&mut Prng::for_case(5, case), &table);
            List { steps: step_bytes(&events), codes: events.iter().map(|&(_, code)| code).collect() }
        };
        Case { name, file: file_bytes(&table), lists: (0..LISTS as u64).map(list).collect() }
    }

    /// Steps that are accepted, in percent.
    pub fn accepted(&self) -> f64 {
        let codes = || self.lists.iter().flat_map(|list| &list.codes);
        100.0 * codes().filter(|&&code| code == 0).count() as f64 / codes().count() as f64
    }
}

pub fn table_s() -> Case {
    Case::driven("table S".to_string(), read_table(S).expect("table S is accepted"))
}

/// Trains of table S that wait: they try to clear, to enter and to be answered.
pub fn waiting() -> Case {
    Case::new("table S, waiting".to_string(), read_table(S).expect("table S is accepted"), |rng, table| {
        let mut line = start_line(table);
        let mut one = || [rng.pick(&[6, 6, 5, 3]), 1 + rng.below(2) as u8, 0];
        (0..STEPS).map(|_| one()).map(|bytes| (bytes, step(&mut line, bytes))).collect()
    })
}

pub fn largest(seed: u64) -> Case {
    Case::driven(format!("largest, seed {seed}"), largest_both_ways(&mut Prng::for_case(seed, 0)))
}

/// The largest table of seed 0, with give-backs among the steps.
pub fn largest_giving_back() -> Case {
    Case::giving_back("largest, giving back".to_string(), largest_both_ways(&mut Prng::for_case(0, 0)))
}

/// The largest table of seed 0, with messages lost and sent again.
pub fn largest_losing() -> Case {
    Case::losing("largest, losing".to_string(), largest_both_ways(&mut Prng::for_case(0, 0)))
}

/// As many boxes as there can be, and as many points as these can have: a border has one segment end, a point three, and 96
/// segments have 192.
pub fn points() -> Case {
    let style = Style { link: 0, split: 6, merge: 5, diamond: 0, start: 3, close: 0 };
    let table = table_of(&mut Prng::for_case(13, 7), style, MAX_SEGMENTS, MAX_TRAINS);
    let count = |kind| table.boxes.iter().filter(|b| b.kind == kind).count();
    assert_eq!((table.boxes.len(), count(BORDER), count(POINT)), (MAX_BOXES, 48, 48));
    assert_eq!((table.segments.len(), table.trains.len()), (MAX_SEGMENTS, MAX_TRAINS));
    Case::driven("96 boxes, 48 points".to_string(), table)
}

/// Each step three random bytes, kinds 7 to 10 with 128 more in their place.
pub fn random_bytes() -> Case {
    Case::new("random bytes".to_string(), largest_both_ways(&mut Prng::for_case(0, 0)), |rng, table| {
        let mut line = start_line(table);
        let mut one = || match [0; 3].map(|_| rng.byte()) {
            [kind @ 7..=10, train, number] => [kind + 128, train, number],
            bytes => bytes,
        };
        (0..STEPS).map(|_| one()).map(|bytes| (bytes, step(&mut line, bytes))).collect()
    })
}

/// Table S, with steps of a driver and of waiting trains; the largest tables that the generator makes; one of them with
/// give-backs among the steps, with messages lost, and with random bytes for steps; the most boxes with the most points; the longest single track, its
/// segments numbered in three ways; tables of growing n and m with few trains, and of growing k.
pub fn all() -> Vec<Case> {
    let mut all = vec![table_s(), waiting()];
    all.extend((0..4).map(largest));
    all.extend([largest_giving_back(), largest_losing(), random_bytes(), points()]);
    let mut numbers: Vec<u8> = (1..=95).collect();
    all.push(Case::driven("track in order".to_string(), track(&numbers)));
    numbers.reverse();
    all.push(Case::driven("track reversed".to_string(), track(&numbers)));
    Prng::for_case(7, 0).shuffle(&mut numbers);
    all.push(Case::driven("track shuffled".to_string(), track(&numbers)));
    let style = Style { link: 2, split: 0, merge: 0, diamond: 8, start: 0, close: 0 };
    for (segments, trains) in [(6, 2), (12, 2), (24, 2), (48, 2), (96, 2), (96, 1), (96, 4), (96, 8), (96, 16)] {
        let table = table_of(&mut Prng::for_case(11, 0), style, segments, trains);
        let (n, m, k) = (table.segments.len(), table.boxes.len(), table.trains.len());
        all.push(Case::driven(format!("{n} segments, {m} boxes, {k} trains"), table));
    }
    all
}

/// A single track of segments with these numbers, from one border through links to the other; boxes are numbered as the segments
/// are. 16 trains stand one behind the other, with routes as long as they may be.
fn track(numbers: &[u8]) -> Table {
    let n = numbers.len();
    // The box where the segment at place p begins has that segment's number; the last box is n + 1.
    let begin = |p: usize| if p < n { numbers[p] } else { n as u8 + 1 };
    let mut segments = vec![Segment::default(); n];
    let mut boxes = vec![SwitchBox::default(); n + 1];
    for p in 0..n {
        segments[numbers[p] as usize - 1] = Segment { a: begin(p), b: begin(p + 1), ..Default::default() };
    }
    for p in 0..=n {
        boxes[begin(p) as usize - 1] = match p {
            0 => SwitchBox { kind: BORDER, stem: numbers[0], ..Default::default() },
            _ if p == n => SwitchBox { kind: BORDER, stem: numbers[n - 1], ..Default::default() },
            _ => SwitchBox { kind: LINK, stem: numbers[p - 1], left: numbers[p], ..Default::default() },
        };
    }
    let trains = (0..16).map(|i| TrainEntry { direction: 0, route: numbers[i..n.min(i + 64)].to_vec() }).collect();
    Table { version: 1, segments, boxes, trains }
}
