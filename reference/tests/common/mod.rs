//! Tables and steps the tests share.
#![allow(dead_code)]

pub mod page;

use reference::demand::Checker;
use reference::fast;
use reference::fault::Fault;
use reference::line::{start_line, Line};
use reference::numbers::{box_numbers, train_numbers};
use reference::refusal::Refusal;
use reference::step::{step, step_checked, Step};
use reference::table::{Segment, SwitchBox, Table, TrainEntry};
use reference::table_read::read_table;
use reference::table_write::file_bytes;

pub const S: [u8; 46] = [
    0x4E, 0x45, 0x54, 0x00, 0x01, 0x04, 0x04, 0x02, 1, 2, 2, 3, 2, 3, 3, 4, 0, 1, 0, 0, 0, 2, 1, 2,
    3, 1, 2, 4, 2, 3, 1, 0, 4, 0, 0, 0, 0, 3, 1, 2, 4, 1, 3, 4, 3, 1,
];

/// Faults in the steps that no list of steps from the start of an accepted table shows; the first two of them no
/// made-up record shows either.
pub const UNSEEN: [Fault; 8] = [
    Fault::NextBeforeMessage,
    Fault::RecordsKept,
    Fault::SensorNotAsked,
    Fault::ReservationsBeforeSensor,
    Fault::LockNeedsNextOnly,
    Fault::RowsBeforeGranted,
    Fault::RepeatSetsPosition,
    Fault::WayBeforeGranted,
];

/// Table S with other trains.
pub fn s_with(trains: &[(u8, &[u8])]) -> Table {
    let mut table = read_table(&S).unwrap();
    table.trains = entries(trains);
    table
}

pub fn entries(trains: &[(u8, &[u8])]) -> Vec<TrainEntry> {
    trains
        .iter()
        .map(|&(direction, route)| TrainEntry { direction, route: route.to_vec() })
        .collect()
}

pub fn boxes(records: &[[u8; 5]]) -> Vec<SwitchBox> {
    records
        .iter()
        .map(|&[kind, stem, left, right, position]| SwitchBox { kind, stem, left, right, position })
        .collect()
}

pub fn segments(records: &[[u8; 2]]) -> Vec<Segment> {
    records.iter().map(|&[a, b]| Segment { a, b, way: 0 }).collect()
}

/// Takes steps from the start line; each must have the code beside it.
/// The checked entry must answer the same.
pub fn run(table: &Table, steps: &[(Step, u8)]) -> Line {
    let mut line = start_line(table);
    go_on(&mut line, steps);
    line
}

pub fn go_on(line: &mut Line, steps: &[(Step, u8)]) {
    for (i, &(bytes, code)) in steps.iter().enumerate() {
        let mut checked = line.clone();
        assert_eq!(step_checked(&mut checked, bytes), code, "step {} {bytes:?}", i + 1);
        assert_eq!(step(line, bytes), code, "step {} {bytes:?}", i + 1);
        assert_eq!(*line, checked);
    }
}

/// Takes steps from the start line on, each with the code beside it, on both engines, with demand 3 checked.
pub fn walk(table: &Table, steps: &[(Step, u8)]) -> Line {
    let mut line = start_line(table);
    let mut checker = Checker::new(table, &line);
    let mut quick = fast::Line::NONE;
    assert_eq!(quick.read(&file_bytes(table)), Ok(()));
    for &(bytes, code) in steps {
        go_on(&mut line, &[(bytes, code)]);
        assert!(checker.observe(bytes, code, &line).is_empty(), "{bytes:?}");
        assert_eq!(quick.step(bytes), code, "{bytes:?}");
        assert!(same(&line, &quick), "{bytes:?}");
    }
    line
}

/// Two trains that both want segment 2, from either side.
pub fn opposed() -> Table {
    s_with(&[(0, &[1, 2, 4]), (1, &[4, 2, 1])])
}

/// Two trains side by side that both want segment 4.
pub fn abreast() -> Table {
    s_with(&[(0, &[2, 4]), (0, &[3, 4])])
}

/// Whether all trains and boxes of both engines' lines are the same.
pub fn same(line: &Line, quick: &fast::Line) -> bool {
    (0..line.trains.len()).all(|i| train_numbers(line, i) == quick.train_numbers(i))
        && (0..line.boxes.len()).all(|i| box_numbers(&line.boxes[i]) == quick.box_numbers(i))
}

/// Request, answer and hear, all with the code of the answer.
pub fn ask(kind: u8, train: u8, number: u8, code: u8) -> Vec<(Step, u8)> {
    vec![([kind, train, number], 0), ([3, train, 0], code), ([4, train, 0], code)]
}

/// 96 segments on 66 boxes: 31 pairs of parallel tracks between points,
/// single tracks between them, two links at the end. One train each way.
pub fn table_96() -> Table {
    let mut table = Table { version: 1, ..Table::default() };
    let (mut seg, mut bx) = (1u8, 1u8);
    table.boxes.extend(boxes(&[[0, 1, 0, 0, 0]]));
    let mut route = vec![1];
    for _ in 0..31 {
        table.segments.extend(segments(&[[bx, bx + 1], [bx + 1, bx + 2], [bx + 1, bx + 2]]));
        table.boxes.extend(boxes(&[[2, seg, seg + 1, seg + 2, 1], [2, seg + 3, seg + 1, seg + 2, 2]]));
        route.extend_from_slice(&[seg + 1, seg + 3]);
        seg += 3;
        bx += 2;
    }
    for last in [false, false, true] {
        table.segments.extend(segments(&[[bx, bx + 1]]));
        bx += 1;
        let record = if last { [0, seg, 0, 0, 0] } else { [1, seg, seg + 1, 0, 0] };
        table.boxes.extend(boxes(&[record]));
        seg += 1;
    }
    route.extend_from_slice(&[95, 96]);
    route.truncate(64);
    table.trains = entries(&[(0, &route), (1, &[96, 95, 94, 92])]);
    table
}

/// Every place of a route that is at fault, trains in file order and each route from its start, with the code that the
/// place has by itself: 11 where the segment is 0 or above n, else 28 where it does not follow the one before.
pub fn faults_on_routes(table: &Table) -> Vec<Refusal> {
    let n = table.segments.len();
    let mut faults = Vec::new();
    for (i, TrainEntry { direction, route }) in table.trains.iter().enumerate() {
        for (j, &segment) in route.iter().enumerate() {
            let there = |number: u8| number >= 1 && usize::from(number) <= n;
            let ends = |number: u8| table.segments[usize::from(number) - 1];
            let follows = |before: u8| match direction {
                0 => ends(before).b == ends(segment).a,
                _ => ends(before).a == ends(segment).b,
            };
            let code = match j {
                _ if !there(segment) => 11,
                0 => continue,
                _ if there(route[j - 1]) && follows(route[j - 1]) => continue,
                _ => 28,
            };
            faults.push(Refusal { code, train: i as u8 + 1, place: j as u8 + 1 });
        }
    }
    faults
}
