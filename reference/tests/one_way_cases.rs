//! One-way segments, request 6 of the paper of changes, on table S; with both engines, and demand 3 after every step.

mod common;
use common::*;
use reference::atomic::WholeLine;
use reference::fast;
use reference::line::*;
use reference::line_check::{record_fault, RecordFault};
use reference::printout::printout;
use reference::record::{Change, Record};
use reference::refusal::{code_of, Refusal};
use reference::step::{step_checked, Step};
use reference::table::*;
use reference::table_read::{read_table, route_in_file};
use reference::table_write::{file_bytes, write_table};

const S_STEPS: &[u8] = include_bytes!("../../samples/s/steps");

/// Table S as version 2, with these ways.
fn s_ways(ways: [u8; 4]) -> Table {
    with_ways(&read_table(&S).unwrap(), &ways)
}

/// The table as version 2, with these ways.
fn with_ways(table: &Table, ways: &[u8]) -> Table {
    let mut table = Table { version: VERSION_2, ..table.clone() };
    table.segments.iter_mut().zip(ways).for_each(|(segment, &way)| segment.way = way);
    table
}

/// The codes of both readers for a file.
fn read_code(file: &[u8]) -> u8 {
    let refusal = read_table(file).err();
    let mut quick = fast::Line::NONE;
    assert_eq!(quick.read(file).err(), refusal);
    refusal.map_or(0, |refusal| refusal.code)
}

/// All ways 0: 50 bytes, the same answers and printout as S.
#[test]
fn both_ways() {
    let table = s_ways([0; 4]);
    let file = file_bytes(&table);
    assert_eq!(file.len(), 50);
    assert_eq!(&file[3..20], [0, 2, 4, 4, 2, 1, 2, 0, 2, 3, 0, 2, 3, 0, 3, 4, 0]);
    assert_eq!((read_code(&file), read_table(&file)), (0, Ok(table.clone())));
    assert_eq!(route_in_file(&file, 2), Ok(&[4, 3, 1][..]));
    for length in 0..=S_STEPS.len() {
        assert_eq!(printout(&file, &S_STEPS[..length]), printout(&S, &S_STEPS[..length]));
    }
    let mut buffer = [9; 52];
    assert_eq!(write_table(&table, &mut buffer), Ok(50));
    assert_eq!((&buffer[..50], &buffer[50..]), (&file[..], &[9, 9][..]));
    assert_eq!(write_table(&table, &mut [9; 49]), Err(Refusal::by(26)));
}

/// The way of segment 2 against train 1: its reservation is answered 31 at either end, and heard as 31.
#[test]
fn a_reservation_against_the_way() {
    for number in [2, 3] {
        let before = walk(&s_ways([0, B_TO_A, 0, 0]), &[([1, 1, number], 0)]);
        let line = walk(&s_ways([0, B_TO_A, 0, 0]), &[([1, 1, number], 0), ([3, 1, 0], 31)]);
        assert_eq!(line.boxes, before.boxes);
        let request = Request { wish: Wish::Reservation, number };
        assert_eq!(line.trains[0].message, Message::Answered(request, 31));
        assert_eq!(record_fault(&line), None);
        let line = walk(&s_ways([0, B_TO_A, 0, 0]), &ask(1, 1, number, 31));
        assert_eq!(line, start_line(&s_ways([0, B_TO_A, 0, 0])));
        for way in [BOTH_WAYS, A_TO_B] {
            walk(&s_ways([0, way, 0, 0]), &ask(1, 1, number, 0));
        }
    }
    // The lock is asked for its own codes alone, and nothing lets the train in.
    walk(&s_ways([0, B_TO_A, 0, 0]), &[&ask(2, 1, 2, 25)[..], &[([5, 1, 0], 19)]].concat());
    // Train 2 runs the other way.
    for (way, code) in [(BOTH_WAYS, 0), (A_TO_B, 31), (B_TO_A, 0)] {
        for number in [2, 3] {
            walk(&s_ways([0, 0, way, 0]), &ask(1, 2, number, code));
        }
    }
}

/// What was not answered, a yes and a 31 are lost, sent again and answered anew.
#[test]
fn lost_and_sent_again() {
    let again = [([9, 1, 0], 0), ([10, 1, 0], 0), ([3, 1, 0], 31)];
    walk(&s_ways([0, B_TO_A, 0, 0]), &[&[([1, 1, 2], 0)], &again[..], &again[..], &[([4, 1, 0], 31)]].concat());
}

/// 31 before 22: another train has the segment, which it runs along.
#[test]
fn the_way_before_the_holder() {
    let table = with_ways(&opposed(), &[0, B_TO_A, 0, 0]);
    for number in [2, 3] {
        walk(&table, &[ask(1, 2, number, 0), ask(1, 1, number, 31)].concat());
    }
    let both_ways = with_ways(&opposed(), &[0; 4]);
    walk(&both_ways, &[ask(1, 2, 3, 0), ask(1, 1, 3, 22)].concat());
}

/// A train along the way passes; the way of a segment passed plays no part.
#[test]
fn along_the_way() {
    let table = s_ways([A_TO_B, A_TO_B, B_TO_A, 0]);
    let passage = [ask(1, 1, 2, 0), ask(1, 1, 3, 0), ask(2, 1, 2, 0), vec![([5, 1, 0], 0), ([6, 1, 0], 0)]].concat();
    let line = walk(&table, &passage);
    assert_eq!((line.trains[0].front_segment(), line.trains[0].tail_segment()), (2, 0));
    // Train 2 comes to segment 3, and not on to segment 1, against whose way its route runs.
    let behind = [ask(1, 2, 3, 0), ask(1, 2, 2, 0), ask(2, 2, 3, 0), vec![([5, 2, 0], 0), ([6, 2, 0], 0)]].concat();
    let line = walk(&table, &[passage, behind, ask(1, 2, 2, 31), ask(1, 2, 1, 31)].concat());
    assert_eq!(line.trains[1].front_segment(), 3);
}

/// 32: a train that starts against the way, whichever train it is; after 12, and of first segments alone.
#[test]
fn a_start_against_the_way() {
    let starts = |ways: [u8; 4]| read_code(&file_bytes(&s_ways(ways)));
    assert_eq!(starts([0, 0, 0, A_TO_B]), 32);
    assert_eq!(starts([B_TO_A, 0, 0, 0]), 32);
    assert_eq!(starts([B_TO_A, 0, 0, A_TO_B]), 32);
    assert_eq!(starts([A_TO_B, 0, 0, B_TO_A]), 0);
    assert_eq!(starts([0, B_TO_A, A_TO_B, 0]), 0);
    let file = file_bytes(&s_ways([0, 0, 0, A_TO_B]));
    assert_eq!(read_table(&file), Err(Refusal { code: 32, train: 0, place: 0 }));
    assert_eq!(printout(&file, S_STEPS), b"file 32\n");
    assert_eq!(route_in_file(&file, 1), Err(Refusal::by(32)));
    let clash = with_ways(&s_with(&[(0, &[1, 2]), (1, &[1])]), &[A_TO_B, 0, 0, 0]);
    assert_eq!(read_code(&file_bytes(&clash)), 12);
    let jump = with_ways(&s_with(&[(1, &[1]), (0, &[2, 3])]), &[A_TO_B, 0, 0, 0]);
    assert_eq!(read_code(&file_bytes(&jump)), 28);
}

/// 6: a way above 2. 5: the length of the other version. 3: another version.
#[test]
fn refused_files() {
    for segment in 0..4 {
        for way in [3, 4, 255] {
            let mut table = s_ways([0; 4]);
            table.segments[segment].way = way;
            assert_eq!(read_code(&file_bytes(&table)), 6);
            assert_eq!(write_table(&table, &mut [0; 60]), Err(Refusal::by(6)));
        }
    }
    let mut file = S;
    file[4] = 2;
    assert_eq!(read_code(&file), 5);
    let mut file = file_bytes(&s_ways([0; 4]));
    assert_eq!([read_code(&file[..49]), read_code(&[&file[..], &[0]].concat())], [5, 5]);
    file[4] = 1;
    assert_eq!(read_code(&file), 5);
    for version in [0u16, 3, 4, 255, 256, 257, 258, 513, 514] {
        let [high, low] = version.to_be_bytes();
        (file[3], file[4]) = (high, low);
        assert_eq!(read_code(&file), 3);
        let table = Table { version, ..s_ways([0; 4]) };
        assert_eq!(write_table(&table, &mut [0; 60]), Err(Refusal::by(3)));
    }
}

/// The step's code on table S as version 2, with changes, for both engines.
fn checked(ways: [u8; 4], changes: &[Change], bytes: Step) -> (u8, Line) {
    let record = Record::changed(&start_line(&s_ways(ways)), changes);
    let (mut line, mut quick) = (record.line(), record.fast_line());
    let before = line.clone();
    let code = step_checked(&mut line, bytes);
    assert_eq!(quick.step_checked(bytes), code);
    if code == 27 {
        assert_eq!(line, before);
    } else {
        assert!(same(&line, &quick));
    }
    (code, line)
}

/// A version 1 record with a way in one of its segments: 3 by the writer, before 4, and 27 by a step.
#[test]
fn a_way_in_version_1() {
    for (segment, way) in [(0, 1), (1, 2), (3, 3), (3, 255)] {
        let changes = [[b'h', 0, 1, 1], [b's', segment, 2, way]];
        assert_eq!(checked([0; 4], &changes, [1, 1, 2]).0, 27);
        for n in [4, 97, 255] {
            let record = Record::changed(&start_line(&s_ways([0; 4])), &[&changes[..], &[[b'h', 0, 2, n]]].concat());
            assert_eq!(record_fault(&record.line()), Some(RecordFault::TablePart(3)));
            let mut buffer = [9; 60];
            assert_eq!(write_table(&record.line().table, &mut buffer), Err(Refusal::by(3)));
            assert_eq!(record.fast_line().write(&mut buffer), Err(Refusal::by(3)));
            assert_eq!(buffer, [9; 60]);
        }
    }
    // Beyond n it plays no part.
    assert_eq!(checked([0; 4], &[[b'h', 0, 1, 1], [b's', 4, 2, 1]], [1, 1, 2]).0, 0);
    // All 0: the record is that of S.
    let (code, line) = checked([0; 4], &[[b'h', 0, 1, 1]], [1, 1, 2]);
    assert_eq!((code, file_bytes(&line.table)), (0, S.to_vec()));
}

/// 27 by 6 and by 32 of the table part; of a route in force 32 is not asked.
#[test]
fn records() {
    let clause = |changes: &[Change]| {
        let code = checked([0; 4], changes, [1, 1, 2]).0;
        let fault = record_fault(&Record::changed(&start_line(&s_ways([0; 4])), changes).line());
        assert_eq!(code == 27, fault.is_some());
        fault
    };
    assert_eq!(clause(&[[b's', 1, 2, 3]]), Some(RecordFault::TablePart(6)));
    assert_eq!(clause(&[[b's', 0, 2, B_TO_A]]), Some(RecordFault::TablePart(32)));
    assert_eq!(clause(&[[b's', 3, 2, A_TO_B]]), Some(RecordFault::TablePart(32)));
    assert_eq!(clause(&[[b's', 3, 2, B_TO_A]]), None);
    // Train 2 goes in direction 0 over the segments 2 and 4, and starts against the way of 2.
    let turned = [[b't', 1, 0, 0], [b't', 1, 1, 2], [b'R', 1, 0, 2], [b'R', 1, 1, 4], [b's', 1, 2, B_TO_A]];
    assert_eq!(clause(&turned), None);
}

/// A box finds next free, another's, or the train's own already, which is a yes before 31; for either end.
#[test]
fn what_the_box_finds() {
    for (number, place) in [(2, 4), (3, 4)] {
        for (holder, code) in [(0, 31), (2, 31), (1, 0)] {
            let changes = [[b'm', 0, 1, number], [b'b', number - 1, place, holder]];
            let (answer, line) = checked([0, B_TO_A, 0, 0], &changes, [3, 1, 0]);
            assert_eq!((answer, line.reservation(2, number)), (code, holder));
        }
    }
}

/// 27 takes 31 for the answer to a reservation, and for no other message's.
#[test]
fn answers_in_records() {
    for (field, taken) in [(3, true), (4, false), (8, false), (9, false)] {
        for ways in [[0, B_TO_A, 0, 0], [0; 4]] {
            let (code, line) = checked(ways, &[[b'm', 0, field, 2], [b'm', 0, 5, 31]], [4, 1, 0]);
            assert_eq!(code, if taken { 31 } else { 27 });
            assert_eq!(line.trains[0].message == Message::None, taken);
        }
    }
}

/// On the whole line 31 stops a reservation, before 22 and after 18.
#[test]
fn the_whole_line() {
    let table = with_ways(&opposed(), &[0, B_TO_A, 0, 0]);
    let mut whole = WholeLine::start(&table);
    assert_eq!([[1, 1, 2], [1, 1, 3], [1, 1, 4]].map(|bytes| whole.take(bytes)), [31, 31, 17]);
    assert_eq!(whole, WholeLine::start(&table));
    assert_eq!([[1, 2, 3], [1, 1, 3], [1, 2, 3]].map(|bytes| whole.take(bytes)), [0, 31, 18]);
}

/// Each way of each segment: the code of the file, and what trains are told that run along the track of S.
#[test]
fn all_ways() {
    for ways in 0..81u8 {
        let ways = [ways % 3, ways / 3 % 3, ways / 9 % 3, ways / 27];
        let table = s_ways(ways);
        let starts = ways[0] == B_TO_A || ways[3] == A_TO_B;
        assert_eq!(code_of(&read_table(&file_bytes(&table))), if starts { 32 } else { 0 });
        if !starts {
            walk(&table, &ask(1, 1, 2, if ways[1] == B_TO_A { 31 } else { 0 }));
            walk(&table, &ask(1, 2, 2, if ways[2] == A_TO_B { 31 } else { 0 }));
        }
    }
}
