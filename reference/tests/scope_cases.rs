//! The cases of the scope paper: "Checked on S and beside it". Those of a refused route and of a lock are as the
//! paper of changes has them.

mod common;
use common::*;
use reference::atomic::{WholeBox, WholeLine};
use reference::fast;
use reference::line::*;
use reference::numbers::{recorded, train_numbers};
use reference::printout::printout;
use reference::record::Record;
use reference::refusal::Refusal;
use reference::table::{Table, VERSION_1};
use reference::table_read::{read_table, route_in_file};
use reference::table_write::{file_bytes, write_table};

/// The first three steps of the printout.
fn first_three() -> Vec<([u8; 3], u8)> {
    ask(1, 1, 2, 0)
}

#[test]
fn s_is_taken() {
    let table = read_table(&S).unwrap();
    assert_eq!((table.segments.len(), table.boxes.len(), table.trains.len()), (4, 4, 2));
    assert_eq!(route_in_file(&S, 1), Ok(&S[38..41]));
    assert_eq!(route_in_file(&S, 2), Ok(&S[43..46]));
    assert_eq!(route_in_file(&S, 0), Err(Refusal::by(14)));
    assert_eq!(route_in_file(&S, 3), Err(Refusal::by(14)));
    assert_eq!(route_in_file(&S[..45], 1), Err(Refusal::by(5)));
    let mut buffer = [7; 50];
    assert_eq!(write_table(&table, &mut buffer), Ok(46));
    assert_eq!(buffer[..46], S);
    assert_eq!(buffer[46..], [7; 4]);
}

#[test]
fn s_with_other_length() {
    assert_eq!(read_table(&S[..45]), Err(Refusal::by(5)));
    let mut longer = S.to_vec();
    longer.push(0);
    assert_eq!(read_table(&longer), Err(Refusal::by(5)));
    assert_eq!(read_table(&S[..7]), Err(Refusal::by(1)));
    for length in 8..46 {
        assert_eq!(read_table(&S[..length]), Err(Refusal::by(5)));
    }
}

#[test]
fn most_segments() {
    let table = table_96();
    assert_eq!((table.segments.len(), table.boxes.len()), (96, 66));
    assert_eq!(table.trains[0].route.len(), 64);
    let mut file = file_bytes(&table);
    assert_eq!(read_table(&file), Ok(table));
    file[5] = 97;
    assert_eq!(read_table(&file), Err(Refusal::by(4)));
}

#[test]
fn one_segment_no_train() {
    let table = Table {
        version: VERSION_1,
        segments: segments(&[[1, 2]]),
        boxes: boxes(&[[0, 1, 0, 0, 0], [0, 1, 0, 0, 0]]),
        trains: vec![],
    };
    let file = file_bytes(&table);
    assert_eq!(file.len(), 20);
    assert_eq!(read_table(&file), Ok(table.clone()));
    run(&table, &[([1, 1, 0], 14), ([1, 1, 1], 14)]);
}

#[test]
fn two_links_make_a_loop() {
    let table = Table {
        version: VERSION_1,
        segments: segments(&[[1, 2], [2, 1]]),
        boxes: boxes(&[[1, 1, 2, 0, 0], [1, 1, 2, 0, 0]]),
        trains: vec![],
    };
    assert_eq!(read_table(&file_bytes(&table)), Err(Refusal::by(9)));
}

/// Table S with these trains is refused by code, train and place: read, written, run and printed, and its routes.
fn refused(trains: &[(u8, &[u8])], [code, train, place]: [u8; 3], printed: &str) {
    let (table, refusal) = (s_with(trains), Refusal { code, train, place });
    let file = file_bytes(&table);
    assert_eq!(read_table(&file), Err(refusal));
    for number in 0..=18 {
        assert_eq!(route_in_file(&file, number), Err(refusal));
    }
    for room in [0, 46, 1000] {
        let mut buffer = vec![7; room];
        assert_eq!(write_table(&table, &mut buffer), Err(refusal));
        assert_eq!(buffer, vec![7; room]);
        assert_eq!(fast::run(&file, &S_STEPS, &mut buffer), Err(refusal));
        assert_eq!(buffer, vec![7; room]);
    }
    assert_eq!(print(&file, &S_STEPS), printed);
}

#[test]
fn routes_refused() {
    refused(&[(0, &[2, 3]), (1, &[4, 3, 1])], [28, 1, 2], "file 28 1 2\n");
    refused(&[(0, &[1, 2, 4]), (1, &[1])], [12, 0, 0], "file 12\n");
}

/// The first fault in file order counts, whichever it is.
#[test]
fn first_fault_of_either_kind() {
    refused(&[(0, &[1, 2, 3]), (1, &[0, 3, 1])], [28, 1, 3], "file 28 1 3\n");
    refused(&[(0, &[1, 2, 5]), (1, &[4, 1])], [11, 1, 3], "file 11 1 3\n");
    refused(&[(0, &[1, 4, 0])], [28, 1, 2], "file 28 1 2\n");
    refused(&[(0, &[1, 0, 4])], [11, 1, 2], "file 11 1 2\n");
    refused(&[(0, &[1, 2, 4]), (1, &[4, 3, 2])], [28, 2, 3], "file 28 2 3\n");
    // The last place of the last of sixteen trains.
    let mut trains: Vec<(u8, &[u8])> = vec![(0, &[1, 2, 4]); 15];
    let long = [&[1, 2, 4][..], &[9]].concat();
    trains.push((0, &long));
    refused(&trains, [11, 16, 4], "file 11 16 4\n");
}

/// A segment number that there is not follows nothing either: at one place 11 counts before 28.
#[test]
fn place_that_is_both() {
    refused(&[(0, &[1, 5, 4])], [11, 1, 2], "file 11 1 2\n");
    refused(&[(0, &[1, 2, 4]), (1, &[4, 255])], [11, 2, 2], "file 11 2 2\n");
    refused(&[(1, &[0, 0])], [11, 1, 1], "file 11 1 1\n");
}

/// 10 of all trains comes before the search, 12 after it.
#[test]
fn around_the_search() {
    let mut trains: Vec<(u8, &[u8])> = vec![(0, &[9, 2, 4]); 16];
    trains[15] = (2, &[1]);
    refused(&trains, [10, 0, 0], "file 10\n");
    trains[15] = (0, &[]);
    refused(&trains, [10, 0, 0], "file 10\n");
    refused(&[(0, &[1, 2, 4]), (0, &[1, 2, 4]), (0, &[9])], [11, 3, 1], "file 11 3 1\n");
    refused(&[(0, &[1, 2, 4]), (0, &[1, 2, 4]), (0, &[2, 3])], [28, 3, 2], "file 28 3 2\n");
    refused(&[(0, &[1, 2, 4]), (0, &[2, 4]), (0, &[1, 3])], [12, 0, 0], "file 12\n");
}

#[test]
fn after_the_first_three() {
    let table = read_table(&S).unwrap();
    for (step, code) in [([1, 1, 2], 18), ([1, 1, 4], 17)] {
        let mut steps = first_three();
        steps.push((step, code));
        run(&table, &steps);
    }
}

#[test]
fn held_by_another() {
    let table = s_with(&[(0, &[1, 2, 4]), (1, &[4, 2, 1])]);
    let mut steps = first_three();
    steps.extend(ask(1, 2, 2, 22));
    run(&table, &steps);
}

#[test]
fn through_a_point() {
    let table = read_table(&S).unwrap();
    let steps = [ask(1, 1, 2, 0), ask(1, 1, 3, 0), ask(2, 1, 2, 0)].concat();
    let mut line = run(&table, &steps);
    go_on(&mut line, &[([5, 1, 0], 0)]);
    assert!(line.boxes[1].sensor);
    assert_eq!(line.boxes[1].lock, 1);
    assert_eq!(line.trains[0].tail_segment(), 1);
    go_on(&mut line, &[([6, 1, 0], 0)]);
    assert_eq!((line.trains[0].front_segment(), line.trains[0].tail_segment()), (2, 0));
    let passed = line.boxes[1];
    assert_eq!((passed.sensor, passed.lock, passed.reserved), (false, 0, [0; 3]));
    assert_eq!(line.reservation(2, 3), 1);
}

/// Another's lock request is answered 24 before train 1 enters and while it crosses the point.
#[test]
fn locked_before_and_while_crossed() {
    let table = s_with(&[(0, &[2, 4]), (0, &[3, 4])]);
    let mut line = run(&table, &[ask(1, 1, 3, 0), ask(1, 1, 4, 0), ask(2, 1, 3, 0)].concat());
    for (sensor, steps) in [(false, vec![]), (true, vec![([5, 1, 0], 0)])] {
        go_on(&mut line, &steps);
        assert_eq!((line.boxes[2].sensor, line.boxes[2].lock), (sensor, 1));
        go_on(&mut line, &ask(2, 2, 3, 24));
    }
}

/// A record that passes 27, made up from the start of S: train 1 asks box 2 for its lock, and the box finds this
/// sensor and these holders of its lock, of segment 1, the front, and of segment 2, next. The box answers with the
/// code and the train hears it, on both engines; the atomic line has the code too. A yes sets lock and position, but for
/// a lock that is the train's already.
fn lock_answered(sensor: bool, [lock, front, next]: [u8; 3], code: u8) {
    let table = read_table(&S).unwrap();
    let mut line = start_line(&table);
    line.trains[0].message = Message::Sent(Request { wish: Wish::Lock, number: 2 });
    line.boxes[1] = BoxState { sensor, position: 2, lock, reserved: [front, next, 0] };
    let mut due = line.boxes.clone();
    if code == 0 && lock != 1 {
        (due[1].lock, due[1].position) = (1, 1);
    }
    let mut quick = Record::of(&line).fast_line();
    for (kind, message) in [(3, [2, 2, 2, code]), (4, [0; 4])] {
        go_on(&mut line, &[([kind, 1, 0], code)]);
        assert_eq!(quick.step_checked([kind, 1, 0]), code);
        assert_eq!((&line.boxes, recorded(&line, 0)), (&due, [false, false, kind == 4 && code == 0]));
        assert_eq!(train_numbers(&line, 0)[7..], message);
        assert!(same(&line, &quick));
    }
    let mut whole = WholeLine::start(&table);
    whole.boxes[1] = WholeBox { sensor, position: 2, lock, holders: [front, next, 0] };
    assert_eq!(whole.take([2, 1, 2]), code);
    assert_eq!((whole.boxes[1].lock, whole.boxes[1].position), (due[1].lock, due[1].position));
}

/// 23 is for a sensor active with the lock free, whatever is reserved; a lock that is the train's already is a yes.
#[test]
fn sensor_with_no_lock() {
    for [front, next] in [[1, 1], [0, 1], [2, 1], [1, 0], [1, 2], [0, 0], [2, 2]] {
        lock_answered(true, [0, front, next], 23);
        lock_answered(true, [1, front, next], 0);
    }
}

/// 24 comes first, with the sensor active and passive, whatever is reserved.
#[test]
fn lock_of_another_first() {
    for sensor in [false, true] {
        for [front, next] in [[1, 1], [0, 1], [2, 1], [1, 0], [1, 2], [0, 0], [2, 2]] {
            lock_answered(sensor, [2, front, next], 24);
        }
    }
}

/// 25 comes last: the sensor is passive and the lock is free.
#[test]
fn reservation_missing_last() {
    for [front, next] in [[0, 1], [2, 1], [1, 0], [1, 2], [0, 0], [2, 2]] {
        lock_answered(false, [0, front, next], 25);
        lock_answered(false, [1, front, next], 0);
    }
    lock_answered(false, [0, 1, 1], 0);
    lock_answered(false, [1, 1, 1], 0);
}

/// An answer of 23 or 24 under way passes 27 and is heard; the train may then ask again.
#[test]
fn locks_refused_are_heard() {
    for code in [23, 24] {
        let mut line = start_line(&read_table(&S).unwrap());
        line.trains[0].message = Message::Answered(Request { wish: Wish::Lock, number: 2 }, code);
        let boxes = line.boxes.clone();
        go_on(&mut line, &[([2, 1, 2], 15), ([3, 1, 0], 21), ([4, 1, 0], code), ([4, 1, 0], 21)]);
        assert_eq!((&line.boxes, recorded(&line, 0)), (&boxes, [false; 3]));
        go_on(&mut line, &ask(2, 1, 2, 25));
    }
}

#[test]
fn short_route_and_single() {
    let table = s_with(&[(0, &[1]), (1, &[4, 3, 1])]);
    run(&table, &[([5, 1, 0], 16), ([6, 1, 0], 20)]);
}

const S_STEPS: [u8; 30] = [
    1, 1, 2, 3, 1, 0, 4, 1, 0, 5, 1, 0, 1, 2, 2, 3, 2, 0, 4, 2, 0, 2, 2, 3, 3, 2, 0, 4, 2, 0,
];

const S_LINES: &str = "1 1 1 0\n2 3 1 0\n3 4 1 0\n4 5 1 19\n5 1 2 0\n6 3 2 0\n7 4 2 0\n8 2 2 0\n\
9 3 2 25\n10 4 2 25\n";
const S_END: &str =
    "train 1 1 0\ntrain 2 4 0\nbox 1 0 0 0\nbox 2 0 1 0\nbox 3 0 1 0\nbox 4 0 0 0\n";

fn print(file: &[u8], input: &[u8]) -> String {
    String::from_utf8(printout(file, input)).unwrap()
}

#[test]
fn printout_of_s() {
    assert_eq!(print(&S, &S_STEPS), format!("{S_LINES}{S_END}"));
    assert_eq!(print(&S[..45], &S_STEPS), "file 5\n");
    assert_eq!(print(&[], &S_STEPS), "file 1\n");
    assert_eq!(print(&S, &[]), S_END);
    assert_eq!(print(&S, &[1]), format!("1 1 0 13\n{S_END}"));
    assert_eq!(print(&S, &[5, 1]), format!("1 5 1 13\n{S_END}"));
}

#[test]
fn printout_of_many_steps() {
    let input = vec![9; 3 * 65_535];
    let full = print(&S, &input);
    assert!(full.ends_with(&format!("65535 9 9 13\n{S_END}")));
    let mut more = input.clone();
    more.push(1);
    assert_eq!(print(&S, &more), format!("{full}more\n"));
    let partial = print(&S, &input[..input.len() - 1]);
    assert_eq!(partial, full);
}

#[test]
fn start_of_s() {
    let line = start_line(&read_table(&S).unwrap());
    assert_eq!(line.reservation(1, 2), 1);
    assert_eq!(line.reservation(4, 3), 2);
    assert_eq!(line.reservation(1, 1), 0);
    assert_eq!(line.reservation(4, 4), 0);
}
