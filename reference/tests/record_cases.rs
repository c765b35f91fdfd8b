//! Made-up tables and records: each gets its number, none panics.

mod common;
use common::*;
use reference::counts::refuses_step;
use reference::generate::prng::Prng;
use reference::generate::tables::accepted_table;
use reference::line::*;
use reference::line_check::{record_code, record_fault, RecordFault};
use reference::refusal::Refusal;
use reference::step::step_checked;
use reference::table::*;
use reference::table_check::check_table;
use reference::table_read::read_table;
use reference::table_write::{file_bytes, write_table};

fn s() -> Table {
    read_table(&S).unwrap()
}

/// S changed by hand has this code, in the writer and in a record, and tells no train and place.
fn table_case(code: u8, change: impl Fn(&mut Table)) {
    route_case([code, 0, 0], change);
}

/// S changed by hand has this code, in the writer and in a record; the writer tells train and place.
fn route_case([code, train, place]: [u8; 3], change: impl Fn(&mut Table)) {
    let refusal = Refusal { code, train, place };
    let mut table = s();
    change(&mut table);
    assert_eq!(check_table(&table), Err(refusal));
    let mut buffer = [9; 4000];
    assert_eq!(write_table(&table, &mut buffer), Err(refusal));
    assert_eq!(buffer, [9; 4000]);
    let mut line = start_line(&s());
    line.table = table;
    assert_eq!(record_fault(&line), Some(RecordFault::TablePart(code)));
    let before = line.clone();
    assert_eq!(step_checked(&mut line, [0, 0, 0]), 27);
    assert_eq!(line, before);
}

#[test]
fn table_codes() {
    table_case(3, |t| t.version = 0);
    table_case(3, |t| t.version = 3);
    table_case(3, |t| t.segments[3].way = 1);
    table_case(3, |t| t.trains[1].route = vec![1; 256]);
    table_case(3, |t| t.segments = vec![Segment::default(); 256]);
    table_case(4, |t| t.segments.clear());
    table_case(4, |t| t.segments = vec![Segment::default(); 97]);
    table_case(4, |t| t.boxes.truncate(1));
    table_case(4, |t| t.boxes = vec![SwitchBox::default(); 97]);
    table_case(4, |t| t.trains = vec![TrainEntry::default(); 17]);
    for end in [0, 5, 255, 2] {
        table_case(6, |t| t.segments[0].a = end);
    }
    table_case(6, |t| t.segments[3].b = 5);
    table_case(7, |t| t.boxes[0].kind = 3);
    table_case(7, |t| t.boxes[0].kind = 255);
    table_case(7, |t| t.boxes[0].stem = 0);
    table_case(7, |t| t.boxes[1].right = 5);
    table_case(7, |t| t.boxes[0].left = 1);
    table_case(7, |t| t.boxes[3].right = 1);
    table_case(7, |t| t.boxes[1].right = 2);
    table_case(7, |t| t.boxes[0].position = 1);
    table_case(7, |t| t.boxes[1].position = 0);
    table_case(7, |t| t.boxes[1].position = 3);
    table_case(8, |t| t.boxes[0].stem = 2);
    table_case(8, |t| (t.boxes[1].stem, t.boxes[1].left) = (2, 1));
    table_case(8, |t| t.segments[2].b = 4);
    table_case(10, |t| t.trains[1].direction = 2);
    table_case(10, |t| t.trains[1].route.clear());
    table_case(10, |t| t.trains[0].route = vec![0; 65]);
    table_case(10, |t| t.trains[0].route = vec![0; 255]);
    route_case([11, 1, 3], |t| t.trains[0].route[2] = 0);
    route_case([11, 1, 3], |t| t.trains[0].route[2] = 5);
    route_case([11, 2, 1], |t| t.trains[1].route[0] = 255);
    route_case([28, 1, 2], |t| t.trains[0].direction = 1);
    route_case([28, 2, 3], |t| t.trains[1].route[2] = 2);
    table_case(12, |t| t.trains[1].route = vec![1]);
}

/// Codes count over all records before the next code is looked at.
#[test]
fn order_of_codes() {
    table_case(6, |t| (t.segments[3].b, t.boxes[0].kind) = (9, 9));
    table_case(7, |t| (t.boxes[3].kind, t.boxes[0].stem) = (9, 2));
    table_case(10, |t| (t.trains[0].route[0], t.trains[1].direction) = (9, 9));
    route_case([28, 2, 2], |t| {
        t.trains[0].route = vec![4];
        t.trains[1].route = vec![4, 1];
    });
}

#[test]
fn writer_needs_room() {
    let mut buffer = [5; 45];
    assert_eq!(write_table(&s(), &mut buffer), Err(Refusal::by(26)));
    assert_eq!(buffer, [5; 45]);
    let mut full = [5; 46];
    assert_eq!(write_table(&s(), &mut full), Ok(46));
    assert_eq!(full, S);
    let mut bad = s();
    bad.version = 7;
    assert_eq!(write_table(&bad, &mut []), Err(Refusal::by(3)));
}

/// The start line of S changed by hand breaks this clause.
fn record_case(fault: Option<RecordFault>, change: impl Fn(&mut Line)) {
    let mut line = start_line(&s());
    change(&mut line);
    assert_eq!(record_fault(&line), fault);
    assert_eq!(record_code(&line), if fault.is_some() { 27 } else { 0 });
    let before = line.clone();
    let code = step_checked(&mut line, [9, 1, 1]);
    assert_eq!(code, if fault.is_some() { 27 } else { 13 });
    assert_eq!(line, before);
}

const fn request(wish: Wish, number: u8) -> Request {
    Request { wish, number }
}

#[test]
fn record_clauses() {
    use RecordFault::*;
    record_case(None, |_| {});
    record_case(Some(Extent), |l| l.boxes.truncate(3));
    record_case(Some(Extent), |l| l.trains.truncate(1));
    record_case(Some(Route(10)), |l| l.trains[1].route.clear());
    record_case(Some(Route(10)), |l| l.trains[1].route = vec![1; 70]);
    record_case(Some(Route(10)), |l| l.trains[1].direction = 2);
    record_case(Some(Route(28)), |l| l.trains[0].route = vec![2, 3]);
    record_case(Some(Route(28)), |l| l.trains[1].direction = 0);
    record_case(Some(Route(11)), |l| l.trains[1].route = vec![4, 5]);
    record_case(Some(Route(11)), |l| l.trains[0].route = vec![0]);
    record_case(None, |l| l.trains[0].route = vec![4]);
    record_case(Some(OutsideRoute), |l| l.trains[0].front = 3);
    record_case(Some(OutsideRoute), |l| l.trains[0].front = usize::MAX);
    record_case(Some(OutsideRoute), |l| l.trains[0].covered = 2);
    record_case(Some(Covering), |l| l.trains[0].covered = 0);
    record_case(Some(Covering), |l| l.trains[0].covered = 3);
    record_case(Some(Covering), |l| l.trains[0].covered = 255);
    record_case(None, |l| (l.trains[0].front, l.trains[0].covered) = (2, 2));
    record_case(Some(Position), |l| l.boxes[0].position = 1);
    record_case(Some(Position), |l| l.boxes[1].position = 0);
    record_case(Some(Position), |l| l.boxes[1].position = 3);
    record_case(None, |l| l.boxes[1].position = 2);
    record_case(Some(Holder), |l| l.boxes[0].lock = 3);
    record_case(None, |l| l.boxes[0].lock = 2);
    record_case(Some(Holder), |l| l.boxes[3].reserved[0] = 3);
    record_case(Some(Holder), |l| l.boxes[1].reserved[2] = 255);
    record_case(None, |l| l.boxes[1].reserved = [2; 3]);
    record_case(None, |l| l.boxes[1].sensor = true);
}

#[test]
fn record_messages() {
    use RecordFault::*;
    use Wish::*;
    let case = |fault, message| record_case(fault, |l| l.trains[0].message = message);
    for number in 0..=255 {
        let next_end = number == 2 || number == 3;
        let fault = (!next_end).then_some(Message);
        case(fault, reference::line::Message::Sent(request(Reservation, number)));
        case(fault, reference::line::Message::Sent(request(ReservationBack, number)));
        case(fault, reference::line::Message::Answered(request(ReservationBack, number), 0));
        let fault = (number != 2).then_some(Message);
        case(fault, reference::line::Message::Sent(request(Lock, number)));
        case(fault, reference::line::Message::Sent(request(LockBack, number)));
        case(fault, reference::line::Message::Answered(request(LockBack, number), 0));
    }
    for code in 0..=255 {
        let fault = (!matches!(code, 0 | 22 | 31)).then_some(AnswerCode);
        case(fault, reference::line::Message::Answered(request(Reservation, 3), code));
        let fault = (!matches!(code, 0 | 23 | 24 | 25)).then_some(AnswerCode);
        case(fault, reference::line::Message::Answered(request(Lock, 2), code));
        let fault = (code != 0).then_some(AnswerCode);
        case(fault, reference::line::Message::Answered(request(ReservationBack, 2), code));
        case(fault, reference::line::Message::Answered(request(ReservationBack, 3), code));
        case(fault, reference::line::Message::Answered(request(LockBack, 2), code));
    }
    for wish in WISHES {
        record_case(Some(Message), |l| {
            l.trains[0].front = 2;
            l.trains[0].message = reference::line::Message::Sent(request(wish, 3));
        });
    }
}

/// Knowledge of the train is no part of code 27.
#[test]
fn holdings_are_free() {
    record_case(None, |l| {
        l.trains[0].holdings = Holdings { at_a: u128::MAX, at_b: u128::MAX, locks: u128::MAX }
    });
}

#[test]
fn written_files_come_back() {
    for table in [s(), table_96()] {
        assert_eq!(read_table(&file_bytes(&table)), Ok(table));
    }
}

/// One random change to a record; many of them break code 27.
fn change_record(rng: &mut Prng, line: &mut Line) {
    let train = rng.below(line.trains.len().max(1));
    let at = rng.below(line.boxes.len().max(1));
    let small = rng.below(5) as u8;
    let value = if rng.chance(70) { small } else { rng.byte() };
    let wish = rng.pick(&WISHES);
    let asked = request(wish, value);
    let answers = [0, 22, 23, 24, 25, 31, 15];
    if let Some(b) = line.boxes.get_mut(at) {
        match rng.below(8) {
            0 => b.sensor = !b.sensor,
            1 => b.position = value,
            2 => b.lock = value,
            3 => b.reserved[rng.below(3)] = value,
            _ => {}
        }
    }
    if let Some(t) = line.trains.get_mut(train) {
        match rng.below(12) {
            0 => t.direction = value,
            1 => t.front = value as usize,
            2 => t.covered = value,
            3 => t.holdings.at_a = u128::MAX,
            4 => t.holdings.at_b = u128::MAX,
            5 => t.holdings.locks = u128::MAX,
            6 => t.message = reference::line::Message::Sent(asked),
            7 => t.message = reference::line::Message::Answered(asked, rng.pick(&answers)),
            8 => t.route = vec![value],
            9 => t.route.push(value),
            _ => {}
        }
    }
    match rng.below(60) {
        0 => line.table.version = value as u16,
        1 => line.table.segments.push(Segment { a: value, b: small, way: rng.below(3) as u8 }),
        2 => line.table.boxes.iter_mut().skip(at).take(1).for_each(|b| b.stem = value),
        3 => line.table.boxes.truncate(value as usize),
        4 => line.boxes.truncate(value as usize),
        5 => line.trains.truncate(value as usize),
        6 => line.table.trains.truncate(value as usize),
        _ => {}
    }
}

/// Made-up records get a number from every step, and 27 changes nothing.
#[test]
fn made_up_records_never_panic() {
    let (mut held, mut failed) = (0, 0);
    for case in 0..400 {
        let mut rng = Prng::for_case(21, case);
        let table = accepted_table(&mut rng);
        for _ in 0..20 {
            let mut line = start_line(&table);
            for _ in 0..rng.between(1, 6) {
                change_record(&mut rng, &mut line);
            }
            for _ in 0..12 {
                let before = line.clone();
                let kind = rng.below(10) as u8;
                let number = if (3..=6).contains(&kind) { 0 } else { rng.below(9) as u8 };
                let code = step_checked(&mut line, [kind, rng.below(4) as u8, number]);
                assert_eq!(code == 27, record_code(&before) == 27);
                match code {
                    27 => failed += 1,
                    _ => held += 1,
                }
                if refuses_step(code) || code == 27 {
                    assert_eq!(line, before);
                }
            }
        }
    }
    assert!(held > 1000 && failed > 1000, "{held} {failed}");
}

/// Tables of any values and lengths get a number, and one that is written
/// is read back.
#[test]
fn made_up_tables_never_panic() {
    for case in 0..3000 {
        let mut rng = Prng::for_case(22, case);
        let most = rng.pick(&[2, 6, 100, 300]);
        let span = rng.pick(&[3, 6, 256]);
        let byte = |rng: &mut Prng| rng.below(span) as u8;
        let (n, m, k) = (rng.below(most), rng.below(most), rng.below(20));
        let mut table = Table { version: rng.below(4) as u16, ..Table::default() };
        for _ in 0..n {
            let way = if rng.chance(80) { 0 } else { byte(&mut rng) };
            table.segments.push(Segment { a: byte(&mut rng), b: byte(&mut rng), way });
        }
        for _ in 0..m {
            let values = [0; 5].map(|_| byte(&mut rng));
            table.boxes.extend(boxes(&[values]));
        }
        for _ in 0..k {
            let length = rng.below(most);
            let route: Vec<u8> = (0..length).map(|_| byte(&mut rng)).collect();
            table.trains.extend(entries(&[(byte(&mut rng), &route)]));
        }
        let mut buffer = vec![3; 2000];
        let checked = check_table(&table);
        match write_table(&table, &mut buffer) {
            Ok(length) => assert_eq!(read_table(&buffer[..length]), Ok(table)),
            Err(refused) => {
                assert_eq!(refused, checked.err().unwrap_or(Refusal::by(26)));
                assert_eq!(buffer, vec![3; 2000]);
            }
        }
    }
}
