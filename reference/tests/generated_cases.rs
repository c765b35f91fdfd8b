//! Generated tables, files, steps and faults hit what they are made for.

mod common;
use common::{faults_on_routes, UNSEEN};
use reference::compare::{run_case, Outcome};
use reference::counts::{file_codes, list_codes, CODES};
use reference::demand::{check_demand, Clause};
use reference::fault::{Fault, FAULTS};
use reference::generate::damage::{damaged_file, DAMAGES};
use reference::generate::listing::damaged_listing;
use reference::generate::lost::{LostCounts, Watched};
use reference::generate::made_up::{changes, AIMS};
use reference::generate::prng::Prng;
use reference::generate::steps::{drive, drive_by, Driver};
use reference::generate::tables::{accepted_table, largest_table};
use reference::line::{start_line, Message};
use reference::line_check::{record_fault, record_fault_with};
use reference::record::Record;
use reference::refusal::code_of;
use reference::step::{step, Step};
use reference::table::{network_bytes, Table, TrainEntry};
use reference::table_read::{read_table, read_table_with, route_in_file};
use reference::table_write::{file_bytes, write_table, write_table_with};
use std::collections::HashMap;

const CASES: u64 = 150;

#[test]
fn tables_come_back() {
    for case in 0..CASES {
        let mut rng = Prng::for_case(11, case);
        let table = match case % 10 {
            0 => largest_table(&mut rng),
            _ => accepted_table(&mut rng),
        };
        let file = file_bytes(&table);
        assert_eq!(read_table(&file).as_ref(), Ok(&table));
        let mut buffer = vec![0xAA; file.len() + 3];
        assert_eq!(write_table(&table, &mut buffer), Ok(file.len()));
        assert_eq!(buffer[..file.len()], file);
        assert_eq!(buffer[file.len()..], [0xAA; 3]);
        for (i, entry) in table.trains.iter().enumerate() {
            assert_eq!(route_in_file(&file, (i + 1) as u8), Ok(&entry.route[..]));
        }
    }
}

#[test]
fn files_hit_every_code() {
    let mut codes = [0; CODES];
    for case in 0..CASES {
        let mut rng = Prng::for_case(12, case);
        let table = accepted_table(&mut rng);
        for aim in 0..DAMAGES {
            let file = damaged_file(&mut rng, &table, aim);
            codes[usize::from(code_of(&read_table(&file)))] += 1;
        }
    }
    assert!(file_codes().all(|code| codes[code] > 0), "{codes:?}");
}

/// The refusal of a route's fault is the first of all faults on routes; and generated files have them in later trains
/// and at later places, both kinds in both orders, on one route and on two, at a place that is both, and beside 10
/// and 12.
#[test]
fn files_hit_every_order_of_route_faults() {
    let mut seen = [0; 12];
    for case in 0..CASES {
        let mut rng = Prng::for_case(16, case);
        let table = accepted_table(&mut rng);
        for aim in 0..DAMAGES {
            let file = damaged_file(&mut rng, &table, aim);
            let code = code_of(&read_table(&file));
            if !matches!(code, 0 | 10..=12 | 28 | 32) {
                continue;
            }
            let records = records_of(&file);
            let faults = faults_on_routes(&records);
            let clash = records.trains.iter().enumerate().any(|(i, train)| {
                records.trains[..i].iter().any(|other| other.route.first() == train.route.first())
            });
            let Some(first) = faults.first() else {
                assert!(!matches!(code, 11 | 28));
                continue;
            };
            if code == 10 {
                seen[8 + usize::from(first.code == 28)] += 1;
                continue;
            }
            assert_eq!(read_table(&file), Err(*first));
            let row = 4 * usize::from(code == 28);
            let other = faults.iter().find(|fault| fault.code != code);
            seen[row] += u32::from(first.train > 1);
            seen[row + 1] += u32::from(first.place > 2);
            seen[row + 2] += u32::from(other.is_some_and(|other| other.train == first.train));
            seen[row + 3] += u32::from(other.is_some_and(|other| other.train > first.train));
            seen[10] += u32::from(code == 11 && first.place > 1);
            seen[11] += u32::from(clash);
        }
    }
    assert!(seen.iter().all(|&count| count > 10), "{seen:?}");
}

/// The table of a file that 1 to 9 let through, whatever its trains are.
fn records_of(file: &[u8]) -> Table {
    let [n, m] = [file[5], file[6]].map(usize::from);
    let (body, mut trains) = file.split_at(network_bytes(u16::from(file[4]), n, m));
    let mut table = read_table(&[&body[..7], &[0], &body[8..]].concat()).expect("the network is accepted");
    while let [direction, length, rest @ ..] = trains {
        let (route, rest) = rest.split_at(usize::from(*length));
        table.trains.push(TrainEntry { direction: *direction, route: route.to_vec() });
        trains = rest;
    }
    table
}

#[test]
fn steps_hit_every_code_and_the_demand_holds() {
    let mut codes = [0; CODES];
    for case in 0..CASES {
        let mut rng = Prng::for_case(13, case);
        let table = accepted_table(&mut rng);
        let mut line = start_line(&table);
        let mut driver = Driver::new(&mut rng);
        let mut list: Vec<Step> = Vec::new();
        for _ in 0..800 {
            let bytes = driver.next_step(&mut rng, &line);
            codes[step(&mut line, bytes) as usize] += 1;
            list.push(bytes);
        }
        assert_eq!(check_demand(&table, &list), None);
    }
    let hit: Vec<usize> = (0..CODES).filter(|&code| codes[code] > 0).collect();
    assert_eq!(hit, list_codes().collect::<Vec<usize>>());
}

/// Give-backs of both kinds are sent, answered and heard; what was given back goes to another train, or to the same one
/// again; and a driver of the kinds 1 to 6 has none.
#[test]
fn steps_give_back() {
    let mut seen = [[0; 3]; 2];
    let mut had = [0; 2];
    for case in 0..CASES {
        let mut rng = Prng::for_case(18, case);
        let table = accepted_table(&mut rng);
        let mut line = start_line(&table);
        let mut driver = Driver::new(&mut rng);
        let mut given_back = HashMap::new();
        for _ in 0..600 {
            let bytes = driver.next_step(&mut rng, &line);
            let before: Vec<Message> = line.trains.iter().map(|t| t.message).collect();
            if step(&mut line, bytes) != 0 {
                continue;
            }
            let i = usize::from(bytes[1]) - 1;
            let (column, request) = match (before[i], line.trains[i].message) {
                (Message::None, Message::Sent(request)) => (0, request),
                (Message::Sent(request), Message::Answered(..)) => (1, request),
                (Message::Answered(request, _), Message::None) => (2, request),
                _ => continue,
            };
            let what = (request.number, request.wish.of_lock(), line.trains[i].next_segment());
            let back = request.wish.gives_back();
            if back {
                seen[usize::from(request.wish.of_lock())][column] += 1;
            }
            if back && column == 1 {
                given_back.insert(what, i);
            } else if column == 1 {
                let giver = given_back.remove(&what);
                giver.iter().for_each(|&giver| had[usize::from(giver != i)] += 1);
            }
        }
        let driver = Driver::of_first_kinds(&mut rng);
        let steps = drive_by(driver, &mut rng, &mut start_line(&table), 200);
        assert!(steps.iter().all(|([kind, ..], _)| !matches!(kind, 7..=10)));
    }
    assert!(seen.as_flattened().iter().chain(&had).all(|&count| count > 50), "{seen:?} {had:?}");
}

/// Messages of each kind are lost as they are sent and as they are answered, yes and no, and sent again; boxes have
/// granted them by then or not, and what is given back is another's by then; and 30 comes in each of its ways.
#[test]
fn steps_lose_messages() {
    let mut lost = LostCounts::default();
    for case in 0..CASES {
        let mut rng = Prng::for_case(19, case);
        let mut line = start_line(&accepted_table(&mut rng));
        let mut driver = Driver::new(&mut rng);
        lost.start();
        for _ in 0..3_000 {
            let bytes = driver.next_step(&mut rng, &line);
            let watched = Watched::of(&line, bytes);
            let code = step(&mut line, bytes);
            lost.add(watched, bytes, code);
        }
    }
    assert!(lost.fewest() > 2, "{lost}");
}

/// Over all cases of a step fault: what came up in any of them.
fn any_case(fault: Fault) -> Outcome {
    let mut all = Outcome::default();
    for case in 0..180 {
        let mut rng = Prng::for_case(14, case);
        let table = accepted_table(&mut rng);
        let outcome = run_case(&table, fault, 500, case % 2 == 1, &mut rng);
        all.broken.join(outcome.broken);
        all.answers_differ |= outcome.answers_differ;
        all.states_differ |= outcome.states_differ;
    }
    all
}

#[test]
fn step_faults_are_seen() {
    for &fault in FAULTS.iter().filter(|f| f.in_steps() || f.in_demand()) {
        let all = any_case(fault);
        let seen = !all.broken.is_empty() || all.answers_differ || all.states_differ;
        assert_eq!(seen, !UNSEEN.contains(&fault), "{fault:?}");
    }
}

#[test]
fn clauses_are_broken_by_the_faults_they_stop() {
    for (fault, clause) in [
        (Fault::OneEndEnough, Clause::TwoTrainsOneSegment),
        (Fault::ClearFreesFarEnd, Clause::ReservationDiffers),
        (Fault::RecordedWhenSent, Clause::OrderStopped),
        (Fault::LockFreedAtEnter, Clause::LockDiffers),
        (Fault::GrantAtSending, Clause::ReservationDiffers),
        (Fault::OneCodeAccepts, Clause::FrontBeyondRoute),
        (Fault::ClearFreesNothing, Clause::SensorDiffers),
        (Fault::PositionNotSet, Clause::PositionNotJoining),
        (Fault::PositionNotSet, Clause::PositionDiffers),
        (Fault::LockAlwaysGiven, Clause::PositionChangedUnderTrain),
        (Fault::EnterWhileCrossing, Clause::PlaceNotFolded),
        (Fault::EnterWhileCrossing, Clause::PlaceDiffers),
        (Fault::FreedAtSending, Clause::ReservationDiffers),
        (Fault::FreedAtSending, Clause::LockDiffers),
        (Fault::DroppedWhenHeard, Clause::OrderStopped),
        (Fault::BackHeardAsHolding, Clause::OrderStopped),
        (Fault::BackFreesFront, Clause::TwoTrainsOneSegment),
        (Fault::LockBackTurnsPoint, Clause::PositionDiffers),
        (Fault::BackOrderedWhenSent, Clause::ReservationDiffers),
        (Fault::BackNotOrdered, Clause::OrderStopped),
        (Fault::SensorBeforeLock, Clause::Answered23),
        (Fault::LockFreedAtEnter, Clause::Answered23),
        (Fault::GrantIsHearing, Clause::OrderStopped),
        (Fault::BackFreesAnyone, Clause::ReservationDiffers),
        (Fault::BackFreesAnyone, Clause::RepeatChangesBox),
        (Fault::LostLetsAsk, Clause::OrderStopped),
        (Fault::LossForgets, Clause::OrderStopped),
        (Fault::LossPutsRecordBack, Clause::OrderStopped),
        (Fault::RepeatOrderedAgain, Clause::OrderStopped),
        (Fault::RepeatNotOrdered, Clause::ReservationDiffers),
        (Fault::OwnSegmentRefused, Clause::RepeatRefused),
        (Fault::OwnLockRefused, Clause::RepeatRefused),
        (Fault::BackMayBeRefused, Clause::RepeatRefused),
        (Fault::WaysSwapped, Clause::CoversAgainstWay),
        (Fault::WaysSwapped, Clause::OrderStopped),
    ] {
        assert!(any_case(fault).broken.has(clause), "{fault:?} {clause:?}");
    }
}

/// The third demand alone lets these through; their answers give them away.
#[test]
fn demand_alone_admits() {
    for fault in [
        Fault::EveryTrainStands,
        Fault::BoxesAlwaysNo,
        Fault::No22WithoutHolder,
        Fault::No24WithoutHolder,
        Fault::OneCodeRefuses,
        Fault::SensorBeforeLock,
        Fault::ReservationsFirst,
        Fault::AnswersAgain,
        Fault::OwnSegmentRefused,
        Fault::OwnLockRefused,
        Fault::BackMayBeRefused,
        Fault::LostYesHeard,
        Fault::LostNoStays,
        Fault::LostAnswered,
        Fault::LostLosesAgain,
        Fault::RepeatUnderWay,
        Fault::RadioTakesBox,
        Fault::NothingLostBeforeTrain,
        Fault::HolderBeforeWay,
        Fault::LockAsksWay,
        Fault::WayRefusedAtSending,
    ] {
        let all = any_case(fault);
        assert!(!all.broken.breaks_demand() && all.answers_differ, "{fault:?}");
    }
}

#[test]
fn reader_faults_are_seen() {
    for &fault in FAULTS.iter().filter(|f| f.in_reader()) {
        let mut differ = 0;
        for case in 0..CASES {
            let mut rng = Prng::for_case(15, case);
            let table = accepted_table(&mut rng);
            let mut files: Vec<Vec<u8>> = (0..DAMAGES).map(|aim| damaged_file(&mut rng, &table, aim)).collect();
            files.extend((0..5).map(|_| file_bytes(&damaged_listing(&mut rng, &table))));
            for file in files {
                let (right, faulty) = (read_table(&file), read_table_with(&file, fault));
                differ += u32::from(right.err() != faulty.err());
            }
        }
        assert!(differ > 20, "{fault:?} {differ}");
    }
}

/// What is written tells the faults of the writer.
#[test]
fn writer_faults_are_seen() {
    for &fault in FAULTS.iter().filter(|f| f.in_writer()) {
        let differs = |case: u64| {
            let table = accepted_table(&mut Prng::for_case(15, case));
            let mut buffer = vec![0; table.file_length()];
            write_table_with(&table, &mut buffer, fault) != Ok(buffer.len()) || buffer != file_bytes(&table)
        };
        assert!((0..CASES).filter(|&case| differs(case)).count() > 20, "{fault:?}");
    }
}

/// Made-up records tell the faults of the record check.
#[test]
fn record_faults_are_seen() {
    for &fault in FAULTS.iter().filter(|f| f.in_record()) {
        let differs = |case: u64| {
            let mut rng = Prng::for_case(17, case);
            let mut line = start_line(&accepted_table(&mut rng));
            drive(&mut rng, &mut line, 50);
            AIMS.into_iter().filter_map(|aim| changes(&mut rng, &line, aim)).any(|changes| {
                let made_up = Record::changed(&line, &changes).line();
                record_fault(&made_up).is_some() != record_fault_with(&made_up, fault).is_some()
            })
        };
        assert!((0..CASES).filter(|&case| differs(case)).count() > 20, "{fault:?}");
    }
}
