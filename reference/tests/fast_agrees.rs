//! The fast engine and the readable one give the same for generated files, steps and records, and a readable one
//! with a fault is found to differ.

mod common;
use common::{same, table_96, UNSEEN};
use reference::counts::{file_codes, step_codes, Counts, CODES};
use reference::fast;
use reference::fault::{Fault, FAULTS};
use reference::generate::damage::{damaged_file, DAMAGES};
use reference::generate::listing::{damaged_listing, ListingCounts};
use reference::generate::lock_asked::LockCounts;
use reference::generate::lost::{LostCounts, StateCounts, Watched};
use reference::generate::made_up::{changes, step_on, Aim, AIMS};
use reference::generate::outside::table_with_steps;
use reference::generate::prng::Prng;
use reference::generate::steps::drive;
use reference::generate::tables::{accepted_table, largest_table};
use reference::line::{start_line, start_line_with, Line, WISHES};
use reference::line_check::record_fault_with;
use reference::numbers::message_numbers;
use reference::record::Record;
use reference::refusal::{code_of, Refusal};
use reference::step::{step, step_with, Step};
use reference::table::{Table, BORDER, LINK, MAX_BOXES, MAX_TRAINS, VERSION_2};
use reference::table_read::{read_table, read_table_with};
use reference::table_write::{file_bytes, write_table, write_table_with};

/// The fast start line of an accepted file.
fn fast_start(file: &[u8]) -> fast::Line {
    let mut line = fast::Line::NONE;
    assert_eq!(line.read(file), Ok(()));
    line
}

/// Whether the fast engine reads the file as the readable one does with a fault.
fn reads_alike(file: &[u8], fault: Fault) -> bool {
    let mut line = fast::Line::NONE;
    let read = line.read(file);
    match read_table_with(file, fault) {
        Ok(table) => read == Ok(()) && same(&start_line(&table), &line),
        Err(refusal) => read == Err(refusal),
    }
}

/// Whether the fast engine runs the steps as the readable one does with a fault.
fn runs_alike(table: &Table, steps: &[u8], fault: Fault) -> bool {
    let mut line = start_line_with(table, fault);
    let codes: Vec<u8> = steps
        .chunks(3)
        .map(|bytes| Step::try_from(bytes).map_or(13, |whole| step_with(&mut line, whole, fault)))
        .collect();
    let mut answers = vec![99; codes.len()];
    let mut fast = fast_start(&file_bytes(table));
    fast.run(steps, &mut answers) == Ok(()) && answers == codes && same(&line, &fast)
}

/// Whether the fast engine writes the record's table as the readable one does, with rooms around the length.
fn writes_alike(table: &Table, line: &fast::Line) -> bool {
    let length = table.file_length();
    [0, length.saturating_sub(1), length, length + 3].iter().all(|&room| {
        let (mut buffer, mut other) = (vec![0xAA; room], vec![0xAA; room]);
        line.write(&mut buffer) == write_table(table, &mut other) && buffer == other
    })
}

/// All trains and boxes that a record has room for.
fn numbers(line: &fast::Line) -> Vec<u8> {
    let trains = (0..MAX_TRAINS).flat_map(|i| line.train_numbers(i));
    trains.chain((0..MAX_BOXES).flat_map(|i| line.box_numbers(i))).collect()
}

/// Codes of checked steps on made-up records, and what boxes find there that answer a lock; steps of kinds 3, 4, 9 and
/// 10 by the state of the message; lost messages by kind, those of records that pass 27 and of others.
struct RecordCounts {
    codes: Counts,
    locks: LockCounts,
    states: StateCounts,
    lost: [[usize; 2]; 4],
}

impl RecordCounts {
    fn new() -> Self {
        let (locks, states) = (LockCounts::default(), StateCounts::default());
        RecordCounts { codes: [0; CODES], locks, states, lost: [[0; 2]; 4] }
    }

    /// Counts a step with its code on a line.
    fn add(&mut self, line: &Line, bytes: Step, code: u8) {
        self.codes[usize::from(code)] += 1;
        for train in &line.trains {
            let [state, kind, ..] = message_numbers(train.message);
            if let (3, Some(row)) = (state, WISHES.iter().position(|&wish| wish as u8 == kind)) {
                self.lost[row][usize::from(code == 27)] += 1;
            }
        }
        if code != 27 {
            self.states.add(line, bytes);
        }
    }
}

/// Whether made-up records, one for each aim and more that pass 27, have the same code of a checked step, which is
/// counted, and the same record after it, and are written alike.
fn records_alike(case: u64, fault: Fault, counts: &mut RecordCounts) -> bool {
    let mut rng = Prng::for_case(34, case);
    let mut reached = start_line(&accepted_table(&mut rng));
    drive(&mut rng, &mut reached, case as usize % 200);
    AIMS.into_iter().chain([Aim::Nothing; 20]).chain([Aim::LockAsked; 3]).all(|aim| {
        let Some(changes) = changes(&mut rng, &reached, aim) else {
            return true;
        };
        let record = Record::changed(&reached, &changes);
        let (mut line, mut fast) = (record.line(), record.fast_line());
        let bytes = step_on(&mut rng, if aim.clause().is_none() { &line } else { &reached }, &changes, aim);
        let before = line.clone();
        let code = match record_fault_with(&line, fault) {
            None => {
                counts.locks.add(&line, bytes);
                step_with(&mut line, bytes, fault)
            }
            Some(_) => 27,
        };
        counts.add(&before, bytes, code);
        let answer = fast.step_checked(bytes);
        let same_record = match code {
            27 => numbers(&fast) == numbers(&record.fast_line()),
            _ => same(&line, &fast),
        };
        answer == code && same_record && writes_alike(&line.table, &fast)
    })
}

#[test]
fn files() {
    let mut codes = [0; CODES];
    let mut listings = ListingCounts::default();
    for case in 0..300 {
        let mut rng = Prng::for_case(31, case);
        let table = match case % 10 {
            0 => largest_table(&mut rng),
            _ => accepted_table(&mut rng),
        };
        for aim in 0..2 * DAMAGES {
            let file = damaged_file(&mut rng, &table, aim);
            assert!(reads_alike(&file, Fault::None), "{file:?}");
            codes[usize::from(code_of(&read_table(&file)))] += 1;
        }
        for _ in 0..10 {
            let damaged = damaged_listing(&mut rng, &table);
            assert!(reads_alike(&file_bytes(&damaged), Fault::None), "{damaged:?}");
            listings.add(&damaged);
        }
        let file = file_bytes(&table);
        assert!(reads_alike(&file, Fault::None) && writes_alike(&table, &fast_start(&file)));
    }
    assert!(file_codes().all(|code| codes[code] > 100), "{codes:?}");
    assert!(listings.fewest() > 50, "{listings}");
}

/// Every change of a byte of a small file of either version, and every front part of a large one.
#[test]
fn files_byte_by_byte() {
    let one_way = file_bytes(&Table { version: VERSION_2, ..read_table(&common::S).unwrap() });
    for small in [&common::S[..], &one_way] {
        for (at, value) in (0..small.len()).flat_map(|at| (0..=255).map(move |value| (at, value))) {
            let mut file = small.to_vec();
            file[at] = value;
            assert!(reads_alike(&file, Fault::None), "{at} {value}");
        }
    }
    let file = file_bytes(&table_96());
    assert!((0..=file.len()).all(|length| reads_alike(&file[..length], Fault::None)));
}

/// Rings of links, alone and beside a track: a loop of every length.
#[test]
fn loops() {
    for length in 2..=94 {
        for first in [1, 3] {
            let mut table = Table { version: 1, ..Table::default() };
            if first == 3 {
                table.segments = common::segments(&[[1, 2]]);
                table.boxes = common::boxes(&[[BORDER, 1, 0, 0, 0], [BORDER, 1, 0, 0, 0]]);
            }
            let before = table.segments.len() as u8;
            for i in 0..length {
                let (next, last) = ((i + 1) % length, (i + length - 1) % length);
                table.segments.extend(common::segments(&[[first + i, first + next]]));
                table.boxes.extend(common::boxes(&[[LINK, before + i + 1, before + last + 1, 0, 0]]));
            }
            let file = file_bytes(&table);
            assert_eq!(read_table(&file), Err(Refusal::by(9)));
            assert!(reads_alike(&file, Fault::None));
        }
    }
}

#[test]
fn runs() {
    let mut lost = LostCounts::default();
    for case in 0..400 {
        let mut rng = Prng::for_case(32, case);
        let (table, steps) = table_with_steps(&mut rng, case);
        count_lost(&mut lost, &table, &steps);
        assert!(runs_alike(&table, &steps, Fault::None), "case {case}");
        let random: Vec<u8> = (0..300).map(|_| rng.byte()).collect();
        assert!(runs_alike(&table, &random, Fault::None), "case {case}, random bytes");
    }
    assert!(lost.fewest() > 1, "{lost}");
}

/// Counts what becomes of lost messages in a run.
fn count_lost(lost: &mut LostCounts, table: &Table, steps: &[u8]) {
    let mut line = start_line(table);
    lost.start();
    for bytes in steps.chunks_exact(3) {
        let bytes: Step = bytes.try_into().expect("a step has three bytes");
        let watched = Watched::of(&line, bytes);
        let code = step(&mut line, bytes);
        lost.add(watched, bytes, code);
    }
}

/// Codes of a run as a whole: the file's, then 26, with the answers as they were.
#[test]
fn runs_refused() {
    let mut answers = [99; 3];
    assert_eq!(fast::run(&common::S[..45], &[0; 3], &mut answers), Err(Refusal::by(5)));
    let jump = file_bytes(&common::s_with(&[(0, &[1, 2, 4]), (1, &[4, 1])]));
    for length in 0..20 {
        let refusal = Refusal { code: 28, train: 2, place: 2 };
        assert_eq!(fast::run(&jump, &vec![0; length], &mut answers), Err(refusal));
    }
    for length in 10..20 {
        assert_eq!(fast::run(&common::S, &vec![0; length], &mut answers), Err(Refusal::by(26)));
    }
    assert_eq!(answers, [99; 3]);
    assert_eq!(fast::run(&common::S, &[1, 1, 2, 5], &mut answers), Ok(()));
    assert_eq!(answers, [0, 13, 99]);
}

/// A line that was used is read to, and nothing of what it was stays; a refused file leaves it as it was.
#[test]
fn lines_are_used_again() {
    let mut fast = fast::Line::NONE;
    for case in 0..200 {
        let mut rng = Prng::for_case(33, case);
        let mut line = start_line(&accepted_table(&mut rng));
        assert_eq!(fast.read(&file_bytes(&line.table)), Ok(()));
        assert!(same(&line, &fast));
        for (bytes, code) in drive(&mut rng, &mut line, 200) {
            assert_eq!(fast.step(bytes), code);
        }
        assert!(fast.read(&[0; 8]).is_err());
        assert!(fast.read(&file_bytes(&line.table)[8..]).is_err());
        assert!(same(&line, &fast));
    }
}

#[test]
fn records() {
    let mut none = fast::Line::NONE;
    assert_eq!(none.step_checked([0; 3]), 27);
    let mut counts = RecordCounts::new();
    assert!((0..800).all(|case| records_alike(case, Fault::None, &mut counts)));
    let RecordCounts { codes, locks, states, lost } = counts;
    println!("{codes:?}\n{locks}{states}{lost:?}");
    assert!(states.fewest() > 30, "{states}");
    assert!(lost.as_flattened().iter().all(|&count| count > 100), "{lost:?}");
    let seen = |code: usize| code == 27 || step_codes().any(|of_step| of_step == code);
    assert!((0..CODES).all(|code| (codes[code] > 20) == seen(code)), "{codes:?}");
    assert!(locks.fewest() > 10);
}

/// Steps that change the line are taken by checked calls as by plain ones.
#[test]
fn checked_steps() {
    for case in 0..100 {
        let mut rng = Prng::for_case(35, case);
        let table = accepted_table(&mut rng);
        let (mut line, mut fast) = (start_line(&table), fast_start(&file_bytes(&table)));
        for (bytes, code) in drive(&mut rng, &mut line.clone(), 200) {
            assert_eq!(fast.step_checked(bytes), code);
            assert_eq!(step(&mut line, bytes), code);
            assert!(same(&line, &fast));
        }
    }
}

/// The comparison finds every fault of the readable engine that shows at all. Of those in the steps that no list
/// shows, made-up records tell all but the first two; those in the record check are told by made-up records.
#[test]
fn faults_are_found() {
    let in_records = |fault: Fault| (0..400).all(|case| records_alike(case, fault, &mut RecordCounts::new()));
    for &fault in FAULTS.iter().filter(|fault| !fault.in_demand()) {
        let alike = match fault {
            _ if fault.in_record() => in_records(fault),
            _ if fault.in_writer() => (0..200).all(|case| {
                let file = file_bytes(&accepted_table(&mut Prng::for_case(36, case)));
                let (line, table) = (fast_start(&file), read_table(&file).expect("generated tables are accepted"));
                let (mut buffer, mut other) = (vec![0; file.len()], vec![0; file.len()]);
                line.write(&mut buffer) == write_table_with(&table, &mut other, fault) && buffer == other
            }),
            _ if fault.in_reader() => (0..200).all(|case| {
                let mut rng = Prng::for_case(36, case);
                let table = accepted_table(&mut rng);
                (0..2 * DAMAGES).all(|aim| reads_alike(&damaged_file(&mut rng, &table, aim), fault))
                    && (0..10).all(|_| reads_alike(&file_bytes(&damaged_listing(&mut rng, &table)), fault))
            }),
            _ => (0..200).all(|case| {
                let (table, steps) = table_with_steps(&mut Prng::for_case(36, case), case);
                runs_alike(&table, &steps, fault)
            }),
        };
        assert_eq!(alike, UNSEEN.contains(&fault), "{fault:?}");
    }
    for (i, fault) in UNSEEN.into_iter().enumerate() {
        assert_eq!(in_records(fault), i < 2, "{fault:?}");
    }
}
