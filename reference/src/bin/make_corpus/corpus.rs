//! A corpus under way: its records, the text for them, and what has been counted.

use reference::counts::{Counts, CODES};
use reference::generate::listing::ListingCounts;
use reference::generate::lock_asked::LockCounts;
use reference::generate::lost::{LostCounts, StateCounts, Watched};
use reference::generate::made_up::{Aim, AIMS};
use reference::generate::way_asked::WayCounts;
use reference::line::{start_line, Line};
use reference::line_check::record_code;
use reference::numbers::line_numbers;
use reference::numbers::TRAIN_NUMBERS;
use reference::record::{Change, Record};
use reference::refusal::{code_of, Refusal};
use reference::step::{step, step_checked, Step};
use reference::table::Table;
use reference::table_read::{read_table, route_in_file};
use reference::table_write::{file_bytes, write_table};
use std::fmt::Write;

pub const S: &[u8] = include_bytes!("../../../../samples/s/net");
pub const SEED: u64 = 1;
/// How many files of the damaged part have each code 1 to 12 and 28 at least.
pub const FEWEST: usize = 10;
/// What a lent buffer holds before a run.
const UNUSED: u8 = 0x77;

/// A list of steps with the file that it runs on.
pub struct Run {
    pub file: Vec<u8>,
    pub steps: Vec<u8>,
}

/// A step on a made-up record.
#[cfg_attr(not(test), allow(dead_code))]
pub struct MadeUp {
    pub record: Record,
    pub step: Step,
}

/// What boxes find that answer a lock and a reservation, and what becomes of lost messages.
#[derive(Default)]
pub struct ListCounts {
    pub locks: LockCounts,
    pub ways: WayCounts,
    pub lost: LostCounts,
}

/// The corpus.
pub struct Corpus {
    pub records: Vec<u8>,
    pub text: String,
    pub base: Vec<u8>,
    pub files: Vec<Vec<u8>>,
    pub runs: Vec<Run>,
    pub made_up: Vec<MadeUp>,
    pub counts: Counts,
    /// Codes of the steps of lists, and of those on made-up records.
    pub list_codes: Counts,
    pub made_up_codes: Counts,
    /// What boxes find and what becomes of messages in lists.
    pub list: ListCounts,
    /// What boxes find that answer a lock and a reservation on made-up records, and what message the steps of kinds
    /// 3, 4, 9 and 10 meet there.
    pub made_up_locks: LockCounts,
    pub made_up_ways: WayCounts,
    pub made_up_states: StateCounts,
    /// How many made-up records have each aim.
    pub aims: Vec<usize>,
    /// What code 8 finds in the files that are made for it.
    pub listings: ListingCounts,
    steps: Vec<u8>,
}

impl Corpus {
    pub fn new() -> Self {
        Corpus {
            records: vec![],
            text: String::new(),
            base: vec![],
            files: vec![],
            runs: vec![],
            made_up: vec![],
            counts: [0; CODES],
            list_codes: [0; CODES],
            made_up_codes: [0; CODES],
            list: ListCounts::default(),
            made_up_locks: LockCounts::default(),
            made_up_ways: WayCounts::default(),
            made_up_states: StateCounts::default(),
            aims: vec![0; AIMS.len()],
            listings: ListingCounts::default(),
            steps: vec![],
        }
    }

    pub fn file(&mut self, bytes: &[u8]) {
        self.records.push(b'F');
        self.number(bytes.len());
        self.records.extend_from_slice(bytes);
        self.base = bytes.to_vec();
        self.steps.clear();
        self.decide(self.base.clone());
    }

    pub fn table(&mut self, table: &Table) {
        self.file(&file_bytes(table));
    }

    pub fn prefix(&mut self, length: usize) {
        self.records.push(b'P');
        self.number(length);
        self.decide(self.base[..length].to_vec());
    }

    pub fn change(&mut self, place: usize, value: u8) {
        self.records.push(b'C');
        self.number(place);
        self.records.push(value);
        let mut bytes = self.base.clone();
        bytes[place] = value;
        self.decide(bytes);
    }

    /// A list of steps, by its bytes, for the base file.
    pub fn steps(&mut self, steps: &[u8]) {
        self.records.push(b'S');
        self.number(steps.len());
        self.records.extend_from_slice(steps);
        self.steps = steps.to_vec();
        let run = Run { file: self.base.clone(), steps: steps.to_vec() };
        let answers = run_text(&mut self.text, &run, &mut self.list);
        for code in answers {
            self.list_codes[code as usize] += 1;
        }
        self.runs.push(run);
    }

    /// The line that the first `taken` bytes of the last list of steps lead to from the base file.
    pub fn line_after(&self, taken: usize) -> Line {
        let table = read_table(&self.base).expect("the base file is accepted");
        run_steps(&table, &self.steps[..taken], &mut ListCounts::default()).0
    }

    /// A step on this line with changes; its code.
    pub fn made_up(&mut self, taken: usize, changes: &[Change], bytes: Step, aim: Aim) -> u8 {
        self.records.push(b'M');
        self.number(taken);
        self.records.push(u8::try_from(changes.len()).expect("a number of changes has one byte"));
        self.records.extend(changes.concat());
        self.records.extend(bytes);
        let record = Record::changed(&self.line_after(taken), changes);
        let code = made_up_text(&mut self.text, &record, bytes);
        self.made_up_codes[code as usize] += 1;
        if code != 27 {
            self.made_up_locks.add(&record.line(), bytes);
            self.made_up_ways.add(&record.line(), bytes);
            self.made_up_states.add(&record.line(), bytes);
        }
        self.aims[AIMS.iter().position(|&a| a == aim).expect("all aims are listed")] += 1;
        self.made_up.push(MadeUp { record, step: bytes });
        code
    }

    fn number(&mut self, number: usize) {
        let number = u16::try_from(number).expect("lengths and places have two bytes");
        self.records.extend_from_slice(&number.to_be_bytes());
    }

    fn decide(&mut self, bytes: Vec<u8>) {
        self.counts[usize::from(code_of(&read_table(&bytes)))] += 1;
        self.text.push_str(&file_text(&bytes));
        self.files.push(bytes);
    }
}

/// The line of the text for a file.
fn file_text(bytes: &[u8]) -> String {
    let table = match read_table(bytes) {
        Err(refusal) => return format!("{}\n", refusal.text(',')),
        Ok(table) => table,
    };
    let mut line = String::from("0");
    let mut buffer = vec![0; bytes.len()];
    let written = write_table(&table, &mut buffer);
    write!(line, " {}:{}", answer(&written), hex(&buffer)).unwrap();
    let short = write_table(&table, &mut buffer[1..]);
    write!(line, " {}", answer(&short)).unwrap();
    let last = table.trains.len() + 1;
    for train in 0..=last {
        if bytes.len() < 60 || train == 1 || train == last {
            let route = route_in_file(bytes, train as u8);
            write!(line, " {}:{}", answer(&route), hex(route.unwrap_or(&[]))).unwrap();
        }
    }
    line + "\n"
}

/// What the text has for a call that may be refused.
fn answer<T>(result: &Result<T, Refusal>) -> String {
    result.as_ref().err().map_or("0".into(), |refusal| refusal.text(','))
}

/// The line after the steps in these bytes, and the answers, a last step of one or two bytes among them.
fn run_steps(table: &Table, steps: &[u8], counts: &mut ListCounts) -> (Line, Vec<u8>) {
    let mut line = start_line(table);
    counts.lost.start();
    let answer = |bytes: &[u8]| match bytes.try_into() {
        Ok(whole) => {
            counts.locks.add(&line, whole);
            counts.ways.add(&line, whole);
            let watched = Watched::of(&line, whole);
            let code = step(&mut line, whole);
            counts.lost.add(watched, whole, code);
            code
        }
        Err(_) => 13,
    };
    let answers = steps.chunks(3).map(answer).collect();
    (line, answers)
}

/// The line of the text for a list of steps; its answers.
fn run_text(text: &mut String, run: &Run, counts: &mut ListCounts) -> Vec<u8> {
    let count = run.steps.len().div_ceil(3);
    let table = read_table(&run.file);
    let (line, answers) = match &table {
        Err(_) => (Line::default(), vec![]),
        Ok(table) => run_steps(table, &run.steps, counts),
    };
    let mut buffer = answers.clone();
    buffer.resize(count + 1, UNUSED);
    write!(text, "{}:{} ", answer(&table), hex(&buffer)).unwrap();
    add_line(text, &line);
    if count > 0 {
        // The buffer is too short, which is looked at after the file.
        let short = table.and(Err::<Table, _>(Refusal::by(26)));
        write!(text, " {}:{} :", answer(&short), hex(&vec![UNUSED; count - 1])).unwrap();
    }
    text.push('\n');
    answers
}

/// Trains and boxes of a line.
fn add_line(text: &mut String, line: &Line) {
    let numbers = line_numbers(line);
    let (trains, boxes) = numbers.split_at(TRAIN_NUMBERS * line.trains.len());
    write!(text, "{}:{}", hex(trains), hex(boxes)).unwrap();
}

/// The line of the text for a step on a made-up record; its code.
fn made_up_text(text: &mut String, record: &Record, bytes: Step) -> u8 {
    let before = record.line();
    let mut line = before.clone();
    let code = step_checked(&mut line, bytes);
    write!(text, "{code} ").unwrap();
    if record_code(&before) == 0 {
        add_line(text, &line);
    } else {
        // The record is as it was, with what it has of a next segment that is not there.
        assert_eq!(line, before);
        let [trains, boxes] = record.numbers();
        write!(text, "{}:{}", hex(&trains), hex(&boxes)).unwrap();
    }
    text.push('\n');
    code
}

fn hex(bytes: &[u8]) -> String {
    bytes.iter().map(|b| format!("{b:02x}")).collect()
}
