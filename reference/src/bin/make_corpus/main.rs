//! Makes the corpus of the program `cases` and the text that it must write, with this
//! implementation alone. The argument is a directory: the corpus goes to its file `stdin`, the text
//! to its file `stdout`, and what they hold to standard error. It begins with the smallest example of
//! each code 1 to 32 and ends with files in which code 8 finds one thing alone.
//!
//! The corpus is a list of records. Numbers of two bytes have the high byte first.
//!
//! | Record | What it asks |
//! |---|---|
//! | `F`, length (2), bytes | to decide the file of these bytes, from now on the base file |
//! | `P`, length (2) | to decide as many first bytes of the base file |
//! | `C`, place (2), byte | to decide the base file with the byte at this place, from 0, changed |
//! | `S`, length (2), bytes | to run the base file with the steps of these bytes, from now on the list of steps |
//! | `M`, taken (2), number (1), as many changes (4), step (3) | to take a step on a made-up line: the line that the first `taken` bytes of the list of steps lead to, with these changes |
//!
//! A change is four bytes, as `record.rs` says.
//!
//! The text has a line for each record: answers, with a space between them. An answer is a code or a refusal
//! and, where bytes come with it, a colon and the bytes in hexadecimal. A refusal is its code and, with 11 and
//! 28, the train and the place, each after a comma; what is not refused has 0 in its place.
//! - A file that is refused has the reader's refusal. An accepted one has 0, the writer's refusal and bytes for
//!   a buffer as long as the file, its refusal for a buffer one byte shorter, and refusal and route of the
//!   trains 0 to k + 1; of the trains 1 and k + 1 only where the file has 60 bytes or more.
//! - A list of steps has the run's refusal, the whole buffer lent for the answers, one byte longer than
//!   they are and filled with 77 before, and the line. Where there are steps, the same follows for a
//!   buffer one byte too short.
//! - A made-up line has the step's code, and the line.
//!
//! A line is its trains (direction, length, place, covered, near, far, lock; the message's state, kind,
//! box and code), a colon, and its boxes (sensor, position, lock, holders at stem, left and right), in
//! hexadecimal. Beside a refused run it is empty.

mod corpus;
mod examples;
mod files;
mod lines;
mod one_way;
mod radio;

use corpus::{Corpus, FEWEST};
use files::FEWEST_FOUND;
use lines::FEWEST_AIMED;
use reference::counts::{file_codes, list_codes, step_codes, Counts, FILE_CODES};
use reference::generate::made_up::AIMS;
use reference::table::LONGEST_FILE;
use std::path::Path;

/// The most bytes of the corpus, of one of its files, and of the text.
const MOST_CORPUS: usize = 262_000;
const MOST_FILE: usize = LONGEST_FILE;
const MOST_TEXT: usize = 600_000;
/// How many steps of lists have each code that lists have at least, and how many boxes of lists answer 24 at least with
/// the sensor active, and with it passive.
const FEWEST_STEPS: usize = 20;
/// How often each thing that a box can find against the way comes in lists, and on made-up records, at least.
const FEWEST_WAYS: usize = 5;
/// How often each thing that can become of a lost message does in lists at least; how many steps of kinds 3, 4, 9 and
/// 10 meet each state of a message on made-up records at least.
const FEWEST_LOST: usize = 5;
const FEWEST_STATES: usize = 4;

/// The corpus, and how many files of its damaged part have each code.
fn make() -> (Corpus, Counts) {
    let mut corpus = Corpus::new();
    examples::smallest(&mut corpus);
    files::table_s(&mut corpus);
    files::accepted(&mut corpus);
    let before = corpus.counts;
    files::by_hand(&mut corpus);
    one_way::files(&mut corpus);
    files::damaged(&mut corpus);
    let mut aimed = corpus.counts;
    for (count, sooner) in aimed.iter_mut().zip(before) {
        *count -= sooner;
    }
    lines::paper_lists(&mut corpus);
    radio::lists(&mut corpus);
    radio::records(&mut corpus);
    one_way::lists(&mut corpus);
    one_way::records(&mut corpus);
    lines::generated_lists(&mut corpus);
    lines::made_up_records(&mut corpus);
    files::listings(&mut corpus);
    (corpus, aimed)
}

/// What is amiss with a corpus, if anything.
fn fault(corpus: &Corpus, aimed: &Counts) -> Option<String> {
    let missed = FILE_CODES.map(usize::from).into_iter().find(|&code| aimed[code] < FEWEST);
    let rare = list_codes().find(|&code| corpus.list_codes[code] < FEWEST_STEPS);
    let locked = [false, true].map(|sensor| corpus.list.locks.locked(sensor));
    let unaimed = (0..AIMS.len()).find(|&i| corpus.aims[i] < FEWEST_AIMED);
    match missed {
        Some(code) => Some(format!("code {code} has {} damaged files", aimed[code])),
        None if rare.is_some() => Some(format!("code {} has too few steps", rare?)),
        None if locked.iter().any(|&count| count < FEWEST_STEPS) => Some(format!("24 has too few steps: {locked:?}")),
        None if corpus.list_codes[23] > 0 => Some("a list of steps has code 23".into()),
        None if corpus.list.lost.fewest() < FEWEST_LOST => Some("something becomes of lost messages too seldom".into()),
        None if corpus.list.ways.fewest_in_lists() < FEWEST_WAYS => Some("lists have 31 too seldom".into()),
        None if corpus.made_up_ways.fewest() < FEWEST_WAYS => Some("made-up records have 31 too seldom".into()),
        None if corpus.made_up_states.fewest() < FEWEST_STATES => Some("a message's state is met too seldom".into()),
        None if corpus.made_up_locks.fewest() == 0 => Some("boxes do not answer a lock in all ways".into()),
        None if unaimed.is_some() => Some(format!("{:?} has too few made-up records", AIMS[unaimed?])),
        None if corpus.listings.fewest() < FEWEST_FOUND => Some("code 8 finds something too seldom".into()),
        None if corpus.counts[0] == 0 => Some("no file is accepted".into()),
        None if corpus.files.iter().any(|f| f.len() > MOST_FILE) => Some("a file is too long".into()),
        None if corpus.records.len() > MOST_CORPUS => Some("the corpus is too long".into()),
        None if corpus.text.len() > MOST_TEXT => Some("the text is too long".into()),
        None => None,
    }
}

fn main() -> std::io::Result<()> {
    let Some(directory) = std::env::args().nth(1) else {
        eprintln!("make_corpus DIRECTORY");
        std::process::exit(2)
    };
    let (corpus, aimed) = make();
    print_counts(&corpus, &aimed);
    if let Some(fault) = fault(&corpus, &aimed) {
        eprintln!("{fault}");
        std::process::exit(1)
    }
    std::fs::write(Path::new(&directory).join("stdin"), &corpus.records)?;
    std::fs::write(Path::new(&directory).join("stdout"), &corpus.text)
}

fn print_counts(corpus: &Corpus, aimed: &Counts) {
    let (files, lists, made_up) = (corpus.files.len(), corpus.runs.len(), corpus.made_up.len());
    let steps: usize = corpus.list_codes.iter().sum();
    eprintln!("{files} files decided, {lists} lists with {steps} steps, {made_up} made-up records");
    eprintln!("corpus {} bytes, text {} bytes", corpus.records.len(), corpus.text.len());
    eprintln!("code  files  damaged part");
    for code in file_codes() {
        eprintln!("{code:4} {:6} {:6}", corpus.counts[code], aimed[code]);
    }
    eprintln!("code  steps of lists, on made-up records");
    for code in step_codes().chain([27]) {
        eprintln!("{code:4} {:6} {:6}", corpus.list_codes[code], corpus.made_up_codes[code]);
    }
    eprint!("lists: {}made-up records: {}", corpus.list.locks, corpus.made_up_locks);
    eprint!("lists: {}made-up records: {}", corpus.list.ways, corpus.made_up_ways);
    eprint!("lists: {}made-up records: {}", corpus.list.lost, corpus.made_up_states);
    eprint!("files for code 8: {}", corpus.listings);
    eprintln!("made-up records by what they break");
    for (aim, count) in AIMS.iter().zip(&corpus.aims) {
        eprintln!("{:15} {count:6}", format!("{aim:?}"));
    }
}

#[cfg(test)]
mod tests {
    use super::*;
    use reference::fault::{Fault, FAULTS};
    use reference::line::start_line_with;
    use reference::line_check::record_fault_with;
    use reference::numbers::line_numbers;
    use reference::step::{step_with, Step};
    use reference::table_read::{read_table, read_table_with};
    use reference::table_write::write_table_with;

    #[test]
    fn every_code_is_there() {
        let (corpus, aimed) = make();
        assert_eq!(fault(&corpus, &aimed), None);
        let records = corpus.files.len() + corpus.runs.len() + corpus.made_up.len();
        assert_eq!(corpus.text.lines().count(), records);
    }

    /// Each fault of the reader changes the code of some file.
    #[test]
    fn every_reader_fault_shows() {
        let (corpus, _) = make();
        for &fault in FAULTS.iter().filter(|fault| fault.in_reader()) {
            let differs = |f: &&Vec<u8>| read_table_with(f, fault).err() != read_table(f).err();
            let count = corpus.files.iter().filter(differs).count();
            println!("{fault:?} {count}");
            assert!(count > 0, "{fault:?}");
        }
    }

    /// Each fault of the writer changes what is written for some file.
    #[test]
    fn every_writer_fault_shows() {
        let (corpus, _) = make();
        for &fault in FAULTS.iter().filter(|fault| fault.in_writer()) {
            let differs = |f: &&Vec<u8>| {
                let mut buffer = (*f).clone();
                read_table(f).is_ok_and(|table| write_table_with(&table, &mut buffer, fault).is_ok() && buffer != **f)
            };
            let count = corpus.files.iter().filter(differs).count();
            println!("{fault:?} {count}");
            assert!(count > 0, "{fault:?}");
        }
    }

    /// Each fault of the steps changes the text of some list or made-up record, but for records kept at
    /// Clear, which no step tells, and 16 before 15, which no record that passes 27 tells. Each fault of the
    /// record check changes the text of some made-up record. A fault in demand 3 changes no step.
    #[test]
    fn every_other_fault_shows() {
        let (corpus, _) = make();
        for &fault in FAULTS.iter().filter(|fault| fault.in_steps() || fault.in_record()) {
            let run = |run: &corpus::Run, fault: Fault| {
                let mut line = start_line_with(&read_table(&run.file).ok()?, fault);
                let whole = run.steps.chunks_exact(3).map(|s| -> Step { s.try_into().unwrap() });
                let codes: Vec<u8> = whole.map(|bytes| step_with(&mut line, bytes, fault)).collect();
                Some((codes, line_numbers(&line)))
            };
            let made = |made: &corpus::MadeUp, fault: Fault| {
                let mut line = made.record.line();
                let holds = record_fault_with(&line, fault).is_none();
                holds.then(|| (step_with(&mut line, made.step, fault), line_numbers(&line)))
            };
            let lists = corpus.runs.iter().filter(|r| run(r, fault) != run(r, Fault::None)).count();
            let records = corpus.made_up.iter().filter(|m| made(m, fault) != made(m, Fault::None)).count();
            println!("{fault:?} {lists} {records}");
            let untold = matches!(fault, Fault::RecordsKept | Fault::NextBeforeMessage);
            assert_eq!(lists + records > 0, !untold, "{fault:?}");
            assert!(lists == 0 || fault.in_steps(), "{fault:?}");
        }
    }
}
