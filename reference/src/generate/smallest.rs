//! The smallest example of each code 1 to 32, found by search.
//!
//! - Accepted files: fewer bytes are smaller, then lower bytes, the first that differs deciding.
//! - Refused files (1 to 12, 28 and 32): fewer bytes are smaller; then fewer places that differ from the smallest
//!   accepted file, as far as both go, so that little but the fault is wrong; then lower bytes.
//! - Steps (13 to 22, 24, 25 and 29 to 31): the smallest accepted file on which some list of steps has the code, and
//!   the shortest such list; among lists of one length the one with the lowest bytes.
//! - A sensor active with no other train's lock (23), which no list of steps leads to: the smallest accepted file
//!   on which some list has the code after one field of a box in the start line's record was changed; the first
//!   such field and its lowest value; then the list as for other steps.
//! - A short buffer (26): the smallest accepted file and one byte less.
//! - Line records (27): the start line of the smallest accepted file with one field of a box changed, the
//!   first field and the lowest value that the check finds, and the lowest step.
//!
//! The search leaves out nothing that could be smaller. Under 8 bytes a file has code 1. With 8 bytes,
//! every file is looked at that differs from the smallest accepted one in one place at most, and some of
//! these have 2 to 5. For 6 to 12, for 28 and 32 and for accepted files, every table is looked at in order (see
//! `small_tables.rs`); a table on which no list of steps has the code is given up only after all its
//! lines, or where the code asks for trains that it lacks (`trains_for`, `may_show`). Version 2 alone has 31 and 32,
//! and is looked at for these alone (`version_for`): without its way bytes a file is shorter, and has any other code
//! that it or a list of steps on it has.

use super::example::Example;
use super::small_tables::Files;
use crate::counts::{refuses_step, FILE_CODES};
use crate::line::{start_line, Line};
use crate::line_check::record_code;
use crate::record::{Change, Record};
use crate::refusal::code_of;
use crate::step::{step, Step};
use crate::table::*;
use crate::table_read::read_table;
use crate::table_write::file_bytes;
use std::collections::{HashSet, VecDeque};

/// No example needs a longer file.
const LONGEST: usize = 60;
/// The codes that some list of steps has.
const STEP_CODES: [u8; 15] = [13, 14, 15, 16, 17, 18, 19, 20, 21, 22, 24, 25, 29, 30, 31];

/// The examples of the codes 1 to 32, in the order of their numbers.
pub fn smallest_examples() -> Vec<Example> {
    let accepted = smallest_accepted();
    let refused = |code: u8| {
        let file = match code {
            1..=5 => refused_head(code, &accepted),
            _ => refused_body(code, &accepted),
        };
        Example { file: file.expect("the code is found"), ..Example::default() }
    };
    let short = Example { buffer: Some(accepted.len() - 1), file: accepted.clone(), ..Example::default() };
    let others = [(23, changed_box()), (26, short), (27, changed_record(&accepted))];
    let mut examples: Vec<(u8, Example)> = FILE_CODES.map(|code| (code, refused(code))).into();
    examples.extend(STEP_CODES.into_iter().zip(step_examples()));
    examples.extend(others);
    examples.sort_by_key(|&(code, _)| code);
    examples.into_iter().map(|(_, example)| example).collect()
}

/// The smallest accepted file.
pub fn smallest_accepted() -> Vec<u8> {
    let accepted = |table: &Table| Some(file_bytes(table)).filter(|file| read_table(file).is_ok());
    let found = (0..LONGEST).find_map(|length| Files::accepted(VERSION_1, length, 0).first(&mut { accepted }));
    found.expect("some table is accepted")
}

/// What a refused file is compared by: length, places that differ from the smallest accepted file, bytes.
pub fn refused_size<'a>(file: &'a [u8], accepted: &[u8]) -> (usize, usize, &'a [u8]) {
    let differences = file.iter().zip(accepted).filter(|(a, b)| a != b).count();
    (file.len(), differences, file)
}

/// The smallest file of 8 bytes at most with a code from 1 to 5.
fn refused_head(code: u8, like: &[u8]) -> Option<Vec<u8>> {
    let refused = |file: &Vec<u8>| code_of(&read_table(file)) == code;
    (0..=HEAD_BYTES).find_map(|length| {
        let front = like[..length].to_vec();
        let changed = (0..length).flat_map(|place| (0..=255).map(move |value| (place, value)));
        let one_place = changed.map(|(place, value)| {
            let mut file = front.clone();
            file[place] = value;
            file
        });
        Some(front.clone()).filter(refused).or_else(|| one_place.filter(refused).min())
    })
}

/// The smallest file with a code from 6 to 12, or with 28 or 32.
fn refused_body(code: u8, like: &[u8]) -> Option<Vec<u8>> {
    let refused = |table: &Table| Some(file_bytes(table)).filter(|file| code_of(&read_table(file)) == code);
    let sizes = (0..LONGEST).flat_map(|length| (0..=length).map(move |differences| (length, differences)));
    let version = version_for(code);
    let files = |(length, differences)| Files { version, length, code, trains: 0, differences, like };
    sizes.map(files).find_map(|files| files.first(&mut { refused }))
}

/// The examples of the codes of steps.
fn step_examples() -> Vec<Example> {
    let mut examples: Vec<Option<Example>> = vec![None; STEP_CODES.len()];
    for (length, version) in (0..LONGEST).flat_map(|length| [VERSION_1, VERSION_2].map(|version| (length, version))) {
        let missing = missing(&examples).filter(|&code| version_for(code) == version);
        if let Some(trains) = missing.map(trains_for).min() {
            Files::accepted(version, length, trains).first::<()>(&mut |table| {
                add_examples(&mut examples, table);
                None
            });
        }
    }
    examples.into_iter().map(|example| example.expect("the code is found")).collect()
}

/// The codes of steps that have no example yet.
fn missing(examples: &[Option<Example>]) -> impl Iterator<Item = u8> + '_ {
    STEP_CODES.into_iter().zip(examples).filter(|(_, example)| example.is_none()).map(|(code, _)| code)
}

/// Adds what the table is the first to show, if it is accepted.
fn add_examples(examples: &mut [Option<Example>], table: &Table) {
    let of_version = |code: &u8| version_for(*code) == table.version;
    let codes: Vec<u8> = missing(examples).filter(of_version).filter(|&code| may_show(table, code)).collect();
    let file = file_bytes(table);
    if codes.is_empty() || read_table(&file).is_err() {
        return;
    }
    for (code, steps) in shortest_lists(&start_line(table), &codes) {
        let place = STEP_CODES.iter().position(|&other| other == code).expect("a code of steps");
        examples[place] = Some(Example { file: file.clone(), steps, ..Example::default() });
    }
}

/// The version of the smallest file that shows a code.
fn version_for(code: u8) -> u16 {
    match code {
        31 | 32 => VERSION_2,
        _ => VERSION_1,
    }
}

/// The fewest trains with which a code can come: 22 and 24 need another train than the one that asks.
fn trains_for(code: u8) -> usize {
    match code {
        13 | 14 => 0,
        22 | 24 => 2,
        _ => 1,
    }
}

/// Whether a list of steps on the table may have the code, 23 with a field of a box changed. 23 to 25 answer a
/// request for a lock, which a train can send only if its route passes a point (17); 24 needs another such train,
/// which has got the lock. 31 needs a route that goes on to a segment against its way.
pub fn may_show(table: &Table, code: u8) -> bool {
    let is_point = |number: u8| table.switch_box(number).is_some_and(|b| b.kind == POINT);
    let over_point = |t: &&TrainEntry| t.route.windows(2).any(|w| is_point(table.far_box(w[0], t.direction)));
    let lockers = table.trains.iter().filter(over_point).count();
    let goes_on_against =
        |t: &&TrainEntry| t.route[1..].iter().any(|&segment| table.runs_against(segment, t.direction));
    let needed = match code {
        23..=25 => lockers,
        31 => table.trains.iter().filter(goes_on_against).count(),
        _ => table.trains.len(),
    };
    needed >= trains_for(code)
}

/// For each of the codes that some list of steps from a line whose record holds ends with, the first such list:
/// breadth first, the lowest steps first. A list goes on while the record holds.
fn shortest_lists(start: &Line, codes: &[u8]) -> Vec<(u8, Vec<Step>)> {
    let mut seen = HashSet::from([(start.boxes.clone(), start.trains.clone())]);
    let mut open = VecDeque::from([(start.clone(), Vec::<Step>::new())]);
    let mut found: Vec<(u8, Vec<Step>)> = Vec::new();
    let steps = steps_of(&start.table);
    while let Some((line, taken)) = open.pop_front() {
        for &bytes in &steps {
            let mut after = line.clone();
            let code = step(&mut after, bytes);
            let list = || [&taken[..], &[bytes]].concat();
            if codes.contains(&code) && found.iter().all(|&(other, _)| other != code) {
                found.push((code, list()));
            }
            let new = !refuses_step(code) && seen.insert((after.boxes.clone(), after.trains.clone()));
            if new && record_code(&after) == 0 {
                open.push_back((after, list()));
            }
        }
        if found.len() == codes.len() {
            break;
        }
    }
    found
}

/// Steps of every sort, the lowest bytes first. The first kind, train or box above its limit stands for all
/// above it, which the rules do not tell apart.
fn steps_of(table: &Table) -> Vec<Step> {
    let (k, m) = (table.trains.len() as u8, table.boxes.len() as u8);
    let trains = |kind| (0..=k + 1).flat_map(move |train| (0..=m + 1).map(move |number| [kind, train, number]));
    (0..=11).flat_map(trains).collect()
}

/// The changes of a field of a box: box by box, field by field, the lowest value first.
fn box_changes(boxes: u8) -> impl Iterator<Item = Change> {
    let fields = (0..boxes).flat_map(|index| (0..6).map(move |field| (index, field)));
    fields.flat_map(|(index, field)| (0..=255).map(move |value| [b'b', index, field, value]))
}

/// The example of code 23.
fn changed_box() -> Example {
    let first = |table: &Table| {
        let file = file_bytes(table);
        if !may_show(table, 23) || read_table(&file).is_err() {
            return None;
        }
        let start = start_line(table);
        box_changes(table.boxes.len() as u8).find_map(|change| {
            let line = Some(Record::changed(&start, &[change]).line()).filter(|line| record_code(line) == 0)?;
            let (_, steps) = shortest_lists(&line, &[23]).pop()?;
            Some(Example { file: file.clone(), steps, change: Some(change), ..Example::default() })
        })
    };
    let files = |length| Files::accepted(VERSION_1, length, trains_for(23));
    (0..LONGEST).find_map(|length| files(length).first(&mut { first })).expect("the code is found")
}

/// The example of code 27.
fn changed_record(accepted: &[u8]) -> Example {
    let example = |change| Example {
        file: accepted.to_vec(),
        steps: vec![[0, 0, 0]],
        change: Some(change),
        ..Example::default()
    };
    box_changes(accepted[6]).map(example).find(|example| example.answer() == 27).expect("some change is found")
}
