//! An example of a code: a table file and what is done with it, its answer, and its text.

use crate::line::start_line;
use crate::record::{Change, Record};
use crate::refusal::code_of;
use crate::step::{step_checked, Step};
use crate::table::*;
use crate::table_read::read_table;
use crate::table_write::write_table;
use std::fmt::Write;

/// A file alone; or an accepted file with a list of steps, with one field of the start line's record changed
/// before them where there is a change; or an accepted file with the length of a buffer to write it to.
#[derive(Clone, Debug, PartialEq, Eq, Default)]
pub struct Example {
    pub file: Vec<u8>,
    pub steps: Vec<Step>,
    pub change: Option<Change>,
    pub buffer: Option<usize>,
}

/// Names of a box's fields that a change is shown by, in the order of the record.
pub const BOX_FIELDS: [&str; 6] = ["sensor", "position", "lock", "stem holder", "left holder", "right holder"];
/// Column at which the words for the bytes begin.
const WORDS: usize = 26;

impl Example {
    /// The code of what is done last.
    pub fn answer(&self) -> u8 {
        let table = match read_table(&self.file) {
            Err(refusal) => return refusal.code,
            Ok(table) => table,
        };
        match self.buffer {
            Some(length) => code_of(&write_table(&table, &mut vec![0; length])),
            None => self.answers(&table).last().copied().unwrap_or(0),
        }
    }

    /// The codes of the steps.
    pub fn answers(&self, table: &Table) -> Vec<u8> {
        let changes = self.change.as_slice();
        let mut line = Record::changed(&start_line(table), changes).line();
        self.steps.iter().map(|&bytes| step_checked(&mut line, bytes)).collect()
    }

    /// The example as text: the bytes of a record a line, then each step with its answer, with words.
    pub fn text(&self) -> String {
        let mut text = file_text(&self.file);
        let Ok(table) = read_table(&self.file) else {
            return text;
        };
        if let Some([_, index, field, value]) = self.change {
            let left = format!("box {}, {}: {value}", index + 1, BOX_FIELDS[field as usize]);
            add(&mut text, &left, "the field of the line record is changed by hand");
        }
        for (&bytes, code) in self.steps.iter().zip(self.answers(&table)) {
            let [kind, train, number] = bytes;
            add(&mut text, &format!("({kind}, {train}, {number})"), &format!("{}: {code}", step_words(bytes)));
        }
        if let Some(length) = self.buffer {
            let words = format!("the file is to be written to {length} bytes: {}", self.answer());
            add(&mut text, &format!("buffer {length}"), &words);
        }
        text
    }
}

/// A line of text: bytes on the left, words on the right.
fn add(text: &mut String, left: &str, words: &str) {
    writeln!(text, "{left:WORDS$}{words}").expect("writing to a string");
}

fn hex(bytes: &[u8]) -> String {
    bytes.iter().map(|b| format!("{b:02X}")).collect::<Vec<_>>().join(" ")
}

/// The bytes of a file whose head and records, if it has any, are whole; a record a line.
pub fn file_text(file: &[u8]) -> String {
    let mut text = String::new();
    let &[_, _, _, high, low, n, m, k, ref rest @ ..] = file else {
        add(&mut text, &hex(file), if file.is_empty() { "no byte at all" } else { "less than a head" });
        return text;
    };
    text += &record_text("head", &file[..HEAD_BYTES]);
    if rest.is_empty() {
        return text;
    }
    let size = segment_bytes(u16::from_be_bytes([high, low]));
    let (segments, rest) = rest.split_at(size * n as usize);
    for (i, record) in segments.chunks(size).enumerate() {
        text += &record_text(&format!("segment {}", i + 1), record);
    }
    let (boxes, mut rest) = rest.split_at(BOX_BYTES * m as usize);
    for (i, record) in boxes.chunks(BOX_BYTES).enumerate() {
        text += &record_text(&format!("box {}", i + 1), record);
    }
    for train in 1..=k {
        let (record, after) = rest.split_at(TRAIN_BYTES + rest[1] as usize);
        text += &record_text(&format!("train {train}"), record);
        rest = after;
    }
    text
}

/// The line of a record: its bytes, its name (`head`, or `segment`, `box` or `train` with a number) and what
/// they say.
pub fn record_text(name: &str, record: &[u8]) -> String {
    let words = match (name.split(' ').next(), record) {
        (Some("head"), &[_, _, _, high, low, n, m, k]) => {
            format!("version {}, n = {n}, m = {m}, k = {k}", u16::from_be_bytes([high, low]))
        }
        (Some("segment"), [a, b]) => format!("A end at box {a}, B end at box {b}"),
        (Some("segment"), [a, b, way]) => format!("A end at box {a}, B end at box {b}, {}", way_words(*way)),
        (Some("box"), record) => box_words(record),
        (Some("train"), [direction, length, route @ ..]) => {
            let length = if *length as usize == route.len() { String::new() } else { format!("length {length}, ") };
            let route: Vec<String> = route.iter().map(u8::to_string).collect();
            let route = if route.is_empty() { "empty".into() } else { route.join(", ") };
            format!("direction {direction}, {length}route {route}")
        }
        _ => panic!("{name} is no record of these bytes: {record:?}"),
    };
    let mut text = String::new();
    add(&mut text, &hex(record), &format!("{name}: {words}"));
    text
}

/// The way of a segment in words.
fn way_words(way: u8) -> String {
    match way {
        BOTH_WAYS => "both ways".into(),
        A_TO_B => "A to B only".into(),
        B_TO_A => "B to A only".into(),
        _ => format!("direction {way}"),
    }
}

/// The record of a box in words.
fn box_words(record: &[u8]) -> String {
    let [kind, stem, left, right, position] = record.try_into().expect("a box has five bytes");
    match kind {
        BORDER => format!("border, stem {stem}"),
        LINK => format!("link, stem {stem}, left {left}"),
        POINT => format!("point, stem {stem}, left {left}, right {right}, position {position}"),
        _ => format!("kind {kind}"),
    }
}

/// What a step means.
fn step_words([kind, train, number]: Step) -> String {
    match kind {
        1 => format!("train {train} asks box {number} for its next segment"),
        2 => format!("train {train} asks box {number} for the lock"),
        3 => format!("the box answers train {train}"),
        4 => format!("train {train} hears the answer"),
        5 => format!("train {train} enters its next segment"),
        6 => format!("train {train} clears the box behind"),
        7 => format!("train {train} gives its next segment back to box {number}"),
        8 => format!("train {train} gives the lock back to box {number}"),
        9 => format!("the message of train {train} is lost"),
        10 => format!("train {train} sends its message again"),
        _ => format!("there is no kind {kind}"),
    }
}
