//! The printout of the program `line`.

use crate::line::{start_line, Line};
use crate::step::{step, Step};
use crate::table_read::read_table;
use std::fmt::Write;

/// Most steps of one run.
pub const MAX_STEPS: usize = 65_535;

/// What `line` prints for the file's bytes and standard input's bytes.
pub fn printout(file: &[u8], input: &[u8]) -> Vec<u8> {
    let mut text = String::new();
    match read_table(file) {
        Err(refusal) => add(&mut text, format_args!("file {refusal}")),
        Ok(table) => run(&mut text, &mut start_line(&table), input),
    }
    text.into_bytes()
}

fn add(text: &mut String, line: std::fmt::Arguments) {
    writeln!(text, "{line}").expect("writing to a string");
}

/// The step lines, the state at the end and `more` for bytes left over.
fn run(text: &mut String, line: &mut Line, input: &[u8]) {
    for (i, bytes) in input.chunks(3).take(MAX_STEPS).enumerate() {
        let mut whole: Step = [0; 3];
        whole[..bytes.len()].copy_from_slice(bytes);
        let code = match bytes.len() {
            3 => step(line, whole),
            _ => 13,
        };
        let [kind, train, _] = whole;
        add(text, format_args!("{} {kind} {train} {code}", i + 1));
    }
    for (i, t) in line.trains.iter().enumerate() {
        let (front, tail) = (t.front_segment(), t.tail_segment());
        add(text, format_args!("train {} {front} {tail}", i + 1));
    }
    for (i, b) in line.boxes.iter().enumerate() {
        let (sensor, position, lock) = (u8::from(b.sensor), b.position, b.lock);
        add(text, format_args!("box {} {sensor} {position} {lock}", i + 1));
    }
    if input.len() > 3 * MAX_STEPS {
        add(text, format_args!("more"));
    }
}
