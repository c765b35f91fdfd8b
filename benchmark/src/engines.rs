//! What is timed: the proved library, the fast engine of the second implementation and, where the build has one, the proved
//! library of another commit.

use reference::fast::{self, Line};
use reference::refusal::code_of;
use reference::step::Step;
use std::hint::black_box;

/// What is done with a file, steps and a buffer; its code.
pub type Call = fn(&[u8], &[u8], &mut [u8]) -> u8;

pub struct Engine {
    pub name: &'static str,
    /// In the order of `OPERATIONS`.
    pub calls: [Call; 4],
}

/// Reading goes from the file to the start line; each of the others reads first. A run takes all steps; checked steps are one
/// call each, which looks at code 27 first.
pub const OPERATIONS: [&str; 4] = ["reading", "writing", "run", "checked"];
pub const READING: usize = 0;
pub const WRITING: usize = 1;
pub const RUN: usize = 2;
pub const CHECKED: usize = 3;

pub const ENGINES: &[Engine] = &[
    PROVED,
    FAST,
    #[cfg(old)]
    OLD,
];

/// A proved library, whose C functions have these names. Train and place are passed last: a library of an older commit, whose
/// functions do not take them, leaves them alone, since on this platform the caller takes its arguments away again.
macro_rules! proved {
    ($engine:ident, $name:literal, $read:literal, $write:literal, $run:literal, $checked:literal) => {
        const $engine: Engine = {
            extern "C" {
                #[link_name = $read]
                fn read(file: *const u8, size: usize, i: u8) -> u64;
                #[link_name = $write]
                fn write(file: *const u8, size: usize, buffer: *mut u8, room: usize, train: *mut u8, place: *mut u8) -> u8;
                #[link_name = $run]
                fn run(
                    file: *const u8,
                    size: usize,
                    steps: *const u8,
                    length: usize,
                    answers: *mut u8,
                    room: usize,
                    train: *mut u8,
                    place: *mut u8,
                ) -> u8;
                #[link_name = $checked]
                fn checked(file: *const u8, size: usize, steps: *const u8, length: usize, answers: *mut u8, room: usize) -> u8;
            }
            // SAFETY of all: a function reads the slices that it is given and writes within the one that is lent to be
            // written and to train and place, none of which is a part of another; it asks nothing of its arguments.
            let calls: [Call; 4] = [
                // The proved reader answers a sample of the line: its code is looked at where the same file is run.
                |file, _, _| {
                    black_box(unsafe { read(file.as_ptr(), file.len(), 5) });
                    0
                },
                |file, _, buffer| {
                    let (mut train, mut place) = (0, 0);
                    unsafe { write(file.as_ptr(), file.len(), buffer.as_mut_ptr(), buffer.len(), &mut train, &mut place) }
                },
                |file, steps, answers| {
                    let (room, mut train, mut place) = (answers.len(), 0, 0);
                    let (file, size, steps, length) = (file.as_ptr(), file.len(), steps.as_ptr(), steps.len());
                    unsafe { run(file, size, steps, length, answers.as_mut_ptr(), room, &mut train, &mut place) }
                },
                |file, steps, answers| unsafe {
                    checked(file.as_ptr(), file.len(), steps.as_ptr(), steps.len(), answers.as_mut_ptr(), answers.len())
                },
            ];
            Engine { name: $name, calls }
        };
    };
}

proved!(PROVED, "proved", "bench_read", "lineengine_write_back", "lineengine_run", "bench_steps");
#[cfg(old)]
proved!(OLD, "old", "old_bench_read", "old_lineengine_write_back", "old_lineengine_run", "old_bench_steps");

const FAST: Engine = Engine { name: "fast", calls: [fast_read, fast_write_back, fast_run, fast_checked] };

fn fast_read(file: &[u8], _: &[u8], _: &mut [u8]) -> u8 {
    let mut line = Line::NONE;
    let read = line.read(file);
    black_box(&line);
    code_of(&read)
}

fn fast_write_back(file: &[u8], _: &[u8], buffer: &mut [u8]) -> u8 {
    let mut line = Line::NONE;
    code_of(&line.read(file).and_then(|_| line.write(buffer)))
}

fn fast_run(file: &[u8], steps: &[u8], answers: &mut [u8]) -> u8 {
    code_of(&fast::run(file, steps, answers))
}

fn fast_checked(file: &[u8], steps: &[u8], answers: &mut [u8]) -> u8 {
    let mut line = Line::NONE;
    let read = line.read(file);
    let steps: &[Step] = steps.as_chunks().0;
    for (&bytes, answer) in steps.iter().zip(answers) {
        *answer = line.step_checked(bytes);
    }
    code_of(&read)
}
