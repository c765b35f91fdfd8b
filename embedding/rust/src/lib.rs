//! The proved line engine for Rust: the four functions of the static library, with their codes as results.
//!
//! Platform and stack are those of the library: x86-64 Linux, and `STACK` bytes for a call. The package needs no `std` and no
//! heap. docs/EMBEDDING.md says where the archive is looked for.
//!
//! The library asks nothing of its caller but what borrowing already gives (slices that are there, and no overlap of what is
//! written with anything else), so that nothing has to be tested before a call. Any slice may be empty: no table is refused with
//! code 1, no steps are a run of none, and a buffer of no bytes is refused with 26 where a byte is needed. The order of refusals is
//! the library's: the table's code first, then 26, except in `print`, where 26 is all that is refused. A refusal leaves everything
//! that was lent as it was.
//!
//! ```
//! use lineengine::{check, code, run, Refusal, RoutePlace};
//! let table = [0x4E, 0x45, 0x54, 0, 1, 1, 2, 0, 1, 2, 0, 1, 0, 0, 0, 0, 1, 0, 0, 0];
//! let mut answers = [0; 2];
//! assert_eq!(run(&table, &[1, 1, 1, 0, 0, 0], &mut answers), Ok(&[code::NO_SUCH_TRAIN, code::NO_SUCH_STEP][..]));
//! assert_eq!(check(&table[..19]), Err(Refusal::Table { code: code::WRONG_TABLE_LENGTH, at: None }));
//!
//! // A train whose route is segment 1 and then segment 1 again.
//! let table = [0x4E, 0x45, 0x54, 0, 1, 1, 2, 1, 1, 2, 0, 1, 0, 0, 0, 0, 1, 0, 0, 0, 0, 2, 1, 1];
//! let refusal = Refusal::Table { code: code::ROUTE_NOT_FOLLOWING, at: Some(RoutePlace { train: 1, place: 2 }) };
//! assert_eq!(check(&table), Err(refusal));
//! assert_eq!(refusal.to_string(), "28: the table is refused, train 1, place 2 on its route");
//!
//! // A table of version 2: segment 1 runs from A to B only, and the train starts in direction 1, from B to A.
//! let table = [0x4E, 0x45, 0x54, 0, 2, 1, 2, 1, 1, 2, 1, 0, 1, 0, 0, 0, 0, 1, 0, 0, 0, 1, 1, 1];
//! assert_eq!(check(&table), Err(Refusal::Table { code: code::START_AGAINST_THE_WAY, at: None }));
//! ```
#![no_std]

pub mod code;
pub mod raw;
mod refusal;

pub use refusal::{Buffer, Refusal, RoutePlace};

/// The version of the interface, as in embedding/lineengine.h, which says when it changes.
pub const VERSION: (u32, u32) = (4, 0);

/// The bytes of stack that are enough for any call.
pub const STACK: usize = 65_536;

/// No table with more bytes is accepted; of version 1 none with more than 1,736.
pub const MOST_TABLE: usize = 1_832;

/// The most steps that `print` takes; `run` takes any number.
pub const MOST_PRINTED_STEPS: usize = 65_535;

/// How many steps so many bytes are; a last one of one or two bytes counts.
pub const fn steps_in(bytes: usize) -> usize {
    bytes.div_ceil(3)
}

/// How many of them `print` takes.
pub const fn printed_steps_in(bytes: usize) -> usize {
    match steps_in(bytes) {
        steps if steps < MOST_PRINTED_STEPS => steps,
        _ => MOST_PRINTED_STEPS,
    }
}

/// The room that `print` asks of the text of so many printed steps, however short it then is.
pub const fn text_room(steps: usize) -> usize {
    18 * (steps + 113)
}

/// Whether the table is accepted.
pub fn check(table: &[u8]) -> Result<(), Refusal> {
    let (mut train, mut place) = (0, 0);
    // SAFETY: the function reads the slice and writes `train` and `place` alone.
    match unsafe { raw::lineengine_check(table.as_ptr(), table.len(), &mut train, &mut place) } {
        code::ACCEPTED => Ok(()),
        code => Err(Refusal::of_table(code, train, place)),
    }
}

/// Runs the steps from the start of the table's line on. The codes of the steps, which stand at the front of `answers`.
pub fn run<'a>(table: &[u8], steps: &[u8], answers: &'a mut [u8]) -> Result<&'a [u8], Refusal> {
    let (needed, room) = (steps_in(steps.len()), answers.len());
    let (mut train, mut place) = (0, 0);
    // SAFETY: the function reads `table` and `steps` and writes within `answers`, `train` and `place`, of which no two overlap.
    let code = unsafe {
        raw::lineengine_run(
            table.as_ptr(),
            table.len(),
            steps.as_ptr(),
            steps.len(),
            answers.as_mut_ptr(),
            room,
            &mut train,
            &mut place,
        )
    };
    match code {
        code::ACCEPTED => Ok(&answers[..needed]),
        code::BUFFER_TOO_SHORT => Err(Refusal::TooShort { buffer: Buffer::Answers, needed, room }),
        code => Err(Refusal::of_table(code, train, place)),
    }
}

/// The printout of a run, which stands at the front of `text`; the codes of its steps stand at the front of `answers`. A refused
/// table prints its code, with 11 and 28 train and place after it.
pub fn print<'a>(table: &[u8], input: &[u8], answers: &mut [u8], text: &'a mut [u8]) -> Result<&'a [u8], Refusal> {
    let mut length = 0;
    // SAFETY: the function reads `table` and `input` and writes within `answers`, `text` and `length`, of which no two overlap.
    let code = unsafe {
        raw::lineengine_print(
            table.as_ptr(),
            table.len(),
            input.as_ptr(),
            input.len(),
            answers.as_mut_ptr(),
            answers.len(),
            text.as_mut_ptr(),
            text.len(),
            &mut length,
        )
    };
    match code {
        code::ACCEPTED => Ok(&text[..length]),
        _ => Err(too_short_to_print(input, answers, text)),
    }
}

/// Which buffer of `print` is too short.
fn too_short_to_print(input: &[u8], answers: &[u8], text: &[u8]) -> Refusal {
    let needed = printed_steps_in(input.len());
    match answers.len() {
        room if room < needed => Refusal::TooShort { buffer: Buffer::Answers, needed, room },
        _ => Refusal::TooShort { buffer: Buffer::Text, needed: text_room(needed), room: text.len() },
    }
}

/// Reads the table and writes it out again. The bytes that were read, which stand at the front of `buffer`.
pub fn write_back<'a>(table: &[u8], buffer: &'a mut [u8]) -> Result<&'a [u8], Refusal> {
    let (needed, room) = (table.len(), buffer.len());
    let (mut train, mut place) = (0, 0);
    // SAFETY: the function reads `table` and writes within `buffer`, `train` and `place`, of which no two overlap.
    let code =
        unsafe { raw::lineengine_write_back(table.as_ptr(), needed, buffer.as_mut_ptr(), room, &mut train, &mut place) };
    match code {
        code::ACCEPTED => Ok(&buffer[..needed]),
        code::BUFFER_TOO_SHORT => Err(Refusal::TooShort { buffer: Buffer::Table, needed, room }),
        code => Err(Refusal::of_table(code, train, place)),
    }
}
