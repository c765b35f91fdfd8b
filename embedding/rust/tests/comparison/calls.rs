//! The library's functions on one case, each by its raw form and by the wrapper, with buffers that are empty, one byte too short,
//! exact and larger; codes, train and place, whole buffers and what stands beside them are compared. What is empty is passed to
//! the raw form as a null pointer. Where it sets train and place, other numbers stand before.

use crate::counts::{Counts, Function};
use crate::expected;
use crate::lent::{pointer, Lent, Place};
use lineengine::{raw, Buffer, RoutePlace};
use reference::generate::prng::Prng;
use reference::refusal::Refusal;

/// What stands where the length of a text goes, before a call.
const LENGTH_BEFORE: usize = 99;

/// A table file and steps. What the second implementation says of it is looked up once.
pub struct Case<'a> {
    pub file: &'a [u8],
    pub steps: &'a [u8],
    pub codes: Result<Vec<u8>, Refusal>,
}

impl<'a> Case<'a> {
    pub fn new(file: &'a [u8], steps: &'a [u8]) -> Case<'a> {
        Case { file, steps, codes: expected::step_codes(file, steps) }
    }

    /// Compares all four functions.
    pub fn compare(&self, rng: &mut Prng, counts: &mut Counts) {
        counts.case(&self.codes, self.steps);
        self.check(rng, counts);
        for room in rooms(rng, self.steps.len().div_ceil(3)).into_iter().chain([0]) {
            self.run(rng, counts, room);
        }
        let steps = self.steps.len().div_ceil(3).min(65_535);
        let [short, exact, larger] = rooms(rng, steps);
        let [text_short, text_exact, text_larger] = rooms(rng, 18 * (steps + 113));
        for (answers, text) in [(exact, text_exact), (larger, text_larger), (short, text_exact), (exact, text_short)] {
            self.print(rng, counts, answers, text);
        }
        self.print(rng, counts, 0, text_exact);
        self.print(rng, counts, exact, 0);
        for room in rooms(rng, self.file.len()).into_iter().chain([0]) {
            self.write_back(rng, counts, room);
        }
    }

    fn check(&self, rng: &mut Prng, counts: &mut Counts) {
        let (file, expected) = (self.file, expected::check(self.file));
        let mut at = Place::unlike(rng, expected);
        // SAFETY: the pointer and the length are those of a slice; the pointer is not used where that is empty. What is written
        // overlaps nothing.
        let code = unsafe { raw::lineengine_check(pointer(file), file.len(), at.train.pointer(), at.place.pointer()) };
        counts.nulls(&[file.len()]);
        let given = at.with(code);
        let same = given == expected && at.kept();
        counts.call(Function::Check, code, same, || format!("{given:?} for {expected:?}: {file:?}"));
        let given = lineengine::check(file);
        let same = given == outcome(expected, (), None);
        counts.call(Function::Check, number(&given), same, || format!("the wrapper, {given:?} for {expected:?}: {file:?}"));
    }

    fn run(&self, rng: &mut Prng, counts: &mut Counts, room: usize) {
        let (mut by_c, mut by_rust) = (Lent::new(rng, room), Lent::new(rng, room));
        let (file, steps) = (self.file, self.steps);
        let (expected, after) = expected::run(&self.codes, by_c.content());
        let mut at = Place::unlike(rng, expected);
        // SAFETY: pointers and lengths are those of slices, none is used where that is empty; what is written overlaps nothing.
        let code = unsafe {
            raw::lineengine_run(
                pointer(file),
                file.len(),
                pointer(steps),
                steps.len(),
                by_c.pointer(),
                room,
                at.train.pointer(),
                at.place.pointer(),
            )
        };
        counts.nulls(&[file.len(), steps.len(), room]);
        let given = at.with(code);
        let same = given == expected && by_c.content() == after && by_c.kept() && at.kept();
        counts.call(Function::Run, code, same, || format!("{given:?} for {expected:?}: {file:?}, {steps:?}, room {room}"));
        let (expected, after) = expected::run(&self.codes, by_rust.content());
        let needed = steps.len().div_ceil(3);
        let wanted = outcome(expected, &after[..needed.min(room)], Some((Buffer::Answers, needed, room)));
        let given = lineengine::run(file, steps, by_rust.part());
        let (number, same) = (number(&given), given == wanted);
        let same = same && by_rust.content() == after && by_rust.kept();
        counts.call(Function::Run, number, same, || {
            format!("the wrapper, for {expected:?}: {file:?}, {steps:?}, room {room}")
        });
    }

    fn print(&self, rng: &mut Prng, counts: &mut Counts, answers_room: usize, text_room: usize) {
        let (mut answers, mut text) = (Lent::new(rng, answers_room), Lent::new(rng, text_room));
        let (file, input, mut length) = (self.file, self.steps, LENGTH_BEFORE);
        let (code, size, text_after, answers_after) = expected::print(file, input, answers.content(), text.content());
        // SAFETY: pointers and lengths are those of slices, none is used where that is empty, and of a local; what is written
        // overlaps nothing.
        let given = unsafe {
            raw::lineengine_print(
                pointer(file),
                file.len(),
                pointer(input),
                input.len(),
                answers.pointer(),
                answers_room,
                text.pointer(),
                text_room,
                &mut length,
            )
        };
        counts.nulls(&[file.len(), input.len(), answers_room, text_room]);
        let same = given == code && length == size.unwrap_or(LENGTH_BEFORE) && text.kept() && answers.kept();
        let same = same && text.content() == text_after && answers.content() == answers_after;
        counts.call(Function::Print, given, same, || format!("{given} for {code}, length {length}: {file:?}, {input:?}"));
        let (mut answers, mut text) = (Lent::new(rng, answers_room), Lent::new(rng, text_room));
        let (code, size, text_after, answers_after) = expected::print(file, input, answers.content(), text.content());
        let needed = input.len().div_ceil(3).min(65_535);
        let short = match answers_room < needed {
            true => (Buffer::Answers, needed, answers_room),
            false => (Buffer::Text, 18 * (needed + 113), text_room),
        };
        let wanted = outcome(Refusal::by(code), &text_after[..size.unwrap_or(0)], Some(short));
        let given = lineengine::print(file, input, answers.part(), text.part());
        let (number, same) = (number(&given), given == wanted && text.kept() && answers.kept());
        let same = same && text.content() == text_after && answers.content() == answers_after;
        counts.call(Function::Print, number, same, || format!("the wrapper, for {code}: {file:?}, {input:?}"));
    }

    fn write_back(&self, rng: &mut Prng, counts: &mut Counts, room: usize) {
        let (mut by_c, mut by_rust) = (Lent::new(rng, room), Lent::new(rng, room));
        let file = self.file;
        let (expected, after) = expected::write_back(file, by_c.content());
        let mut at = Place::unlike(rng, expected);
        // SAFETY: pointers and lengths are those of slices, none is used where that is empty; what is written overlaps nothing.
        let code = unsafe {
            raw::lineengine_write_back(
                pointer(file),
                file.len(),
                by_c.pointer(),
                room,
                at.train.pointer(),
                at.place.pointer(),
            )
        };
        counts.nulls(&[file.len(), room]);
        let given = at.with(code);
        let same = given == expected && by_c.content() == after && by_c.kept() && at.kept();
        let same = same && (code != 0 || after[..file.len()] == *file);
        counts.call(Function::WriteBack, code, same, || format!("{given:?} for {expected:?}: {file:?}, room {room}"));
        let (expected, after) = expected::write_back(file, by_rust.content());
        let wanted = outcome(expected, file, Some((Buffer::Table, file.len(), room)));
        let given = lineengine::write_back(file, by_rust.part());
        let (number, same) = (number(&given), given == wanted);
        let same = same && by_rust.content() == after && by_rust.kept();
        counts.call(Function::WriteBack, number, same, || format!("the wrapper, for {expected:?}: {file:?}, room {room}"));
    }
}

/// One too short, exact and larger.
fn rooms(rng: &mut Prng, needed: usize) -> [usize; 3] {
    [needed.saturating_sub(1), needed, needed + rng.between(1, 40)]
}

/// What the wrapper answers where the library gives this.
fn outcome<T>(given: Refusal, result: T, short: Option<(Buffer, usize, usize)>) -> Result<T, lineengine::Refusal> {
    let Refusal { code, train, place } = given;
    match (code, short) {
        (0, _) => Ok(result),
        (26, Some((buffer, needed, room))) => Err(lineengine::Refusal::TooShort { buffer, needed, room }),
        _ => {
            let at = (train != 0).then_some(RoutePlace { train, place });
            Err(lineengine::Refusal::Table { code, at })
        }
    }
}

fn number<T>(given: &Result<T, lineengine::Refusal>) -> u8 {
    given.as_ref().err().map_or(0, |refusal| refusal.code())
}
