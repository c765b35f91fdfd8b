//! What the second implementation gives, as the library's contracts say it: code, train and place, and the whole of each lent
//! buffer.

use reference::line::start_line;
use reference::printout::{printout, MAX_STEPS};
use reference::refusal::Refusal;
use reference::step::step;
use reference::table_read::read_table;
use reference::table_write::write_table;

/// Code, train and place, and the buffer after the call.
pub type Answer = (Refusal, Vec<u8>);

/// What is said of a file; of an accepted one code 0.
pub fn check(file: &[u8]) -> Refusal {
    read_table(file).err().unwrap_or(Refusal::by(0))
}

/// The codes of all steps, a last one cut short among them; or the file's refusal.
pub fn step_codes(file: &[u8], steps: &[u8]) -> Result<Vec<u8>, Refusal> {
    let mut line = start_line(&read_table(file)?);
    Ok(steps
        .chunks(3)
        .map(|bytes| match bytes {
            &[kind, train, number] => step(&mut line, [kind, train, number]),
            _ => 13,
        })
        .collect())
}

/// A run whose codes are known.
pub fn run(codes: &Result<Vec<u8>, Refusal>, answers: &[u8]) -> Answer {
    match codes {
        Err(refusal) => (*refusal, answers.to_vec()),
        Ok(codes) if answers.len() < codes.len() => (Refusal::by(26), answers.to_vec()),
        Ok(codes) => (Refusal::by(0), over(codes, answers)),
    }
}

/// A printout: its code, its length where one is stored, the text's buffer and the buffer of the answers.
pub fn print(file: &[u8], input: &[u8], answers: &[u8], text: &[u8]) -> (u8, Option<usize>, Vec<u8>, Vec<u8>) {
    let steps = input.len().div_ceil(3).min(MAX_STEPS);
    if answers.len() < steps || text.len() < 18 * (steps + 113) {
        return (26, None, text.to_vec(), answers.to_vec());
    }
    let taken = &input[..input.len().min(3 * MAX_STEPS)];
    let printed = printout(file, input);
    let (_, told) = run(&step_codes(file, taken), answers);
    (0, Some(printed.len()), over(&printed, text), told)
}

/// A file read and written back: what the second implementation writes of the table that it read.
pub fn write_back(file: &[u8], buffer: &[u8]) -> Answer {
    let mut after = buffer.to_vec();
    match read_table(file).and_then(|table| write_table(&table, &mut after)) {
        Ok(_) => (Refusal::by(0), after),
        Err(refusal) => (refusal, after),
    }
}

/// A buffer with these bytes at its front.
fn over(front: &[u8], buffer: &[u8]) -> Vec<u8> {
    let mut after = buffer.to_vec();
    after[..front.len()].copy_from_slice(front);
    after
}
