//! The same rules written for speed: one line in fixed arrays, changed in place, with no heap. What
//! stands around a train is kept with it and made anew when it moves. The tests hold it to the
//! engine beside it, which is written to be read.

mod line;
mod line_check;
mod records;
mod step;
mod table;

use crate::refusal::Refusal;
pub use line::Line;
pub(crate) use line::{BoxState, Train};
pub(crate) use table::Route;

/// Reads the file and takes the steps from its start line on; the code of each goes to `answers`.
/// Refused as the file is, or by 26 where `answers` is shorter than the list; it is as it was then.
pub fn run(file: &[u8], steps: &[u8], answers: &mut [u8]) -> Result<(), Refusal> {
    let mut line = Line::NONE;
    line.read(file)?;
    line.run(steps, answers)
}
