//! From a table to a lent buffer.

use crate::fault::Fault;
use crate::refusal::Refusal;
use crate::table::*;
use crate::table_check::check_table;
use crate::table_read::MARK;

/// Writes the file of the table to the front of the buffer and gives its
/// length. Refused: why, and the buffer as it was. Bytes beyond the file
/// stay as they were.
pub fn write_table(table: &Table, buffer: &mut [u8]) -> Result<usize, Refusal> {
    write_table_with(table, buffer, Fault::None)
}

/// As `write_table`, with a fault switched on.
pub fn write_table_with(table: &Table, buffer: &mut [u8], fault: Fault) -> Result<usize, Refusal> {
    check_table(table)?;
    let mut written = table.clone();
    if fault == Fault::WaysNotWritten {
        written.segments.iter_mut().for_each(|s| s.way = BOTH_WAYS);
    }
    let file = file_bytes(&written);
    match buffer.get_mut(..file.len()) {
        None => Err(Refusal::by(26)),
        Some(front) => {
            front.copy_from_slice(&file);
            Ok(file.len())
        }
    }
}

/// The bytes of a table; counts and lengths are cut to their bytes, and
/// version 1 has no ways, so only a table that its version can hold comes back
/// from them.
pub fn file_bytes(table: &Table) -> Vec<u8> {
    let mut file = Vec::with_capacity(table.file_length());
    file.extend_from_slice(&MARK);
    file.extend_from_slice(&table.version.to_be_bytes());
    file.push(table.segments.len() as u8);
    file.push(table.boxes.len() as u8);
    file.push(table.trains.len() as u8);
    for s in &table.segments {
        file.extend_from_slice(&[s.a, s.b, s.way][..segment_bytes(table.version)]);
    }
    for b in &table.boxes {
        file.extend_from_slice(&[b.kind, b.stem, b.left, b.right, b.position]);
    }
    for t in &table.trains {
        file.push(t.direction);
        file.push(t.route.len() as u8);
        file.extend_from_slice(&t.route);
    }
    file
}
