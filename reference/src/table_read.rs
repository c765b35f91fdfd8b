//! From file bytes to a table: codes 1 to 5 here, 6 to 12, 28 and 32 by the
//! rules of the table part.

use crate::fault::Fault;
use crate::refusal::Refusal;
use crate::table::*;
use crate::table_check::{check_body_with, counts_fit};

/// The three bytes a table file begins with.
pub const MARK: [u8; 3] = [0x4E, 0x45, 0x54];

/// The lent bytes together with the place of the next record.
struct Reader<'a> {
    bytes: &'a [u8],
    next: usize,
}

impl<'a> Reader<'a> {
    /// The next `count` bytes, or nothing if fewer are left.
    fn take(&mut self, count: usize) -> Option<&'a [u8]> {
        let part = self.bytes.get(self.next..)?.get(..count)?;
        self.next += count;
        Some(part)
    }

    /// The direction and route of the next train record.
    fn train(&mut self) -> Option<(u8, &'a [u8])> {
        let head = self.take(TRAIN_BYTES)?;
        Some((head[0], self.take(head[1] as usize)?))
    }
}

/// Reads a table, or says why the file is refused.
pub fn read_table(bytes: &[u8]) -> Result<Table, Refusal> {
    read_table_with(bytes, Fault::None)
}

/// As `read_table`, with a fault switched on.
pub fn read_table_with(bytes: &[u8], fault: Fault) -> Result<Table, Refusal> {
    let (version, n, m, k) = read_head(bytes, fault)?;
    let mut reader = Reader { bytes, next: HEAD_BYTES };
    let table = read_body(&mut reader, version, n, m, k, fault).ok_or(Refusal::by(5))?;
    let short_or_long = |t: &TrainEntry| t.route.is_empty() || t.route.len() > MAX_ROUTE;
    if fault == Fault::RouteLengthBeforeFileLength && table.trains.iter().any(short_or_long) {
        return Err(Refusal::by(10));
    }
    if reader.next != bytes.len() && fault != Fault::TrailingBytesTaken {
        return Err(Refusal::by(5));
    }
    check_body_with(&table, fault)?;
    Ok(table)
}

/// The route of a train as a part of the lent file. Refused: as the file is,
/// or by 14 where it has no such train.
pub fn route_in_file(bytes: &[u8], train: u8) -> Result<&[u8], Refusal> {
    let table = read_table(bytes)?;
    let next = network_bytes(table.version, table.segments.len(), table.boxes.len());
    let mut reader = Reader { bytes, next };
    let routes = table.trains.iter().map_while(|_| reader.train());
    let (_, route) = (1..).zip(routes).find(|&(number, _)| number == train).ok_or(Refusal::by(14))?.1;
    Ok(route)
}

/// Codes 1 to 4; version and the three counts.
fn read_head(bytes: &[u8], fault: Fault) -> Result<(u16, usize, usize, usize), Refusal> {
    if bytes.len() < HEAD_BYTES {
        return Err(Refusal::by(1));
    }
    if bytes[..3] != MARK {
        return Err(Refusal::by(2));
    }
    let version = u16::from_be_bytes([bytes[3], bytes[4]]);
    let wrongly_known = fault == Fault::VersionThreeTaken && version == 3;
    if !version_known(version) && !wrongly_known {
        return Err(Refusal::by(3));
    }
    let (n, m, k) = (bytes[5] as usize, bytes[6] as usize, bytes[7] as usize);
    if !counts_fit(n, m, k) {
        return Err(Refusal::by(4));
    }
    Ok((version, n, m, k))
}

/// All records, or nothing where the file ends within them.
fn read_body(reader: &mut Reader, version: u16, n: usize, m: usize, k: usize, fault: Fault) -> Option<Table> {
    let of_version = if fault == Fault::WaysNotCounted { VERSION_1 } else { version };
    let size = segment_bytes(of_version);
    let segments = reader
        .take(size * n)?
        .chunks(size)
        .map(|r| Segment { a: r[0], b: r[1], way: r.get(2).copied().unwrap_or(BOTH_WAYS) })
        .collect();
    let boxes = reader
        .take(BOX_BYTES * m)?
        .chunks(BOX_BYTES)
        .map(|r| SwitchBox {
            kind: r[0],
            stem: r[1],
            left: r[2],
            right: r[3],
            position: r[4],
        })
        .collect();
    let mut trains = Vec::new();
    for _ in 0..k {
        let (direction, route) = reader.train()?;
        trains.push(TrainEntry { direction, route: route.to_vec() });
    }
    Some(Table { version, segments, boxes, trains })
}
