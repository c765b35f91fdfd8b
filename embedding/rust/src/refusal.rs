//! Why a call was refused.

use crate::code::{BUFFER_TOO_SHORT, ROUTE_NOT_FOLLOWING, ROUTE_SEGMENT_UNKNOWN};
use core::error::Error;
use core::fmt;

/// A refusal. Every buffer of the call is as it was.
#[derive(Clone, Copy, Debug, PartialEq, Eq)]
pub enum Refusal {
    /// The table is refused, with this code, 1 to 12, 28 or 32 (`code`). There is a place exactly with 11 and 28.
    Table { code: u8, at: Option<RoutePlace> },
    /// A lent buffer has less room than the call needs: `code::BUFFER_TOO_SHORT`.
    TooShort { buffer: Buffer, needed: usize, room: usize },
}

/// The place on a route for which a table is refused. docs/CODES.md says which byte of the table it is.
#[derive(Clone, Copy, Debug, PartialEq, Eq)]
pub struct RoutePlace {
    /// The train, counted from 1 in the order of the table.
    pub train: u8,
    /// The place on its route, counted from 1.
    pub place: u8,
}

/// The buffers that are lent to the engine.
#[derive(Clone, Copy, Debug, PartialEq, Eq)]
pub enum Buffer {
    Answers,
    Text,
    Table,
}

impl Refusal {
    /// The refusal of a table, from what the library gives.
    pub(crate) fn of_table(code: u8, train: u8, place: u8) -> Refusal {
        let by_a_route = matches!(code, ROUTE_SEGMENT_UNKNOWN | ROUTE_NOT_FOLLOWING);
        Refusal::Table { code, at: by_a_route.then_some(RoutePlace { train, place }) }
    }

    /// The number of the refusal, one of those in `code`.
    pub fn code(self) -> u8 {
        match self {
            Refusal::Table { code, .. } => code,
            Refusal::TooShort { .. } => BUFFER_TOO_SHORT,
        }
    }
}

impl fmt::Display for Refusal {
    fn fmt(&self, f: &mut fmt::Formatter) -> fmt::Result {
        match self {
            Refusal::Table { code, at: None } => write!(f, "{code}: the table is refused"),
            Refusal::Table { code, at: Some(RoutePlace { train, place }) } => {
                write!(f, "{code}: the table is refused, train {train}, place {place} on its route")
            }
            Refusal::TooShort { buffer, needed, room } => {
                write!(f, "{BUFFER_TOO_SHORT}: {buffer:?} has room for {room} bytes and needs {needed}")
            }
        }
    }
}

impl Error for Refusal {}
