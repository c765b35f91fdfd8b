//! Why a file, a table, a run or a route is refused.

use std::fmt;

/// A code and, with 11 and 28, the train and the place on its route, both counted from 1. With any other
/// code train and place are 0.
#[derive(Clone, Copy, Debug, PartialEq, Eq)]
pub struct Refusal {
    pub code: u8,
    pub train: u8,
    pub place: u8,
}

impl Refusal {
    /// By a code that tells no train and place.
    pub const fn by(code: u8) -> Refusal {
        Refusal { code, train: 0, place: 0 }
    }

    /// Code, train and place.
    pub const fn numbers(self) -> [u8; 3] {
        [self.code, self.train, self.place]
    }

    /// The code and, unless both are 0, train and place, with this between them.
    pub fn text(self, between: char) -> String {
        let Refusal { code, train, place } = self;
        match (train, place) {
            (0, 0) => code.to_string(),
            _ => format!("{code}{between}{train}{between}{place}"),
        }
    }
}

/// As the program `line` prints it.
impl fmt::Display for Refusal {
    fn fmt(&self, f: &mut fmt::Formatter) -> fmt::Result {
        f.write_str(&self.text(' '))
    }
}

/// Code, train and place of what was or was not refused; all are 0 where it was not.
pub fn numbers_of<T>(result: &Result<T, Refusal>) -> [u8; 3] {
    result.as_ref().map_or_else(|refusal| refusal.numbers(), |_| [0; 3])
}

/// The code of what was or was not refused; 0 where it was not.
pub fn code_of<T>(result: &Result<T, Refusal>) -> u8 {
    numbers_of(result)[0]
}
