//! Counts of codes, as the comparing programs print them.

/// Codes are below this.
pub const CODES: usize = 33;
/// How often each code came.
pub type Counts = [usize; CODES];
/// The codes that refuse a file, in the order of their numbers.
pub const FILE_CODES: [u8; 14] = [1, 2, 3, 4, 5, 6, 7, 8, 9, 10, 11, 12, 28, 32];

/// Whether a code refuses a file.
pub fn of_file(code: u8) -> bool {
    FILE_CODES.contains(&code)
}

/// 0 and the codes that refuse a file.
pub fn file_codes() -> impl Iterator<Item = usize> {
    std::iter::once(0).chain(FILE_CODES.map(usize::from))
}

/// The codes of steps on records that 27 lets through: 0, 13 to 25 and 29 to 31.
pub fn step_codes() -> impl Iterator<Item = usize> {
    std::iter::once(0).chain(13..=25).chain(29..=31)
}

/// The codes of steps from the start of an accepted table on: all of these but 23.
pub fn list_codes() -> impl Iterator<Item = usize> {
    step_codes().filter(|&code| code != 23)
}

/// Whether a code refuses a step, which then leaves the line as it was: 13 to 21, 29 and 30.
pub fn refuses_step(code: u8) -> bool {
    matches!(code, 13..=21 | 29 | 30)
}

/// Whether a code is a no of a box, which is then on its way: 22 to 25 and 31.
pub fn says_no(code: u8) -> bool {
    matches!(code, 22..=25 | 31)
}

/// Files and steps by code.
pub fn print_codes(files: &Counts, steps: &Counts) {
    println!("code  files");
    for code in file_codes() {
        println!("{code:4} {:8}", files[code]);
    }
    println!("code  steps");
    for code in step_codes() {
        println!("{code:4} {:8}", steps[code]);
    }
}
