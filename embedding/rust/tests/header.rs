//! The package has the version, the sizes and the names of the codes that the header for C has.

use lineengine::{MOST_PRINTED_STEPS, MOST_TABLE, STACK, VERSION};

const HEADER: &str = include_str!("../../lineengine.h");
const CODES: &str = include_str!("../src/code.rs");

/// The number that the header defines under a name.
fn defined(name: &str) -> usize {
    let start = format!("#define LINEENGINE_{name} ");
    let line = HEADER.lines().find_map(|line| line.strip_prefix(&start));
    line.and_then(|number| number.parse().ok()).unwrap_or_else(|| panic!("the header has no number {name}"))
}

/// Names with numbers: of each line that begins so, the name up to the sign and the number up to the end.
fn named(text: &str, start: &str, between: &str, end: &str) -> Vec<(String, usize)> {
    let lines = text.lines().filter_map(|line| line.trim_start().strip_prefix(start)?.split_once(between));
    lines.map(|(name, rest)| (name.to_string(), rest.split(end).next().unwrap_or("").trim().parse().expect(rest))).collect()
}

#[test]
fn codes() {
    let of_the_header = named(&HEADER.replace(" /*", ","), "LINEENGINE_", " = ", ",");
    let mut numbers: Vec<usize> = of_the_header.iter().map(|(_, number)| *number).collect();
    numbers.sort();
    assert_eq!(numbers, (0..=32).collect::<Vec<_>>());
    assert_eq!(named(CODES, "pub const ", ": u8 = ", ";"), of_the_header);
}

#[test]
fn version() {
    assert_eq!((VERSION.0 as usize, VERSION.1 as usize), (defined("VERSION_MAJOR"), defined("VERSION_MINOR")));
    assert!(env!("CARGO_PKG_VERSION").starts_with(&format!("{}.{}.", VERSION.0, VERSION.1)));
}

#[test]
fn sizes() {
    assert_eq!(MOST_TABLE, defined("MOST_TABLE"));
    assert_eq!(MOST_PRINTED_STEPS, defined("MOST_PRINTED_STEPS"));
    assert_eq!(STACK, defined("STACK"));
}
