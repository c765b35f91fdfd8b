//! The page docs/FAULTS.md is what the program `fault_list` prints, with every switch in one line.

use reference::fault::{page, FAULTS};

const PAGE: &str = include_str!("../../docs/FAULTS.md");

#[test]
fn page_is_what_the_program_prints() {
    let due = page();
    for (line, due) in PAGE.lines().zip(due.lines()) {
        assert_eq!(line, due, "docs/FAULTS.md is out of date: target/release/fault_list prints it");
    }
    assert!(PAGE == due, "docs/FAULTS.md is shorter or longer than what target/release/fault_list prints");
}

#[test]
fn every_switch_has_one_line() {
    for fault in FAULTS {
        let begin = format!("| {fault:?} | ");
        let lines: Vec<&str> = PAGE.lines().filter(|line| line.starts_with(&begin)).collect();
        assert_eq!(lines.len(), 1, "{fault:?}");
        assert!(lines[0].len() > begin.len() + " |".len(), "{fault:?} is not described");
    }
}
