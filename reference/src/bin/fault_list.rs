//! Prints the list of fault switches, as docs/FAULTS.md has it.

fn main() {
    print!("{}", reference::fault::page());
}
