//! Reads the table from the file `net` (or the path given) and steps from
//! standard input; prints what the program `line` must print.

use std::io::{Read, Write};

fn main() {
    let path = std::env::args_os().nth(1).unwrap_or_else(|| "net".into());
    let file = std::fs::read(path).unwrap_or_default();
    let mut input = Vec::new();
    let mut stdin = std::io::stdin().lock();
    // Whatever was read before an error stands as the input.
    let _ = stdin.read_to_end(&mut input);
    let _ = std::io::stdout().write_all(&reference::printout::printout(&file, &input));
}
