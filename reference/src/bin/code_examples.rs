//! Prints the smallest example of each code 1 to 32, as docs/CODES.md has them, with what the program `line` prints
//! for the files of 11 and 28.

use reference::generate::smallest::smallest_examples;
use reference::printout::printout;

fn main() {
    for (code, example) in (1..).zip(smallest_examples()) {
        println!("## {code}\n\n```\n{}```\n", example.text());
        if matches!(code, 11 | 28) {
            let printed = printout(&example.file, &[]);
            println!("`{}`\n", String::from_utf8_lossy(&printed).trim_end());
        }
    }
}
