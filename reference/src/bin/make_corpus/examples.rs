//! The smallest example of each code 1 to 32, as docs/CODES.md has them.

use crate::corpus::Corpus;
use reference::generate::example::Example;
use reference::generate::made_up::Aim;
use reference::generate::smallest::smallest_examples;
use reference::record::Change;
use reference::table_read::read_table;

/// A file for each example, with its steps or its made-up records; the short buffer of 26 goes with every
/// accepted file.
pub fn smallest(corpus: &mut Corpus) {
    for (code, example) in (1..).zip(smallest_examples()) {
        corpus.file(&example.file);
        match example.change {
            Some(change) => changed(corpus, &example, change, if code == 27 { Aim::Position } else { Aim::Nothing }),
            None if example.steps.is_empty() => {}
            None => corpus.steps(&example.steps.concat()),
        }
    }
}

/// Each step on the line that the steps before it lead to, with the change, which plays no part in those.
fn changed(corpus: &mut Corpus, example: &Example, change: Change, aim: Aim) {
    let table = read_table(&example.file).expect("the file is accepted");
    let steps = example.steps.concat();
    corpus.steps(&steps[..steps.len() - 3]);
    for (i, (&bytes, due)) in example.steps.iter().zip(example.answers(&table)).enumerate() {
        assert_eq!(corpus.made_up(3 * i, &[change], bytes, aim), due);
    }
}
