//! The pages docs/CODES.md and docs/TABLES.md have the bytes, steps and printouts that they should have.

mod common;

use common::page::{between, blocks, hex_bytes, numbers, on_one_line};
use reference::counts::of_file;
use reference::generate::example::{file_text, record_text, Example, BOX_FIELDS};
use reference::generate::smallest::{refused_size, smallest_accepted, smallest_examples};
use reference::printout::printout;
use reference::refusal::Refusal;
use reference::table::{network_bytes, A_TO_B, BOTH_WAYS, B_TO_A, VERSION_2};
use reference::table_read::read_table;
use reference::table_write::file_bytes;

const CODES: &str = include_str!("../../docs/CODES.md");
const TABLES: &str = include_str!("../../docs/TABLES.md");
const S: &[u8] = include_bytes!("../../samples/s/net");
const S_STEPS: &[u8] = include_bytes!("../../samples/s/steps");
const S_PRINTOUT: &str = include_str!("../../samples/s/printout");
const PASSING_STEPS: &[u8] = include_bytes!("../../samples/passing/steps");
const REFUSED: &[u8] = include_bytes!("../../samples/refused/net");
const REFUSED_STEPS: &[u8] = include_bytes!("../../samples/refused/steps");
const REFUSED_PRINTOUT: &str = include_str!("../../samples/refused/printout");

/// The entries of the page of codes: number and text of each heading that begins with a number.
fn entries() -> Vec<(u8, &'static str)> {
    let sections = CODES.split("\n## ").skip(1);
    sections.filter_map(|s| Some((s.split(' ').next()?.parse().ok()?, s))).collect()
}

/// Reads an example from its block, the words on the right left out.
fn example(block: &str) -> Example {
    let mut example = Example::default();
    for line in block.lines() {
        let left = line.split("  ").next().unwrap_or("");
        if left.starts_with('(') {
            example.steps.push(numbers(left).try_into().expect("a step has three numbers"));
        } else if left.starts_with("buffer") {
            example.buffer = Some(numbers(left)[0] as usize);
        } else if let Some((number, value)) = left.split_once(": ") {
            let (_, name) = number.split_once(", ").expect("a box and its field");
            let field = BOX_FIELDS.iter().position(|&f| f == name).expect("a field of a box");
            example.change = Some([b'b', numbers(number)[0] - 1, field as u8, numbers(value)[0]]);
        } else {
            example.file.extend(hex_bytes(left).expect("bytes"));
        }
    }
    example
}

#[test]
fn codes_have_their_smallest_examples() {
    let (entries, examples) = (entries(), smallest_examples());
    // 29 stands in the place where it is looked at, beside 18, 30 beside 21, which is about messages too, and 31 before
    // 22.
    let due: Vec<u8> = (1..=18).chain([29]).chain(19..=21).chain([30, 31]).chain(22..=28).chain([32]).collect();
    assert_eq!(entries.iter().map(|&(code, _)| code).collect::<Vec<u8>>(), due);
    assert_eq!(examples.len(), due.len());
    for (code, text) in entries {
        let smallest = &examples[usize::from(code) - 1];
        let block = blocks(text)[1];
        let on_page = example(block);
        assert_eq!(on_page, *smallest, "entry {code}");
        assert_eq!(on_page.answer(), code, "entry {code}");
        assert_eq!(block, smallest.text(), "entry {code}");
    }
}

/// The smallest example of an entry, mended as the entry says: with a record in the place of another, or with
/// steps before its own.
fn mended(text: &str) -> Option<Example> {
    let block = blocks(text)[1];
    let words = on_one_line(text);
    if let Some(steps) = between(&words, "With the steps `", "` before, the answer is 0.") {
        return Some(example(&format!("{}\n{block}", on_lines(steps))));
    }
    let (record, name) = between(&words, "With `", " the file is accepted.")?.split_once("` as ")?;
    let line = block.lines().find(|line| line.contains(&format!("  {name}: "))).expect("the record is there");
    Some(example(&block.replace(line, record)))
}

/// Mended examples have code 0.
#[test]
fn mended_examples_are_accepted() {
    let tried = entries().into_iter().filter_map(|(code, text)| Some((code, mended(text)?)));
    let answers: Vec<(u8, u8)> = tried.map(|(code, example)| (code, example.answer())).collect();
    assert_eq!(answers, [6, 7, 8, 10, 11, 29, 19, 25, 28, 32].map(|code| (code, 0)));
}

/// A file has the code, or it is accepted and every step before the last is answered 0.
#[test]
fn examples_show_one_code() {
    for (i, smallest) in smallest_examples().into_iter().enumerate() {
        let code = i as u8 + 1;
        assert_eq!(read_table(&smallest.file).is_err(), of_file(code), "code {code}");
        for length in 1..smallest.steps.len() {
            let front = Example { steps: smallest.steps[..length].to_vec(), ..smallest.clone() };
            assert_eq!(front.answer(), 0, "code {code}");
        }
    }
}

/// No change of a byte to any value, and no front part, makes a smaller example of any code of a file.
#[test]
fn no_neighbour_is_smaller() {
    let (accepted, examples) = (smallest_accepted(), smallest_examples());
    let smaller = |a: &[u8], b: &[u8]| refused_size(a, &accepted) < refused_size(b, &accepted);
    let check = |file: &[u8]| match read_table(file) {
        Err(refusal) => assert!(!smaller(file, &examples[refusal.code as usize - 1].file), "{file:?}"),
        Ok(_) => assert!((file.len(), file) >= (accepted.len(), &accepted[..]), "{file:?}"),
    };
    for smallest in &examples {
        let file = &smallest.file;
        (0..=file.len()).for_each(|length| check(&file[..length]));
        for (place, value) in (0..file.len()).flat_map(|place| (0..=255).map(move |value| (place, value))) {
            let mut changed = file.clone();
            changed[place] = value;
            check(&changed);
        }
    }
}

/// The steps of a sentence, a step a line.
fn on_lines(steps: &str) -> String {
    steps.replace(") (", ")\n(")
}

/// Bytes and name of a record's line.
fn record(line: &str) -> (Vec<u8>, &str) {
    let (bytes, words) = line.split_once("  ").expect("bytes and words");
    let (name, _) = words.trim_start().split_once(": ").expect("the record's name");
    (hex_bytes(bytes).expect("bytes"), name)
}

/// Table S as a block changes it, and the lines of the block that change no record. Each line `-` takes a record
/// out of S, the line `+` after it puts another in its place.
fn mistaken(block: &str) -> (Vec<u8>, String) {
    let (text, mut place, mut others) = (file_text(S), 0, String::new());
    let mut records: Vec<&str> = text.lines().collect();
    let mut out = "";
    for line in block.lines() {
        if let Some(line) = line.strip_prefix("- ") {
            place += records[place..].iter().position(|&r| r == line).expect("a record of S");
            out = records.remove(place);
        } else if let Some(line) = line.strip_prefix("+ ") {
            let (bytes, name) = record(line);
            assert_eq!(name, record(out).1);
            assert_eq!(format!("{line}\n"), record_text(name, &bytes));
            records.insert(place, line);
        } else {
            others += &format!("{line}\n");
        }
    }
    (example(&records.join("\n")).file, others)
}

/// What commands write that have the bytes of the last records, or of the first one, of S.
fn mistyped(block: &str) -> Vec<u8> {
    let digits = |line: &str| Some(hex_bytes(&between(line, "'", "'")?.replace("\\x", " ")).expect("bytes"));
    let typed = block.lines().filter_map(digits).collect::<Vec<_>>().concat();
    assert!(S.ends_with(&typed) || S[..8] == typed);
    printed_to(block, "net")
}

/// Lines as an example on a file, after as many steps of samples/passing as the words say.
fn on_file(file: &[u8], words: &str, lines: &str) -> Example {
    let mut example = Example { file: file.to_vec(), ..example(lines) };
    if let Some(count) = between(words, "After the ", " steps of samples/passing") {
        let before = &PASSING_STEPS[..3 * numbers(count)[0] as usize];
        assert_eq!(count.starts_with("first "), before.len() < PASSING_STEPS.len());
        let before = before.chunks(3).map(|bytes| bytes.try_into().expect("three bytes"));
        example.steps.splice(0..0, before);
    }
    example
}

/// The mistakes on table S have their codes, all of their steps the answers that stand there.
#[test]
fn mistakes_have_their_codes() {
    for (code, text) in entries() {
        let words = on_one_line(text.split("```\n").next().expect("words"));
        let block = blocks(text)[0];
        let (file, lines) = if code <= 2 { (mistyped(block), String::new()) } else { mistaken(block) };
        let mistake = on_file(&file, &words, &lines);
        assert_eq!(mistake.answer(), code, "entry {code}");
        assert_eq!(lines.is_empty(), of_file(code), "entry {code}");
        assert!(lines.is_empty() || mistake.text().ends_with(&format!("\n{lines}")), "entry {code}");
    }
}

/// The files of the mistake on table S and of the smallest example of an entry.
fn refused_files(text: &str) -> [Vec<u8>; 2] {
    let blocks = blocks(text);
    [mistaken(blocks[0]).0, example(blocks[1]).file]
}

/// Entries 11 and 28 say, under the mistake on table S and under the smallest example, what `line` prints: the first
/// text in backquotes there that begins with `file`.
#[test]
fn route_codes_have_train_and_place() {
    for (code, text) in entries().into_iter().filter(|(code, _)| matches!(code, 11 | 28)) {
        let under = text.split("```\n").skip(2).step_by(2);
        for (file, words) in refused_files(text).iter().zip(under) {
            let said = between(words, "`file ", "`").expect("what is printed");
            let printed = format!("file {said}\n");
            assert_eq!(printout(file, &[]), printed.into_bytes(), "entry {code}");
        }
    }
}

/// The page has a command that shows the segment at fault of the mistake on table S of entry 11, by its place in the
/// file.
#[test]
fn train_and_place_lead_to_the_byte() {
    let (_, text) = entries()[10];
    let [file, _] = refused_files(text);
    let Refusal { train, place, .. } = read_table(&file).expect_err("the file is refused");
    let place_in_file: usize = between(CODES, "xxd -s ", " -l 1 net").and_then(|n| n.parse().ok()).expect("a place");
    let [n, m] = [file[5], file[6]].map(usize::from);
    let mut record = network_bytes(u16::from(file[4]), n, m);
    for _ in 1..train {
        record += 2 + usize::from(file[record + 1]);
    }
    assert_eq!(place_in_file, record + 2 + usize::from(place) - 1);
    assert!(!(1..=file[5]).contains(&file[place_in_file]));
}

/// What is right instead has code 0 on table S, at every step. Where the mistake is in the record, the steps are right as
/// they are.
#[test]
fn what_is_right_is_accepted() {
    let mut tried = Vec::new();
    for (code, text) in entries() {
        let words = on_one_line(text);
        let Some(steps) = between(&words, "Right: `", "`") else { continue };
        let right = on_file(S, &words, &on_lines(steps));
        let mistake = example(&mistaken(blocks(text)[0]).1);
        assert!(mistake.change.is_none() || mistake.steps == right.steps, "entry {code}");
        for length in 0..=right.steps.len() {
            let front = Example { steps: right.steps[..length].to_vec(), ..right.clone() };
            assert_eq!(front.answer(), 0, "entry {code}, {length} steps");
        }
        tried.push(code);
    }
    assert_eq!(tried, [13, 14, 15, 17, 18, 29, 19, 20, 21, 30, 31, 22, 23, 24, 25, 26, 27]);
}

/// The entry of 13 has the bytes of a step typed as text, the steps that they are and what is printed for them.
#[test]
fn step_typed_as_text() {
    let (_, text) = entries()[12];
    let words = on_one_line(text);
    let typed = between(&words, "the step `", "` is typed as text").expect("what is typed");
    let bytes = between(&words, "these are the bytes ", ", which").and_then(hex_bytes).expect("its bytes");
    let printed = between(&words, "`line` prints `", "`.").expect("what is printed").replace("` and `", "\n");
    assert_eq!(bytes, format!("{typed}\n").into_bytes());
    assert_eq!(bytes, example(blocks(text)[0]).steps.concat());
    assert!(printout(S, &bytes).starts_with(format!("{printed}\ntrain 1").as_bytes()));
}

/// The bytes that the commands `printf '\x..' > NAME` and `>> NAME` of a text leave in the file.
fn printed_to(text: &str, name: &str) -> Vec<u8> {
    let mut file = Vec::new();
    for line in text.lines().filter(|line| line.starts_with("printf '")) {
        let (words, target) = line["printf '".len()..].split_once("' >").expect("a file is written");
        if target.trim_start_matches(['>', ' ']) != name {
            continue;
        }
        if !target.starts_with('>') {
            file.clear();
        }
        match words.strip_prefix("\\x") {
            Some(escapes) => file.extend(hex_bytes(&escapes.replace("\\x", " ")).expect("bytes")),
            None => file.extend(words.bytes()),
        }
    }
    file
}

/// The bytes that a block of hexadecimal digits for `xxd -r -p` stands for.
fn plain_hex(block: &str) -> Option<Vec<u8>> {
    let digits = block.strip_prefix("xxd -r -p > net <<END\n")?.strip_suffix("END\n")?;
    hex_bytes(digits)
}

#[test]
fn tables_page_has_table_s() {
    let blocks = blocks(TABLES);
    assert!(blocks.contains(&file_text(S).as_str()));
    assert_eq!(printed_to(TABLES, "net"), S);
    assert_eq!(printed_to(TABLES, "steps"), S_STEPS);
    assert_eq!(blocks.iter().filter_map(|block| plain_hex(block)).collect::<Vec<_>>(), [S]);
    assert_eq!(printout(S, S_STEPS), S_PRINTOUT.as_bytes());
    assert!(blocks.contains(&S_PRINTOUT));
}

/// The page has table S as version 2, which runs as S does, and the ways with which its trains still pass each other.
#[test]
fn tables_page_has_table_s_as_version_2() {
    let mut table = read_table(S).expect("table S is accepted");
    table.version = VERSION_2;
    let (both_ways, words) = (file_bytes(&table), on_one_line(TABLES));
    assert!(blocks(TABLES).contains(&file_text(&both_ways).as_str()));
    assert!(words.contains(&format!("= {} bytes and runs as it does in version 1", both_ways.len())));
    assert_eq!(printout(&both_ways, S_STEPS), S_PRINTOUT.as_bytes());
    for segment in [2, 3] {
        let (front, _) = words.split_once(&format!("` as segment {segment} ")).expect("the segment");
        let (_, record) = front.rsplit_once('`').expect("its record");
        table.segments[segment - 1].way = hex_bytes(record).expect("bytes")[2];
    }
    assert_eq!(table.segments.iter().map(|s| s.way).collect::<Vec<_>>(), [BOTH_WAYS, A_TO_B, B_TO_A, BOTH_WAYS]);
    assert_eq!(printout(&file_bytes(&table), PASSING_STEPS), printout(S, PASSING_STEPS));
}

/// samples/refused is table S with the route 2, 3 for train 1; the page shows its train records.
#[test]
fn tables_page_has_the_refused_sample() {
    assert_eq!(REFUSED, [&S[..36], &[0, 2, 2, 3], &S[41..]].concat());
    assert_eq!(REFUSED_STEPS, S_STEPS);
    assert_eq!(printout(REFUSED, REFUSED_STEPS), REFUSED_PRINTOUT.as_bytes());
    let blocks = blocks(TABLES);
    let text = file_text(REFUSED);
    let trains = &text[text.find("00 02 02 03").expect("train 1")..];
    assert!(blocks.contains(&trains));
    assert!(blocks.contains(&REFUSED_PRINTOUT));
    let record = between(TABLES, "record is `", "` and the table is accepted").expect("the mended record");
    let mended = example(&text.replace(trains.lines().next().expect("train 1"), record));
    assert_eq!(read_table(&mended.file).map(|table| table.trains[0].route.clone()), Ok(vec![2, 4]));
}
