//! samples/passing and samples/oneway, and the pages that show them: the README.md of each, and README.md.

mod common;

use common::page::{between, blocks, hex_bytes, numbers, on_one_line};
use reference::generate::example::file_text;
use reference::line::{start_line, Line, Message};
use reference::printout::printout;
use reference::step::{step, Step};
use reference::table_read::read_table;

const README: &str = include_str!("../../README.md");

/// The files of a sample and its page.
struct Sample {
    page: &'static str,
    net: &'static [u8],
    steps: &'static [u8],
    printout: &'static str,
}

const PASSING: Sample = Sample {
    page: include_str!("../../samples/passing/README.md"),
    net: include_bytes!("../../samples/passing/net"),
    steps: include_bytes!("../../samples/passing/steps"),
    printout: include_str!("../../samples/passing/printout"),
};

const ONE_WAY: Sample = Sample {
    page: include_str!("../../samples/oneway/README.md"),
    net: include_bytes!("../../samples/oneway/net"),
    steps: include_bytes!("../../samples/oneway/steps"),
    printout: include_str!("../../samples/oneway/printout"),
};

impl Sample {
    /// The start of the sample's line.
    fn start(&self) -> Line {
        start_line(&read_table(self.net).expect("the table is accepted"))
    }

    /// The rows of the page that show a step: its three bytes, the line printed for it, and words.
    fn rows(&self) -> Vec<(Step, &'static str, &'static str)> {
        let row = |line: &'static str| {
            let (bytes, rest) = line.split_once("   ")?;
            let (printed, words) = rest.split_once("  ").filter(|(printed, _)| !printed.is_empty())?;
            Some((hex_bytes(bytes)?.try_into().ok()?, printed, words.trim_start()))
        };
        self.page.lines().filter_map(row).collect()
    }
}

/// The words of a step that is accepted, answered no or heard as a no, by the line before it and after it.
fn words_of([kind, train, number]: Step, code: u8, before: &Line, after: &Line) -> String {
    let (was, is) = (&before.trains[train as usize - 1], &after.trains[train as usize - 1]);
    let next = was.route.get(was.front + 1).copied().unwrap_or(0);
    let (front, tail) = (is.front_segment(), was.tail_segment());
    let changed = (0..before.boxes.len()).find(|&i| before.boxes[i] != after.boxes[i]);
    match (kind, changed.map(|i| (i + 1, &after.table.boxes[i], before.boxes[i], after.boxes[i]))) {
        (3, None) => {
            let Message::Sent(request) = was.message else { panic!("nothing is asked") };
            let b = request.number;
            match code {
                22 => format!("box {b}: no, {next} is train {}'s at this end", before.reservation(next, b)),
                31 => format!("box {b}: no, {next} runs the other way"),
                _ => panic!("code {code}"),
            }
        }
        (1, None) => format!("train {train} asks box {number} to reserve segment {next}"),
        (2, None) => format!("train {train} asks box {number} for its lock"),
        (3, Some((b, _, old, new))) if old.lock == new.lock => {
            format!("box {b}: yes, {next} is train {train}'s at this end")
        }
        (3, Some((b, plan, old, new))) => {
            let moved = if old.position == new.position { "stays at" } else { "moves to" };
            let (position, branch) = (new.position, if new.position == 1 { plan.left } else { plan.right });
            let place = format!("{moved} position {position}, joining {} and {branch}", plan.stem);
            format!("box {b}: yes, locked for train {train}; the point {place}")
        }
        (4, None) => format!("train {train} hears it"),
        (5, Some((b, ..))) => format!("train {train} enters {front}, crossing box {b}"),
        (6, Some((b, ..))) => {
            format!("train {train} has left {tail}: box {b} is unlocked, {tail} and {front} are free there")
        }
        _ => panic!("kind {kind}, box {changed:?}"),
    }
}

/// The page has the table, the steps with their bytes, what is printed for each of them, and the end of the printout.
#[test]
fn page_has_the_sample() {
    for sample in [PASSING, ONE_WAY] {
        let (rows, blocks) = (sample.rows(), blocks(sample.page));
        assert!(blocks.contains(&file_text(sample.net).as_str()));
        assert_eq!(rows.iter().flat_map(|row| row.0).collect::<Vec<u8>>(), sample.steps);
        let lines: String = rows.iter().map(|row| format!("{}\n", row.1)).collect();
        let end = sample.printout.strip_prefix(&lines).expect("the lines of the steps");
        assert!(end.starts_with("train 1 ") && blocks.contains(&end));
        assert_eq!(printout(sample.net, sample.steps), sample.printout.as_bytes());
    }
}

/// The words of each step say what it does.
#[test]
fn steps_do_what_the_page_says() {
    for sample in [PASSING, ONE_WAY] {
        let mut line = sample.start();
        for (bytes, _, words) in sample.rows() {
            let before = line.clone();
            let code = step(&mut line, bytes);
            assert_eq!(words, words_of(bytes, code, &before, &line));
        }
    }
}

/// On this table every step of samples/passing is answered 0, and each train ends where the other one began.
fn trains_pass(net: &[u8]) {
    let mut line = start_line(&read_table(net).expect("the table is accepted"));
    for bytes in PASSING.steps.chunks(3) {
        assert_eq!(step(&mut line, bytes.try_into().expect("a step")), 0);
    }
    for (train, other) in [(0, 1), (1, 0)] {
        let (train, other) = (&line.trains[train], &line.trains[other]);
        assert_eq!((train.covered, train.front + 1), (1, train.route.len()));
        assert_eq!(train.route.last(), other.route.first());
        assert_ne!(train.direction, other.direction);
    }
}

#[test]
fn trains_pass_each_other() {
    trains_pass(PASSING.net);
    assert!(on_one_line(PASSING.page).contains(&format!("all {} codes are 0", PASSING.steps.len() / 3)));
}

/// With the record that the page names, the trains of samples/oneway pass each other by the steps of samples/passing.
#[test]
fn mended_route_leads_along_the_ways() {
    let words = on_one_line(ONE_WAY.page);
    let record = between(&words, "Mended in the table: `", "` as train 2").and_then(hex_bytes).expect("a record");
    let (front, last) = ONE_WAY.net.split_at(ONE_WAY.net.len() - record.len());
    assert_eq!(last[..2], record[..2]);
    trains_pass(&[front, &record].concat());
    assert!(words.contains(&format!("the {} steps of samples/passing are all answered 0", PASSING.steps.len() / 3)));
}

/// The request that the page says comes too early is answered as it says.
#[test]
fn request_comes_too_early() {
    let words = on_one_line(PASSING.page);
    let count = numbers(between(&words, "After step ", " the steps `").expect("a number"))[0] as usize;
    let early = numbers(between(&words, " the steps `", "` are answered").expect("steps"));
    let answers = numbers(between(&words, "` are answered ", ":").expect("answers"));
    let mut line = PASSING.start();
    let steps = [&PASSING.steps[..3 * count], &early].concat();
    let codes: Vec<u8> = steps.chunks(3).map(|bytes| step(&mut line, bytes.try_into().expect("a step"))).collect();
    assert_eq!(codes[count..], answers);
    assert!(codes[..count].iter().all(|&code| code == 0));
}

/// README.md has the end of the printout, indented as its commands are.
#[test]
fn readme_has_the_end_of_the_printout() {
    let end = &PASSING.printout[PASSING.printout.find("train 1 ").expect("trains")..];
    let shown: String = end.lines().map(|line| format!("    {line}\n")).collect();
    assert!(README.contains(&format!("\n{shown}\n")));
}
