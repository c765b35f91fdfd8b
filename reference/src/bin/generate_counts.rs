//! Counts how often each code comes up over generated files and steps, what
//! becomes of requests, of what is given back and of lost messages, and what
//! code 8 finds.
//! Arguments: seed, number of tables, damaged files per table, steps per
//! table.

use reference::argument::argument;
use reference::counts::{print_codes, CODES};
use reference::fault::Fault;
use reference::generate::damage::{damaged_file, DAMAGES};
use reference::generate::listing::{damaged_listing, ListingCounts};
use reference::generate::lock_asked::LockCounts;
use reference::generate::lost::{LostCounts, Watched};
use reference::generate::prng::Prng;
use reference::generate::steps::Driver;
use reference::generate::tables::{accepted_table, largest_table};
use reference::generate::way_asked::WayCounts;
use reference::line::{start_line, Line, Message, WISHES};
use reference::refusal::{code_of, numbers_of};
use reference::step::{step, Step};
use reference::table::{BOTH_WAYS, VERSION_1};
use reference::table_read::{read_table, read_table_with};
use reference::table_write::file_bytes;
use std::collections::HashMap;
use std::fmt::{Display, Formatter};

fn main() {
    let (seed, tables) = (argument(1, 1), argument(2, 500));
    let (damages, steps) = (argument(3, 44), argument(4, 2000));
    let mut file_codes = [0; CODES];
    let mut step_codes = [0; CODES];
    let mut messages = Messages::default();
    let mut locks = LockCounts::default();
    let mut lost = LostCounts::default();
    let mut ways = WayCounts::default();
    // Tables of version 1, of version 2 with all segments both ways, and with one-way segments.
    let mut versions = [0; 3];
    let mut way_files = WayFiles::default();
    let mut listings = ListingCounts::default();
    // 11 and 28, in train 1 and in later ones, at places 1 to 4 and later ones.
    let mut places = [[[0; 5]; 2]; 2];
    let (mut refused, mut farthest, mut most) = (0, 0, [0; 4]);
    for case in 0..tables {
        let mut rng = Prng::for_case(seed, case);
        let table = match case % 10 {
            9 => largest_table(&mut rng),
            _ => accepted_table(&mut rng),
        };
        let one_way = table.segments.iter().any(|s| s.way != BOTH_WAYS);
        versions[usize::from(table.version != VERSION_1) + usize::from(one_way)] += 1;
        let file = file_bytes(&table);
        let code = code_of(&read_table(&file));
        refused += usize::from(code != 0);
        file_codes[usize::from(code)] += 1;
        for i in 0..damages {
            let damaged = damaged_file(&mut rng, &table, (i % u64::from(DAMAGES)) as u8);
            let [code, train, place] = numbers_of(&read_table(&damaged));
            file_codes[usize::from(code)] += 1;
            way_files.add(&damaged, code);
            if train != 0 {
                let row = usize::from(code == 28);
                let place = usize::from(place.min(5)) - 1;
                places[row][usize::from(train > 1)][place] += 1;
            }
        }
        let mut listing_rng = Prng::for_case(seed + 1, case);
        (0..damages / 4).for_each(|_| listings.add(&damaged_listing(&mut listing_rng, &table)));
        let longest = table.trains.iter().map(|t| t.route.len()).max().unwrap_or(0);
        let sizes = [table.segments.len(), table.boxes.len(), table.trains.len(), longest];
        for (kept, size) in most.iter_mut().zip(sizes) {
            *kept = size.max(*kept);
        }
        let mut line = start_line(&table);
        let mut driver = Driver::new(&mut rng);
        lost.start();
        for _ in 0..steps {
            let bytes = driver.next_step(&mut rng, &line);
            let before = message_of(&line, bytes);
            locks.add(&line, bytes);
            let watched = Watched::of(&line, bytes);
            ways.add(&line, bytes);
            let code = step(&mut line, bytes);
            lost.add(watched, bytes, code);
            step_codes[code as usize] += 1;
            messages.add(&line, bytes, code, before);
        }
        messages.given_back.clear();
        farthest = line.trains.iter().map(|t| t.front).fold(farthest, usize::max);
    }
    println!("seed {seed}: {tables} tables, {damages} damaged files and {steps} steps each");
    println!("undamaged tables refused: {refused}");
    println!("most segments, boxes, trains, route length: {most:?}");
    println!("most segments entered by one train: {farthest}");
    println!("tables of version 1, of version 2 with all segments both ways, with one-way segments: {versions:?}");
    print_codes(&file_codes, &step_codes);
    println!("{way_files}");
    println!("code  train        at place 1, 2, 3, 4 and later ones");
    for (code, by_train) in [11, 28].into_iter().zip(places) {
        for (train, counts) in ["1", "later ones"].into_iter().zip(by_train) {
            println!("{code:4}  {train:10} {counts:6?}");
        }
    }
    println!("kind  sent, answered yes, answered no, heard");
    for (wish, counts) in WISHES.into_iter().zip(messages.counts) {
        println!("{:4}  {counts:6?}", wish as u8);
    }
    let [again, handed_on] = messages.after_back;
    print!("{ways}");
    print!("{locks}");
    print!("{lost}");
    println!("given back, then had again by the same train: {again}, by another one: {handed_on}");
    print!("{listings}");
}

/// Files that are refused by what version 2 adds.
#[derive(Default)]
struct WayFiles {
    other_length: usize,
    above_two: usize,
    train_one: usize,
    later_alone: usize,
    version_three: usize,
}

impl WayFiles {
    /// Counts a refused file.
    fn add(&mut self, file: &[u8], code: u8) {
        let without = |fault: Fault| code_of(&read_table_with(file, fault)) != code;
        match code {
            3 => self.version_three += usize::from(file[3..5] == [0, 3]),
            5 => self.other_length += usize::from(without(Fault::WaysNotCounted)),
            6 => self.above_two += usize::from(without(Fault::WayAboveTwoTaken)),
            32 if without(Fault::StartWayOfTrainOne) => self.later_alone += 1,
            32 => self.train_one += 1,
            _ => {}
        }
    }
}

impl Display for WayFiles {
    fn fmt(&self, f: &mut Formatter) -> std::fmt::Result {
        let WayFiles { other_length, above_two, train_one, later_alone, version_three } = self;
        write!(f, "3 by version 3: {version_three}; 5 by 2n in version 2: {other_length}; ")?;
        write!(f, "6 by a way alone: {above_two}; ")?;
        write!(f, "32 of train 1: {train_one}, of later trains alone: {later_alone}")
    }
}

/// What became of messages.
#[derive(Default)]
struct Messages {
    /// For each wish: sent, answered yes, answered no, heard.
    counts: [[usize; 4]; 4],
    /// The train that has given back a segment at a box, or the lock (segment 0).
    given_back: HashMap<(u8, u8), u8>,
    /// What was given back and is had again by the same train, or by another one.
    after_back: [usize; 2],
}

/// The message of the train that a step is about.
fn message_of(line: &Line, [_, train, _]: Step) -> Message {
    line.trains.get(usize::from(train).wrapping_sub(1)).map_or(Message::None, |t| t.message)
}

impl Messages {
    /// Counts a step with its code, the message before it and the line after it.
    fn add(&mut self, line: &Line, bytes: Step, code: u8, before: Message) {
        let (column, request) = match (before, message_of(line, bytes)) {
            (Message::None, Message::Sent(request)) => (0, request),
            (Message::Sent(_), Message::Answered(request, 0)) => (1, request),
            (Message::Sent(_), Message::Answered(request, _)) => (2, request),
            (Message::Answered(request, _), Message::None) => (3, request),
            _ => return,
        };
        let row = WISHES.iter().position(|&wish| wish == request.wish).expect("all wishes are listed");
        self.counts[row][column] += 1;
        if (column, code) != (1, 0) {
            return;
        }
        let train = bytes[1];
        let next = line.trains[usize::from(train) - 1].next_segment().unwrap_or(0);
        let what = (request.number, if request.wish.of_lock() { 0 } else { next });
        if request.wish.gives_back() {
            self.given_back.insert(what, train);
        } else if let Some(giver) = self.given_back.remove(&what) {
            self.after_back[usize::from(giver != train)] += 1;
        }
    }
}
