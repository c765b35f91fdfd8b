//! Prints generated cases as theorems about the definitions of the crate `rules`, each proved by
//! computing: codes, stem sides and bytes of files, the writer's buffer, routes, printouts, lines, places,
//! orders, atomic lines, atomic steps that are stopped, and single steps on records made up from lines that
//! steps have reached, among them locks answered and heard, with all that a box can find in turn, messages that
//! are lost and sent again, and segments that run against a train. A table is told by the bytes of its file, so that
//! no record of version 1 has a one-way segment.
//! `tools/compare-definitions` has them checked.
//! Arguments: seed, number of cases, steps per case.

mod made_up;
mod text;

use made_up::{lock_case, made_up_case, way_case};
use reference::argument::argument;
use reference::atomic::{atomic_order, fold_places, WholeLine};
use reference::generate::damage::{damaged_file, DAMAGES};
use reference::generate::listing::damaged_listing;
use reference::generate::prng::Prng;
use reference::generate::steps::drive;
use reference::generate::tables::{accepted_table, largest_table};
use reference::line::*;
use reference::numbers::line_numbers;
use reference::printout::printout;
use reference::refusal::numbers_of;
use reference::step::Step;
use reference::table::{Table, TrainEntry, BOTH_WAYS, VERSION_2};
use reference::table_check::{stem_sides, StemSide};
use reference::table_read::read_table;
use reference::table_write::{file_bytes, write_table};
use text::{list, steps_text, theorem, HEADER};

const S: &[u8] = include_bytes!("../../../../samples/s/net");

fn main() {
    let (seed, cases, steps) = (argument(1, 1), argument(2, 60), argument(3, 40));
    print!("{HEADER}");
    contest();
    for case in 0..cases {
        let mut rng = Prng::for_case(seed, case);
        let table = match case % 12 {
            11 => largest_table(&mut rng),
            _ => accepted_table(&mut rng),
        };
        run_case(&mut rng, case, &table, steps as usize);
        file_case(&mut rng, case, &table);
        damaged_case(&mut rng, case, &table);
        atomic_case(&mut rng, case, &table, steps as usize);
        made_up_case(&mut rng, case, &table, steps as usize);
        lock_case(&mut rng, case, steps as usize);
        way_case(&mut rng, case, steps as usize);
        listing_case(&mut Prng::for_case(seed + 1, case), case, &table);
    }
}

/// An accepted table and a list of steps.
fn run_case(rng: &mut Prng, case: u64, table: &Table, steps: usize) {
    let file = file_bytes(table);
    let mut line = start_line(table);
    let events = drive(rng, &mut line, steps);
    let taken: Vec<Step> = events.iter().map(|&(bytes, _)| bytes).collect();
    let mut input = taken.concat();
    if rng.chance(40) {
        input.truncate(input.len().saturating_sub(rng.between(1, 2)));
    }
    let order = atomic_order(&events);
    let mut whole = WholeLine::start(table);
    let mut stopped = 0;
    for &bytes in &order {
        stopped |= u8::from(whole.take(bytes) != 0);
    }
    let (bytes, list_of_steps) = (list(&file), steps_text(&taken));
    theorem(&format!("code_{case}"), &format!("code_of {bytes}"), &[0; 3]);
    theorem(&format!("bytes_{case}"), &format!("rewritten {bytes}"), &file);
    theorem(
        &format!("text_{case}"),
        &format!("printed {bytes} {}", list(&input)),
        &printout(&file, &input),
    );
    let mut places = Vec::new();
    for place in fold_places(table.trains.len(), &events) {
        places.extend([place.front as u8 + 1, (place.front - place.tail) as u8 + 1]);
    }
    theorem(&format!("places_{case}"), &format!("places_of {bytes} {list_of_steps}"), &places);
    theorem(&format!("line_{case}"), &format!("line_of {bytes} {list_of_steps}"), &line_numbers(&line));
    let mut numbers = vec![stopped];
    numbers.extend(order.concat());
    theorem(&format!("order_{case}"), &format!("order_of {bytes} {list_of_steps}"), &numbers);
    theorem(
        &format!("atomic_{case}"),
        &format!("atomic_line_of {bytes} {list_of_steps}"),
        &whole_numbers(table, &whole),
    );
}

/// The writer's refusal and buffer, for the table and for one with a number altered; a route as a
/// part of the file: its refusal, where it begins, its bytes.
fn file_case(rng: &mut Prng, case: u64, table: &Table) {
    let mut altered = table.clone();
    alter_table(rng, &mut altered);
    for (name, table) in [("written", table), ("rewritten", &altered)] {
        let file = file_bytes(table);
        let length = (file.len() + rng.below(5)).saturating_sub(2);
        let mut buffer = vec![7; length];
        let mut numbers = numbers_of(&write_table(table, &mut buffer)).to_vec();
        numbers.extend(&buffer);
        let question = format!("written_to (decode {}) {}", list(&file), list(&vec![7; length]));
        theorem(&format!("{name}_{case}"), &question, &numbers);
    }
    let train = rng.below(table.trains.len() + 2);
    let numbers = match train.checked_sub(1).and_then(|i| table.trains.get(i)) {
        None => vec![14, 0, 0, 0],
        Some(entry) => {
            let mut before = table.clone();
            before.trains.truncate(train);
            before.trains[train - 1].route.clear();
            let mut numbers = vec![0, 0, 0, file_bytes(&before).len()];
            numbers.extend(entry.route.iter().map(|&segment| segment as usize));
            numbers
        }
    };
    theorem(&format!("route_{case}"), &format!("route_of {} {train}", list(&file_bytes(table))), &numbers);
}

/// Alters one number of a table, or two of its routes.
fn alter_table(rng: &mut Prng, table: &mut Table) {
    let segment = rng.below(table.segments.len());
    let b = rng.below(table.boxes.len());
    let number = rng.below(5) as u8;
    let one_way = table.segments.iter().any(|s| s.way != BOTH_WAYS);
    match rng.below(14) {
        0 => table.version = rng.pick(if one_way { &[0, 2, 3] } else { &[0, 1, 2, 3] }),
        12 | 13 => {
            table.version = VERSION_2;
            table.segments[segment].way = number;
        }
        1 => table.segments[segment].a = number,
        2 => table.segments[segment].b = number,
        3 => table.boxes[b].kind = number,
        4 => table.boxes[b].left = number,
        5 => table.boxes[b].position = number,
        6 => table.boxes[b].stem = number,
        7 => {
            if let Some(last) = table.trains.last_mut() {
                last.direction ^= 1;
            }
        }
        _ if table.trains.is_empty() => {}
        // One or two segments of routes.
        more => {
            for _ in 8..=more.min(9) {
                let train = rng.below(table.trains.len());
                let place = rng.below(table.trains[train].route.len());
                table.trains[train].route[place] = rng.below(table.segments.len() + 2) as u8;
            }
        }
    }
}

/// Damaged files, the first of them in its trains: what refuses it, what is printed for it, and the route of a train
/// of the first one.
fn damaged_case(rng: &mut Prng, case: u64, table: &Table) {
    for damage in 0..4 {
        let aim = if damage == 0 { rng.between(15, 20) } else { rng.below(usize::from(DAMAGES)) };
        let file = damaged_file(rng, table, aim as u8);
        let (name, bytes) = (format!("{case}_{damage}"), list(&file));
        let refusal = numbers_of(&read_table(&file));
        theorem(&format!("damaged_{name}"), &format!("code_of {bytes}"), &refusal);
        if damage == 0 && refusal[0] != 0 {
            let [code, train, place] = refusal;
            let asked = rng.below(table.trains.len() + 2);
            theorem(&format!("refused_text_{name}"), &format!("printed {bytes} []"), &printout(&file, &[]));
            theorem(&format!("refused_route_{name}"), &format!("route_of {bytes} {asked}"), &[code, train, place, 0]);
        }
    }
}

/// The stem sides of the table, and of one with its boxes or ends damaged; what refuses the latter.
fn listing_case(rng: &mut Prng, case: u64, table: &Table) {
    let damaged = damaged_listing(rng, table);
    sides(&format!("sides_{case}"), table);
    sides(&format!("listing_sides_{case}"), &damaged);
    let file = file_bytes(&damaged);
    theorem(&format!("listing_{case}"), &format!("code_of {}", list(&file)), &numbers_of(&read_table(&file)));
}

/// A theorem about the stem sides of all boxes.
fn sides(name: &str, table: &Table) {
    let number = |side: &StemSide| match side {
        StemSide::Neither => 0,
        StemSide::A => 1,
        StemSide::B => 2,
    };
    let numbers: Vec<u8> = stem_sides(table).iter().map(number).collect();
    theorem(name, &format!("sides_of {}", list(&file_bytes(table))), &numbers);
}

/// A list of atomic steps chosen freely, some of them stopped.
fn atomic_case(rng: &mut Prng, case: u64, table: &Table, steps: usize) {
    let k = table.trains.len();
    if k == 0 {
        return;
    }
    let mut whole = WholeLine::start(table);
    let mut taken = Vec::new();
    for _ in 0..steps {
        let train = rng.between(1, k);
        let (entry, place) = (&table.trains[train - 1], whole.trains[train - 1].place);
        let next = entry.route.get(place.front + 1).copied().unwrap_or(0);
        let ends = [table.near_box(next, entry.direction), table.far_box(next, entry.direction)];
        let kind = rng.pick(&[1, 1, 1, 1, 2, 2, 2, 5, 5, 6, 7, 8]);
        let number = match kind {
            1 | 2 | 7 | 8 if rng.chance(90) => rng.pick(&ends),
            1 | 2 | 7 | 8 => rng.below(table.boxes.len() + 2) as u8,
            _ => 0,
        };
        let bytes = [kind, train as u8, number];
        whole.take(bytes);
        taken.push(bytes);
    }
    atomic_answers(&format!("free_{case}"), table, &taken);
}

/// Two trains abreast on the track of table S: the second asks for the lock of their point while the first has it,
/// crosses the point and has cleared it.
fn contest() {
    let mut table = read_table(S).expect("table S is accepted");
    table.trains = [2, 3].map(|first| TrainEntry { direction: 0, route: vec![first, 4] }).into();
    let taken = [[1, 1, 3], [1, 1, 4], [2, 1, 3], [2, 2, 3], [5, 1, 0], [2, 2, 3], [6, 1, 0], [2, 2, 3]];
    atomic_answers("contest", &table, &taken);
}

/// A theorem about the answers to a list of atomic steps and the line after it.
fn atomic_answers(name: &str, table: &Table, taken: &[Step]) {
    let mut whole = WholeLine::start(table);
    let codes: Vec<u8> = taken.iter().map(|&bytes| whole.take(bytes)).collect();
    let mut numbers = vec![u8::from(codes.iter().any(|&code| code != 0))];
    numbers.extend(&codes);
    numbers.extend(whole_numbers(table, &whole));
    let question = format!("atomic_answers_to {} {}", list(&file_bytes(table)), steps_text(taken));
    theorem(name, &question, &numbers);
}

/// All trains and boxes of an atomic line as numbers; it has no messages.
fn whole_numbers(table: &Table, whole: &WholeLine) -> Vec<u8> {
    let mut numbers = Vec::new();
    for (entry, train) in table.trains.iter().zip(&whole.trains) {
        let place = train.place;
        let covered = (place.front - place.tail) as u8 + 1;
        numbers.extend([entry.direction, entry.route.len() as u8, place.front as u8 + 1, covered]);
        let known = |segment: u8, number: u8| u8::from(train.reservations.contains(&(segment, number)));
        numbers.extend(match entry.route.get(place.front + 1) {
            None => [0; 3],
            Some(&next) => [
                known(next, table.near_box(next, entry.direction)),
                known(next, table.far_box(next, entry.direction)),
                u8::from(train.locks.contains(&table.near_box(next, entry.direction))),
            ],
        });
        numbers.extend([0; 4]);
    }
    for state in &whole.boxes {
        numbers.extend([u8::from(state.sensor), state.position, state.lock]);
        numbers.extend(state.holders);
    }
    numbers
}
