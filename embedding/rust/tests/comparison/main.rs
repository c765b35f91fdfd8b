//! Compares the proved library with the second implementation, through its C interface and the wrapper, on generated tables and
//! steps and on files damaged from them. Prints counts and the number of differences; exit status 1 where there are any.
//! Arguments: seed, number of tables.

mod calls;
mod counts;
mod expected;
mod lent;

use calls::Case;
use counts::Counts;
use reference::argument::argument;
use reference::generate::damage::{damaged_file, DAMAGES};
use reference::generate::listing::damaged_listing;
use reference::generate::outside::{driven, table_with_steps};
use reference::generate::prng::Prng;
use reference::generate::tables::largest_table;
use reference::printout::MAX_STEPS;
use reference::table_read::read_table;
use reference::table_write::file_bytes;

const S: &[u8] = include_bytes!("../../../../samples/s/net");
const S_STEPS: &[u8] = include_bytes!("../../../../samples/s/steps");
/// Where the segments of its two routes stand.
const ROUTES_OF_S: [usize; 6] = [38, 39, 40, 43, 44, 45];
/// A table of version 2.
const ONE_WAY: &[u8] = include_bytes!("../../../../samples/oneway/net");
const ONE_WAY_STEPS: &[u8] = include_bytes!("../../../../samples/oneway/steps");
/// Where the ways of its segments stand.
const WAYS: [usize; 4] = [10, 13, 16, 19];
/// Sorts of damage to a file.
const AIMS: u64 = DAMAGES as u64;
/// How many files of a table are damaged in its boxes and ends of segments alone.
const LISTINGS: usize = 2;

fn main() {
    let (seed, tables) = (argument(1, 1), argument(2, 200));
    let mut counts = Counts::new();
    short_and_long_files(seed, &mut counts);
    routes(seed, &mut counts);
    ways(seed, &mut counts);
    limits(seed, &mut counts);
    for case in 0..tables {
        table(seed, case, &mut counts);
    }
    println!("seed {seed}: {tables} tables");
    counts.print();
    if counts.differences > 0 {
        std::process::exit(1)
    }
}

/// A generated table with a list of steps, the file as its own steps, and files damaged from it, the last of them in its boxes
/// and ends of segments alone.
fn table(seed: u64, case: u64, counts: &mut Counts) {
    let mut rng = Prng::for_case(seed, case);
    let (table, mut steps) = table_with_steps(&mut rng, case);
    let file = file_bytes(&table);
    Case::new(&file, &steps).compare(&mut rng, counts);
    Case::new(&file, &file).compare(&mut rng, counts);
    steps.truncate(rng.below(40));
    for aim in [case % AIMS, (case + 7) % AIMS, (case + 14) % AIMS] {
        let damaged = damaged_file(&mut rng, &table, aim as u8);
        Case::new(&damaged, &steps).compare(&mut rng, counts);
    }
    let mut rng = Prng::for_case(seed + 3, case);
    for _ in 0..LISTINGS {
        let damaged = file_bytes(&damaged_listing(&mut rng, &table));
        Case::new(&damaged, &steps).compare(&mut rng, counts);
    }
}

/// Every front part of table S, of a table of version 2 and of the steps of S; both tables with bytes after them, long files.
fn short_and_long_files(seed: u64, counts: &mut Counts) {
    let mut rng = Prng::for_case(seed, u64::MAX);
    for length in 0..=S.len() {
        Case::new(&S[..length], S_STEPS).compare(&mut rng, counts);
    }
    for length in 0..=ONE_WAY.len() {
        Case::new(&ONE_WAY[..length], ONE_WAY_STEPS).compare(&mut rng, counts);
    }
    for length in 0..=S_STEPS.len() {
        Case::new(S, &S_STEPS[..length]).compare(&mut rng, counts);
    }
    for length in [47, 51, 1_736, 1_737, 1_832, 1_833, 4_791, 4_792, 4_793, 4_887, 4_888, 4_889, 100_000] {
        for mut longer in [S.to_vec(), ONE_WAY.to_vec()] {
            longer.resize(length, 0);
            Case::new(&longer, S_STEPS).compare(&mut rng, counts);
        }
    }
    Case::new(&vec![0xFF; 100_000], S_STEPS).compare(&mut rng, counts);
}

/// Table S with any two segments of its routes changed, each to every number from 0 to one above its segments.
fn routes(seed: u64, counts: &mut Counts) {
    let mut rng = Prng::for_case(seed, u64::MAX - 1);
    for (first, second) in pairs(&ROUTES_OF_S) {
        for (one, other) in (0..=5).flat_map(|one| (0..=5).map(move |other| (one, other))) {
            let mut changed = S.to_vec();
            (changed[first], changed[second]) = (one, other);
            Case::new(&changed, S_STEPS).compare(&mut rng, counts);
        }
    }
}

/// A table of version 2 with the ways of any two segments changed, each to every one from 0 to one above the last.
fn ways(seed: u64, counts: &mut Counts) {
    let mut rng = Prng::for_case(seed, u64::MAX - 2);
    for (first, second) in pairs(&WAYS) {
        for (one, other) in (0..=3).flat_map(|one| (0..=3).map(move |other| (one, other))) {
            let mut changed = ONE_WAY.to_vec();
            (changed[first], changed[second]) = (one, other);
            Case::new(&changed, ONE_WAY_STEPS).compare(&mut rng, counts);
        }
    }
}

/// Any two of them, in their order.
fn pairs(places: &[usize]) -> impl Iterator<Item = (usize, usize)> + '_ {
    places.iter().enumerate().flat_map(|(i, &first)| places[i + 1..].iter().map(move |&second| (first, second)))
}

/// Lists about as long as a printout takes, on table S and on a table of the largest size.
fn limits(seed: u64, counts: &mut Counts) {
    let most = 3 * MAX_STEPS;
    let s = read_table(S).expect("table S is accepted");
    for table in [s, largest_table(&mut Prng::for_case(seed + 1, 0))] {
        let mut rng = Prng::for_case(seed + 2, table.boxes.len() as u64);
        let steps = driven(&mut rng, &table, 70_000);
        let file = file_bytes(&table);
        for length in [most - 1, most, most + 1, most + 3, steps.len()] {
            Case::new(&file, &steps[..length]).compare(&mut rng, counts);
        }
    }
}
