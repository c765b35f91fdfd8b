//! The stem side of each box, and code 8 as 01 has it.

mod common;
use common::S;
use reference::generate::damage::{damaged_file, DAMAGES};
use reference::generate::listing::{damaged_listing, FINDINGS};
use reference::generate::prng::Prng;
use reference::generate::tables::{accepted_table, largest_table};
use reference::refusal::{code_of, Refusal};
use reference::table::{segment_bytes, Table, VERSION_1};
use reference::table_check::{stem_sides, StemSide};
use reference::table_read::read_table;
use reference::table_write::file_bytes;
use StemSide::{Neither, A, B};

/// Segments and boxes of a file that 1 to 5 let through, whatever they are, with no trains and no ways.
fn network(file: &[u8]) -> Table {
    let size = segment_bytes(u16::from(file[4]));
    let (segments, rest) = file[8..].split_at(size * usize::from(file[5]));
    let boxes = &rest[..5 * usize::from(file[6])];
    let ends: Vec<[u8; 2]> = segments.chunks(size).map(|record| [record[0], record[1]]).collect();
    Table {
        version: VERSION_1,
        segments: common::segments(&ends),
        boxes: common::boxes(boxes.as_chunks().0),
        trains: vec![],
    }
}

/// Segment 1 runs from box 1 to box 2 and is the stem of both; segment 4 runs from 3 to 4 and is the stem of both.
#[test]
fn sides_of_s() {
    assert_eq!(stem_sides(&read_table(&S).unwrap()), [A, B, A, B]);
}

#[test]
fn stem_of_box_2_elsewhere() {
    let mut file = S;
    let stem_of_box_2 = 8 + 2 * 4 + 5 + 1;
    assert_eq!(file[stem_of_box_2], 1);
    file[stem_of_box_2] = 4;
    assert_eq!(stem_sides(&network(&file)), [A, Neither, A, B]);
    assert_eq!(read_table(&file), Err(Refusal::by(8)));
}

/// "A segment listed at a box without an end there, a branch on the stem's side, or a segment end whose box does not
/// list it."
fn code_8_applies(table: &Table) -> bool {
    let ends = |segment: u8| {
        let record = table.segments[usize::from(segment) - 1];
        [record.a, record.b]
    };
    let listed = |number: u8| {
        let record = table.boxes[usize::from(number) - 1];
        [record.stem, record.left, record.right][..=usize::from(record.kind)].to_vec()
    };
    let boxes = 1..=table.boxes.len() as u8;
    let mut segments = 1..=table.segments.len() as u8;
    let without_end_there = boxes.clone().any(|number| listed(number).iter().any(|&s| !ends(s).contains(&number)));
    let branch_on_the_stems_side = boxes.clone().any(|number| {
        let (stem, branches) = (listed(number)[0], &listed(number)[1..]);
        let both_at = |end: usize, branch: u8| ends(stem)[end] == number && ends(branch)[end] == number;
        branches.iter().any(|&branch| both_at(0, branch) || both_at(1, branch))
    });
    let end_not_listed = segments.any(|s| ends(s).iter().any(|&number| !listed(number).contains(&s)));
    without_end_there || branch_on_the_stems_side || end_not_listed
}

/// Whether a case says of a stem with these ends what is so at the box.
fn says_so(side: StemSide, [a, b]: [u8; 2], number: u8) -> bool {
    match side {
        A => a == number,
        B => b == number,
        Neither => a != number && b != number,
    }
}

/// Each box's side says what is so of the ends of its stem, and no other case does. The file has code 8 exactly where
/// 01 says so.
fn check(file: &[u8]) {
    let (code, table) = (code_of(&read_table(file)), network(file));
    let sides = stem_sides(&table);
    assert_eq!(sides.len(), table.boxes.len());
    for ((number, b), kept) in (1..).zip(&table.boxes).zip(sides) {
        let stem = table.segments[usize::from(b.stem) - 1];
        for side in [A, B, Neither] {
            assert_eq!(says_so(side, [stem.a, stem.b], number), side == kept, "box {number} of {table:?}");
        }
    }
    let applies = code_8_applies(&table);
    assert_eq!(code == 8, applies, "{code} {table:?}");
    assert_eq!(FINDINGS.iter().any(|finding| finding.is_in(&table)), applies, "{table:?}");
}

/// Accepted tables, files damaged for every code and listings damaged in every way, of which 6 and 7 let some through.
#[test]
fn sides_and_code_8_of_generated_files() {
    let mut checked = [0; 2];
    for case in 0..400 {
        let mut rng = Prng::for_case(41, case);
        let table = match case % 10 {
            0 => largest_table(&mut rng),
            _ => accepted_table(&mut rng),
        };
        let mut files = vec![file_bytes(&table)];
        files.extend((0..2 * DAMAGES).map(|aim| damaged_file(&mut rng, &table, aim)));
        files.extend((0..20).map(|_| file_bytes(&damaged_listing(&mut rng, &table))));
        for file in files {
            let code = code_of(&read_table(&file));
            if !matches!(code, 1..=7) {
                check(&file);
                checked[usize::from(code == 8)] += 1;
            }
        }
    }
    assert!(checked.iter().all(|&count| count > 5000), "{checked:?}");
}

/// Every change of one byte of table S's segments and boxes that 6 and 7 let through.
#[test]
fn sides_and_code_8_beside_s() {
    let mut checked = 0;
    for at in 8..8 + 2 * 4 + 5 * 4 {
        for value in 0..=255 {
            let mut file = S;
            file[at] = value;
            if !matches!(code_of(&read_table(&file)), 1..=7) {
                check(&file);
                checked += 1;
            }
        }
    }
    assert!(checked > 50, "{checked}");
}
