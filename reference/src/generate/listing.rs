//! Tables whose boxes and segment ends may not fit each other: what code 8 can find in them, and how often it comes up.

use super::prng::Prng;
use crate::table::*;
use crate::table_check::{box_fails, ends_fail, stem_sides, StemSide};
use std::fmt::{Display, Formatter, Result};

/// A table with a box, a place of a box or an end of a segment changed. 6 and 7 let it through, and most often 8
/// does not.
pub fn damaged_listing(rng: &mut Prng, table: &Table) -> Table {
    loop {
        let mut t = table.clone();
        match rng.below(8) {
            // A border at which no segment ends.
            0 if t.boxes.len() < MAX_BOXES => {
                let stem = any_segment(rng, &t);
                t.boxes.push(SwitchBox { stem, ..SwitchBox::default() });
            }
            0 | 1 => change_ends(rng, &mut t),
            _ => change_places(rng, &mut t),
        }
        let ends_fit = !t.segments.iter().any(|s| ends_fail(&t, s));
        if ends_fit && !t.boxes.iter().any(|b| box_fails(&t, b)) {
            return t;
        }
    }
}

fn any_segment(rng: &mut Prng, t: &Table) -> u8 {
    rng.between(1, t.segments.len()) as u8
}

/// A segment that runs the other way, or has an end at another box.
fn change_ends(rng: &mut Prng, t: &mut Table) {
    let (at, number) = (rng.below(t.segments.len()), rng.between(1, t.boxes.len()) as u8);
    let segment = &mut t.segments[at];
    match rng.below(3) {
        0 => (segment.a, segment.b) = (segment.b, segment.a),
        1 => segment.a = number,
        _ => segment.b = number,
    }
}

/// A box with another segment in a place, with a place more or less, or with stem and branch exchanged.
fn change_places(rng: &mut Prng, t: &mut Table) {
    let (at, any) = (rng.below(t.boxes.len()), any_segment(rng, t));
    let mut places = t.boxes[at].places()[..t.boxes[at].used()].to_vec();
    let place = rng.below(places.len());
    match rng.below(4) {
        0 if places.len() < 3 => places.insert(rng.below(places.len() + 1), any),
        1 if places.len() > 1 => drop(places.remove(place)),
        2 => places.swap(0, place),
        _ => places[place] = any,
    }
    let at_place = |place: usize| places.get(place).copied().unwrap_or(0);
    t.boxes[at] = SwitchBox {
        kind: places.len() as u8 - 1,
        stem: at_place(0),
        left: at_place(1),
        right: at_place(2),
        position: if places.len() == 3 { rng.between(1, 2) as u8 } else { 0 },
    };
}

/// What code 8 can find.
#[derive(Clone, Copy, Debug, PartialEq, Eq)]
pub enum Finding {
    /// A stem with no end at its box.
    StemNotThere,
    /// A branch with no end at its box.
    BranchNotThere,
    /// A branch on the stem's side, both with their A ends at the box.
    BranchByA,
    /// A branch on the stem's side, both with their B ends at the box.
    BranchByB,
    /// An end whose box does not list the segment.
    EndNotListed,
}

/// All of them, in their order.
pub const FINDINGS: [Finding; 5] = [
    Finding::StemNotThere,
    Finding::BranchNotThere,
    Finding::BranchByA,
    Finding::BranchByB,
    Finding::EndNotListed,
];

impl Finding {
    /// Whether code 8 finds it in a table that 6 and 7 let through.
    pub fn is_in(self, table: &Table) -> bool {
        let at_boxes = |found: &dyn Fn(u8, Segment, Segment) -> bool, first: usize| {
            (1..).zip(&table.boxes).any(|(number, b)| {
                let ends = |place: usize| *table.segment(b.places()[place]).expect("7 has passed");
                (first..b.used()).any(|place| found(number, ends(0), ends(place)))
            })
        };
        let away = |number: u8, s: Segment| s.a != number && s.b != number;
        match self {
            Finding::StemNotThere => at_boxes(&|number, stem, _| away(number, stem), 0),
            Finding::BranchNotThere => at_boxes(&|number, _, branch| away(number, branch), 1),
            Finding::BranchByA => at_boxes(&|number, stem, branch| stem.a == number && branch.a == number, 1),
            Finding::BranchByB => at_boxes(&|number, stem, branch| stem.b == number && branch.b == number, 1),
            Finding::EndNotListed => (1..).zip(&table.segments).any(|(segment, s)| {
                let lists = |number| table.switch_box(number).is_some_and(|b| b.place_of(segment).is_some());
                !lists(s.a) || !lists(s.b)
            }),
        }
    }
}

/// All that code 8 finds in a table that 6 and 7 let through.
pub fn found_in(table: &Table) -> Vec<Finding> {
    FINDINGS.into_iter().filter(|finding| finding.is_in(table)).collect()
}

/// How often each comes up.
#[derive(Clone, Copy, Debug, Default)]
pub struct ListingCounts {
    /// Tables, and those of them in which code 8 finds nothing.
    tables: [usize; 2],
    /// Boxes with the stem side A, B or neither.
    boxes: [usize; 3],
    /// For each finding: tables that have it, and tables that have no other.
    found: [[usize; 2]; 5],
}

impl ListingCounts {
    /// Counts a table that 6 and 7 let through.
    pub fn add(&mut self, table: &Table) {
        let found = found_in(table);
        self.tables[0] += 1;
        self.tables[1] += usize::from(found.is_empty());
        for &finding in &found {
            let counts = &mut self.found[finding as usize];
            counts[0] += 1;
            counts[1] += usize::from(found.len() == 1);
        }
        for side in stem_sides(table) {
            let place = [StemSide::A, StemSide::B, StemSide::Neither].iter().position(|&other| other == side);
            self.boxes[place.expect("all are listed")] += 1;
        }
    }

    /// How often the rarest finding came up alone, and the rarest side.
    pub fn fewest(&self) -> usize {
        let alone = self.found.iter().map(|&[_, alone]| alone);
        alone.chain(self.boxes).min().unwrap_or(0)
    }
}

impl Display for ListingCounts {
    fn fmt(&self, f: &mut Formatter) -> Result {
        let ([tables, fit], [a, b, neither]) = (self.tables, self.boxes);
        writeln!(f, "tables past 6 and 7: {tables}, past 8 too: {fit}; stem sides: A {a}, B {b}, neither {neither}")?;
        writeln!(f, "found by 8: tables, and tables with nothing else found")?;
        for (finding, counts) in FINDINGS.into_iter().zip(self.found) {
            writeln!(f, "{:14} {counts:6?}", format!("{finding:?}"))?;
        }
        Ok(())
    }
}
