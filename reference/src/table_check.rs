//! The rules of the table part: codes 3, 4, 6 to 12, 28 and 32, each over all records before the next code is
//! looked at; 11 and 28 together, in one search.

use crate::fault::Fault;
use crate::refusal::Refusal;
use crate::table::*;

/// Whether the table part is accepted; the first refusal where it is not.
pub fn check_table(table: &Table) -> Result<(), Refusal> {
    check_table_with(table, Fault::None)
}

/// As `check_table`, with a fault switched on.
pub fn check_table_with(table: &Table, fault: Fault) -> Result<(), Refusal> {
    stop(version_fails(table, fault), 3)?;
    stop(counts_fail(table), 4)?;
    check_body_with(table, fault)
}

/// Codes 6 to 12, 28 and 32 only, for a table whose head was checked before.
pub fn check_body_with(table: &Table, fault: Fault) -> Result<(), Refusal> {
    stop(fault == Fault::ReaderRefusesAll, 6)?;
    stop(table.segments.iter().any(|s| ends_fail(table, s)), 6)?;
    stop(fault != Fault::WayAboveTwoTaken && table.segments.iter().any(way_fails), 6)?;
    stop(table.boxes.iter().any(|b| box_fails(table, b)), 7)?;
    stop(fault == Fault::LoopBeforeListing && has_loop(table), 9)?;
    let stem_sides = kept_sides(table, fault);
    stop(listing_fails(table, &stem_sides, fault), 8)?;
    stop(fault != Fault::LoopTaken && has_loop(table), 9)?;
    check_trains(table, fault)
}

/// Refused by the code where its condition holds.
fn stop(condition: bool, code: u8) -> Result<(), Refusal> {
    if condition {
        Err(Refusal::by(code))
    } else {
        Ok(())
    }
}

/// Codes 10 to 12, 28 and 32, for a network that was checked before.
fn check_trains(table: &Table, fault: Fault) -> Result<(), Refusal> {
    if fault == Fault::TrainByTrain {
        for (train, entry) in (1..).zip(&table.trains) {
            stop(shape_fails(entry.direction, &entry.route), 10)?;
            search_train(table, train, entry, &[11, 28], fault)?;
        }
    }
    if let Some(i) = table.trains.iter().position(|t| shape_fails(t.direction, &t.route)) {
        let train = if fault == Fault::ShapeTellsTrain { i as u8 + 1 } else { 0 };
        return Err(Refusal { train, ..Refusal::by(10) });
    }
    stop(fault == Fault::FirstBeforeRoute && first_segments_clash(table), 12)?;
    match fault {
        Fault::JumpsOfAllFirst => search(table, &[28], fault).and(search(table, &[11], fault))?,
        Fault::NumbersOfAllFirst => search(table, &[11], fault).and(search(table, &[28], fault))?,
        Fault::JumpBeforeNumber => search(table, &[28, 11], fault)?,
        _ => search(table, &[11, 28], fault)?,
    }
    stop(fault == Fault::StartWayBeforeFirsts && starts_against(table, fault), 32)?;
    stop(fault != Fault::SameFirstTaken && first_segments_clash(table), 12)?;
    stop(starts_against(table, fault), 32)
}

/// 3: a version that is not read, or a value that the version cannot hold: a way in version 1, or a count too large
/// for its byte.
fn version_fails(table: &Table, fault: Fault) -> bool {
    let byte = u8::MAX as usize;
    let one_way = |s: &Segment| s.way != BOTH_WAYS && fault != Fault::VersionOneHasWays;
    !version_known(table.version)
        || (table.version == VERSION_1 && table.segments.iter().any(one_way))
        || table.segments.len() > byte
        || table.boxes.len() > byte
        || table.trains.len() > byte
        || table.trains.iter().any(|t| t.route.len() > byte)
}

/// 4: a count outside its limits.
fn counts_fail(table: &Table) -> bool {
    !counts_fit(table.segments.len(), table.boxes.len(), table.trains.len())
}

/// Whether the three counts are inside their limits.
pub fn counts_fit(n: usize, m: usize, k: usize) -> bool {
    (MIN_SEGMENTS..=MAX_SEGMENTS).contains(&n)
        && (MIN_BOXES..=MAX_BOXES).contains(&m)
        && k <= MAX_TRAINS
}

/// 6: a way that there is not.
pub fn way_fails(segment: &Segment) -> bool {
    segment.way > B_TO_A
}

/// 6: an end at no box of the table, or both ends at one box.
pub fn ends_fail(table: &Table, segment: &Segment) -> bool {
    table.switch_box(segment.a).is_none()
        || table.switch_box(segment.b).is_none()
        || segment.a == segment.b
}

/// 7: kind, needed and unused places, equal branches, position at start.
pub fn box_fails(table: &Table, b: &SwitchBox) -> bool {
    if b.kind > POINT {
        return true;
    }
    let (needed, unused) = (&b.places()[..b.used()], &b.places()[b.used()..]);
    needed.iter().any(|&s| table.segment(s).is_none())
        || unused.iter().any(|&s| s != 0)
        || (b.kind == POINT && b.left == b.right)
        || !b.position_fits(b.position)
}

/// Which end of its stem segment a box has.
#[derive(Clone, Copy, Debug, PartialEq, Eq)]
pub enum StemSide {
    /// The A end of the stem segment is at this box, and its B end at another one.
    A,
    /// The B end of the stem segment is at this box, and its A end at another one.
    B,
    /// Neither end of the stem segment is at this box. Such a box gets code 8.
    Neither,
}

impl StemSide {
    /// Whether the segment has its end on this side at the box.
    fn has(self, segment: &Segment, number: u8) -> bool {
        match self {
            StemSide::A => segment.a == number,
            StemSide::B => segment.b == number,
            StemSide::Neither => false,
        }
    }
}

/// The stem side of each box, in the order of the boxes, for a table that 6 and 7 let through.
pub fn stem_sides(table: &Table) -> Vec<StemSide> {
    let side = |(i, b): (usize, &SwitchBox)| match side_at(table, b.stem, (i + 1) as u8) {
        Some(0) => StemSide::A,
        Some(_) => StemSide::B,
        None => StemSide::Neither,
    };
    table.boxes.iter().enumerate().map(side).collect()
}

/// The stem sides that are kept for code 8, some of them wrong where a fault makes them so.
fn kept_sides(table: &Table, fault: Fault) -> Vec<StemSide> {
    let sides = stem_sides(table);
    let kept = |&side: &StemSide| match (fault, side) {
        (Fault::StemSideOfBoxOne, _) => sides[0],
        (Fault::StemSidesSwapped, StemSide::A) => StemSide::B,
        (Fault::StemSidesSwapped, StemSide::B) => StemSide::A,
        (Fault::NeitherSideIsA, StemSide::Neither) => StemSide::A,
        _ => side,
    };
    sides.iter().map(kept).collect()
}

/// 8: places and ends do not tell the same network. The stem sides are those of the boxes, in their order.
fn listing_fails(table: &Table, stem_sides: &[StemSide], fault: Fault) -> bool {
    let boxes_fail = table.boxes.iter().zip(stem_sides).enumerate().any(|(i, (b, &stem_side))| {
        let number = (i + 1) as u8;
        let branches: Vec<&Segment> = b.places()[1..b.used()].iter().filter_map(|&s| table.segment(s)).collect();
        let not_there = |s: &&Segment| s.a != number && s.b != number;
        let on_stem_side = |s: &&Segment| stem_side.has(s, number) && fault != Fault::BranchOnStemSide;
        stem_side == StemSide::Neither || branches.iter().any(not_there) || branches.iter().any(on_stem_side)
    });
    let lists = |number: u8, s: u8| {
        table
            .switch_box(number)
            .is_some_and(|b| b.place_of(s).is_some())
    };
    let ends_fail = table.segments.iter().enumerate().any(|(i, s)| {
        let number = (i + 1) as u8;
        !lists(s.a, number) || !lists(s.b, number)
    });
    boxes_fail || (ends_fail && fault != Fault::UnlistedEndTaken)
}

/// Which end of the segment is at the box: 0 for A, 1 for B.
pub fn side_at(table: &Table, segment: u8, number: u8) -> Option<u8> {
    let s = table.segment(segment)?;
    match number {
        _ if s.a == number => Some(0),
        _ if s.b == number => Some(1),
        _ => None,
    }
}

/// 9: some segments follow one another in direction 0 round a loop.
/// Segments with nobody before them are taken away until none is left to
/// take; what stays holds a loop.
pub fn has_loop(table: &Table) -> bool {
    let mut left: Vec<Segment> = table.segments.clone();
    loop {
        let before = left.len();
        let ends: Vec<u8> = left.iter().map(|s| s.b).collect();
        left.retain(|s| ends.contains(&s.a));
        if left.len() == before {
            return !left.is_empty();
        }
    }
}

/// The code 10, 11 or 28 that stops one route, or 0.
pub fn route_code(table: &Table, direction: u8, route: &[u8]) -> u8 {
    if shape_fails(direction, route) {
        return 10;
    }
    route_fault(table, direction, route, &[11, 28], Fault::None).map_or(0, |(code, _)| code)
}

/// 10: a direction above 1, or a length outside 1 to 64.
fn shape_fails(direction: u8, route: &[u8]) -> bool {
    direction > 1 || route.is_empty() || route.len() > MAX_ROUTE
}

/// The search: trains in file order, each route from its start, at one place the codes in this order.
fn search(table: &Table, codes: &[u8], fault: Fault) -> Result<(), Refusal> {
    let searched = match fault {
        Fault::LastTrainNotSearched => table.trains.len().saturating_sub(1),
        _ => table.trains.len(),
    };
    let mut trains = (1..).zip(&table.trains[..searched]);
    trains.try_for_each(|(train, entry)| search_train(table, train, entry, codes, fault))
}

/// The search on the route of one train.
fn search_train(table: &Table, train: u8, entry: &TrainEntry, codes: &[u8], fault: Fault) -> Result<(), Refusal> {
    let train = if fault == Fault::TrainsFromZero { train - 1 } else { train };
    match route_fault(table, entry.direction, &entry.route, codes, fault) {
        Some((code, place)) => Err(Refusal { code, train, place }),
        None => Ok(()),
    }
}

/// The first of these codes on a route that 10 lets through, with its place from 1.
fn route_fault(table: &Table, direction: u8, route: &[u8], codes: &[u8], fault: Fault) -> Option<(u8, u8)> {
    let mut all = (1..=route.len()).flat_map(|place| codes.iter().map(move |&code| (code, place)));
    let (code, place) = all.find(|&(code, place)| match (code, &route[..place]) {
        (11, &[.., segment]) => table.segment(segment).is_none(),
        (28, &[.., before, segment]) => jumps(table, direction, before, segment, fault),
        _ => false,
    })?;
    let place = place as u8;
    Some(match fault {
        Fault::PlacesFromZero => (code, place - 1),
        Fault::JumpAtPlaceBefore if code == 28 => (code, place - 1),
        _ => (code, place),
    })
}

/// 28: a segment that does not follow the one before.
fn jumps(table: &Table, direction: u8, before: u8, segment: u8, fault: Fault) -> bool {
    let known = |number: u8| table.segment(number).is_some();
    match fault {
        Fault::BrokenRouteTaken => false,
        Fault::RouteDirectionIgnored => !table.follows(before, segment, 0),
        // What is no segment at all is left to 11.
        Fault::JumpsOfAllFirst => known(before) && known(segment) && !table.follows(before, segment, direction),
        _ => !table.follows(before, segment, direction),
    }
}

/// 12: two trains with one first segment.
fn first_segments_clash(table: &Table) -> bool {
    let firsts: Vec<Option<&u8>> = table.trains.iter().map(|t| t.route.first()).collect();
    (0..firsts.len()).any(|i| firsts[i + 1..].contains(&firsts[i]))
}

/// 32: a train that starts against the way of its first segment.
fn starts_against(table: &Table, fault: Fault) -> bool {
    let asked = if fault == Fault::StartWayOfTrainOne { 1 } else { table.trains.len() };
    table.trains.iter().take(asked).any(|TrainEntry { direction, route }| {
        let direction = if fault == Fault::StartWaysSwapped { direction ^ 1 } else { *direction };
        let segments = if fault == Fault::StartWayOfRoute { &route[..] } else { &route[..1] };
        segments.iter().any(|&segment| table.runs_against(segment, direction))
    })
}
