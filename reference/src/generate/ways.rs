//! Ways of segments: tables of version 2, and changes of records about ways.

use super::aim::Aim;
use super::harmless::{message_field, Stage};
use super::prng::Prng;
use crate::line::*;
use crate::numbers::ends_of_next;
use crate::record::Change;
use crate::table::*;

/// Makes a table one of version 2, but for every other one. One in six of these has all segments both ways. Every train
/// starts along the way of its first segment; most later segments of routes have a way along which some train comes,
/// and some have one against it.
pub fn any_version(rng: &mut Prng, table: &mut Table) {
    if rng.chance(50) {
        add_ways(rng, table);
    }
}

/// Makes a table one of version 2, as `any_version` says.
pub fn add_ways(rng: &mut Prng, table: &mut Table) {
    table.version = VERSION_2;
    let (share, along) = (rng.pick(&[0, 5, 10, 15, 30, 60]), rng.pick(&[50, 75, 90, 95]));
    let certain = rng.between(1, table.segments.len()) as u8;
    for number in 1..=table.segments.len() as u8 {
        if rng.chance(share) || (share > 0 && number == certain) {
            table.segments[usize::from(number) - 1].way = one_way(rng, table, number, along);
        }
    }
}

/// A way of a segment: along the direction of a train that starts there; else, in so many of 100 cases, along the
/// direction of a train that comes there.
fn one_way(rng: &mut Prng, table: &Table, number: u8, along: usize) -> u8 {
    let way_along = |direction: u8| way_against(1 - direction);
    if let Some(train) = table.trains.iter().find(|t| t.route[0] == number) {
        return way_along(train.direction);
    }
    let coming = table.trains.iter().filter(|t| t.route.contains(&number));
    let directions: Vec<u8> = coming.map(|t| t.direction).collect();
    match directions.is_empty() {
        true => rng.pick(&[A_TO_B, B_TO_A]),
        false if rng.chance(along) => way_along(rng.pick(&directions)),
        false => way_against(rng.pick(&directions)),
    }
}

/// The change that makes a table one of this version.
fn version_change(version: u16) -> Change {
    [b'h', 0, 1, version as u8]
}

/// The change that gives a segment a way.
fn way_change(segment: u8, way: u8) -> Change {
    [b's', segment - 1, 2, way]
}

/// Changes of the table part by the ways of segments, for an aim at 3, 6 or 32.
pub fn table_way_changes(rng: &mut Prng, table: &Table, aim: Aim) -> Option<Vec<Change>> {
    let any = rng.between(1, table.segments.len()) as u8;
    Some(match aim {
        Aim::WayInVersion1 => vec![version_change(VERSION_1), way_change(any, rng.pick(&[1, 2, 2, 3, 255]))],
        Aim::WayAboveTwo => vec![version_change(VERSION_2), way_change(any, rng.pick(&[3, 4, 255]))],
        _ => {
            let train = table.trains.get(rng.below(table.trains.len()))?;
            vec![version_change(VERSION_2), way_change(train.route[0], way_against(train.direction))]
        }
    })
}

/// Whether the segment may run against trains of this direction: none of the table starts on it so.
fn may_run_against(table: &Table, segment: u8, direction: u8) -> bool {
    !table.trains.iter().any(|t| (t.direction, t.route[0]) == (direction, segment))
}

/// Changes after which a segment runs against trains of this direction.
fn run_against(segment: u8, direction: u8) -> [Change; 2] {
    [version_change(VERSION_2), way_change(segment, way_against(direction))]
}

/// Whether the aim of `WayAsked` or `StartsAgainst` can be had of a train.
pub fn fits_way(line: &Line, i: usize, aim: Aim) -> bool {
    let train = &line.trains[i];
    let segment = match aim {
        Aim::WayAsked(_) => train.next_segment(),
        _ => train.route.get(1).copied(),
    };
    segment.is_some_and(|segment| may_run_against(&line.table, segment, train.direction))
}

/// A train has asked a box at one end of next, which runs against it, and the box holds next for this one: nobody (0),
/// the train itself (1), another (2).
pub fn way_asked(rng: &mut Prng, line: &Line, i: usize, holder: u8) -> Vec<Change> {
    let Some((next, near, far, _)) = ends_of_next(line, i) else {
        return vec![];
    };
    let (me, number) = (i as u8 + 1, rng.pick(&[near, far]));
    let others: Vec<u8> = (1..=line.trains.len() as u8).filter(|&train| train != me).collect();
    let train = match holder {
        0 => 0,
        1 => me,
        _ => others.get(rng.below(others.len())).copied().unwrap_or(0),
    };
    let place = line.table.switch_box(number).and_then(|plan| plan.place_of(next)).unwrap_or(0);
    let mut all = vec![message_field(i as u8, Wish::Reservation, Stage::Sent, number)];
    all.push([b'b', number - 1, 3 + place as u8, train]);
    all.extend(run_against(next, line.trains[i].direction));
    all
}

/// The route in force of a train begins one segment later, against the way of its first segment.
pub fn starts_against(line: &Line, i: usize) -> Vec<Change> {
    let (t, train) = (i as u8, &line.trains[i]);
    let route: Vec<u8> = train.route[1..].iter().copied().take(8).collect();
    let mut all = vec![[b'm', t, 0, 0], [b't', t, 1, route.len() as u8], [b't', t, 2, 1], [b't', t, 3, 1]];
    all.extend(route.iter().zip(0..).map(|(&segment, place)| [b'R', t, place, segment]));
    all.extend(run_against(route[0], train.direction));
    all
}
