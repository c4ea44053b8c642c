//! Sighting lists: pairs near every limit of the station's rules, then damage.

use super::{spoil_length, Rng, CIRCLE};
use crate::station::AnswerLengths;

/// Four lent lists, and the lengths of the two lists lent for the answer.
#[derive(Clone, Debug, PartialEq, Eq)]
pub struct StationCase {
    pub position: Vec<i64>,
    pub object: Vec<i64>,
    pub face: Vec<i64>,
    pub reading: Vec<i64>,
    pub lengths: AnswerLengths,
}

/// Position, object, face and reading.
pub(super) type Sighting = [i64; 4];

pub fn station_case(rng: &mut Rng) -> StationCase {
    let mut sightings = sound_sightings(rng);
    let sound = rng.chance(40);
    if !sound {
        for _ in 0..rng.count(1, 3) {
            damage_sightings(rng, &mut sightings);
        }
    }
    let field = |index: usize| sightings.iter().map(|sighting| sighting[index]).collect();
    let mut case = StationCase {
        position: field(0),
        object: field(1),
        face: field(2),
        reading: field(3),
        lengths: AnswerLengths::fitting(),
    };
    if !sound && rng.chance(6) {
        damage_lengths(rng, &mut case);
    }
    case
}

/// How far apart the faces and the positions of a list lie.
#[derive(Clone, Copy)]
enum Spread {
    None,
    Usual,
    Limit,
}

pub(super) fn sound_sightings(rng: &mut Rng) -> Vec<Sighting> {
    let (positions, objects) = match rng.below(6) {
        0 => (16, 16),
        1 => (1, rng.count(1, 16)),
        2 => (rng.count(1, 16), rng.count(1, 2)),
        _ => (rng.count(1, 6), rng.count(1, 5)),
    };
    let positions = rng.sample(1, 16, positions);
    let seen_in = if rng.chance(50) { 100 } else { 70 };
    let spread = rng.pick(&[Spread::None, Spread::Usual, Spread::Usual, Spread::Limit]);

    let mut sightings = Vec::new();
    let initials: Vec<(i64, i64, i64)> = positions
        .iter()
        .map(|&position| (position, rng.direction(), faces_apart(rng, spread)))
        .collect();
    for &(position, left, s) in &initials {
        add_pair(&mut sightings, position, 1, left, s);
    }
    for object in rng.sample(2, 16, objects - 1) {
        let base = 2 * rng.direction() + rng.range(-1, 1);
        let lowest = positions.iter().copied().min().unwrap_or(1);
        for &(position, left, s) in &initials {
            if position != lowest && !rng.chance(seen_in) {
                continue;
            }
            let e = if position == lowest {
                0
            } else {
                positions_apart(rng, spread)
            };
            add_direction(rng, &mut sightings, [position, object], (left, s), base + e);
        }
    }
    rng.shuffle(&mut sightings);
    sightings
}

/// s of a pair.
fn faces_apart(rng: &mut Rng, spread: Spread) -> i64 {
    match spread {
        Spread::None => rng.range(-2, 2),
        Spread::Usual => rng.range(-8_000, 8_000),
        Spread::Limit => rng.sign() * (60_000 - rng.pick(&[0, 0, 1, 2, 30])),
    }
}

/// e of a pair.
fn positions_apart(rng: &mut Rng, spread: Spread) -> i64 {
    match spread {
        Spread::None => rng.range(-3, 3),
        Spread::Usual => rng.range(-12_000, 12_000),
        Spread::Limit => rng.sign() * (120_000 - rng.pick(&[0, 0, 1, 2, 40])),
    }
}

/// A pair whose doubled direction is g. Where g and the two s are odd together, s
/// gives way by one, so that the left reading is whole.
fn add_direction(
    rng: &mut Rng,
    sightings: &mut Vec<Sighting>,
    [position, object]: [i64; 2],
    (left_1, s_1): (i64, i64),
    g: i64,
) {
    let mut s = match rng.below(3) {
        0 => faces_apart(rng, Spread::Limit),
        1 => faces_apart(rng, Spread::None),
        _ => faces_apart(rng, Spread::Usual),
    };
    if (g - s + s_1).rem_euclid(2) == 1 {
        s += if s > 0 { -1 } else { 1 };
    }
    let left = (left_1 + (g - s + s_1) / 2).rem_euclid(CIRCLE);
    add_pair(sightings, position, object, left, s);
}

fn add_pair(sightings: &mut Vec<Sighting>, position: i64, object: i64, left: i64, s: i64) {
    let right = (left + CIRCLE / 2 + s).rem_euclid(CIRCLE);
    sightings.push([position, object, 0, left]);
    sightings.push([position, object, 1, right]);
}

pub(super) fn damage_sightings(rng: &mut Rng, sightings: &mut Vec<Sighting>) {
    if sightings.is_empty() {
        return;
    }
    let index = rng.below(sightings.len());
    match rng.below(16) {
        0 | 1 => put_out_of_range(rng, &mut sightings[index]),
        2 => {
            sightings.swap_remove(index);
        }
        3 => {
            let mut again = sightings[index];
            again[3] = rng.direction();
            sightings.push(again);
        }
        4 => sightings[index][2] = 1 - sightings[index][2].clamp(0, 1),
        5 | 6 => {
            let position = sightings[index][0];
            sightings.retain(|sighting| sighting[0] != position || sighting[1] != 1);
        }
        7..=9 => turn(rng, sightings, index, false),
        10..=12 => turn(rng, sightings, index, true),
        13 => sightings[index][1] = rng.range(1, 16),
        14 => sightings[index][0] = rng.range(1, 16),
        _ => change_count(rng, sightings, index),
    }
}

/// One field just or far beyond its range.
fn put_out_of_range(rng: &mut Rng, sighting: &mut Sighting) {
    let field = rng.below(4);
    sighting[field] = match field {
        0 | 1 => rng.outside(1, 16),
        2 => rng.outside(0, 1),
        _ => rng.outside(0, CIRCLE - 1),
    };
}

/// Turns one reading (s changes), or both of its pair (e changes), by an amount that
/// matters near a limit or anywhere.
fn turn(rng: &mut Rng, sightings: &mut [Sighting], index: usize, both: bool) {
    let amount = rng.sign() * rng.pick(&[1, 2, 60_000, 60_001, 61_000, 132_000, CIRCLE / 2]);
    let chosen = sightings[index];
    for sighting in sightings {
        let in_pair = sighting[..2] == chosen[..2];
        if in_pair && (both || sighting[2] == chosen[2]) && (0..CIRCLE).contains(&sighting[3]) {
            sighting[3] = (sighting[3] + amount).rem_euclid(CIRCLE);
        }
    }
}

fn change_count(rng: &mut Rng, sightings: &mut Vec<Sighting>, index: usize) {
    let count = match rng.below(4) {
        0 => 0,
        1 => 512,
        2 => 513,
        _ => rng.count(514, 700),
    };
    let copied = sightings[index];
    sightings.resize(count, copied);
}

fn damage_lengths(rng: &mut Rng, case: &mut StationCase) {
    match rng.below(6) {
        0 => spoil_length(rng, &mut case.position),
        1 => spoil_length(rng, &mut case.object),
        2 => spoil_length(rng, &mut case.face),
        3 => spoil_length(rng, &mut case.reading),
        4 => case.lengths.directions = rng.wrong_length(case.lengths.directions),
        _ => case.lengths.pairs = rng.wrong_length(case.lengths.pairs),
    }
}
