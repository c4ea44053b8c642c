//! Spoiled sightings, as lists and as books: what a failing keypad leaves of sound ones, faces
//! next to the limit of a pair, and nothing that can be kept.

use super::book::{damage_file, draw_sightings, write_sightings, BookCase};
use super::station::{damage_sightings, Sighting};
use super::{spoil_length, Rng, CIRCLE};
use crate::rescue::ANSWERS;

/// Four lent lists, and the lengths of the six lists lent for the answer.
#[derive(Clone, Debug, PartialEq, Eq)]
pub struct RescueCase {
    pub position: Vec<i64>,
    pub object: Vec<i64>,
    pub face: Vec<i64>,
    pub reading: Vec<i64>,
    pub lengths: [usize; ANSWERS],
}

pub fn rescue_case(rng: &mut Rng) -> RescueCase {
    let sightings = spoiled_sightings(rng);
    let field = |index: usize| sightings.iter().map(|sighting| sighting[index]).collect();
    let mut case = RescueCase {
        position: field(0),
        object: field(1),
        face: field(2),
        reading: field(3),
        lengths: [sightings.len(); ANSWERS],
    };
    if rng.chance(6) {
        damage_lengths(rng, &mut case);
    }
    case
}

pub fn spoiled_book_case(rng: &mut Rng) -> BookCase {
    let mut file = write_sightings(&spoiled_sightings(rng));
    if rng.chance(30) {
        damage_file(rng, &mut file);
    }
    BookCase { file }
}

fn spoiled_sightings(rng: &mut Rng) -> Vec<Sighting> {
    let mut sightings = draw_sightings(rng);
    match rng.below(20) {
        0 | 1 => {}
        2 => spoil_initials(rng, &mut sightings),
        _ => {
            for _ in 0..rng.pick(&[1, 1, 1, 2, 2, 3, 5, 9]) {
                let index = some_sighting(rng, &sightings);
                spoil(rng, &mut sightings, index);
            }
        }
    }
    if rng.chance(25) {
        damage_sightings(rng, &mut sightings);
    }
    sightings
}

/// Often the initial, with which its whole position goes.
fn some_sighting(rng: &mut Rng, sightings: &[Sighting]) -> usize {
    let of_initial = rng.chance(35);
    let chosen: Vec<usize> = (0..sightings.len())
        .filter(|&index| !of_initial || sightings[index][1] == 1)
        .collect();
    let index = rng.below(chosen.len());
    chosen.get(index).copied().unwrap_or(0)
}

/// One fault at a sighting, where there is one.
fn spoil(rng: &mut Rng, sightings: &mut Vec<Sighting>, index: usize) {
    let Some(&chosen) = sightings.get(index) else {
        return;
    };
    let alike = |sighting: &Sighting| sighting[..2] == chosen[..2];
    match rng.below(14) {
        // A lone face, a doubled key, both faces doubled.
        0 | 1 => {
            sightings.remove(index);
        }
        2 | 3 => press_again(rng, sightings, chosen),
        4 => {
            let both: Vec<Sighting> = sightings.iter().copied().filter(alike).collect();
            for sighting in both {
                press_again(rng, sightings, sighting);
            }
        }
        // A wrong key: left doubled and right missing, or two objects or positions spoiled.
        5 => sightings[index][2] = 1 - chosen[2],
        6 => sightings[index][rng.below(2)] = rng.range(1, 16),
        7 | 8 => sightings.retain(|sighting| !alike(sighting)),
        _ => bring_apart(rng, sightings, chosen),
    }
}

/// The same key once more, with the same reading or another, anywhere in the list.
fn press_again(rng: &mut Rng, sightings: &mut Vec<Sighting>, mut sighting: Sighting) {
    if rng.chance(50) {
        sighting[3] = rng.direction();
    }
    let place = rng.below(sightings.len() + 1);
    sightings.insert(place, sighting);
}

/// Turns the other face of a pair so that s is at its limit, just past it or far off.
fn bring_apart(rng: &mut Rng, sightings: &mut [Sighting], chosen: Sighting) {
    let [position, object, face, reading] = chosen;
    let size = rng.pick(&[60_000, 60_000, 60_001, 60_001, 132_000, CIRCLE / 2]);
    let s = rng.sign() * size;
    let turned = if face == 0 { s } else { -s };
    for sighting in sightings {
        if sighting[..3] == [position, object, 1 - face] {
            sighting[3] = (reading + CIRCLE / 2 + turned).rem_euclid(CIRCLE);
        }
    }
}

/// A fault at the initial of every position: often nothing is left.
fn spoil_initials(rng: &mut Rng, sightings: &mut Vec<Sighting>) {
    for position in 1..=16 {
        let initial = |sighting: &Sighting| sighting[..2] == [position, 1];
        if let Some(index) = sightings.iter().position(initial) {
            spoil(rng, sightings, index);
        }
    }
}

fn damage_lengths(rng: &mut Rng, case: &mut RescueCase) {
    match rng.below(10) {
        0 => spoil_length(rng, &mut case.position),
        1 => spoil_length(rng, &mut case.object),
        2 => spoil_length(rng, &mut case.face),
        3 => spoil_length(rng, &mut case.reading),
        list => {
            let length = &mut case.lengths[list - 4];
            *length = rng.wrong_length(*length);
        }
    }
}
