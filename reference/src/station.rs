//! Sightings at a station: pairs of faces, doubled directions, and their means.

use std::collections::BTreeMap;

use crate::numeric::{about_zero, answer, floor, modulo, within, CIRCLE};
use crate::refusal::{
    place, Refusal, FACES, FACES_APART, NO_INITIAL, POSITIONS_APART, SIGHTING_COUNT, SIGHTING_FIELD,
};

/// Positions and objects are numbered 1 to 16; both answers have this many places.
pub const OBJECTS: usize = 16;

const MOST_SIGHTINGS: usize = 512;
pub(crate) const MOST_FACES_APART: i128 = 60_000;
const MOST_POSITIONS_APART: i128 = 120_000;
/// The object from which all directions of a position are counted.
pub(crate) const INITIAL: i128 = 1;

/// The lengths of the two lists that a caller lends for the answer.
#[derive(Clone, Copy, Debug, PartialEq, Eq)]
pub struct AnswerLengths {
    pub directions: usize,
    pub pairs: usize,
}

impl AnswerLengths {
    /// The lengths that agree with the rules.
    pub fn fitting() -> Self {
        AnswerLengths {
            directions: OBJECTS,
            pairs: OBJECTS,
        }
    }
}

/// Direction and number of pairs of each object; 0 and 0 for one never seen.
#[derive(Clone, Copy, Debug, PartialEq, Eq)]
pub struct StationMeans {
    pub directions: [i64; OBJECTS],
    pub pairs: [i64; OBJECTS],
}

/// Readings of one object in one position, by face, before it is known that each
/// face was read just once.
#[derive(Default)]
struct Readings {
    left: Vec<i128>,
    right: Vec<i128>,
}

/// One pair of faces: the left reading and s.
struct Pair {
    left: i128,
    s: i128,
}

/// Position and object. The order of the keys is the order of the checks 23 to 25.
type Sighted = (i128, i128);

/// The means of a list of sightings, lent as four lists of any numbers.
pub fn station_means(
    position: &[i128],
    object: &[i128],
    face: &[i128],
    reading: &[i128],
    lengths: AnswerLengths,
) -> Result<StationMeans, Refusal> {
    let answers_fit = lengths == AnswerLengths::fitting();
    check_lengths(&[position, object, face, reading], answers_fit)?;
    check_fields(position, object, face, reading)?;
    let readings = join_faces(position, object, face, reading);
    let pairs = check_pairs(&readings)?;
    check_initials(&pairs)?;
    check_faces_apart(&pairs)?;
    mean_directions(&pairs)
}

/// As [`station_means`], for signed lists.
pub fn station_means_i64(
    position: &[i64],
    object: &[i64],
    face: &[i64],
    reading: &[i64],
    lengths: AnswerLengths,
) -> Result<StationMeans, Refusal> {
    station_means(
        &wide(position),
        &wide(object),
        &wide(face),
        &wide(reading),
        lengths,
    )
}

/// As [`station_means`], for unsigned lists.
pub fn station_means_u64(
    position: &[u64],
    object: &[u64],
    face: &[u64],
    reading: &[u64],
    lengths: AnswerLengths,
) -> Result<StationMeans, Refusal> {
    station_means(
        &wide(position),
        &wide(object),
        &wide(face),
        &wide(reading),
        lengths,
    )
}

/// A list of narrower numbers, as the checks take it.
pub(crate) fn wide<T: Copy + Into<i128>>(list: &[T]) -> Vec<i128> {
    list.iter().map(|&x| x.into()).collect()
}

/// The three reasons of 21 at once, and lists for an answer that do not fit it.
pub(crate) fn check_lengths(lists: &[&[i128]; 4], answers_fit: bool) -> Result<(), Refusal> {
    let count = lists[0].len();
    let sound = (1..=MOST_SIGHTINGS).contains(&count)
        && lists.iter().all(|list| list.len() == count)
        && answers_fit;
    if sound {
        Ok(())
    } else {
        Err(Refusal::at_zero(SIGHTING_COUNT))
    }
}

pub(crate) fn check_fields(
    position: &[i128],
    object: &[i128],
    face: &[i128],
    reading: &[i128],
) -> Result<(), Refusal> {
    let sightings = position.iter().zip(object).zip(face).zip(reading);
    for (index, (((position, object), face), reading)) in sightings.enumerate() {
        let sound = (1..=16).contains(position)
            && (1..=16).contains(object)
            && (0..=1).contains(face)
            && (0..CIRCLE).contains(reading);
        if !sound {
            return Err(Refusal::new(SIGHTING_FIELD, place(index + 1)));
        }
    }
    Ok(())
}

/// Faces are joined by position and object, never by their order of arrival.
fn join_faces(
    position: &[i128],
    object: &[i128],
    face: &[i128],
    reading: &[i128],
) -> BTreeMap<Sighted, Readings> {
    let mut joined: BTreeMap<Sighted, Readings> = BTreeMap::new();
    let sightings = position.iter().zip(object).zip(face).zip(reading);
    for (((&position, &object), &face), &reading) in sightings {
        let readings = joined.entry((position, object)).or_default();
        if face == 0 {
            readings.left.push(reading);
        } else {
            readings.right.push(reading);
        }
    }
    joined
}

fn check_pairs(readings: &BTreeMap<Sighted, Readings>) -> Result<BTreeMap<Sighted, Pair>, Refusal> {
    let mut pairs = BTreeMap::new();
    for (&sighted, readings) in readings {
        match (readings.left.as_slice(), readings.right.as_slice()) {
            (&[left], &[right]) => {
                let s = s_of(left, right);
                pairs.insert(sighted, Pair { left, s });
            }
            _ => return Err(refuse_at(FACES, sighted)),
        }
    }
    Ok(pairs)
}

/// How far the two faces of a pair are apart.
pub(crate) fn s_of(left: i128, right: i128) -> i128 {
    about_zero(right - left - CIRCLE / 2, CIRCLE)
}

fn check_initials(pairs: &BTreeMap<Sighted, Pair>) -> Result<(), Refusal> {
    for &(position, _) in pairs.keys() {
        if !pairs.contains_key(&(position, INITIAL)) {
            return Err(refuse_at(NO_INITIAL, (position, INITIAL)));
        }
    }
    Ok(())
}

fn check_faces_apart(pairs: &BTreeMap<Sighted, Pair>) -> Result<(), Refusal> {
    for (&sighted, pair) in pairs {
        if !within(pair.s, MOST_FACES_APART) {
            return Err(refuse_at(FACES_APART, sighted));
        }
    }
    Ok(())
}

fn mean_directions(pairs: &BTreeMap<Sighted, Pair>) -> Result<StationMeans, Refusal> {
    let mut means = StationMeans {
        directions: [0; OBJECTS],
        pairs: [0; OBJECTS],
    };
    let answers = means.directions.iter_mut().zip(&mut means.pairs);
    for (object, (direction, count)) in (1..=16).zip(answers) {
        let doubled = doubled_directions(pairs, object);
        if let Some((mean, p)) = mean_direction(&doubled, object)? {
            *direction = answer(mean);
            *count = answer(p);
        }
    }
    Ok(means)
}

/// Position and g of an object, in the order of the positions.
fn doubled_directions(pairs: &BTreeMap<Sighted, Pair>, object: i128) -> Vec<(i128, i128)> {
    let mut doubled = Vec::new();
    for position in 1..=16 {
        let pair = pairs.get(&(position, object));
        let initial = pairs.get(&(position, INITIAL));
        if let (Some(pair), Some(initial)) = (pair, initial) {
            let g = 2 * (pair.left - initial.left) + pair.s - initial.s;
            doubled.push((position, modulo(g, 2 * CIRCLE)));
        }
    }
    doubled
}

/// Direction and P of an object, or nothing if it was never seen.
fn mean_direction(doubled: &[(i128, i128)], object: i128) -> Result<Option<(i128, i128)>, Refusal> {
    let Some(&(_, base)) = doubled.first() else {
        return Ok(None);
    };
    let mut p = 0;
    let mut sum_of_e = 0;
    for &(position, g) in doubled {
        let e = about_zero(g - base, 2 * CIRCLE);
        if !within(e, MOST_POSITIONS_APART) {
            return Err(refuse_at(POSITIONS_APART, (position, object)));
        }
        p += 1;
        sum_of_e += e;
    }
    let t = p * base + sum_of_e;
    // Halves go upward here, and t may be negative.
    Ok(Some((modulo(floor(t + p, 2 * p), CIRCLE), p)))
}

fn refuse_at(number: i64, (position, object): Sighted) -> Refusal {
    Refusal::new(number, answer(100 * position + object))
}
