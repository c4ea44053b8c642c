//! The rescue of a spoiled list of sightings: four steps, each of which drops sightings of
//! the list as the step before left it.

use crate::numeric::within;
use crate::refusal::{Refusal, NOTHING_LEFT};
use crate::station::{check_fields, check_lengths, s_of, wide, INITIAL, MOST_FACES_APART};

/// The lists that a caller lends for the answer: four for the fields of the kept sightings,
/// one for the ordinals of the dropped ones and one for their reasons.
pub const ANSWERS: usize = 6;

/// The kept sightings by their fields, and ordinal and reason of each dropped one; both in
/// the order of the list given.
#[derive(Clone, Debug, Default, PartialEq, Eq)]
pub struct Rescued {
    pub position: Vec<i64>,
    pub object: Vec<i64>,
    pub face: Vec<i64>,
    pub reading: Vec<i64>,
    pub ordinals: Vec<u64>,
    pub reasons: Vec<u64>,
}

#[derive(Clone, Copy)]
struct Sighting {
    position: i128,
    object: i128,
    face: i128,
    reading: i128,
}

/// Whether a sighting of a list stays in it.
type Step = fn(&[Sighting], &Sighting) -> bool;

/// What the first step drops has reason 1, and so on.
const STEPS: [Step; 4] = [each_face_once, initial_seen, faces_agree, initial_seen];

/// What is kept of a list of sightings and what is dropped, for a caller who lends lists of
/// these lengths for it; each must be as long as the list given.
pub fn rescue(
    position: &[i64],
    object: &[i64],
    face: &[i64],
    reading: &[i64],
    lengths: [usize; ANSWERS],
) -> Result<Rescued, Refusal> {
    let fields = [position, object, face, reading].map(wide);
    let [p, o, f, r] = fields.each_ref().map(Vec::as_slice);
    check_lengths(&[p, o, f, r], lengths == [p.len(); ANSWERS])?;
    check_fields(p, o, f, r)?;
    let sightings: Vec<Sighting> = (0..p.len())
        .map(|index| Sighting {
            position: p[index],
            object: o[index],
            face: f[index],
            reading: r[index],
        })
        .collect();
    let mut rescued = Rescued::default();
    for (index, reason) in reasons(&sightings).into_iter().enumerate() {
        match reason {
            None => {
                rescued.position.push(position[index]);
                rescued.object.push(object[index]);
                rescued.face.push(face[index]);
                rescued.reading.push(reading[index]);
            }
            Some(reason) => {
                rescued.ordinals.push(index as u64 + 1);
                rescued.reasons.push(reason);
            }
        }
    }
    if rescued.position.is_empty() {
        return Err(Refusal::at_zero(NOTHING_LEFT));
    }
    Ok(rescued)
}

/// The number of the step that drops each sighting; none where it is kept.
fn reasons(sightings: &[Sighting]) -> Vec<Option<u64>> {
    let mut reasons = vec![None; sightings.len()];
    for (number, stays) in (1..).zip(STEPS) {
        let list: Vec<Sighting> = sightings
            .iter()
            .zip(&reasons)
            .filter(|(_, reason)| reason.is_none())
            .map(|(sighting, _)| *sighting)
            .collect();
        for (sighting, reason) in sightings.iter().zip(&mut reasons) {
            if reason.is_none() && !stays(&list, sighting) {
                *reason = Some(number);
            }
        }
    }
    reasons
}

/// The readings in a list of the same position and object, left and right; nothing where a face
/// is missing or doubled.
fn pair(list: &[Sighting], of: &Sighting) -> Option<[i128; 2]> {
    let alike = |other: &&Sighting| [other.position, other.object] == [of.position, of.object];
    let mut readings = [Vec::new(), Vec::new()];
    for other in list.iter().filter(alike) {
        readings[usize::from(other.face == 1)].push(other.reading);
    }
    match readings.each_ref().map(Vec::as_slice) {
        [&[left], &[right]] => Some([left, right]),
        _ => None,
    }
}

fn each_face_once(list: &[Sighting], sighting: &Sighting) -> bool {
    pair(list, sighting).is_some()
}

fn initial_seen(list: &[Sighting], sighting: &Sighting) -> bool {
    list.iter()
        .any(|other| other.position == sighting.position && other.object == INITIAL)
}

fn faces_agree(list: &[Sighting], sighting: &Sighting) -> bool {
    pair(list, sighting).is_some_and(|[left, right]| within(s_of(left, right), MOST_FACES_APART))
}
