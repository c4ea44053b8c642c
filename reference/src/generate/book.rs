//! Sighting books: the sightings of a station as lines in any order, then damage to the
//! sightings, to the lines or to the bytes.

use super::station::{damage_sightings, sound_sightings, Sighting};
use super::text::{
    damage_bytes, damage_line, line, no_number, read_lines, write_lines, Line, LINE_DAMAGES,
};
use super::{Rng, CIRCLE};
use crate::lines::MOST_BYTES;

/// The bytes of a sighting book.
#[derive(Clone, Debug, PartialEq, Eq)]
pub struct BookCase {
    pub file: Vec<u8>,
}

pub fn book_case(rng: &mut Rng) -> BookCase {
    let mut sightings = draw_sightings(rng);
    let damaged = rng.chance(65);
    if damaged && rng.chance(60) {
        for _ in 0..rng.pick(&[1, 1, 1, 1, 2, 3]) {
            damage_sightings(rng, &mut sightings);
        }
    }
    let mut file = write_sightings(&sightings);
    if damaged {
        damage_file(rng, &mut file);
    }
    BookCase { file }
}

pub(super) fn write_sightings(sightings: &[Sighting]) -> Vec<u8> {
    let mut text = String::new();
    for [position, object, face, reading] in sightings {
        text += &format!("S\t{position}\t{object}\t{face}\t{reading}\n");
    }
    text.into_bytes()
}

/// Damages the lines or the bytes of a book, or leaves it as it is.
pub(super) fn damage_file(rng: &mut Rng, file: &mut Vec<u8>) {
    if rng.chance(35) {
        let mut lines = read_lines(file);
        for _ in 0..rng.pick(&[1, 1, 1, 2, 3]) {
            damage_lines(rng, &mut lines);
        }
        *file = write_lines(&lines);
    }
    if rng.chance(14) {
        for _ in 0..rng.pick(&[1, 1, 1, 2, 3]) {
            damage_bytes(rng, file, &[b"\n\n", b"S\t1", b"S\t1\t1\t0\t0", b"."]);
        }
    }
}

/// Sound sightings, or a few that need not be. Most of the fullest lists are drawn again,
/// since they take long and are much alike.
pub(super) fn draw_sightings(rng: &mut Rng) -> Vec<Sighting> {
    if rng.chance(10) {
        return few_sightings(rng);
    }
    let sightings = sound_sightings(rng);
    if sightings.len() > 256 && rng.chance(75) {
        sound_sightings(rng)
    } else {
        sightings
    }
}

/// Up to five sightings of two positions and two objects, paired or not.
fn few_sightings(rng: &mut Rng) -> Vec<Sighting> {
    let left = rng.direction();
    let mut one = |face: i64| {
        let reading = (left + face * CIRCLE / 2 + rng.range(-2, 2)).rem_euclid(CIRCLE);
        let position = rng.pick(&[1, 1, 1, 16]);
        [position, rng.pick(&[1, 1, 1, 2]), face, reading]
    };
    let mut sightings: Vec<Sighting> = [0, 1, 0, 1, 0].map(&mut one).to_vec();
    sightings.truncate(rng.count(0, 5));
    rng.shuffle(&mut sightings);
    sightings
}

/// Numbers and near-numbers at which some rule of a sighting turns.
fn boundary_text(rng: &mut Rng) -> String {
    match rng.below(3) {
        0 => no_number(rng),
        1 => rng.pick(&[-1, 0, 1, 2, 15, 16, 17]).to_string(),
        _ => rng
            .pick(&[
                CIRCLE - 1,
                CIRCLE,
                -CIRCLE,
                99_999_999_999,
                -99_999_999_999,
                10_000_000_000,
                4_294_967_296,
                4_294_967_297,
            ])
            .to_string(),
    }
}

fn damage_lines(rng: &mut Rng, lines: &mut Vec<Line>) {
    if lines.is_empty() {
        return;
    }
    let index = rng.below(lines.len());
    let other = rng.below(lines.len());
    match rng.below(LINE_DAMAGES + 3) {
        way if way < LINE_DAMAGES => {
            let letters = ["s", "SS", "O", "STA", "D", "C", "X", "", "S ", "5"];
            damage_line(rng, lines, [index, other], way, &letters, boundary_text);
        }
        // Seldom, since such a file is long.
        LINE_DAMAGES if rng.chance(50) => fill_file(rng, lines),
        _ => add_lines(rng, lines),
    }
}

/// Brings the lines to a count at its limit, by more of one of them; the last may be
/// malformed or out of range.
fn add_lines(rng: &mut Rng, lines: &mut Vec<Line>) {
    let more = lines[rng.below(lines.len())].clone();
    lines.resize(rng.pick(&[511, 512, 512, 513, 513, 514, 600]), more);
    if rng.chance(40) {
        if let Some(field) = lines.last_mut().and_then(|line| line.last_mut()) {
            *field = boundary_text(rng);
        }
    }
}

/// Brings the file to a length at its limit, by lines of ten bytes and a last one of as
/// many more digits as are wanting; its letter may be no S.
fn fill_file(rng: &mut Rng, lines: &mut Vec<Line>) {
    let wanted = MOST_BYTES + rng.pick(&[0, 0, 0, 1, 1, 7]);
    let more = wanted.saturating_sub(write_lines(lines).len());
    let Some(count) = (more / 10).checked_sub(1) else {
        return;
    };
    let reading = "1".repeat(more - 10 * count - 9);
    let letter = if rng.chance(30) { "s" } else { "S" };
    let usual = line!["S", 1, 1, 0, 0];
    lines.resize(lines.len() + count, usual);
    lines.push(line![letter, 1, 1, 0, reading]);
}
