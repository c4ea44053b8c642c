//! The sighting book: its lines, the listing of its station means, and its rescue.

use crate::lines::{fields, read_lines, read_number};
use crate::refusal::{listing_or_refused, Refusal, MALFORMED, SIGHTING_COUNT};
use crate::rescue::{rescue, Rescued, ANSWERS};
use crate::station::{station_means_i64, AnswerLengths, StationMeans};

/// The least room that is lent for a listing: 48 bytes for the STA line, and 68 for each
/// of 16 objects.
pub const LISTING_ROOM: usize = 1_136;

/// The least room that is lent for kept lines: 512 of 21 bytes.
pub const RESCUED_ROOM: usize = 10_752;

/// The least room that is lent for the list of dropped sightings: 512 lines of 8 bytes.
pub const DROPPED_ROOM: usize = 4_096;

/// Too little room is a length that disagrees, and of a sighting book this is 21.
const NO_ROOM: i64 = SIGHTING_COUNT;

/// The fields of the lines read so far, as the four lists of a station.
#[derive(Default)]
struct Book {
    position: Vec<i64>,
    object: Vec<i64>,
    face: Vec<i64>,
    reading: Vec<i64>,
}

/// The listing of a sighting book: its means, or the one line of a refusal.
pub fn listing(file: &[u8]) -> Vec<u8> {
    listing_or_refused(station_book(file, LISTING_ROOM))
}

/// The kept lines of a sighting book, or the one line of a refusal.
pub fn rescued_listing(file: &[u8]) -> Vec<u8> {
    listing_or_refused(rescue_book(file, RESCUED_ROOM))
}

/// The list of a sighting book's dropped sightings, or the one line of a refusal.
pub fn dropped_listing(file: &[u8]) -> Vec<u8> {
    listing_or_refused(dropped_book(file, DROPPED_ROOM))
}

/// The listing of a sighting book that is accepted, by a caller who lends so much room.
/// Too little of it is seen first.
pub fn station_book(file: &[u8], room: usize) -> Result<Vec<u8>, Refusal> {
    check_room(room, LISTING_ROOM)?;
    let book = read_book(file)?;
    let means = book.means()?;
    Ok(means_text(book.sightings(), &means).into_bytes())
}

/// The lines that a rescue keeps, each as it stands in the book.
pub fn rescue_book(file: &[u8], room: usize) -> Result<Vec<u8>, Refusal> {
    check_room(room, RESCUED_ROOM)?;
    let dropped = read_book(file)?.rescue()?.ordinals;
    let lines = file.split_inclusive(|&byte| byte == b'\n');
    Ok((1..)
        .zip(lines)
        .filter(|(ordinal, _)| !dropped.contains(ordinal))
        .flat_map(|(_, line)| line.to_vec())
        .collect())
}

/// A line for each sighting that a rescue drops, with its ordinal and its reason.
pub fn dropped_book(file: &[u8], room: usize) -> Result<Vec<u8>, Refusal> {
    check_room(room, DROPPED_ROOM)?;
    let rescued = read_book(file)?.rescue()?;
    let dropped = rescued.ordinals.iter().zip(&rescued.reasons);
    let lines = dropped.map(|(ordinal, reason)| format!("X\t{ordinal}\t{reason}\n"));
    Ok(lines.collect::<String>().into_bytes())
}

fn check_room(room: usize, least: usize) -> Result<(), Refusal> {
    if room < least {
        return Err(Refusal::at_zero(NO_ROOM));
    }
    Ok(())
}

/// Only the form of the lines is looked at here. Their count and the ranges of their
/// numbers are the station's to refuse, and so come after the form of every line.
fn read_book(file: &[u8]) -> Result<Book, Refusal> {
    let mut book = Book::default();
    read_lines(file, |line| book.take_line(line).ok_or(MALFORMED))?;
    Ok(book)
}

impl Book {
    /// Adds a line's sighting, or nothing at all if the line is malformed.
    fn take_line(&mut self, line: &[u8]) -> Option<()> {
        let [b"S", position, object, face, reading] = fields(line)[..] else {
            return None;
        };
        let numbers = [position, object, face, reading].map(read_number);
        let [Some(position), Some(object), Some(face), Some(reading)] = numbers else {
            return None;
        };
        self.position.push(position);
        self.object.push(object);
        self.face.push(face);
        self.reading.push(reading);
        Some(())
    }

    fn sightings(&self) -> usize {
        self.position.len()
    }

    fn means(&self) -> Result<StationMeans, Refusal> {
        station_means_i64(
            &self.position,
            &self.object,
            &self.face,
            &self.reading,
            AnswerLengths::fitting(),
        )
    }

    fn rescue(&self) -> Result<Rescued, Refusal> {
        rescue(
            &self.position,
            &self.object,
            &self.face,
            &self.reading,
            [self.sightings(); ANSWERS],
        )
    }
}

/// The STA line, and a line for each object that was seen.
fn means_text(sightings: usize, means: &StationMeans) -> String {
    let seen = means.pairs.iter().filter(|&&pairs| pairs > 0).count();
    let mut text = format!("STA\t{sightings}\t{seen}\n");
    let answers = means.directions.iter().zip(&means.pairs);
    for (object, (direction, pairs)) in (1..).zip(answers) {
        if *pairs > 0 {
            text += &format!("O\t{object}\t{direction}\t{pairs}\n");
        }
    }
    text
}
