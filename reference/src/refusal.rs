//! The refusal: a number from the table of refusals, the place it points to, and the line
//! it is written as.

use std::fmt::Display;

/// Line malformed, unknown or under the wrong heading; or a kind that does not fit.
pub const MALFORMED: i64 = 1;
/// Counts, lengths, a D line out of turn, or a file too long.
pub const COUNT: i64 = 2;
/// A number out of its range, or i = k where it is not allowed.
pub const RANGE: i64 = 3;
/// A coefficient beyond 2,000.
pub const COEFFICIENT: i64 = 4;
/// A misclosure beyond its range.
pub const MISCLOSURE: i64 = 5;
/// A weak reduced row.
pub const WEAK_ROW: i64 = 6;
/// A correlate too large.
pub const CORRELATE: i64 = 7;
/// A remainder R too large.
pub const REMAINDER: i64 = 8;
/// A printed correction past one minute.
pub const CORRECTION: i64 = 9;
/// No sightings, too many, or lists of unequal length.
pub const SIGHTING_COUNT: i64 = 21;
/// A sighting's field out of its range.
pub const SIGHTING_FIELD: i64 = 22;
/// A face missing, or given more than once.
pub const FACES: i64 = 23;
/// A position without object 1.
pub const NO_INITIAL: i64 = 24;
/// The two faces of a pair over 60,000 apart.
pub const FACES_APART: i64 = 25;
/// A position's doubled direction over 120,000 from the base.
pub const POSITIONS_APART: i64 = 26;
/// A net past those that one report holds.
pub const NET_PAST: i64 = 30;
/// A listing that is no sheet in form.
pub const SHEET: i64 = 31;
/// A list of sightings of which a rescue would leave nothing.
pub const NOTHING_LEFT: i64 = 32;

/// Number and place; nothing else is handed back with a refusal.
#[derive(Clone, Copy, Debug, PartialEq, Eq)]
pub struct Refusal {
    pub number: i64,
    pub place: i64,
}

impl Refusal {
    pub fn new(number: i64, place: i64) -> Self {
        Refusal { number, place }
    }

    /// A refusal that points to nothing in particular.
    pub fn at_zero(number: i64) -> Self {
        Refusal::new(number, 0)
    }
}

/// What a program prints of a reply: the listing, or the one line of a refusal.
pub(crate) fn listing_or_refused(reply: Result<Vec<u8>, Refusal>) -> Vec<u8> {
    reply.unwrap_or_else(|refusal| refused_line(refusal.number, refusal.place))
}

/// The one line of a refusal.
pub fn refused_line(number: impl Display, place: impl Display) -> Vec<u8> {
    format!("REFUSED\t{number}\t{place}\n").into_bytes()
}

/// A count as a place; counts here are far below the limit of `i64`.
pub(crate) fn place(ordinal: usize) -> i64 {
    i64::try_from(ordinal).unwrap_or(i64::MAX)
}
