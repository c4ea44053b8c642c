//! What the files have in common: their length, their lines, the fields of a line, and
//! the numbers that a field writes.

use crate::refusal::{Refusal, COUNT, MALFORMED};

/// The longest file that is read.
pub const MOST_BYTES: usize = 65_535;

const MOST_DIGITS: usize = 11;

/// The digits that a number of a report or of a sheet may have.
const MOST_LONG_DIGITS: usize = 18;

/// What the line reader found at a start.
#[derive(Clone, Copy, Debug, PartialEq, Eq, PartialOrd, Ord)]
pub enum LineStatus {
    Line,
    NoneLeft,
    LfMissing,
}

/// The line that begins at `start`, without its LF; empty unless the status is `Line`.
pub fn line(file: &[u8], start: usize) -> &[u8] {
    let rest = file.get(start..).unwrap_or_default();
    match line_feed(rest) {
        Some(end) => &rest[..end],
        None => &[],
    }
}

/// The companion reply of [`line`] for the same start.
pub fn line_status(file: &[u8], start: usize) -> LineStatus {
    let rest = file.get(start..).unwrap_or_default();
    if rest.is_empty() {
        LineStatus::NoneLeft
    } else if line_feed(rest).is_some() {
        LineStatus::Line
    } else {
        LineStatus::LfMissing
    }
}

fn line_feed(bytes: &[u8]) -> Option<usize> {
    bytes.iter().position(|&byte| byte == b'\n')
}

/// The length of a file, then its lines in order: each is handed to `take`, and the number
/// that this refuses it with stands at the line. A last line without LF is malformed.
pub(crate) fn read_lines(
    file: &[u8],
    mut take: impl FnMut(&[u8]) -> Result<(), i64>,
) -> Result<(), Refusal> {
    if file.len() > MOST_BYTES {
        return Err(Refusal::at_zero(COUNT));
    }
    let mut start = 0;
    let mut number = 1;
    loop {
        match line_status(file, start) {
            LineStatus::NoneLeft => return Ok(()),
            LineStatus::LfMissing => return Err(Refusal::new(MALFORMED, number)),
            LineStatus::Line => {
                let line = line(file, start);
                take(line).map_err(|refused| Refusal::new(refused, number))?;
                start += line.len() + 1;
                number += 1;
            }
        }
    }
}

/// The fields of a line, which tabs part; an empty line has one, empty like itself.
pub(crate) fn fields(line: &[u8]) -> Vec<&[u8]> {
    line.split(|&byte| byte == b'\t').collect()
}

/// What stands behind the heading of a line, each field after a tab and as `read` takes it,
/// or nothing where the line has another heading or some field is malformed.
pub(crate) fn read_behind<T>(
    line: &[u8],
    heading: &str,
    read: fn(&[u8]) -> Option<T>,
) -> Option<Vec<T>> {
    let rest = line.strip_prefix(heading.as_bytes())?;
    match fields(rest)[..] {
        [b"", ref fields @ ..] => fields.iter().map(|field| read(field)).collect(),
        _ => None,
    }
}

/// A number as a network file or a sighting book writes it, or nothing if the field is
/// malformed.
pub fn read_number(field: &[u8]) -> Option<i64> {
    read_up_to(MOST_DIGITS, field)
}

/// The same, with the digits that a report or a sheet may have.
pub fn read_long_number(field: &[u8]) -> Option<i64> {
    read_up_to(MOST_LONG_DIGITS, field)
}

fn read_up_to(most_digits: usize, field: &[u8]) -> Option<i64> {
    let (negative, digits) = match field {
        [b'-', digits @ ..] => (true, digits),
        digits => (false, digits),
    };
    let sound = (1..=most_digits).contains(&digits.len())
        && digits.iter().all(u8::is_ascii_digit)
        && (digits[0] != b'0' || field == b"0");
    if !sound {
        return None;
    }
    let size = digits
        .iter()
        .fold(0, |size, digit| 10 * size + i64::from(digit - b'0'));
    Some(if negative { -size } else { size })
}
