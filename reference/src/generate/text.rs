//! Files as lines and bytes, and the damage that a file of any kind may take.

use super::Rng;
use crate::lines::MOST_BYTES;

/// A line as its fields.
pub type Line = Vec<String>;

macro_rules! line {
    ($($field:expr),+) => { vec![$($field.to_string()),+] };
}
pub(super) use line;

pub fn write_lines(lines: &[Line]) -> Vec<u8> {
    let mut text = String::new();
    for line in lines {
        text += &line.join("\t");
        text.push('\n');
    }
    text.into_bytes()
}

/// The lines of a file that [`write_lines`] could have written.
pub fn read_lines(file: &[u8]) -> Vec<Line> {
    let text = String::from_utf8_lossy(file);
    let fields = |line: &str| line.split('\t').map(str::to_string).collect();
    text.lines().map(fields).collect()
}

/// A field that is no number, for one reason or another.
pub fn no_number(rng: &mut Rng) -> String {
    rng.pick(&[
        "00",
        "-0",
        "+1",
        "",
        "-",
        "01",
        "-01",
        " 1",
        "1 ",
        "1\r",
        "1.0",
        "0x1",
        "A",
        "100000000000",
        "-100000000000",
        "000000000000",
        "18446744073709551617",
        "--1",
    ])
    .to_string()
}

/// The ways of [`damage_line`].
pub const LINE_DAMAGES: usize = 14;

/// Damages the line at `index` in one of the ways: a field or its letter changed, a field
/// too many or too few, or the line dropped, doubled, moved, or an empty one put there.
pub fn damage_line(
    rng: &mut Rng,
    lines: &mut Vec<Line>,
    [index, other]: [usize; 2],
    way: usize,
    letters: &[&str],
    text: impl Fn(&mut Rng) -> String,
) {
    match way {
        0..=4 => {
            let field = rng.below(lines[index].len());
            lines[index][field] = text(rng);
        }
        5 => {
            lines.remove(index);
        }
        6 => {
            let again = lines[index].clone();
            lines.insert(other, again);
        }
        7 => lines.swap(index, other),
        8 => {
            let again = lines[index].clone();
            lines.insert(index, again);
        }
        9 => {
            let text = text(rng);
            lines[index].push(text);
        }
        10 => {
            lines[index].pop();
            if lines[index].is_empty() {
                lines[index].push(String::new());
            }
        }
        11 => lines[index][0] = rng.pick(letters).to_string(),
        12 => lines.insert(index, line![""]),
        _ => lines.push(line![""]),
    }
}

/// A byte that has a meaning somewhere, or any byte.
pub fn odd_byte(rng: &mut Rng) -> u8 {
    if rng.chance(70) {
        rng.pick(b"\t\t\n\n\r\0 -+0123456789DCPFLRASdx.")
    } else {
        rng.range(0, 255) as u8
    }
}

/// Damage to the bytes of a file; `tails` are what may be left behind its end.
pub fn damage_bytes(rng: &mut Rng, file: &mut Vec<u8>, tails: &[&[u8]]) {
    let index = rng.below(file.len());
    match rng.below(16) {
        0..=3 => {
            if let Some(byte) = file.get_mut(index) {
                *byte = odd_byte(rng);
            }
        }
        4 => {
            if let Some(byte) = file.get_mut(index) {
                *byte ^= 1 << rng.below(8);
            }
        }
        5 => {
            if index < file.len() {
                file.remove(index);
            }
        }
        6 => file.insert(index, odd_byte(rng)),
        7 => {
            file.pop();
        }
        8 => *file = with_carriage_returns(file),
        9 => file.truncate(index),
        10 => file.push(rng.pick(b"\n\0\t D")),
        11 => file.extend(rng.pick(tails)),
        12 => file.clear(),
        _ => stretch(rng, file),
    }
}

fn with_carriage_returns(file: &[u8]) -> Vec<u8> {
    let mut longer = Vec::new();
    for &byte in file {
        if byte == b'\n' {
            longer.push(b'\r');
        }
        longer.push(byte);
    }
    longer
}

/// Brings the file to about the limit of its length, at its end or in its first line.
fn stretch(rng: &mut Rng, file: &mut Vec<u8>) {
    let wanted = MOST_BYTES - 1 + rng.pick(&[0, 1, 1, 2, 2, 3, 4_000]);
    let filling = rng.pick(b"\n\0\t 1x");
    let added = wanted.saturating_sub(file.len());
    if rng.chance(80) {
        file.extend(vec![filling; added]);
        if rng.chance(50) {
            if let Some(last) = file.last_mut() {
                *last = b'\n';
            }
        }
    } else {
        let mut longer = vec![filling; added];
        longer.append(file);
        *file = longer;
    }
}
