//! Network files, whole and damaged; and bytes for the line and number readers.

use super::pivot::{amplified, lone_light, next_to_its_entry, said_twice};
use super::table::{heavy_constant, steep_factor, Draft};
use super::text::{
    damage_bytes, damage_line, line, no_number, odd_byte, write_lines, Line, LINE_DAMAGES,
};
use super::{direction_count, inverse_weights, minute_misclosure, Rng, CIRCLE};

/// The bytes of a network file.
#[derive(Clone, Debug, PartialEq, Eq)]
pub struct NetworkCase {
    pub file: Vec<u8>,
}

/// Bytes and a start for the line reader.
#[derive(Clone, Debug, PartialEq, Eq)]
pub struct LineCase {
    pub file: Vec<u8>,
    pub start: usize,
}

/// A field for the number reader.
#[derive(Clone, Debug, PartialEq, Eq)]
pub struct NumberCase {
    pub field: Vec<u8>,
}

pub fn network_case(rng: &mut Rng) -> NetworkCase {
    let mut lines = match rng.below(15) {
        0 => net_about_a_minute(rng),
        1 | 2 => net_of_rows(rng),
        _ => sound_net(rng),
    };
    let damaged = rng.chance(55);
    if damaged && rng.chance(70) {
        for _ in 0..rng.pick(&[1, 1, 1, 2, 3]) {
            damage_lines(rng, &mut lines);
        }
    }
    let mut file = write_lines(&lines);
    if damaged && rng.chance(50) {
        for _ in 0..rng.pick(&[1, 1, 1, 2, 3]) {
            damage_bytes(rng, &mut file, &[b"\n\n", b"D\t1", b"P\t0\t1", b"."]);
        }
    }
    NetworkCase { file }
}

pub fn line_case(rng: &mut Rng) -> LineCase {
    let length = match rng.below(4) {
        0 => rng.below(4),
        1 => rng.below(200),
        _ => rng.count(1, 24),
    };
    let line_feeds = rng.pick(&[0, 10, 40, 90]);
    let file: Vec<u8> = (0..length)
        .map(|_| {
            if rng.chance(line_feeds) {
                b'\n'
            } else {
                odd_byte(rng)
            }
        })
        .collect();
    let start = match rng.below(12) {
        0 => length,
        1 => length + 1,
        2 => rng.pick(&[usize::MAX, usize::MAX - 1, length + 100]),
        3 => 0,
        _ => rng.below(length + 1),
    };
    LineCase { file, start }
}

pub fn number_case(rng: &mut Rng) -> NumberCase {
    let digits = rng.count(0, 13);
    let mut field: Vec<u8> = (0..digits).map(|_| rng.pick(b"0123456789")).collect();
    if rng.chance(40) && field.first() == Some(&b'0') {
        field[0] = b'9';
    }
    if rng.chance(30) {
        field.insert(0, b'-');
    }
    if rng.chance(15) {
        let index = rng.below(field.len() + 1);
        field.insert(index, odd_byte(rng));
    }
    if rng.chance(15) {
        field = boundary_text(rng, 9).into_bytes();
    }
    NumberCase { field }
}

/// A net that is well formed; what its solution says of it is another matter.
pub(super) fn sound_net(rng: &mut Rng) -> Vec<Line> {
    let m = direction_count(rng);
    let directions: Vec<i64> = (0..m).map(|_| rng.direction()).collect();
    let q = inverse_weights(rng, m);
    let mut lines = direction_lines(&directions, &q);
    let most = m.min(24);
    let n = match rng.below(3) {
        0 => most,
        1 => rng.count(1, most),
        _ => rng.count(1, most.div_ceil(2)),
    };
    let side_share = rng.pick(&[0, 20, 60]);
    let odd = if rng.chance(30) { rng.below(n) } else { n };
    for (index, own) in rng.sample(1, m as i64, n).into_iter().enumerate() {
        if index == odd {
            lines.extend(odd_condition(rng, &directions));
        } else if rng.chance(side_share) {
            lines.extend(side_condition(rng, &directions, own));
        } else {
            lines.extend(angle_condition(rng, &directions, own));
        }
    }
    lines
}

/// A net with corrections next to one minute: the angles of each condition have directions
/// of their own, which share its misclosure equally.
pub(super) fn net_about_a_minute(rng: &mut Rng) -> Vec<Line> {
    let n = rng.count(1, 3);
    let angles = rng.count(1, 4);
    let ends = rng.count(1, 2);
    let each = angles * ends;
    let m = n * each + rng.below(4);
    let directions: Vec<i64> = (0..m).map(|_| rng.direction()).collect();
    let mut lines = direction_lines(&directions, &vec![rng.range(1, 10); m]);
    for own in rng.sample(1, m as i64, n * each).chunks(each) {
        let mut terms = vec![line!["F", CIRCLE / 2]];
        let mut sum = CIRCLE / 2;
        for pair in own.chunks(ends) {
            // An angle with one direction of its own begins or ends at number 0.
            let mut pair = [pair[0], pair.get(1).copied().unwrap_or(0)];
            rng.shuffle(&mut pair);
            let [i, k] = pair;
            terms.push(line!["P", i, k]);
            sum += angle(&directions, i, k);
        }
        rng.shuffle(&mut terms);
        lines.push(line!["C", "A", sum - minute_misclosure(rng, each as i64)]);
        lines.extend(terms);
    }
    if n < m && rng.chance(15) {
        lines.extend(odd_condition(rng, &directions));
    }
    lines
}

/// A net of side conditions in which rows and pivots stand next to their limits.
pub(super) fn net_of_rows(rng: &mut Rng) -> Vec<Line> {
    let draft = match rng.below(8) {
        0 | 1 => lone_light(rng),
        2 | 3 => next_to_its_entry(rng),
        4 => said_twice(rng),
        5 => steep_factor(rng),
        6 => heavy_constant(rng),
        _ => amplified(rng, 40_000),
    };
    let directions: Vec<i64> = draft.q.iter().map(|_| rng.direction()).collect();
    written(rng, &directions, &draft)
}

/// The rows of a draft as side conditions: of each the first twelve terms that it takes, and
/// the misclosure in whole hundreds.
fn written(rng: &mut Rng, directions: &[i64], draft: &Draft) -> Vec<Line> {
    let mut lines = direction_lines(directions, &draft.q);
    for (row, w) in draft.rows.iter().zip(&draft.w) {
        lines.push(line!["C", "S"]);
        lines.extend(side_terms(rng, row, w / 100));
    }
    lines
}

/// The terms of a side condition, on either side and with either end first; one of them has
/// the one logarithm that is not 0.
fn side_terms(rng: &mut Rng, row: &[i64], apart: i64) -> Vec<Line> {
    let mut logarithm = apart.abs();
    let mut left = apart >= 0;
    let mut terms = Vec::new();
    for (a, i, k) in ends(row).into_iter().take(12) {
        let (letter, d) = if left { ("L", a) } else { ("R", -a) };
        terms.push(match rng.below(2) {
            0 => line![letter, logarithm, d, i, k],
            _ => line![letter, logarithm, -d, k, i],
        });
        logarithm = 0;
        left = rng.chance(50);
    }
    rng.shuffle(&mut terms);
    terms
}

/// A row as terms that add -a to direction i and a to direction k: two coefficients where
/// they are opposite, otherwise one with number 0. Nothing at all is a fixed length.
fn ends(row: &[i64]) -> Vec<(i64, usize, usize)> {
    let mut ends: Vec<(i64, usize, usize)> = Vec::new();
    for (index, &a) in row.iter().enumerate().filter(|(_, &a)| a != 0) {
        match ends.iter_mut().find(|end| end.1 == 0 && end.0 == -a) {
            Some(end) => end.1 = index + 1,
            None => ends.push((a, 0, index + 1)),
        }
    }
    if ends.is_empty() {
        ends.push((0, 0, 0));
    }
    ends
}

pub(super) fn direction_lines(directions: &[i64], q: &[i64]) -> Vec<Line> {
    let numbered = directions.iter().zip(q).enumerate();
    numbered
        .map(|(index, (direction, q))| line!["D", index + 1, direction, q])
        .collect()
}

/// Some direction number other than the one given, 0 included.
fn other_direction(rng: &mut Rng, m: usize, one: i64) -> i64 {
    let m = m as i64;
    (one + rng.range(1, m)).rem_euclid(m + 1)
}

pub(super) fn angle(directions: &[i64], i: i64, k: i64) -> i64 {
    let value = |number: i64| match number {
        0 => 0,
        _ => directions[number as usize - 1],
    };
    (value(k) - value(i)).rem_euclid(CIRCLE)
}

/// Angles whose target leaves a moderate misclosure. The row's own direction takes
/// part, so that rows are seldom dependent.
fn angle_condition(rng: &mut Rng, directions: &[i64], own: i64) -> Vec<Line> {
    let m = directions.len();
    let mut terms: Vec<Line> = Vec::new();
    let mut sum = 0;
    let count = rng.pick(&[1, 1, 2, 2, 3, 4, 6, 12]);
    for index in 0..count {
        if index > 0 && rng.chance(20) {
            let fixed = rng.direction();
            terms.push(line!["F", fixed]);
            sum += fixed;
        } else {
            let k = if index == 0 {
                own
            } else {
                rng.range(0, m as i64)
            };
            let i = other_direction(rng, m, k);
            terms.push(line!["P", i, k]);
            sum += angle(directions, i, k);
        }
    }
    let target = (sum - moderate_misclosure(rng)).clamp(0, 12 * CIRCLE);
    rng.shuffle(&mut terms);
    terms.insert(0, line!["C", "A", target]);
    terms
}

/// Logarithms that close but for a moderate misclosure; their differences are small
/// enough, most often, for the correlates and the remainders to pass.
fn side_condition(rng: &mut Rng, directions: &[i64], own: i64) -> Vec<Line> {
    let m = directions.len();
    let most = rng.pick(&[80, 200, 200, 500]);
    let mut terms: Vec<Line> = Vec::new();
    let pairs = rng.pick(&[1, 1, 2, 3, 6]);
    for index in 0..pairs {
        let logarithm = rng.range(50_000_000, 199_000_000);
        let apart = match index {
            0 => moderate_misclosure(rng) / 100,
            _ => 0,
        };
        let k = if index == 0 {
            own
        } else {
            rng.range(1, m as i64)
        };
        let i = other_direction(rng, m, k);
        let d = rng.sign() * rng.range(most / 2, most);
        terms.push(line!["L", logarithm, d, i, k]);
        if rng.chance(20) {
            terms.push(line!["R", logarithm - apart, 0, 0, 0]);
        } else {
            let k = rng.range(0, m as i64);
            let i = other_direction(rng, m, k);
            let d = rng.range(-most, most);
            terms.push(line!["R", logarithm - apart, d, i, k]);
        }
    }
    rng.shuffle(&mut terms);
    terms.insert(0, line!["C", "S"]);
    terms
}

pub(super) fn moderate_misclosure(rng: &mut Rng) -> i64 {
    match rng.below(12) {
        0 => 0,
        1 => rng.range(-100_000, 100_000),
        _ => rng.range(-9_000, 9_000),
    }
}

/// A condition made to stand at the edge of one test of the solution.
fn odd_condition(rng: &mut Rng, directions: &[i64]) -> Vec<Line> {
    let m = directions.len();
    match rng.below(10) {
        // No coefficient at all.
        0 => {
            let fixed = rng.direction();
            vec![line!["C", "A", fixed], line!["F", fixed]]
        }
        1 => vec![
            line!["C", "S"],
            line!["L", 5_000, 0, 0, 0],
            line!["R", 5_000, 0, 0, 0],
        ],
        // A correlate at its limit.
        2 | 3 => {
            let d = rng.sign() * rng.pick(&[1, 3, 9, 10, 10, 11, 12, 20]);
            let apart = rng.pick(&[0, 1, 9, 10, 11, 30]);
            let k = rng.range(1, m as i64);
            vec![
                line!["C", "S"],
                line!["L", 100_000_000 + apart, d, 0, k],
                line!["R", 100_000_000, 0, 0, 0],
            ]
        }
        // A remainder at its limit.
        4 | 5 => {
            let mut lines = vec![line!["C", "S"]];
            let apart = rng.pick(&[1, 2, 3, 7]);
            let numbers = rng.sample(1, m as i64, 12);
            for (index, pair) in numbers.chunks(2).enumerate() {
                let d = rng.pick(&[1_500, 2_000, 2_000]);
                let (i, k) = (pair[0], pair.get(1).copied().unwrap_or(0));
                let logarithm = if index == 0 { apart } else { 0 };
                lines.push(line!["L", logarithm, d, i, k]);
            }
            lines
        }
        // A coefficient at its limit.
        6 | 7 => {
            let k = rng.range(1, m as i64);
            let over = rng.pick(&[999, 1_000, 1_000, 1_001, 1_001]);
            vec![
                line!["C", "S"],
                line!["L", 70_000_000, 1_000, 0, k],
                line!["R", 70_000_000, -over, 0, k],
            ]
        }
        // A misclosure at its limit.
        8 => {
            let side = rng.sign();
            let apart = rng.pick(&[9_999, 10_000, 10_001]);
            let k = rng.range(1, m as i64);
            vec![
                line!["C", "S"],
                line!["L", 70_000_000 + side * apart, 2_000, 0, k],
                line!["R", 70_000_000, 0, 0, 0],
            ]
        }
        _ => {
            let k = rng.range(1, m as i64);
            let sum = angle(directions, 0, k) + 648_000_000;
            let w = rng.sign() * rng.pick(&[999_999, 1_000_000, 1_000_001]);
            vec![
                line!["C", "A", sum - w],
                line!["P", 0, k],
                line!["F", 648_000_000],
            ]
        }
    }
}

/// Numbers and near-numbers at which some rule turns, in a net of m directions.
fn boundary_text(rng: &mut Rng, m: usize) -> String {
    let m = m as i64;
    match rng.below(4) {
        0 => no_number(rng),
        1 => rng
            .pick(&[-1, 0, 1, m - 1, m, m + 1, 10, 11, 12, 13, 64, 65])
            .to_string(),
        2 => rng
            .pick(&[
                2_000,
                2_001,
                -2_000,
                -2_001,
                CIRCLE - 1,
                CIRCLE,
                200_000_000,
                200_000_001,
            ])
            .to_string(),
        _ => rng
            .pick(&[
                12 * CIRCLE,
                12 * CIRCLE + 1,
                99_999_999_999,
                -99_999_999_999,
                -1,
                4_294_967_296,
                4_294_967_297,
            ])
            .to_string(),
    }
}

fn damage_lines(rng: &mut Rng, lines: &mut Vec<Line>) {
    if lines.is_empty() {
        return;
    }
    let m = lines.iter().filter(|line| line[0] == "D").count();
    let index = rng.below(lines.len());
    let other = rng.below(lines.len());
    match rng.below(LINE_DAMAGES + 8) {
        way if way < LINE_DAMAGES => {
            let letters = [
                "D", "C", "P", "F", "L", "R", "A", "S", "d", "c", "p", "X", "", "ADJ", "D ",
            ];
            let text = |rng: &mut Rng| boundary_text(rng, m);
            damage_line(rng, lines, [index, other], way, &letters, text);
        }
        14 | 15 => fill_directions(rng, lines, m),
        16 | 17 => fill_conditions(rng, lines, m),
        18 => fill_terms(rng, lines),
        19 => repeat_condition(rng, lines),
        20 => lines.retain(|line| line[0] == "D"),
        _ => lines.retain(|line| line[0] != "D"),
    }
}

/// Brings the D lines to 64, 65 or 66.
fn fill_directions(rng: &mut Rng, lines: &mut Vec<Line>, m: usize) {
    let wanted = rng.pick(&[64, 65, 65, 66]);
    let spoiled = rng.chance(20);
    for number in m + 1..=wanted {
        let q = if spoiled && number == 65 { "x" } else { "1" };
        let place = (number - 1).min(lines.len());
        lines.insert(place, line!["D", number, number, q]);
    }
}

/// Brings the conditions to 24 or 25, or leaves one without terms.
fn fill_conditions(rng: &mut Rng, lines: &mut Vec<Line>, m: usize) {
    let count = lines.iter().filter(|line| line[0] == "C").count();
    match rng.below(5) {
        0 => lines.push(line!["C", "S"]),
        1 => {
            let place = rng.count(m.min(lines.len()), lines.len());
            let target = boundary_text(rng, m);
            lines.insert(place, line!["C", "A", target]);
        }
        2 => lines.truncate(rng.count(m.min(lines.len()), lines.len())),
        _ => {
            let wanted = rng.pick(&[24, 25, 25]);
            for number in count..wanted {
                lines.push(line!["C", "A", 0]);
                lines.push(line!["P", 0, 1 + number % m.max(1)]);
            }
        }
    }
}

/// Brings the last condition to 12, 13 or 14 terms; the last may be out of range too.
fn fill_terms(rng: &mut Rng, lines: &mut Vec<Line>) {
    let Some(start) = lines.iter().rposition(|line| line[0] == "C") else {
        return;
    };
    let Some(term) = lines.get(start + 1).cloned() else {
        return;
    };
    let wanted = rng.pick(&[12, 13, 13, 14]);
    while lines.len() < start + 1 + wanted {
        lines.push(term.clone());
    }
    if rng.chance(30) {
        if let Some(field) = lines.last_mut().and_then(|line| line.last_mut()) {
            *field = rng.pick(&["-1", "x", "99999999999"]).to_string();
        }
    }
}

/// The same condition twice, which makes a weak row of the second.
pub(super) fn repeat_condition(rng: &mut Rng, lines: &mut Vec<Line>) {
    let starts: Vec<usize> = (0..lines.len())
        .filter(|&index| lines[index][0] == "C")
        .collect();
    if starts.is_empty() {
        return;
    }
    let start = rng.pick(&starts);
    let end = (start + 1..lines.len())
        .find(|&index| lines[index][0] == "C")
        .unwrap_or(lines.len());
    let again: Vec<Line> = lines[start..end].to_vec();
    lines.extend(again);
}

#[cfg(test)]
mod tests {
    use super::*;
    use crate::adjustment::{self, AnswerLengths, ConditionTable};
    use crate::network;

    #[test]
    fn a_file_of_rows_is_answered_as_their_table_is() {
        let mut rng = Rng::new(203);
        let mut accepted = 0;
        for _ in 0..300 {
            let mut draft = match rng.below(3) {
                0 => lone_light(&mut rng),
                1 => next_to_its_entry(&mut rng),
                _ => heavy_constant(&mut rng),
            };
            if draft.rows.iter().any(|row| ends(row).len() > 12) {
                continue;
            }
            draft.w.iter_mut().for_each(|w| *w -= *w % 100);
            let directions: Vec<i64> = draft.q.iter().map(|_| rng.direction()).collect();
            let file = write_lines(&written(&mut rng, &directions, &draft));
            let table = ConditionTable {
                directions: &directions,
                q: &draft.q,
                a: &draft.rows.concat(),
                w: &draft.w,
            };
            let lengths = AnswerLengths::fitting(draft.q.len(), draft.w.len());
            let reply = adjustment::adjust(&table, lengths);
            accepted += usize::from(reply.is_ok());
            assert_eq!(network::adjust_network(&file), reply);
        }
        assert!(accepted > 50);
    }

    #[test]
    fn files_have_a_d_on_both_sides_of_its_limit() {
        let mut rng = Rng::new(256);
        let mut places = [0, 0];
        for _ in 0..60 {
            let draft = amplified(&mut rng, 40_000);
            let file = write_lines(&written(&mut rng, &[0; 24], &draft));
            let reply = network::adjust_network(&file).unwrap_err();
            // Where D(4,5) passes, the row after it is weak.
            assert!(reply.number == 6 && (4..=5).contains(&reply.place));
            places[reply.place as usize - 4] += 1;
        }
        assert!(places.iter().all(|&count| count > 10), "{places:?}");
    }
}
