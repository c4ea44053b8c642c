//! Nets with a sheet: by our own correlates, by others that close the net or do not, by
//! correlates next to a limit; then another net's sheet, damage to the lines or to the
//! bytes, and nets that have none.

use super::network::{
    angle, direction_lines, net_about_a_minute, net_of_rows, network_case, repeat_condition,
    sound_net,
};
use super::text::{
    damage_bytes, damage_line, line, no_number, odd_byte, read_lines, write_lines, Line,
    LINE_DAMAGES,
};
use super::{inverse_weights, Rng, CIRCLE};
use crate::adjustment::Net;
use crate::network;

/// Correlates next to this one are drawn, and none much beyond it.
const MOST_K: i64 = 100_000_000;
const MOST_R: i64 = 50_000_000;

/// The bytes of a network file and of a listing.
#[derive(Clone, Debug, PartialEq, Eq)]
pub struct SheetCase {
    pub net: Vec<u8>,
    pub listing: Vec<u8>,
}

pub fn sheet_case(rng: &mut Rng) -> SheetCase {
    let mut net = draw_net(rng);
    let mut listing = match network::sound_net(&net) {
        Ok(net) => sheet_of(rng, &net),
        Err(_) => any_sheet(rng),
    };
    match rng.below(40) {
        0..=8 => {
            let mut lines = read_lines(&listing);
            change_digit(rng, &mut lines);
            listing = write_lines(&lines);
        }
        9..=12 => {
            let mut lines = read_lines(&listing);
            for _ in 0..rng.pick(&[1, 1, 1, 2]) {
                damage_lines(rng, &mut lines);
            }
            listing = write_lines(&lines);
        }
        13 | 14 => {
            let tails: [&[u8]; 4] = [b"E\t5\t3\n", b"\n", b"K", b"REFUSED\t6\t1\n"];
            damage_bytes(rng, &mut listing, &tails);
        }
        15..=17 => listing = any_sheet(rng),
        // The sheet of a net that was nearly this one.
        18 => {
            let mut lines = read_lines(&net);
            change_digit(rng, &mut lines);
            net = write_lines(&lines);
        }
        19 => listing.resize(65_534 + rng.below(4), rng.pick(b"\n0\tx")),
        _ => {}
    }
    SheetCase { net, listing }
}

fn draw_net(rng: &mut Rng) -> Vec<u8> {
    let lines = match rng.below(20) {
        0..=5 => return network_case(rng).file,
        6 => return any_bytes(rng),
        7..=9 => light_net(rng),
        10 => net_about_a_correlate(rng),
        11 | 12 => net_about_a_minute(rng),
        13 => net_of_rows(rng),
        14 | 15 => {
            let mut lines = sound_net(rng);
            repeat_condition(rng, &mut lines);
            lines
        }
        _ => sound_net(rng),
    };
    write_lines(&lines)
}

fn any_bytes(rng: &mut Rng) -> Vec<u8> {
    (0..rng.below(60)).map(|_| odd_byte(rng)).collect()
}

/// Side conditions with a direction each and small differences: a correlate, or R, can be
/// brought just to its limit.
fn light_net(rng: &mut Rng) -> Vec<Line> {
    let m = rng.pick(&[1, 1, 2, 3, 64]);
    let directions: Vec<i64> = (0..m).map(|_| rng.direction()).collect();
    let q = match rng.below(3) {
        0 => inverse_weights(rng, m),
        _ => vec![1; m],
    };
    let mut lines = direction_lines(&directions, &q);
    for own in 1..=rng.count(1, m.min(24)) {
        let d = rng.sign() * rng.pick(&[1, 1, 1, 2, 5, 10, 10, 10]);
        let apart = if d.abs() == 10 {
            rng.pick(&[0, 9, 10, 10, 11])
        } else {
            0
        };
        lines.push(line!["C", "S"]);
        lines.push(line![rng.pick(&["L", "R"]), apart, d, 0, own]);
    }
    lines
}

/// A side condition whose correlate is next to 10^8 by what an angle condition adds to it:
/// within its limit there is one that closes both as well.
fn net_about_a_correlate(rng: &mut Rng) -> Vec<Line> {
    let directions = [rng.direction(), rng.direction()];
    let mut lines = direction_lines(&directions, &[1, 1]);
    let (apart, w) = (10, 10_000 + rng.range(-8, 3));
    let sum = angle(&directions, 0, 1) + angle(&directions, 0, 2) + CIRCLE;
    let (side, target) = match rng.below(2) {
        0 => (line!["L", apart, 10, 0, 1], sum - w),
        _ => (line!["R", apart, -10, 0, 1], sum + w),
    };
    lines.extend([line!["C", "S"], side]);
    lines.extend([line!["C", "A", target], line!["F", 648_000_000]]);
    lines.extend([line!["F", 648_000_000], line!["P", 0, 1], line!["P", 0, 2]]);
    lines
}

/// A sheet by any correlates, of which all else follows.
fn sheet_of(rng: &mut Rng, net: &Net) -> Vec<u8> {
    let mut k = match net.adjust() {
        Ok(own) if rng.chance(80) => own.k,
        _ => closing(net),
    };
    let index = rng.below(k.len());
    match rng.below(20) {
        0..=2 => k[index] += rng.sign() * rng.size_up_to(5_000),
        3 => k
            .iter_mut()
            .for_each(|k| *k += rng.sign() * rng.size_up_to(50)),
        4..=6 => bring_remainder(rng, net, &mut k, index),
        7 => k[index] = rng.sign() * (MOST_K + rng.range(-1, 2)),
        8 => k = k.iter().map(|_| rng.range(-MOST_K, MOST_K)).collect(),
        9 => k.fill(0),
        _ => {}
    }
    let most = MOST_K + rng.pick(&[0, 0, 1, 9_999_999, 9_999_999]);
    let k: Vec<i64> = k.into_iter().map(|k| k.clamp(-most, most)).collect();
    network::adjustment_text(&net.given_by(&k)).into_bytes()
}

/// Brings R of one condition next to its limit, by the condition's own correlate.
fn bring_remainder(rng: &mut Rng, net: &Net, k: &mut [i64], index: usize) {
    let entry = net.normals()[index][index] as i64;
    if entry > 0 && k.iter().all(|k| k.abs() <= MOST_K) {
        let sign = rng.sign();
        let away = sign * MOST_R - net.given_by(k).r[index];
        k[index] += away / entry + sign * rng.pick(&[-1, 0, 0, 1, 1]);
    }
}

/// Correlates that close the net, where any do, by reckoning in floats: a condition that
/// follows from those before it has 0.
fn closing(net: &Net) -> Vec<i64> {
    let wide = |x: &i128| *x as f64;
    let n = net.w.len();
    let mut rows: Vec<Vec<f64>> = Vec::new();
    for (j, (normal, w)) in net.normals().iter().zip(&net.w).enumerate() {
        let mut row: Vec<f64> = normal.iter().map(wide).collect();
        let floor = row[j] * 1e-9 + 1e-9;
        row.push(-1e7 * wide(w));
        for (i, before) in rows.iter().enumerate().filter(|(i, row)| row[*i] != 0.0) {
            let factor = row[i] / before[i];
            let pairs = row.iter_mut().zip(before);
            pairs.for_each(|(x, before)| *x -= factor * before);
        }
        if row[j] < floor {
            row[j] = 0.0;
        }
        rows.push(row);
    }
    let mut k = vec![0.0; n];
    for (j, row) in rows
        .iter()
        .enumerate()
        .rev()
        .filter(|(j, row)| row[*j] != 0.0)
    {
        let later: f64 = (j + 1..n).map(|i| row[i] * k[i]).sum();
        k[j] = (row[n] - later) / row[j];
    }
    k.iter().map(|k| k.round() as i64).collect()
}

/// A listing that has nothing to do with a net at hand, or is none.
fn any_sheet(rng: &mut Rng) -> Vec<u8> {
    match rng.below(8) {
        0 => any_bytes(rng),
        1 => Vec::new(),
        2 => zeros(rng.pick(&[0, 1, 64, 65]), rng.pick(&[0, 1, 24, 25])),
        3 => network::probable_listing(&network_case(rng).file),
        _ => network::listing(&write_lines(&sound_net(rng))),
    }
}

/// A listing of these counts whose numbers are all 0.
fn zeros(m: usize, n: usize) -> Vec<u8> {
    let mut lines = vec![line!["ADJ", m, n]];
    lines.extend((1..=m).map(|i| line!["V", i, 0, 0]));
    lines.extend((1..=n).map(|j| line!["K", j, 0, 0, 0]));
    write_lines(&lines)
}

/// Some line; the first, those of its next letter and those of the last one are as common.
fn some_line(rng: &mut Rng, lines: &[Line]) -> usize {
    let last = lines.iter().rev().map(|line| &line[0]);
    let letters: Vec<&String> = last.clone().take(1).chain(last.rev().take(2)).collect();
    let Some(&letter) = letters.get(rng.below(3)) else {
        return 0;
    };
    let alike: Vec<usize> = (0..lines.len())
        .filter(|&index| lines[index][0] == *letter)
        .collect();
    rng.pick(&alike)
}

/// One digit of a number becomes another.
fn change_digit(rng: &mut Rng, lines: &mut [Line]) {
    if lines.is_empty() {
        return;
    }
    let line = &mut lines[some_line(rng, lines)];
    let last = line.len() - 1;
    let index = (1 + rng.below(last)).min(last);
    let mut field = line[index].clone().into_bytes();
    let mut digits: Vec<&mut u8> = field.iter_mut().filter(|x| x.is_ascii_digit()).collect();
    let place = rng.below(digits.len());
    if let Some(digit) = digits.get_mut(place) {
        **digit = b'0' + (**digit - b'0' + rng.range(1, 9) as u8) % 10;
    }
    line[index] = String::from_utf8_lossy(&field).into_owned();
}

fn damage_lines(rng: &mut Rng, lines: &mut Vec<Line>) {
    if lines.is_empty() {
        return;
    }
    let places = [some_line(rng, lines), some_line(rng, lines)];
    let way = rng.below(LINE_DAMAGES);
    let letters = ["ADJ", "V", "K", "E", "v", "k", "adj", "REFUSED", "", "D"];
    damage_line(rng, lines, places, way, &letters, boundary_text);
}

/// Numbers and near-numbers at which some rule of a sheet turns.
fn boundary_text(rng: &mut Rng) -> String {
    match rng.below(4) {
        0 => no_number(rng),
        1 => rng.pick(&[-1, 0, 1, 2, 24, 25, 64, 65]).to_string(),
        2 => {
            let limit = rng.pick(&[60_000, MOST_K, MOST_R, 1_296_000_000]);
            (rng.sign() * (limit + rng.range(-1, 1))).to_string()
        }
        _ => rng
            .pick(&[
                "999999999999999999",
                "-999999999999999999",
                "1000000000000000000",
                "-1000000000000000000",
                "9223372036854775807",
                "-9223372036854775808",
                "4294967297",
            ])
            .to_string(),
    }
}

#[cfg(test)]
mod tests {
    use super::*;
    use crate::sheet::{check, Answer};

    #[test]
    fn closing_correlates_close() {
        let mut rng = Rng::new(6);
        let mut yes = 0;
        for _ in 0..200 {
            let mut lines = sound_net(&mut rng);
            repeat_condition(&mut rng, &mut lines);
            let file = write_lines(&lines);
            let Ok(net) = network::sound_net(&file) else {
                continue;
            };
            let k: Vec<i64> = closing(&net);
            if k.iter().all(|k| k.abs() <= MOST_K) {
                let sheet = network::adjustment_text(&net.given_by(&k));
                yes += usize::from(check(&file, sheet.as_bytes()) == Ok(Answer::Yes));
            }
        }
        assert!(yes > 80, "{yes}");
    }
}
