//! Archives, whole and damaged, and cuts into parts; the states of a stream, reports and
//! texts of reports, most of them sound, and some with one number at or beyond its limit.

use super::network::{angle, direction_lines, moderate_misclosure, network_case};
use super::text::{
    damage_bytes, damage_line, line, no_number, odd_byte, write_lines, Line, LINE_DAMAGES,
};
use super::{inverse_weights, Rng};
use crate::lines::MOST_BYTES;
use crate::season::{begin, next, HELD, MOST_NETS, MOST_TOTAL, PLACES, TOTALS};

/// An archive, the room lent for its totals, and the places where it is cut into parts.
#[derive(Clone, Debug, PartialEq, Eq)]
pub struct ArchiveCase {
    pub archive: Vec<u8>,
    pub room: usize,
    pub cuts: Vec<usize>,
}

impl ArchiveCase {
    /// The parts between the cuts, in order; some may be empty.
    pub fn parts(&self) -> Vec<&[u8]> {
        let mut parts = Vec::new();
        let mut start = 0;
        for &cut in &self.cuts {
            parts.push(&self.archive[start..cut]);
            start = cut;
        }
        parts.push(&self.archive[start..]);
        parts
    }
}

/// The state of a stream as it is lent, and the bytes that come next.
#[derive(Clone, Debug, PartialEq, Eq)]
pub struct StateCase {
    pub bytes: Vec<u8>,
    pub held: Vec<u8>,
    pub totals: Vec<u64>,
    pub place: Vec<u64>,
}

/// Two reports as they are lent, and the room for their sum.
#[derive(Clone, Debug, PartialEq, Eq)]
pub struct SumCase {
    pub first: Vec<u64>,
    pub second: Vec<u64>,
    pub room: usize,
}

/// Reports as text, one after another.
#[derive(Clone, Debug, PartialEq, Eq)]
pub struct ReportsCase {
    pub file: Vec<u8>,
}

pub fn archive_case(rng: &mut Rng) -> ArchiveCase {
    let archive = draw_archive(rng);
    let parts = rng.pick(&[1, 2, 2, 2, 3, 4, 6]);
    let mut cuts: Vec<usize> = (1..parts).map(|_| draw_cut(rng, &archive)).collect();
    cuts.sort_unstable();
    let room = if rng.chance(3) {
        rng.wrong_length(TOTALS)
    } else {
        TOTALS
    };
    ArchiveCase {
        archive,
        room,
        cuts,
    }
}

/// A place to cut an archive, often next to a full stop.
fn draw_cut(rng: &mut Rng, archive: &[u8]) -> usize {
    let anywhere = rng.below(archive.len() + 1);
    if rng.chance(50) {
        return anywhere;
    }
    let stop = archive[anywhere..].iter().position(|&byte| byte == b'.');
    match stop {
        Some(index) => (anywhere + index + rng.below(3)).min(archive.len()),
        None => archive.len() - rng.below(archive.len().min(3) + 1),
    }
}

fn draw_archive(rng: &mut Rng) -> Vec<u8> {
    if rng.below(250) == 0 {
        many_nets(rng)
    } else {
        few_nets(rng)
    }
}

/// About 100,000 nets, nearly all of them empty.
fn many_nets(rng: &mut Rng) -> Vec<u8> {
    let most = MOST_NETS as usize;
    let mut archive = b".\n".repeat(most - 3);
    archive.extend(few_nets(rng));
    archive.extend(b".\n".repeat(rng.below(4)));
    if rng.chance(30) {
        archive.push(odd_byte(rng));
    }
    archive
}

fn few_nets(rng: &mut Rng) -> Vec<u8> {
    let mut archive = Vec::new();
    for _ in 0..rng.pick(&[0, 1, 1, 2, 2, 3, 4, 6]) {
        archive.extend(draw_net(rng));
        archive.extend(draw_closing(rng, archive.last().copied()));
    }
    if rng.chance(30) {
        archive.extend(draw_leftover(rng));
    }
    archive
}

fn draw_net(rng: &mut Rng) -> Vec<u8> {
    match rng.below(40) {
        0..=13 => write_lines(&net_of_shared(rng)),
        14..=17 => Vec::new(),
        18..=20 => (0..rng.below(12)).map(|_| odd_byte(rng)).collect(),
        21 => long_net(rng),
        _ => network_case(rng).file,
    }
}

/// A net of about the longest length, which begins like one or not.
fn long_net(rng: &mut Rng) -> Vec<u8> {
    let mut net = match rng.below(3) {
        0 => write_lines(&net_of_shared(rng)),
        1 => b"..\n".to_vec(),
        _ => Vec::new(),
    };
    let wanted = MOST_BYTES - 2 + rng.pick(&[0, 1, 2, 2, 3, 3, 4, 5, 9_000]);
    net.resize(wanted.max(net.len()), rng.pick(b"\n.\t 1x"));
    net.push(b'\n');
    net
}

/// What follows a net: most often a full stop line, and the net brought to the end of its
/// last line before it.
fn draw_closing(rng: &mut Rng, last: Option<u8>) -> Vec<u8> {
    let mut closing = Vec::new();
    if last.is_some_and(|last| last != b'\n') && rng.chance(80) {
        closing.push(b'\n');
    }
    let closings: [&[u8]; 12] = [
        b".", b"..\n", b". \n", b".\r\n", b"\n.\n", b".\n.\n", b" .\n", b".x\n", b"", b"\n",
        b"x.\n", b".\n\n",
    ];
    closing.extend(match rng.below(8) {
        0 => rng.pick(&closings),
        _ => b".\n",
    });
    closing
}

fn draw_leftover(rng: &mut Rng) -> Vec<u8> {
    match rng.below(8) {
        0 => b".".to_vec(),
        1 => b"\n".to_vec(),
        2 => b"..".to_vec(),
        3 => b"\n.".to_vec(),
        4 => long_net(rng),
        5 => write_lines(&net_of_shared(rng)),
        _ => (0..rng.count(1, 9)).map(|_| odd_byte(rng)).collect(),
    }
}

/// A net of conditions of both kinds that share up to four directions, the last one often
/// among them, and have one each of their own; others they name, but with coefficients
/// that cancel.
fn net_of_shared(rng: &mut Rng) -> Vec<Line> {
    let m = rng.pick(&[6, 7, 9, 64, 64]);
    let directions: Vec<i64> = (0..m).map(|_| rng.direction()).collect();
    let mut lines = direction_lines(&directions, &inverse_weights(rng, m));
    let mut numbers = rng.sample(1, m as i64, 7);
    if rng.chance(60) && !numbers.contains(&(m as i64)) {
        numbers[0] = m as i64;
    }
    let (common, own) = numbers.split_at(rng.count(1, 4).min(numbers.len() - 2));
    for &own in &own[..rng.count(1, own.len().min(3))] {
        let mut touched = common.to_vec();
        if rng.chance(25) {
            touched.remove(rng.below(common.len()));
        }
        touched.push(own);
        let cancelled = common.iter().find(|number| !touched.contains(number));
        lines.extend(if rng.chance(60) {
            angles_of(rng, &directions, &touched, cancelled)
        } else {
            sides_of(rng, &touched, cancelled)
        });
    }
    lines
}

/// An angle condition that touches these directions; the one that cancels is there twice.
fn angles_of(
    rng: &mut Rng,
    directions: &[i64],
    touched: &[i64],
    cancelled: Option<&i64>,
) -> Vec<Line> {
    let mut ends: Vec<[i64; 2]> = touched
        .iter()
        .map(|&number| {
            if rng.chance(50) {
                [0, number]
            } else {
                [number, 0]
            }
        })
        .collect();
    ends.extend(
        cancelled
            .into_iter()
            .flat_map(|&number| [[0, number], [number, 0]]),
    );
    rng.shuffle(&mut ends);
    let sum: i64 = ends.iter().map(|&[i, k]| angle(directions, i, k)).sum();
    let target = (sum - moderate_misclosure(rng)).max(0);
    let mut lines = vec![line!["C", "A", target]];
    lines.extend(ends.iter().map(|[i, k]| line!["P", i, k]));
    lines
}

/// A side condition that touches these directions; the one that cancels has a difference
/// of 0, or stands on both sides.
fn sides_of(rng: &mut Rng, touched: &[i64], cancelled: Option<&i64>) -> Vec<Line> {
    let mut terms: Vec<Line> = touched
        .iter()
        .map(|number| {
            let d = rng.sign() * rng.range(100, 400);
            line![rng.pick(&["L", "R"]), 0, d, 0, number]
        })
        .collect();
    if let Some(number) = cancelled {
        match rng.below(2) {
            0 => terms.push(line!["L", 0, 0, number, 0]),
            _ => {
                terms.push(line!["L", 0, 7, 0, number]);
                terms.push(line!["R", 0, 7, 0, number]);
            }
        }
    }
    let apart = moderate_misclosure(rng) / 100;
    let side = if apart < 0 { "R" } else { "L" };
    terms.push(line![side, apart.abs(), 0, 0, 0]);
    rng.shuffle(&mut terms);
    terms.insert(0, line!["C", "S"]);
    terms
}

/// A state that a stream has come to, most often; the archive's other bytes come next.
pub fn state_case(rng: &mut Rng) -> StateCase {
    let archive = few_nets(rng);
    let (taken, bytes) = archive.split_at(draw_cut(rng, &archive));
    let mut case = StateCase {
        bytes: bytes.to_vec(),
        held: vec![odd_byte(rng); HELD],
        totals: vec![0; TOTALS],
        place: vec![0; PLACES],
    };
    let StateCase {
        held,
        totals,
        place,
        ..
    } = &mut case;
    // Neither refuses lists that have just been made for it.
    let _ = begin(held, totals, place);
    let _ = next(taken, held, totals, place);
    if rng.chance(50) {
        *totals = report_numbers(rng);
        if rng.chance(60) {
            totals[0] = MOST_NETS - rng.below(4) as u64;
        }
        place[2] = u64::from(rng.below(10) == 0);
    }
    if rng.chance(12) {
        place[0] = rng.pick(&[0, 1, 2, 65_534, 65_535, 65_536, 65_537]);
        place[1] = rng.pick(&[0, 1, 2]);
    }
    if rng.chance(25) {
        damage_state(rng, &mut case);
    }
    if rng.chance(6) {
        match rng.below(3) {
            0 => case.held.resize(rng.wrong_length(HELD), 0),
            1 => case.totals.resize(rng.wrong_length(TOTALS), 0),
            _ => case.place.resize(rng.wrong_length(PLACES), 0),
        }
    }
    case
}

/// One number at its limit, or beyond.
fn damage_state(rng: &mut Rng, case: &mut StateCase) {
    let index = rng.below(TOTALS + PLACES);
    let limit = match index {
        0 => MOST_NETS,
        TOTALS => HELD as u64 + 1,
        17 => 2,
        18 => 1,
        _ => MOST_TOTAL,
    };
    let value = at_limit(rng, limit);
    let mut all = case.totals.iter_mut().chain(&mut case.place);
    if let Some(number) = all.nth(index) {
        *number = value;
    }
}

/// A number next to a limit, or far beyond it.
fn at_limit(rng: &mut Rng, limit: u64) -> u64 {
    match rng.below(8) {
        0 | 1 => limit,
        2 => limit - 1,
        3 => rng.extreme() as u64,
        4 => u64::MAX,
        _ => limit + 1,
    }
}

/// The numbers of a report that could be one, but for the nets that do have such totals.
fn report_numbers(rng: &mut Rng) -> Vec<u64> {
    let mut numbers = vec![0; TOTALS];
    for _ in 0..rng.below(5) {
        let number = rng.count(1, 10);
        numbers[number] = rng.size_up_to(9_000) as u64;
    }
    numbers[0] = numbers[1..=10].iter().sum();
    for number in &mut numbers[11..] {
        *number = rng.size_up_to(24_000_000_000) as u64;
    }
    numbers
}

pub fn sum_case(rng: &mut Rng) -> SumCase {
    let (mut first, mut second) = (report_numbers(rng), report_numbers(rng));
    match rng.below(10) {
        // Together they are at the most nets, or next to it.
        0 | 1 => {
            let total = MOST_NETS + rng.pick(&[0, 0, 1, 1, 2]) - 1;
            first[0] = rng.size_up_to(total as i64) as u64;
            second[0] = total - first[0];
        }
        // Together they are at the largest total, or next to it.
        2 | 3 => {
            let index = rng.below(TOTALS);
            let total = MOST_TOTAL + rng.pick(&[0, 0, 1, 1, 2]) - 1;
            first[index] = rng.range(0, total as i64) as u64;
            second[index] = total - first[index];
        }
        4 | 5 => {
            let index = rng.below(TOTALS);
            let value = at_limit(rng, MOST_TOTAL);
            first[index] = value;
        }
        _ => {}
    }
    if rng.chance(50) {
        std::mem::swap(&mut first, &mut second);
    }
    let mut room = TOTALS;
    if rng.chance(6) {
        let length = rng.wrong_length(TOTALS);
        match rng.below(3) {
            0 => first.resize(length, 0),
            1 => second.resize(length, 0),
            _ => room = length,
        }
    }
    SumCase {
        first,
        second,
        room,
    }
}

pub fn reports_case(rng: &mut Rng) -> ReportsCase {
    let mut lines = Vec::new();
    for _ in 0..rng.pick(&[1, 1, 2, 2, 3, 5]) {
        let mut numbers = report_numbers(rng);
        if rng.chance(15) {
            // Many accepted nets.
            let more = rng.pick(&[50_000, 99_999, 100_000, 100_001, MOST_TOTAL]);
            numbers[0] = more;
            numbers[1] = more;
            numbers[2..=10].fill(0);
        }
        if rng.chance(6) {
            numbers[rng.count(11, 15)] = MOST_TOTAL - rng.below(2) as u64;
        }
        if rng.chance(3) {
            numbers[rng.count(0, 10)] += 1;
        }
        lines.extend(report_lines(&numbers));
    }
    if rng.chance(20) {
        damage_lines(rng, &mut lines);
    }
    let mut file = write_lines(&lines);
    if rng.chance(7) {
        damage_bytes(
            rng,
            &mut file,
            &[b"\n\n", b"NETS\t0", b"REFUSED\t30\t100001\n", b"."],
        );
    }
    ReportsCase { file }
}

fn report_lines(numbers: &[u64]) -> Vec<Line> {
    let mut lines = vec![line!["NETS", numbers[0]], line!["ACCEPTED", numbers[1]]];
    for number in 1..=9 {
        lines.push(line!["COUNT", number, numbers[1 + number]]);
    }
    lines.push(line!["A", numbers[11], numbers[12]]);
    lines.push(line!["S", numbers[13], numbers[14]]);
    lines.push(line!["SHARED", numbers[15]]);
    lines
}

fn damage_lines(rng: &mut Rng, lines: &mut Vec<Line>) {
    let index = rng.below(lines.len());
    let other = rng.below(lines.len());
    let way = rng.below(LINE_DAMAGES);
    let words = [
        "NETS", "ACCEPTED", "COUNT", "A", "S", "SHARED", "REFUSED", "nets", "", "B",
    ];
    damage_line(rng, lines, [index, other], way, &words, boundary_text);
}

/// Numbers and near-numbers at which some rule of a report turns.
fn boundary_text(rng: &mut Rng) -> String {
    match rng.below(3) {
        0 => no_number(rng),
        1 => rng.pick(&[0, 1, 9, 10, 100_000, 100_001]).to_string(),
        _ => rng
            .pick(&[MOST_TOTAL - 1, MOST_TOTAL, MOST_TOTAL + 1, u64::MAX])
            .to_string(),
    }
}

#[cfg(test)]
mod tests {
    use super::*;
    use crate::season::report_of;

    #[test]
    fn parts_join_to_the_archive() {
        let mut rng = Rng::new(205);
        for _ in 0..300 {
            let case = archive_case(&mut rng);
            assert_eq!(case.parts().concat(), case.archive);
        }
    }

    #[test]
    fn nets_of_shared_directions_are_accepted_with_and_without() {
        let mut rng = Rng::new(64);
        let mut counts = [0, 0];
        for _ in 0..400 {
            let mut archive = write_lines(&net_of_shared(&mut rng));
            archive.extend(b".\n");
            let totals = report_of(&archive).totals;
            assert_eq!(totals[0], 1);
            counts[0] += totals[1] - totals[15];
            counts[1] += totals[15];
        }
        assert!(counts.iter().all(|&count| count > 80), "{counts:?}");
    }
}
