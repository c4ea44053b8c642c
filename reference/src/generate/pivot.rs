//! Conditions whose pivots stand next to their limits: light ones, such that share all but
//! a little with an earlier one, and such that only rounding tells apart.

use super::table::{misclosures, Draft};
use super::{inverse_weights, Rng};

/// A lone condition of tiny coefficients, whose misclosure often brings the correlate to
/// its limit, or a correction to one minute.
pub(super) fn lone_light(rng: &mut Rng) -> Draft {
    let m = rng.count(1, 4);
    let q = inverse_weights(rng, m);
    let mut row: Vec<i64> = (0..m).map(|_| rng.sign() * rng.range(1, 12)).collect();
    for a in row.iter_mut().skip(1) {
        *a *= rng.range(0, 1);
    }
    let entry: i64 = row.iter().zip(&q).map(|(a, q)| q * a * a).sum();
    let pulls = row.iter().zip(&q).map(|(a, q)| q * a.abs());
    let most_pulled = pulls.max().unwrap_or(1);
    let size = match rng.below(4) {
        0 => rng.range(0, 20),
        1 => 10 * entry + rng.range(-1, 1),
        2 => 600 * entry / most_pulled + rng.range(-1, 1),
        _ => rng.range(0, 10 * entry),
    };
    Draft {
        q,
        rows: vec![row],
        w: vec![rng.sign() * size],
    }
}

/// Two conditions that share all but one direction, which is the second's own and makes
/// its pivot alone: 1,000*D(2,2) stands next to N(2,2), or the pivot is 0.
pub(super) fn next_to_its_entry(rng: &mut Rng) -> Draft {
    let own = match rng.below(8) {
        0 => 0,
        1..=3 => 1,
        4 | 5 => rng.range(2, 20),
        _ => rng.range(2, 300),
    };
    let its_q = rng.pick(&[1, 1, 2, 10]);
    let off = match rng.below(5) {
        0 => rng.range(-900, 900),
        1 => rng.range(-10, 10),
        _ => rng.range(-1, 1),
    };
    let times = rng.pick(&[1, 1, 1, 2]);
    let squares = (999 * its_q * own * own + off) / (times * times);

    let mut q = vec![its_q];
    let mut first = vec![0];
    let mut second = vec![rng.sign() * own];
    for (its_q, a) in squares_to(rng, squares.max(1), 2_000 / times) {
        q.push(its_q);
        first.push(a);
        second.push(times * a);
    }
    let mut rows = vec![first, second];
    if rng.chance(20) {
        // The other way about, the first one's pivot loses as much.
        rows.reverse();
    }
    let most_w = rng.pick(&[0, 3, 300]);
    let w = misclosures(rng, 2, most_w);
    among_others(rng, Draft { q, rows, w })
}

/// Inverse weights and coefficients of at most some size whose squares, each times its q,
/// have a given sum. The largest sums that are drawn here take some 30 directions.
fn squares_to(rng: &mut Rng, sum: i64, most: i64) -> Vec<(i64, i64)> {
    let mut parts = Vec::new();
    let mut left = sum;
    while left > 0 {
        let q = match left {
            ..=100 => 1,
            101..=10_000_000 => rng.range(1, 10),
            _ => 10,
        };
        let a = ((left / q) as f64).sqrt() as i64;
        let a = a.min(most);
        parts.push((q, rng.sign() * a));
        left -= q * a * a;
    }
    parts
}

/// A heavy condition and the same again in another size: the second pivot is what rounding
/// the factor has left, above 0 or below.
pub(super) fn said_twice(rng: &mut Rng) -> Draft {
    let m = match rng.below(3) {
        0 => 60,
        1 => 12,
        _ => rng.count(2, 60),
    };
    let signs: Vec<i64> = (0..m).map(|_| rng.sign()).collect();
    let sizes = [rng.range(1_000, 2_000), rng.range(500, 2_000)];
    let sized = |size: &i64| signs.iter().map(|sign| size * sign).collect();
    let mut rows: Vec<Vec<i64>> = sizes.iter().map(sized).collect();
    if rng.chance(30) {
        // A little of its own, which may be rounded away.
        let index = rng.below(m);
        rows[1][index] -= signs[index] * rng.range(1, 12);
    }
    let share = rng.range(-1, 1);
    let w = sizes.iter().map(|size| share * size).collect();
    let q = vec![10; m];
    among_others(rng, Draft { q, rows, w })
}

/// Some conditions more, each in a direction of its own, which shift the places.
fn among_others(rng: &mut Rng, mut draft: Draft) -> Draft {
    for _ in 0..rng.pick(&[0, 0, 1, 3]) {
        for row in &mut draft.rows {
            row.push(0);
        }
        let mut row = vec![0; draft.q.len()];
        row.push(rng.sign() * 100);
        let place = rng.below(draft.rows.len() + 1);
        draft.rows.insert(place, row);
        draft.w.insert(place, rng.range(-3_000, 3_000));
        draft.q.push(rng.range(1, 10));
    }
    draft
}

/// Rounding takes 2 of 20 from a second pivot, and thereby almost all of the third, whose row
/// is mostly of the second's kind. Two large rows meet the third with opposite signs: D(4,5)
/// stands next to its limit, at most `off` from it and 10 more; 20,000 more where the last
/// direction is left out. Without the rounding no D could be larger than the largest N.
pub(super) fn amplified(rng: &mut Rng, off: i64) -> Draft {
    // Sizes for which 9 * 10^6 / size is rounded up by almost a half.
    let size = rng.pick(&[1_825, 1_857, 1_885, 1_909, 1_934, 1_958, 1_983, 1_998]);
    let own = rng.range(150, 300);
    let kind = own * 2_977 / 1_000;
    let (light, past) = lighter_meeting(own, kind);
    // Back to the limit in steps of 20,000, and then of 10.
    let step = rng.range(-off, off) - past;
    let (coarse, fine) = (step.div_euclid(20_000), step.rem_euclid(20_000) / 10);

    let sized = |size: i64| {
        (0..20)
            .map(|i| size * (1 - 2 * (i % 2)))
            .collect::<Vec<i64>>()
    };
    // Of these signs as many are the first row's as are not, and the second's kind has as
    // much of either.
    let halves = [vec![1, -1], vec![1; 8], vec![-1, 1], vec![-1; 8]].concat();
    let large: Vec<i64> = halves.iter().map(|sign| 2_000 * sign).collect();
    let first = [sized(size), vec![0; 4]].concat();
    let mut second = [sized(9), vec![0; 4]].concat();
    (second[0], second[1]) = (10, -8);
    let mut third = [vec![0; 20], vec![own, -own, 0, 0]].concat();
    (third[0], third[1]) = (kind, kind);
    let fourth = [large.clone(), vec![light, -light, 2_000, 10]].concat();
    let fifth = [large, vec![-2_000, 2_000, coarse, fine]].concat();
    Draft {
        q: [vec![10; 23], vec![1]].concat(),
        rows: vec![first, second, third, fourth, fifth],
        // Small ones, or the fourth constant passes its own limit.
        w: misclosures(rng, 5, 3),
    }
}

/// The fourth row's coefficient in the third's own directions, such that D(4,5) is hardly
/// past its limit while the fifth row has nothing in its last two directions; and by how
/// much it is, which may be below 0. The second pivot is 18.
fn lighter_meeting(own: i64, kind: i64) -> (i64, i64) {
    let rounded = |value: i64, divisor: i64| (value + divisor / 2) / divisor;
    let product = |factor: i64, d: i64| rounded(factor * d, 1_000_000);
    let d_23 = 20 * kind;
    let d_33 = 20 * (own * own + kind * kind) - product(rounded(1_000_000 * d_23, 18), d_23);
    let light = 44_000 * d_33 / (20 * own * own - d_33);
    let factor = rounded(1_000_000 * 20 * own * light, d_33);
    let n_45 = 20 * 40_000_000 - 40_000 * light;
    (light, n_45 + product(factor, 40_000 * own) - 2_560_000_000)
}

/// The same conditions with directions in another order, some of them counted the other way
/// round, as the last condition may be: no D changes but for its sign.
pub(super) fn turned(rng: &mut Rng, draft: Draft) -> Draft {
    let mut order: Vec<(usize, i64)> = (0..draft.q.len()).map(|i| (i, rng.sign())).collect();
    rng.shuffle(&mut order);
    let turn = |row: &Vec<i64>| order.iter().map(|&(i, sign)| sign * row[i]).collect();
    let mut rows: Vec<Vec<i64>> = draft.rows.iter().map(turn).collect();
    let side = rng.sign();
    if let Some(last) = rows.last_mut() {
        last.iter_mut().for_each(|a| *a *= side);
    }
    Draft {
        q: order.iter().map(|&(i, _)| draft.q[i]).collect(),
        rows,
        w: draft.w,
    }
}

#[cfg(test)]
mod tests {
    use super::*;
    use crate::adjustment::{adjust, margins, AnswerLengths, ConditionTable, Margins};
    use crate::refusal::Refusal;
    use std::collections::BTreeSet;

    /// The refusal of a draft, if it is refused, and its margins.
    fn reply(draft: &Draft) -> (Option<Refusal>, Margins) {
        let (m, n) = (draft.q.len(), draft.w.len());
        let table = ConditionTable {
            directions: &vec![0; m],
            q: &draft.q,
            a: &draft.rows.concat(),
            w: &draft.w,
        };
        let refusal = adjust(&table, AnswerLengths::fitting(m, n)).err();
        (refusal, margins(&table).unwrap_or_default())
    }

    #[test]
    fn lone_light_conditions_are_never_weak() {
        let mut rng = Rng::new(203);
        let mut replies = BTreeSet::new();
        for _ in 0..300 {
            let (refusal, _) = reply(&lone_light(&mut rng));
            replies.insert(refusal.map_or(0, |refusal| refusal.number));
        }
        assert_eq!(replies, BTreeSet::from([0, 7, 9]));
    }

    #[test]
    fn the_side_of_its_limit_on_which_a_d_stands_decides_the_place() {
        let mut rng = Rng::new(256);
        let mut places = BTreeSet::new();
        for _ in 0..200 {
            let draft = amplified(&mut rng, 20);
            let (refusal, margins) = reply(&turned(&mut rng, draft));
            let past = margins.coefficients.into_iter().max().unwrap_or(i64::MIN);
            assert!((-30..=20).contains(&past));
            // Where D(4,5) passes, rounding has spoilt the last pivot.
            let place = if past > 0 { 4 } else { 5 };
            assert_eq!(refusal, Some(Refusal::new(6, place)));
            places.insert(place);
        }
        assert_eq!(places.len(), 2);
    }

    #[test]
    fn squares_have_their_sum_within_the_directions() {
        let mut rng = Rng::new(31);
        for _ in 0..400 {
            let times = rng.range(1, 2);
            let sum = rng.size_up_to(1_000_000_000 / (times * times)).max(1);
            let parts = squares_to(&mut rng, sum, 2_000 / times);
            assert_eq!(parts.iter().map(|(q, a)| q * a * a).sum::<i64>(), sum);
            assert!(parts.len() < 60);
        }
    }
}
