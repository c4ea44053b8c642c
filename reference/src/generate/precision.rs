//! Printed corrections and inverse weights: small and large, at their limits, and such that
//! S lies next to a square times 2,520*n.

use super::table::condition_count;
use super::{direction_count, inverse_weights, set, spoil_length, Rng};

const MOST_U: i64 = 60_000;
const WHOLE: i64 = 2_520;
/// The largest sum of squares that is written with u and q. What `parts_of` makes of it, and
/// the most that `odd_part` adds, are within 64 directions.
const MOST_SQUARES: i64 = 100_000_000_000;

/// Lent corrections and inverse weights, and how many conditions they come from.
#[derive(Clone, Debug, PartialEq, Eq)]
pub struct PrecisionCase {
    pub u: Vec<i64>,
    pub q: Vec<i64>,
    pub n: usize,
}

pub fn precision_case(rng: &mut Rng) -> PrecisionCase {
    let mut case = match rng.below(10) {
        0..=3 => next_to_a_square(rng),
        4 => lone_direction(rng),
        5 => corrections(rng, |rng| MOST_U - rng.pick(&[0, 0, 0, 1])),
        6 => corrections(rng, |rng| rng.below(3) as i64),
        _ => corrections(rng, |rng| rng.size_up_to(MOST_U)),
    };
    if rng.chance(15) {
        for _ in 0..rng.count(1, 3) {
            damage_range(rng, &mut case);
        }
    }
    if rng.chance(4) {
        let list = if rng.chance(50) {
            &mut case.u
        } else {
            &mut case.q
        };
        spoil_length(rng, list);
    }
    if rng.chance(5) {
        change_counts(rng, &mut case);
    }
    case
}

/// Corrections of drawn sizes and of either sign.
fn corrections(rng: &mut Rng, size: fn(&mut Rng) -> i64) -> PrecisionCase {
    let m = direction_count(rng);
    PrecisionCase {
        u: (0..m).map(|_| rng.sign() * size(rng)).collect(),
        q: inverse_weights(rng, m),
        n: condition_count(rng, m),
    }
}

/// One direction alone, whose correction is the mean error: often one that makes the
/// probable error a half, or lies next to it.
fn lone_direction(rng: &mut Rng) -> PrecisionCase {
    let size = match rng.below(2) {
        0 => 2_000 * rng.range(0, 29) + 1_000 + rng.pick(&[-1, 0, 0, 1]),
        _ => rng.size_up_to(MOST_U),
    };
    PrecisionCase {
        u: vec![rng.sign() * size],
        q: vec![1],
        n: 1,
    }
}

/// S is e*e*2,520*n or next to it, mostly one less or one more.
fn next_to_a_square(rng: &mut Rng) -> PrecisionCase {
    let n = rng.pick(&[1, 1, 2, 3, 7, 12, 23, 24]);
    let most = (MOST_SQUARES as f64 / n as f64).sqrt() as i64;
    // From 2 on, since an odd part may take up three times 2,520.
    let e = 2 + rng.size_up_to(most - 3);
    let apart = match rng.below(6) {
        0 => rng.range(-WHOLE, WHOLE),
        _ => rng.pick(&[-1, -1, 0, 1]),
    };
    let s = e * e * WHOLE * n + apart;
    let mut parts = odd_part(s);
    let taken: i64 = parts.iter().map(|[u, q]| WHOLE / q * u * u).sum();
    parts.extend(parts_of(rng, (s - taken) / WHOLE));
    // More directions, without corrections: at least n of them all, at most 64.
    let least = parts.len().max(n as usize);
    let m = rng.pick(&[least, least, 64]);
    parts.resize_with(m, || [0, rng.range(1, 10)]);
    rng.shuffle(&mut parts);
    PrecisionCase {
        u: parts.iter().map(|[u, _]| rng.sign() * u).collect(),
        q: parts.iter().map(|[_, q]| *q).collect(),
        n: n as usize,
    }
}

/// Corrections of 1 with q = 10, 9, 8 and 7, so many of each that 2,520 divides what they
/// leave of S. Just one choice of at most 4, 8, 7 and 6 of them does.
fn odd_part(s: i64) -> Vec<[i64; 2]> {
    let leaves_whole = |[tens, nines, eights, sevens]: &[i64; 4]| {
        let taken = 252 * tens + 280 * nines + 315 * eights + 360 * sevens;
        (s - taken) % WHOLE == 0
    };
    let counts = (0..5 * 9 * 8 * 7)
        .map(|x| [x % 5, x / 5 % 9, x / 45 % 8, x / 360])
        .find(leaves_whole)
        .unwrap_or_default();
    let of_each = counts.into_iter().zip([10, 9, 8, 7]);
    of_each
        .flat_map(|(count, q)| (0..count).map(move |_| [1, q]))
        .collect()
}

/// Corrections whose squares over q add up to a whole number: the largest square first, now
/// and then twice the correction with q = 4, or three times it with q = 9.
fn parts_of(rng: &mut Rng, mut sum: i64) -> Vec<[i64; 2]> {
    let mut parts = Vec::new();
    while sum > 0 {
        let mut u = ((sum as f64).sqrt() as i64).min(MOST_U);
        while u * u > sum {
            u -= 1;
        }
        sum -= u * u;
        let times = rng.pick(&[1, 1, 2, 3]);
        if times * u <= MOST_U {
            parts.push([times * u, times * times]);
        } else {
            parts.push([u, 1]);
        }
    }
    parts
}

/// A number at or beyond the edge of its range.
fn damage_range(rng: &mut Rng, case: &mut PrecisionCase) {
    if rng.chance(50) {
        let value = match rng.below(3) {
            0 => rng.sign() * MOST_U,
            _ => rng.outside(-MOST_U, MOST_U),
        };
        set(rng, &mut case.u, value);
    } else {
        let value = rng.outside(1, 10);
        set(rng, &mut case.q, value);
    }
}

/// Counts that are not allowed, or just are.
fn change_counts(rng: &mut Rng, case: &mut PrecisionCase) {
    let m = case.u.len();
    let (m, n) = match rng.below(8) {
        0 => (0, rng.pick(&[0, 1])),
        1 => (m, 0),
        2 => (65, rng.count(1, 24)),
        3 => (rng.count(25, 64), 25),
        4 => (rng.count(24, 64), 24),
        5 => (m, rng.pick(&[usize::MAX, 1 << 32, (1 << 32) + 1])),
        6 => (24, 24),
        _ => {
            let m = rng.count(1, 23);
            (m, m + 1)
        }
    };
    case.u.resize(m, 0);
    case.q.resize(m, 1);
    case.n = n;
}

#[cfg(test)]
mod tests {
    use super::*;

    #[test]
    fn every_remainder_has_its_odd_part() {
        for s in 0..WHOLE {
            let parts = odd_part(s);
            let taken: i64 = parts.iter().map(|[u, q]| WHOLE / q * u * u).sum();
            assert_eq!((s - taken) % WHOLE, 0);
            assert!(taken < 4 * WHOLE && parts.len() <= 25);
        }
    }

    #[test]
    fn squares_stay_within_64_directions() {
        let mut rng = Rng::new(138);
        for _ in 0..2_000 {
            let case = next_to_a_square(&mut rng);
            assert!(case.u.len() <= 64 && case.u.len() == case.q.len() && case.n <= case.u.len());
        }
        assert!(parts_of(&mut rng, MOST_SQUARES).len() <= 39);
    }
}
