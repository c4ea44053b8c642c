//! Condition tables: nets that close, nets that hardly do, and nets at the edge of
//! each test of the solution.

use super::pivot::{amplified, lone_light, next_to_its_entry, said_twice, turned};
use super::{direction_count, inverse_weights, minute_misclosure, set, spoil_length, Rng, CIRCLE};
use crate::adjustment::{AnswerLengths, ConditionTable};

/// A lent table, and the lengths of the six lists lent for the answer.
#[derive(Clone, Debug, PartialEq, Eq)]
pub struct TableCase {
    pub directions: Vec<i64>,
    pub q: Vec<i64>,
    pub a: Vec<i64>,
    pub w: Vec<i64>,
    pub lengths: AnswerLengths,
}

impl TableCase {
    pub fn table(&self) -> ConditionTable<'_> {
        ConditionTable {
            directions: &self.directions,
            q: &self.q,
            a: &self.a,
            w: &self.w,
        }
    }
}

/// Inverse weights, rows and misclosures while a table is being made.
pub(super) struct Draft {
    pub(super) q: Vec<i64>,
    pub(super) rows: Vec<Vec<i64>>,
    pub(super) w: Vec<i64>,
}

pub fn table_case(rng: &mut Rng) -> TableCase {
    let draft = match rng.below(25) {
        0..=5 => sparse_net(rng),
        6..=8 => full_net(rng),
        9 => nearly_dependent(rng),
        10 => {
            let draft = amplified(rng, 20);
            turned(rng, draft)
        }
        11 => light_row(rng),
        12 => small_coefficients(rng),
        13 => large_coefficients(rng),
        14 => fullest(rng),
        15 => steep_factor(rng),
        16 => heavy_constant(rng),
        17 => about_a_minute(rng),
        18 => lone_light(rng),
        19 | 20 => next_to_its_entry(rng),
        21 => said_twice(rng),
        _ => sparse_net(rng),
    };
    let m = draft.q.len();
    let mut case = TableCase {
        directions: (0..m).map(|_| rng.direction()).collect(),
        lengths: AnswerLengths::fitting(m, draft.w.len()),
        q: draft.q,
        a: draft.rows.concat(),
        w: draft.w,
    };
    if rng.chance(22) {
        for _ in 0..rng.count(1, 3) {
            damage_range(rng, &mut case);
        }
    }
    if rng.chance(4) {
        damage_lengths(rng, &mut case);
    }
    if rng.chance(2) {
        change_counts(rng, &mut case);
    }
    case
}

/// A number of conditions for m directions, the most that they allow among them.
pub(super) fn condition_count(rng: &mut Rng, m: usize) -> usize {
    let most = m.min(24);
    match rng.below(4) {
        0 => most,
        1 => rng.count(1, most),
        _ => rng.count(1, most.div_ceil(2)),
    }
}

/// Angle rows of a few ±100, side rows among them.
fn sparse_net(rng: &mut Rng) -> Draft {
    let m = direction_count(rng);
    let n = condition_count(rng, m);
    let side_share = rng.pick(&[0, 15, 50]);
    let most_w = rng.pick(&[0, 3_000, 30_000, 100_000]);
    // Each row has a direction of its own, so that rows are seldom dependent.
    let own = rng.sample(0, m as i64 - 1, n);
    let mut rows = Vec::new();
    for own in own {
        let mut row = vec![0; m];
        let most = if rng.chance(side_share) {
            rng.pick(&[60, 300, 2_000])
        } else {
            100
        };
        for _ in 0..rng.count(1, 7) {
            let index = rng.below(m);
            row[index] = side_or_angle(rng, most);
        }
        row[own as usize] = rng.sign() * most;
        rows.push(row);
    }
    let w = misclosures(rng, n, most_w);
    let q = inverse_weights(rng, m);
    Draft { q, rows, w }
}

fn side_or_angle(rng: &mut Rng, most: i64) -> i64 {
    match most {
        100 => rng.pick(&[-200, -100, -100, 100, 100, 200]),
        _ => rng.range(-most, most),
    }
}

/// Rows in which every direction takes part.
fn full_net(rng: &mut Rng) -> Draft {
    let m = direction_count(rng);
    let n = condition_count(rng, m);
    let most = rng.pick(&[20, 100, 300, 600]);
    let most_w = rng.pick(&[3_000, 30_000, 100_000]);
    let rows = (0..n).map(|_| random_row(rng, m, most)).collect();
    let w = misclosures(rng, n, most_w);
    let q = inverse_weights(rng, m);
    Draft { q, rows, w }
}

fn random_row(rng: &mut Rng, m: usize, most: i64) -> Vec<i64> {
    (0..m).map(|_| rng.range(-most, most)).collect()
}

pub(super) fn misclosures(rng: &mut Rng, n: usize, most: i64) -> Vec<i64> {
    (0..n).map(|_| rng.range(-most, most)).collect()
}

/// One row is made of earlier ones, with little or nothing of its own.
fn nearly_dependent(rng: &mut Rng) -> Draft {
    let mut draft = if rng.chance(50) {
        sparse_net(rng)
    } else {
        full_net(rng)
    };
    let n = draft.rows.len();
    let last = rng.below(n);
    let (one, other) = (rng.below(last), rng.below(last));
    let (by_one, by_other) = (rng.sign(), rng.range(-1, 1));
    if last > 0 {
        let mixed = draft.rows[one].iter().zip(&draft.rows[other]);
        draft.rows[last] = mixed
            .map(|(a, b)| (by_one * a + by_other * b).clamp(-2_000, 2_000))
            .collect();
    }
    for _ in 0..rng.below(3) {
        let index = rng.below(draft.rows[last].len());
        let own = rng.sign() * rng.pick(&[1, 9, 10, 11, 30]);
        let a = &mut draft.rows[last][index];
        *a = (*a + own).clamp(-2_000, 2_000);
    }
    draft
}

/// A row of one tiny coefficient among others of any size.
fn light_row(rng: &mut Rng) -> Draft {
    let mut draft = sparse_net(rng);
    let m = draft.q.len();
    let row = rng.below(draft.rows.len());
    let index = rng.below(m);
    draft.rows[row] = vec![0; m];
    draft.rows[row][index] = rng.sign() * rng.range(1, 12);
    draft.q[index] = rng.pick(&[1, 1, 1, 2]);
    draft.w[row] = rng.range(-20, 20);
    draft
}

/// Small coefficients: correlates at and over their limit.
fn small_coefficients(rng: &mut Rng) -> Draft {
    let m = rng.count(1, 8);
    let n = rng.count(1, m);
    let mut rows = Vec::new();
    let mut w = Vec::new();
    for own in 0..n {
        let mut row = vec![0; m];
        row[own] = rng.sign() * rng.pick(&[10, 10, 11, 20, 50]);
        if rng.chance(30) {
            let index = rng.below(m);
            row[index] = rng.range(-30, 30);
        }
        rows.push(row);
        let edge = rng.pick(&[0, 1, 700, 999, 1_000, 1_000, 1_001, 3_000]);
        w.push(rng.sign() * edge);
    }
    let q = vec![rng.pick(&[1, 1, 2]); m];
    Draft { q, rows, w }
}

/// Large coefficients and a small misclosure: no whole correlate closes the condition.
fn large_coefficients(rng: &mut Rng) -> Draft {
    let m = rng.count(4, 64);
    let n = rng.count(1, 3);
    let most = rng.pick(&[1_000, 1_000, 1_500, 2_000]);
    let mut rows = vec![vec![0; m]; n];
    let each = if rng.chance(40) {
        // Ten directions of 1,000 and q = 10: R = 50,000,000 is met exactly.
        10.min(m / n)
    } else {
        m / n
    };
    for (j, row) in rows.iter_mut().enumerate() {
        for a in row.iter_mut().skip(j * each).take(each) {
            *a = rng.sign() * most;
        }
    }
    let w = (0..n)
        .map(|_| rng.sign() * rng.pick(&[0, 1, 4, 5, 5, 6, 10, 15, 200]))
        .collect();
    Draft {
        q: vec![10; m],
        rows,
        w,
    }
}

/// D at its limit: 64 directions of ±2,000 with q = 10, in rows that do not meet.
fn fullest(rng: &mut Rng) -> Draft {
    let m = 64;
    let chosen = rng.count(1, 4);
    let rows = rng
        .sample(0, 63, chosen)
        .into_iter()
        .map(|row: i64| {
            let sign = |i: i64| 1 - 2 * i64::from((row & i).count_ones() % 2);
            (0..64).map(|i| 2_000 * sign(i)).collect()
        })
        .collect();
    let most = rng.pick(&[1, 1, 5, 3_000]);
    let w = (0..chosen)
        .map(|_| 256 * rng.range(-most, most) + rng.pick(&[0, 0, 0, 5, 6]))
        .collect();
    Draft {
        q: vec![10; m],
        rows,
        w,
    }
}

/// A first pivot of 1 to 100 under a second row of about 1,000: M at its limit of 10^9.
pub(super) fn steep_factor(rng: &mut Rng) -> Draft {
    let shared = rng.pick(&[1, 1, 4, 10, 10]);
    let m = shared + rng.count(2, 10);
    let mut first = vec![1; shared];
    let mut second = vec![1_000; shared];
    let index = rng.below(shared);
    second[index] += rng.pick(&[-2, -1, 0, 0, 0, 1, 2]);
    first.resize(m, 0);
    second.resize_with(m, || rng.range(200, 900));
    if rng.chance(50) {
        for a in &mut second {
            *a = -*a;
        }
    }
    let w = vec![rng.range(-3, 3), rng.range(-3_000, 3_000)];
    Draft {
        q: vec![rng.pick(&[1, 10]); m],
        rows: vec![first, second],
        w,
    }
}

/// L at its limit of 4 * 10^9, with correlates that still pass. The more directions share
/// the misclosures, the more often the corrections pass too.
pub(super) fn heavy_constant(rng: &mut Rng) -> Draft {
    let shared = rng.count(3, 6);
    let m = shared + rng.count(5, 12);
    let size = rng.pick(&[400, 500, 600, 600]);
    let mut first = vec![size; shared];
    let mut second = vec![3 * size; shared];
    second[0] += rng.pick(&[-1, 0, 0, 0, 1]);
    first.resize(m, 0);
    second.resize_with(m, || rng.range(1_000, 2_000));
    let side = rng.sign();
    let short = rng.pick(&[0, 0, 0, 1, 2]);
    let w = vec![side * 1_000_000, -side * (1_000_000 - short)];
    Draft {
        q: vec![1; m],
        rows: vec![first, second],
        w,
    }
}

/// Corrections next to one minute: each condition has directions of its own, which share
/// its misclosure equally.
fn about_a_minute(rng: &mut Rng) -> Draft {
    let n = rng.count(1, 4);
    let each = rng.count(1, 8);
    let m = n * each + rng.below(4);
    let size = rng.pick(&[100, 100, 200]);
    let mut rows = vec![vec![0; m]; n];
    let numbers = rng.sample(0, m as i64 - 1, n * each);
    for (row, own) in rows.iter_mut().zip(numbers.chunks(each)) {
        for &index in own {
            row[index as usize] = rng.sign() * size;
        }
    }
    let share = each as i64 * size / 100;
    let mut w: Vec<i64> = (0..n).map(|_| minute_misclosure(rng, share)).collect();
    let mut q = vec![rng.pick(&[1, 2, 10]); m];
    if rng.chance(15) {
        // In four directions more, a condition that is refused before a correction is.
        let (its_q, a, its_w) = rng.pick(&[(1, 0, 0), (1, 5, 1_001), (10, 2_000, 200)]);
        for row in &mut rows {
            row.resize(m + 4, 0);
        }
        rows.push([vec![0; m], vec![a; 4]].concat());
        q.resize(m + 4, its_q);
        w.push(its_w);
    }
    Draft { q, rows, w }
}

/// A number at or beyond the edge of its range.
fn damage_range(rng: &mut Rng, case: &mut TableCase) {
    let edge = |rng: &mut Rng, most: i64| match rng.below(3) {
        0 => rng.sign() * most,
        1 => rng.sign() * (most + 1),
        _ => rng.extreme(),
    };
    match rng.below(6) {
        0 => {
            let value = rng.outside(0, CIRCLE - 1);
            set(rng, &mut case.directions, value);
        }
        1 => {
            let value = rng.outside(1, 10);
            set(rng, &mut case.q, value);
        }
        2 | 3 => {
            let value = edge(rng, 2_000);
            set(rng, &mut case.a, value);
        }
        _ => {
            let value = edge(rng, 1_000_000);
            set(rng, &mut case.w, value);
        }
    }
}

fn damage_lengths(rng: &mut Rng, case: &mut TableCase) {
    let lengths = &mut case.lengths;
    match rng.below(10) {
        0 => spoil_length(rng, &mut case.directions),
        1 => spoil_length(rng, &mut case.q),
        2 => spoil_length(rng, &mut case.a),
        3 => spoil_length(rng, &mut case.w),
        4 => lengths.v = rng.wrong_length(lengths.v),
        5 => lengths.u = rng.wrong_length(lengths.u),
        6 => lengths.adjusted = rng.wrong_length(lengths.adjusted),
        7 => lengths.k = rng.wrong_length(lengths.k),
        8 => lengths.r = rng.wrong_length(lengths.r),
        _ => lengths.q = rng.wrong_length(lengths.q),
    }
}

/// Lists that agree with each other, but in counts that are not allowed.
fn change_counts(rng: &mut Rng, case: &mut TableCase) {
    let (m, n) = match rng.below(6) {
        0 => (0, 0),
        1 => (0, 1),
        2 => (rng.count(1, 64), 0),
        3 => (65, rng.count(1, 24)),
        4 => (64, 25),
        _ => {
            let m = rng.count(1, 23);
            (m, m + 1)
        }
    };
    case.directions.resize(m, 0);
    case.q.resize(m, 1);
    case.a.resize(m * n, 0);
    case.w.resize(n, 0);
    case.lengths = AnswerLengths::fitting(m, n);
}
