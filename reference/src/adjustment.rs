//! A lent condition table: normal equations, their solution, corrections and remainders.

use crate::condition::{
    check_directions, coefficients_allowed, misclosure_allowed, MOST_DIRECTIONS,
};
use crate::numeric::{answer, modulo, nearest, within, CIRCLE};
use crate::refusal::{
    place, Refusal, COEFFICIENT, CORRECTION, CORRELATE, COUNT, MISCLOSURE, REMAINDER, WEAK_ROW,
};

pub const MOST_CONDITIONS: usize = 24;

const MOST_D: i128 = 2_560_000_000;
const MOST_L: i128 = 4_000_000_000;
/// A pivot that keeps less than one part in so many of its entry is taken for rounding.
const PIVOT_PARTS: i128 = 1_000;
const MOST_M: i128 = 1_000_000_000;
const MOST_K: i128 = 100_000_000;
const MOST_R: i128 = 50_000_000;
/// One minute: a larger printed correction is a blunder.
const MOST_U: i128 = 60_000;

/// A lent table of n conditions in m directions; `a` holds n rows of m.
#[derive(Clone, Copy, Debug)]
pub struct ConditionTable<'a> {
    pub directions: &'a [i64],
    pub q: &'a [i64],
    pub a: &'a [i64],
    pub w: &'a [i64],
}

/// The lengths of the six lists that a caller lends for the answer.
#[derive(Clone, Copy, Debug, PartialEq, Eq)]
pub struct AnswerLengths {
    pub v: usize,
    pub u: usize,
    pub adjusted: usize,
    pub k: usize,
    pub r: usize,
    pub q: usize,
}

impl AnswerLengths {
    /// The lengths that agree with m directions and n conditions.
    pub fn fitting(m: usize, n: usize) -> Self {
        AnswerLengths {
            v: m,
            u: m,
            adjusted: m,
            k: n,
            r: n,
            q: n,
        }
    }
}

/// V, u and adjusted direction by direction; K, R and printed remainder Q by condition.
#[derive(Clone, Debug, PartialEq, Eq)]
pub struct Adjustment {
    pub v: Vec<i64>,
    pub u: Vec<i64>,
    pub adjusted: Vec<i64>,
    pub k: Vec<i64>,
    pub r: Vec<i64>,
    pub q: Vec<i64>,
}

/// Why a reduced row is weak. The refusal does not tell; the census does.
#[derive(Clone, Copy, Debug, PartialEq, Eq, PartialOrd, Ord)]
pub enum Weakness {
    /// Some |D| exceeds 2,560,000,000.
    Coefficient,
    /// |L| exceeds 4,000,000,000.
    Constant,
    /// D(j,j) is below 1.
    PivotBelowOne,
    /// D(j,j) is 1 or more, but 1,000*D(j,j) is below N(j,j).
    PivotBelowEntry,
    /// Some |M| exceeds 10^9.
    Factor,
}

/// The adjustment of a lent table.
pub fn adjust(table: &ConditionTable, lengths: AnswerLengths) -> Result<Adjustment, Refusal> {
    let net = Net::check(table, lengths)?;
    net.adjust()
}

/// The normal equations N(j,k) of a lent table whose numbers are all in range.
pub fn normals(table: &ConditionTable) -> Result<Vec<Vec<i64>>, Refusal> {
    let normals = sound_net(table)?.normals();
    Ok(normals.into_iter().map(answers).collect())
}

/// How far the rows of a net stand from two of their limits, down to the first weak one.
#[derive(Clone, Debug, Default, PartialEq, Eq)]
pub struct Margins {
    /// 1,000*D(j,j) - N(j,j) of each row that is not weak for another reason.
    pub pivots: Vec<i64>,
    /// |D(j,k)| - 2,560,000,000 of each place beside a pivot.
    pub coefficients: Vec<i64>,
}

/// Why the first weak row of a sound table is weak, if one is.
pub fn weakness(table: &ConditionTable) -> Option<Weakness> {
    sound_net(table).ok()?.weakness()
}

/// The margins of a sound table. The refusal does not tell; the census does.
pub fn margins(table: &ConditionTable) -> Option<Margins> {
    Some(sound_net(table).ok()?.margins())
}

/// The printed correction for which a table is refused with 9, if it is. The refusal does
/// not tell; the census does.
pub fn blunder(table: &ConditionTable) -> Option<i64> {
    sound_net(table).ok()?.blunder()
}

/// The net of a table that passes every check before the normals.
fn sound_net(table: &ConditionTable) -> Result<Net, Refusal> {
    let lengths = AnswerLengths::fitting(table.directions.len(), table.w.len());
    Net::check(table, lengths)
}

/// A net whose numbers are all in range, in wide numbers.
pub(crate) struct Net {
    pub(crate) directions: Vec<i128>,
    pub(crate) q: Vec<i128>,
    /// One row of coefficients for each condition.
    pub(crate) a: Vec<Vec<i128>>,
    pub(crate) w: Vec<i128>,
}

/// A reduced row j. `d` and `m` hold the places k = j to n, so the pivot comes first;
/// the factor in the pivot's place is never used.
struct ReducedRow {
    d: Vec<i128>,
    m: Vec<i128>,
    l: i128,
}

impl Net {
    /// A lent table with every check before the normals: 2, 3, then 4 and 5 by condition.
    fn check(table: &ConditionTable, lengths: AnswerLengths) -> Result<Net, Refusal> {
        let m = table.directions.len();
        let n = table.w.len();
        let lengths_agree = table.q.len() == m
            && m.checked_mul(n) == Some(table.a.len())
            && lengths == AnswerLengths::fitting(m, n);
        if !counts_allowed(m, n) || !lengths_agree {
            return Err(Refusal::at_zero(COUNT));
        }
        check_directions(table.directions, table.q)?;
        let net = Net {
            directions: wide(table.directions),
            q: wide(table.q),
            a: table.a.chunks(m).map(wide).collect(),
            w: wide(table.w),
        };
        net.check_conditions()?;
        Ok(net)
    }

    /// 4 and then 5, condition by condition.
    pub(crate) fn check_conditions(&self) -> Result<(), Refusal> {
        for (index, (row, &w)) in self.a.iter().zip(&self.w).enumerate() {
            let condition = place(index + 1);
            if !coefficients_allowed(row) {
                return Err(Refusal::new(COEFFICIENT, condition));
            }
            if !misclosure_allowed(w) {
                return Err(Refusal::new(MISCLOSURE, condition));
            }
        }
        Ok(())
    }

    pub(crate) fn adjust(&self) -> Result<Adjustment, Refusal> {
        let found = self.solve()?;
        match found.u.iter().position(|&u| !correction_allowed(u)) {
            None => Ok(found),
            Some(index) => Err(Refusal::new(CORRECTION, place(index + 1))),
        }
    }

    /// The solution, with the tests 6 by row, 7 in back order and 8 by condition.
    fn solve(&self) -> Result<Adjustment, Refusal> {
        let normals = self.normals();
        let rows =
            reduce(&normals, &self.w).map_err(|(row, _)| Refusal::new(WEAK_ROW, place(row + 1)))?;
        let found = self.with_normals(&normals, correlates(&rows)?);
        match found.r.iter().position(|&r| !remainder_allowed(r)) {
            None => Ok(found),
            Some(index) => Err(Refusal::new(REMAINDER, place(index + 1))),
        }
    }

    /// All that follows from correlates, whoever found them: of a size for which R and Q are
    /// answers, 10^8 and somewhat more. Nothing of it is tested.
    pub(crate) fn given_by(&self, k: &[i64]) -> Adjustment {
        self.with_normals(&self.normals(), wide(k))
    }

    fn with_normals(&self, normals: &[Vec<i128>], k: Vec<i128>) -> Adjustment {
        // R stands on the unrounded V; only u and Q see the rounding.
        let v = self.corrections(&k);
        let u: Vec<i128> = v.iter().map(|&v| nearest(v, 100_000)).collect();
        let adjusted = self.directions.iter().zip(&u);
        let adjusted = adjusted.map(|(&direction, &u)| modulo(direction + u, CIRCLE));
        Adjustment {
            adjusted: adjusted.map(answer).collect(),
            r: answers(remainders(normals, &k, &self.w)),
            q: answers(self.printed_remainders(&u)),
            v: answers(v),
            u: answers(u),
            k: answers(k),
        }
    }

    /// Why the first weak row is weak, if one is.
    pub(crate) fn weakness(&self) -> Option<Weakness> {
        match reduce(&self.normals(), &self.w) {
            Ok(_) => None,
            Err((_, weakness)) => Some(weakness),
        }
    }

    /// How far the rows stand from two of their limits.
    pub(crate) fn margins(&self) -> Margins {
        let mut margins = Margins::default();
        let mut rows = Vec::new();
        for (j, (normal, &w)) in self.normals().iter().zip(&self.w).enumerate() {
            let (d, l) = reduced_entries(&rows, normal, w, j);
            let beside = d.iter().skip(1).map(|d| answer(d.abs() - MOST_D));
            margins.coefficients.extend(beside);
            let margin = PIVOT_PARTS * d[0] - normal[j];
            let row = reduced_row(d, l, normal[j]);
            if matches!(row, Ok(_) | Err(Weakness::PivotBelowEntry)) {
                margins.pivots.push(answer(margin));
            }
            match row {
                Ok(row) => rows.push(row),
                Err(_) => break,
            }
        }
        margins
    }

    /// The printed correction that refuses a net with nothing else against it, if one does.
    pub(crate) fn blunder(&self) -> Option<i64> {
        let found = self.solve().ok()?;
        found.u.into_iter().find(|&u| !correction_allowed(u))
    }

    /// N(j,k): inverse weights multiply.
    pub(crate) fn normals(&self) -> Vec<Vec<i128>> {
        let entry = |row: &[i128], other: &[i128]| -> i128 {
            let products = row.iter().zip(other).zip(&self.q);
            products.map(|((a, b), q)| q * a * b).sum()
        };
        let line = |row: &Vec<i128>| self.a.iter().map(|other| entry(row, other)).collect();
        self.a.iter().map(line).collect()
    }

    /// The check column by its second way: the coefficients of a direction summed first.
    #[cfg(test)]
    fn check_column(&self) -> Vec<i128> {
        let column_sum = |i: usize| -> i128 { self.a.iter().map(|row| row[i]).sum() };
        let entry = |row: &Vec<i128>| {
            let products = row.iter().zip(&self.q).enumerate();
            products.map(|(i, (a, q))| q * a * column_sum(i)).sum()
        };
        self.a.iter().map(entry).collect()
    }

    /// V(i) = q(i) * sum of a(j,i)*K(j).
    fn corrections(&self, k: &[i128]) -> Vec<i128> {
        let mut v = vec![0; self.directions.len()];
        for (row, k) in self.a.iter().zip(k) {
            for ((v, a), q) in v.iter_mut().zip(row).zip(&self.q) {
                *v += q * a * k;
            }
        }
        v
    }

    /// Q(j) = 10^5 * sum of a*u + 10^7*w(j).
    fn printed_remainders(&self, u: &[i128]) -> Vec<i128> {
        let remainder = |(row, w): (&Vec<i128>, &i128)| 100_000 * dot(row, u) + 10_000_000 * w;
        self.a.iter().zip(&self.w).map(remainder).collect()
    }
}

/// The reduced rows, or the index of the first weak one and what is weak in it.
fn reduce(normals: &[Vec<i128>], w: &[i128]) -> Result<Vec<ReducedRow>, (usize, Weakness)> {
    let mut rows = Vec::new();
    for (j, (normal, &w)) in normals.iter().zip(w).enumerate() {
        let (d, l) = reduced_entries(&rows, normal, w, j);
        let row = reduced_row(d, l, normal[j]).map_err(|weakness| (j, weakness))?;
        rows.push(row);
    }
    Ok(rows)
}

/// D(j,k), k = j to n, and L(j) from the rows before; each product is rounded by itself.
fn reduced_entries(before: &[ReducedRow], normal: &[i128], w: i128, j: usize) -> (Vec<i128>, i128) {
    let mut d: Vec<i128> = normal.iter().skip(j).copied().collect();
    let mut l = 1_000 * w;
    for (i, row) in before.iter().enumerate() {
        let factor = row.m[j - i];
        for (d, earlier) in d.iter_mut().zip(&row.d[j - i..]) {
            *d += nearest(factor * earlier, 1_000_000);
        }
        l += nearest(factor * row.l, 1_000_000);
    }
    (d, l)
}

/// A row with its factors, if it is not weak; `entry` is N(j,j), before any row was added to it.
fn reduced_row(d: Vec<i128>, l: i128, entry: i128) -> Result<ReducedRow, Weakness> {
    if !d.iter().all(|&d| within(d, MOST_D)) {
        return Err(Weakness::Coefficient);
    }
    if !within(l, MOST_L) {
        return Err(Weakness::Constant);
    }
    let pivot = d[0];
    if pivot < 1 {
        return Err(Weakness::PivotBelowOne);
    }
    if PIVOT_PARTS * pivot < entry {
        return Err(Weakness::PivotBelowEntry);
    }
    let factor = |&d: &i128| nearest(-1_000_000 * d, pivot);
    let m: Vec<i128> = d.iter().map(factor).collect();
    if !m.iter().skip(1).all(|&m| within(m, MOST_M)) {
        return Err(Weakness::Factor);
    }
    Ok(ReducedRow { d, m, l })
}

/// K from the last row back to the first, each tested before the next is begun.
fn correlates(rows: &[ReducedRow]) -> Result<Vec<i128>, Refusal> {
    let mut found = vec![0; rows.len()];
    for (j, row) in rows.iter().enumerate().rev() {
        let mut k = nearest(-10_000 * row.l, row.d[0]);
        for (m, later) in row.m.iter().zip(&found[j..]).skip(1) {
            k += nearest(m * later, 1_000_000);
        }
        if !correlate_allowed(k) {
            return Err(Refusal::new(CORRELATE, place(j + 1)));
        }
        found[j] = k;
    }
    Ok(found)
}

/// R(j) = sum of N(j,k)*K(k) + 10^7*w(j).
fn remainders(normals: &[Vec<i128>], k: &[i128], w: &[i128]) -> Vec<i128> {
    let remainder = |(row, w): (&Vec<i128>, &i128)| dot(row, k) + 10_000_000 * w;
    normals.iter().zip(w).map(remainder).collect()
}

/// Whether a net may have m directions and n conditions.
pub(crate) fn counts_allowed(m: usize, n: usize) -> bool {
    (1..=MOST_DIRECTIONS).contains(&m) && (1..=MOST_CONDITIONS).contains(&n) && n <= m
}

/// Whether a correlate is within its limit.
pub(crate) fn correlate_allowed(k: i128) -> bool {
    within(k, MOST_K)
}

/// Whether a remainder R is within its limit.
pub(crate) fn remainder_allowed(r: i64) -> bool {
    within(r.into(), MOST_R)
}

/// Whether a printed correction is no blunder.
pub(crate) fn correction_allowed(u: i64) -> bool {
    within(u.into(), MOST_U)
}

fn dot(row: &[i128], other: &[i128]) -> i128 {
    row.iter().zip(other).map(|(a, b)| a * b).sum()
}

fn wide(list: &[i64]) -> Vec<i128> {
    list.iter().map(|&x| i128::from(x)).collect()
}

pub(crate) fn answers(list: Vec<i128>) -> Vec<i64> {
    list.into_iter().map(answer).collect()
}

#[cfg(test)]
mod tests {
    use super::*;
    use crate::generate::{table_case, Rng};

    #[test]
    fn check_column_is_the_row_sum_of_the_normals() {
        let mut rng = Rng::new(138);
        let mut sound = 0;
        for _ in 0..400 {
            let case = table_case(&mut rng);
            if let Ok(net) = Net::check(&case.table(), case.lengths) {
                let sums = net.normals().into_iter();
                let sums: Vec<i128> = sums.map(|row| row.into_iter().sum()).collect();
                assert_eq!(sums, net.check_column());
                sound += 1;
            }
        }
        assert!(sound > 100);
    }
}
