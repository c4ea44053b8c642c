//! One condition's terms: its coefficients and its misclosure, two separate operations.

use crate::numeric::{answer, modulo, within, CIRCLE};
use crate::refusal::{place, Refusal, COEFFICIENT, COUNT, MALFORMED, MISCLOSURE, RANGE};

pub const MOST_DIRECTIONS: usize = 64;
pub const MOST_TERMS: usize = 12;
pub(crate) const MOST_COEFFICIENT: i128 = 2_000;
pub(crate) const MOST_MISCLOSURE: i128 = 1_000_000;

const MOST_LOGARITHM: i128 = 200_000_000;
const MOST_DIFFERENCE: i128 = 2_000;
const PER_ANGLE: i128 = 100;

/// An angle condition's unit is the second, a side condition's the sixth decimal.
#[derive(Clone, Copy, Debug, PartialEq, Eq)]
pub enum ConditionKind {
    Angle,
    Side,
}

impl ConditionKind {
    /// The kind named by a letter's code; any other code is refused before all else.
    pub fn from_letter(code: i64) -> Result<Self, Refusal> {
        match u8::try_from(code) {
            Ok(b'A') => Ok(ConditionKind::Angle),
            Ok(b'S') => Ok(ConditionKind::Side),
            _ => Err(Refusal::at_zero(MALFORMED)),
        }
    }
}

/// The side of the equation on which a logarithm stands.
#[derive(Clone, Copy, Debug, PartialEq, Eq)]
pub(crate) enum Side {
    Left,
    Right,
}

impl Side {
    fn sign(self) -> i128 {
        match self {
            Side::Left => 1,
            Side::Right => -1,
        }
    }
}

/// A term with just the fields its kind reads; the angle runs from i to k.
#[derive(Clone, Copy, Debug, PartialEq, Eq)]
pub(crate) enum Term {
    Angle {
        i: i64,
        k: i64,
    },
    FixedAngle {
        angle: i64,
    },
    Log {
        side: Side,
        logarithm: i64,
        d: i64,
        i: i64,
        k: i64,
    },
}

impl Term {
    pub(crate) fn fits(&self, kind: ConditionKind) -> bool {
        match self {
            Term::Angle { .. } | Term::FixedAngle { .. } => kind == ConditionKind::Angle,
            Term::Log { .. } => kind == ConditionKind::Side,
        }
    }

    /// Every range of the term, and i = k, in a net of m directions.
    pub(crate) fn in_range(&self, m: usize) -> bool {
        let is_direction = |number: i64| (0..=place(m)).contains(&number);
        match *self {
            Term::Angle { i, k } => is_direction(i) && is_direction(k) && i != k,
            Term::FixedAngle { angle } => (0..CIRCLE).contains(&i128::from(angle)),
            Term::Log {
                logarithm, d, i, k, ..
            } => {
                let is_fixed_length = i == 0 && k == 0 && d == 0;
                (0..=MOST_LOGARITHM).contains(&i128::from(logarithm))
                    && within(i128::from(d), MOST_DIFFERENCE)
                    && is_direction(i)
                    && is_direction(k)
                    && (i != k || is_fixed_length)
            }
        }
    }

    /// What the term adds to the coefficient of k; that of i gets the opposite.
    fn step(&self) -> Option<(i64, i64, i128)> {
        match *self {
            Term::Angle { i, k } => Some((i, k, PER_ANGLE)),
            Term::FixedAngle { .. } => None,
            Term::Log { side, d, i, k, .. } => Some((i, k, side.sign() * i128::from(d))),
        }
    }

    /// What the term adds to the misclosure, the target apart.
    fn closing(&self, directions: &[i64]) -> i128 {
        match *self {
            Term::Angle { i, k } => modulo(value(directions, k) - value(directions, i), CIRCLE),
            Term::FixedAngle { angle } => i128::from(angle),
            Term::Log {
                side, logarithm, ..
            } => 100 * side.sign() * i128::from(logarithm),
        }
    }
}

/// A condition as it is lent. `values` holds the fixed angle of an F and the logarithm
/// of an L or R; `kinds` holds the codes of the letters P, F, L and R.
#[derive(Clone, Copy, Debug)]
pub struct LentCondition<'a> {
    pub kind: ConditionKind,
    pub target: i64,
    pub kinds: &'a [i64],
    pub values: &'a [i64],
    pub d: &'a [i64],
    pub i: &'a [i64],
    pub k: &'a [i64],
}

/// The coefficients of a condition, one for each direction; `answer_length` is the
/// length of the list lent for them.
pub fn coefficients(
    directions: &[i64],
    q: &[i64],
    condition: &LentCondition,
    answer_length: usize,
) -> Result<Vec<i64>, Refusal> {
    if answer_length != directions.len() {
        return Err(Refusal::at_zero(COUNT));
    }
    let terms = check_terms(directions, q, condition)?;
    let coefficients = sum_coefficients(&terms, directions.len());
    if coefficients_allowed(&coefficients) {
        Ok(coefficients.into_iter().map(answer).collect())
    } else {
        Err(Refusal::new(COEFFICIENT, 1))
    }
}

/// The misclosure w of a condition.
pub fn misclosure(
    directions: &[i64],
    q: &[i64],
    condition: &LentCondition,
) -> Result<i64, Refusal> {
    let terms = check_terms(directions, q, condition)?;
    let w = sum_misclosure(condition.kind, condition.target, &terms, directions);
    if misclosure_allowed(w) {
        Ok(answer(w))
    } else {
        Err(Refusal::new(MISCLOSURE, 1))
    }
}

/// The checks that both operations make alike.
fn check_terms(
    directions: &[i64],
    q: &[i64],
    condition: &LentCondition,
) -> Result<Vec<Term>, Refusal> {
    let m = directions.len();
    let count = condition.kinds.len();
    let lists = [condition.values, condition.d, condition.i, condition.k];
    let sound = (1..=MOST_DIRECTIONS).contains(&m)
        && q.len() == m
        && (1..=MOST_TERMS).contains(&count)
        && lists.iter().all(|list| list.len() == count);
    if !sound {
        return Err(Refusal::at_zero(COUNT));
    }
    check_directions(directions, q)?;
    if condition.kind == ConditionKind::Angle && !target_allowed(condition.target) {
        return Err(Refusal::at_zero(RANGE));
    }
    let mut terms = Vec::new();
    for index in 0..count {
        let ordinal = place(index + 1);
        let term = lent_term(condition, index)
            .filter(|term| term.fits(condition.kind))
            .ok_or(Refusal::new(MALFORMED, ordinal))?;
        if !term.in_range(m) {
            return Err(Refusal::new(RANGE, ordinal));
        }
        terms.push(term);
    }
    Ok(terms)
}

/// The term of an index within the lists, or nothing for a kind that is none.
fn lent_term(condition: &LentCondition, index: usize) -> Option<Term> {
    let code = condition.kinds.get(index)?;
    let value = *condition.values.get(index)?;
    let d = *condition.d.get(index)?;
    let i = *condition.i.get(index)?;
    let k = *condition.k.get(index)?;
    let log = |side| Term::Log {
        side,
        logarithm: value,
        d,
        i,
        k,
    };
    match u8::try_from(*code) {
        Ok(b'P') => Some(Term::Angle { i, k }),
        Ok(b'F') => Some(Term::FixedAngle { angle: value }),
        Ok(b'L') => Some(log(Side::Left)),
        Ok(b'R') => Some(log(Side::Right)),
        _ => None,
    }
}

/// Direction and q together, by direction number, which is the place.
pub(crate) fn check_directions(directions: &[i64], q: &[i64]) -> Result<(), Refusal> {
    for (index, (&direction, &q)) in directions.iter().zip(q).enumerate() {
        if !direction_allowed(direction, q) {
            return Err(Refusal::new(RANGE, place(index + 1)));
        }
    }
    Ok(())
}

pub(crate) fn direction_allowed(direction: i64, q: i64) -> bool {
    (0..CIRCLE).contains(&i128::from(direction)) && inverse_weight_allowed(q)
}

pub(crate) fn inverse_weight_allowed(q: i64) -> bool {
    (1..=10).contains(&q)
}

pub(crate) fn target_allowed(target: i64) -> bool {
    (0..=12 * CIRCLE).contains(&i128::from(target))
}

pub(crate) fn coefficients_allowed(coefficients: &[i128]) -> bool {
    coefficients.iter().all(|&a| within(a, MOST_COEFFICIENT))
}

pub(crate) fn misclosure_allowed(w: i128) -> bool {
    within(w, MOST_MISCLOSURE)
}

/// Totals by direction. What the terms add to direction 0 is dropped.
pub(crate) fn sum_coefficients(terms: &[Term], m: usize) -> Vec<i128> {
    let mut totals = vec![0; m];
    let mut add = |number: i64, amount: i128| {
        if let Some(total) = index_of(number).and_then(|index| totals.get_mut(index)) {
            *total += amount;
        }
    };
    for (i, k, amount) in terms.iter().filter_map(Term::step) {
        add(i, -amount);
        add(k, amount);
    }
    totals
}

/// Each angle is brought into the circle by itself; their sum is not.
pub(crate) fn sum_misclosure(
    kind: ConditionKind,
    target: i64,
    terms: &[Term],
    directions: &[i64],
) -> i128 {
    let sum: i128 = terms.iter().map(|term| term.closing(directions)).sum();
    match kind {
        ConditionKind::Angle => sum - i128::from(target),
        ConditionKind::Side => sum,
    }
}

/// The value of a direction by its number; number 0 is the fixed initial.
fn value(directions: &[i64], number: i64) -> i128 {
    let direction = index_of(number).and_then(|index| directions.get(index));
    direction.copied().map_or(0, i128::from)
}

/// Where direction `number` stands in a list; the initial stands in none.
fn index_of(number: i64) -> Option<usize> {
    usize::try_from(number).ok()?.checked_sub(1)
}
