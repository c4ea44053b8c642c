//! One condition's lent terms, at the boundaries of the coefficients and the misclosure.

use super::{direction_count, inverse_weights, spoil_length, Rng, CIRCLE};
use crate::condition::{ConditionKind, LentCondition};

/// A lent condition with its directions, and the length of the list lent for the
/// coefficients.
#[derive(Clone, Debug, PartialEq, Eq)]
pub struct TermsCase {
    pub directions: Vec<i64>,
    pub q: Vec<i64>,
    pub kind: ConditionKind,
    pub target: i64,
    pub kinds: Vec<i64>,
    pub values: Vec<i64>,
    pub d: Vec<i64>,
    pub i: Vec<i64>,
    pub k: Vec<i64>,
    pub answer_length: usize,
}

impl TermsCase {
    pub fn condition(&self) -> LentCondition<'_> {
        LentCondition {
            kind: self.kind,
            target: self.target,
            kinds: &self.kinds,
            values: &self.values,
            d: &self.d,
            i: &self.i,
            k: &self.k,
        }
    }

    fn add(&mut self, letter: u8, [value, d, i, k]: [i64; 4]) {
        self.kinds.push(i64::from(letter));
        self.values.push(value);
        self.d.push(d);
        self.i.push(i);
        self.k.push(k);
    }
}

pub fn terms_case(rng: &mut Rng) -> TermsCase {
    let m = direction_count(rng);
    let kind = rng.pick(&[ConditionKind::Angle, ConditionKind::Side]);
    let mut case = TermsCase {
        directions: (0..m).map(|_| rng.direction()).collect(),
        q: inverse_weights(rng, m),
        kind,
        target: 0,
        kinds: Vec::new(),
        values: Vec::new(),
        d: Vec::new(),
        i: Vec::new(),
        k: Vec::new(),
        answer_length: m,
    };
    match kind {
        ConditionKind::Angle => add_angles(rng, &mut case),
        ConditionKind::Side => add_sides(rng, &mut case),
    }
    if rng.chance(40) {
        for _ in 0..rng.count(1, 3) {
            damage(rng, &mut case);
        }
    }
    if rng.chance(3) {
        damage_lengths(rng, &mut case);
    }
    case
}

/// Two different direction numbers from 0 to m, m being at least 1.
fn two_directions(rng: &mut Rng, m: usize) -> [i64; 2] {
    let m = m as i64;
    let i = rng.range(0, m);
    let k = (i + rng.range(1, m)).rem_euclid(m + 1);
    [i, k]
}

fn add_angles(rng: &mut Rng, case: &mut TermsCase) {
    let value = |directions: &[i64], number: i64| match number {
        0 => 0,
        _ => directions[number as usize - 1],
    };
    let mut sum = 0;
    let fixed_share = rng.pick(&[0, 30, 100]);
    for _ in 0..term_count(rng) {
        if rng.chance(fixed_share) {
            let angle = rng.direction();
            let [d, i, k] = unused(rng);
            case.add(b'F', [angle, d, i, k]);
            sum += angle;
        } else {
            let [i, k] = two_directions(rng, case.directions.len());
            let [fixed, d, _] = unused(rng);
            case.add(b'P', [fixed, d, i, k]);
            let angle = value(&case.directions, k) - value(&case.directions, i);
            sum += angle.rem_euclid(CIRCLE);
        }
    }
    case.target = match rng.below(12) {
        0 => 0,
        1 => 12 * CIRCLE,
        2 => rng.range(0, 12 * CIRCLE),
        // Most sums have a target that leaves a misclosure within its range.
        _ => (sum - misclosure(rng)).clamp(0, 12 * CIRCLE),
    };
}

fn add_sides(rng: &mut Rng, case: &mut TermsCase) {
    let count = term_count(rng);
    let m = case.directions.len();
    let most = rng.pick(&[50, 300, 700, 1_000, 2_000]);
    let letters = rng.pick(&[[b'L', b'R'], [b'R', b'L']]);
    let wanted = misclosure(rng) / 100;
    let mut difference = 0;
    for index in 0..count {
        let letter = letters[index % 2];
        let sign = if letter == b'L' { 1 } else { -1 };
        let logarithm = if index + 1 == count {
            // The last logarithm closes the condition, as far as its range allows.
            (sign * (wanted - difference)).clamp(0, 200_000_000)
        } else if index % 2 == 1 {
            // Each second term undoes the one before it.
            case.values[index - 1]
        } else {
            rng.pick(&[0, 20_000, 97_654_321, 199_980_000, 200_000_000])
        };
        difference += sign * logarithm;
        if rng.chance(12) {
            case.add(letter, [logarithm, 0, 0, 0]);
        } else {
            let d = match rng.below(4) {
                0 => rng.sign() * most,
                _ => rng.range(-most, most),
            };
            let [i, k] = two_directions(rng, m);
            case.add(letter, [logarithm, d, i, k]);
        }
    }
    if rng.chance(25) {
        crowd_one_direction(rng, case);
    }
    case.target = unused(rng)[0];
}

/// Brings the total of direction 1 to the limit of a coefficient or just over it. Only
/// one other direction shares in it, so partial sums may pass the limit and come back.
fn crowd_one_direction(rng: &mut Rng, case: &mut TermsCase) {
    let count = case.kinds.len();
    let mut wanted = rng.sign() * rng.pick(&[1_999, 2_000, 2_000, 2_001, 2_001]);
    for index in 0..count {
        case.i[index] = 0;
        case.k[index] = 1;
        let added = if index + 1 == count {
            wanted.clamp(-2_000, 2_000)
        } else {
            rng.range(-2_000, 2_000)
        };
        wanted -= added;
        let is_left = case.kinds[index] == i64::from(b'L');
        case.d[index] = if is_left { added } else { -added };
    }
}

fn term_count(rng: &mut Rng) -> usize {
    match rng.below(5) {
        0 => 1,
        1 => 12,
        2 => rng.count(1, 12),
        _ => rng.count(2, 6),
    }
}

fn misclosure(rng: &mut Rng) -> i64 {
    let size = match rng.below(5) {
        0 => rng.pick(&[999_900, 999_999, 1_000_000]),
        1 => rng.pick(&[1_000_001, 1_000_100, 1_000_101]),
        _ => rng.size_up_to(1_000_000),
    };
    rng.sign() * size
}

/// What stands in fields that nothing may read.
fn unused(rng: &mut Rng) -> [i64; 3] {
    match rng.below(3) {
        0 => [0; 3],
        1 => [rng.extreme(), rng.extreme(), rng.extreme()],
        _ => [i64::MIN; 3],
    }
}

fn damage(rng: &mut Rng, case: &mut TermsCase) {
    let m = case.directions.len();
    let term = rng.below(case.kinds.len());
    let direction = rng.below(m);
    match rng.below(14) {
        0 => {
            if let Some(direction) = case.directions.get_mut(direction) {
                *direction = rng.outside(0, CIRCLE - 1);
            }
        }
        1 => {
            if let Some(q) = case.q.get_mut(direction) {
                *q = rng.outside(1, 10);
            }
        }
        2 => case.target = rng.outside(0, 12 * CIRCLE),
        3 | 4 => set(&mut case.kinds, term, other_kind(rng)),
        5 => {
            let edge = rng.pick(&[0, CIRCLE - 1, CIRCLE, 200_000_000, 200_000_001, -1]);
            set(&mut case.values, term, edge);
        }
        6 => {
            let far = rng.extreme();
            set(&mut case.values, term, far);
        }
        7 => {
            let edge = rng.pick(&[0, 2_000, -2_000, 2_001, -2_001, i64::MIN, i64::MAX]);
            set(&mut case.d, term, edge);
        }
        8 | 9 => {
            let number = rng.pick(&[-1, 0, 1, m as i64, m as i64 + 1, i64::MIN, i64::MAX]);
            let list = if rng.chance(50) {
                &mut case.i
            } else {
                &mut case.k
            };
            set(list, term, number);
        }
        10 => {
            if let Some(&i) = case.i.get(term) {
                set(&mut case.k, term, i);
            }
        }
        11 => {
            let same = rng.pick(&[0, 0, 1, m as i64]);
            set(&mut case.i, term, same);
            set(&mut case.k, term, same);
            let d = rng.pick(&[0, 0, 1, -1, 2_000]);
            set(&mut case.d, term, d);
        }
        12 => change_kind(rng, case),
        _ => change_counts(rng, case),
    }
}

fn set(list: &mut [i64], index: usize, value: i64) {
    if let Some(place) = list.get_mut(index) {
        *place = value;
    }
}

/// The code of some other kind, or of none; some fold onto a true one when narrowed.
fn other_kind(rng: &mut Rng) -> i64 {
    let letter = i64::from(rng.pick(b"PFLR"));
    match rng.below(6) {
        0 | 1 => letter,
        2 => letter + 256,
        3 => letter + (1 << 32),
        4 => i64::from(rng.pick(b"pflrASDC\0\n0")),
        _ => rng.extreme(),
    }
}

fn change_kind(rng: &mut Rng, case: &mut TermsCase) {
    case.kind = match case.kind {
        ConditionKind::Angle => ConditionKind::Side,
        ConditionKind::Side => ConditionKind::Angle,
    };
    if rng.chance(50) {
        case.target = rng.range(0, 12 * CIRCLE);
    }
}

/// Lists that agree with each other, but in a count that is not allowed.
fn change_counts(rng: &mut Rng, case: &mut TermsCase) {
    if rng.chance(50) {
        let m = rng.pick(&[0, 64, 65, 100]);
        case.directions.resize(m, 0);
        case.q.resize(m, 1);
        case.answer_length = m;
    } else {
        let count = rng.pick(&[0, 12, 13, 20]);
        let first_kind = case.kinds.first().copied().unwrap_or(0);
        case.kinds.resize(count, first_kind);
        case.values.resize(count, 0);
        case.d.resize(count, 0);
        case.i.resize(count, 0);
        case.k.resize(count, 1);
    }
}

fn damage_lengths(rng: &mut Rng, case: &mut TermsCase) {
    match rng.below(8) {
        0 => spoil_length(rng, &mut case.directions),
        1 => spoil_length(rng, &mut case.q),
        2 => spoil_length(rng, &mut case.kinds),
        3 => spoil_length(rng, &mut case.values),
        4 => spoil_length(rng, &mut case.d),
        5 => spoil_length(rng, &mut case.i),
        6 => spoil_length(rng, &mut case.k),
        _ => case.answer_length = rng.wrong_length(case.answer_length),
    }
}
