//! The nets of the speed figures: 64 directions and 24 conditions of 12 terms each, the
//! most that the rules allow, as a file and as a condition table.

use reference::adjustment::{self, AnswerLengths};
use reference::condition::{coefficients, misclosure, ConditionKind, LentCondition};
use reference::generate::{Rng, TableCase};

const CIRCLE: i64 = 1_296_000_000;
const M: i64 = 64;
const N: i64 = 24;
const TERMS: usize = 12;
/// Tries before it is given up that a net of this kind is accepted.
const TRIES: usize = 1_000;

pub struct Net {
    pub file: Vec<u8>,
    pub table: TableCase,
}

/// One condition's lists.
struct Condition {
    kind: ConditionKind,
    target: i64,
    kinds: Vec<i64>,
    values: Vec<i64>,
    d: Vec<i64>,
    i: Vec<i64>,
    k: Vec<i64>,
}

/// The first accepted net of a seed.
pub fn accepted(seed: u64) -> Option<Net> {
    let mut rng = Rng::new(seed);
    (0..TRIES)
        .filter_map(|_| draw(&mut rng))
        .find(|net| adjustment::adjust(&net.table.table(), net.table.lengths).is_ok())
}

fn draw(rng: &mut Rng) -> Option<Net> {
    let directions: Vec<i64> = (0..M).map(|_| rng.range(0, CIRCLE - 1)).collect();
    let q: Vec<i64> = (0..M).map(|_| rng.range(1, 10)).collect();
    let mut text = String::new();
    for (number, (direction, q)) in (1..).zip(directions.iter().zip(&q)) {
        text += &format!("D\t{number}\t{direction}\t{q}\n");
    }
    let (mut a, mut w) = (Vec::new(), Vec::new());
    for own in 1..=N {
        // One condition in four is a side condition.
        let condition = if own % 4 == 0 {
            sides(rng, own)
        } else {
            angles(rng, own, &directions)
        };
        a.extend(coefficients(&directions, &q, &condition.lent(), directions.len()).ok()?);
        w.push(misclosure(&directions, &q, &condition.lent()).ok()?);
        text += &condition.lines();
    }
    let lengths = AnswerLengths::fitting(directions.len(), w.len());
    Some(Net {
        file: text.into_bytes(),
        table: TableCase {
            directions,
            q,
            a,
            w,
            lengths,
        },
    })
}

/// The condition's own direction in the first term, so that rows are not dependent; any
/// two different ones in the others.
fn ends(rng: &mut Rng, own: i64, term: usize) -> [i64; 2] {
    let k = if term == 0 { own } else { rng.range(0, M) };
    [(k + rng.range(1, M)).rem_euclid(M + 1), k]
}

/// Angles whose target leaves a misclosure of a few seconds.
fn angles(rng: &mut Rng, own: i64, directions: &[i64]) -> Condition {
    let mut condition = Condition::empty(ConditionKind::Angle);
    for term in 0..TERMS {
        let [i, k] = ends(rng, own, term);
        condition.add(b'P', [0, 0, i, k]);
    }
    condition.target = sum_of_angles(&condition, directions) - rng.range(-9_000, 9_000);
    condition
}

fn sum_of_angles(condition: &Condition, directions: &[i64]) -> i64 {
    let value = |number: i64| match number {
        0 => 0,
        _ => directions[number as usize - 1],
    };
    let ends = condition.i.iter().zip(&condition.k);
    ends.map(|(&i, &k)| (value(k) - value(i)).rem_euclid(CIRCLE))
        .sum()
}

fn sides(rng: &mut Rng, own: i64) -> Condition {
    let mut condition = Condition::empty(ConditionKind::Side);
    let mut last = 0;
    for term in 0..TERMS {
        let [i, k] = ends(rng, own, term);
        let d = rng.sign() * rng.range(20, 200);
        if term % 2 == 0 {
            last = rng.range(50_000_000, 199_000_000);
            condition.add(b'L', [last, d, i, k]);
        } else {
            condition.add(b'R', [last + rng.range(-20, 20), d, i, k]);
        }
    }
    condition
}

impl Condition {
    fn empty(kind: ConditionKind) -> Self {
        Condition {
            kind,
            target: 0,
            kinds: Vec::new(),
            values: Vec::new(),
            d: Vec::new(),
            i: Vec::new(),
            k: Vec::new(),
        }
    }

    fn add(&mut self, letter: u8, [value, d, i, k]: [i64; 4]) {
        self.kinds.push(i64::from(letter));
        self.values.push(value);
        self.d.push(d);
        self.i.push(i);
        self.k.push(k);
    }

    fn lent(&self) -> LentCondition<'_> {
        LentCondition {
            kind: self.kind,
            target: self.target,
            kinds: &self.kinds,
            values: &self.values,
            d: &self.d,
            i: &self.i,
            k: &self.k,
        }
    }

    fn lines(&self) -> String {
        let mut text = match self.kind {
            ConditionKind::Angle => format!("C\tA\t{}\n", self.target),
            ConditionKind::Side => "C\tS\n".to_string(),
        };
        for term in 0..self.kinds.len() {
            let (value, d) = (self.values[term], self.d[term]);
            let (i, k) = (self.i[term], self.k[term]);
            text += &match self.kinds[term] as u8 {
                b'P' => format!("P\t{i}\t{k}\n"),
                letter => format!("{}\t{value}\t{d}\t{i}\t{k}\n", letter as char),
            };
        }
        text
    }
}
