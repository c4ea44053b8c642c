//! The rules as tests: the ten figures, every refusal, the readings of open points, the
//! sighting book and its rescue, the season report, the check of a sheet, and what the
//! generator reaches.

mod book;
mod census;
mod figures;
mod precision;
mod readings;
mod refusals;
mod reports;
mod rescue;
mod season;
mod sheet;

use reference::adjustment::{self, Adjustment, ConditionTable, Weakness};
use reference::condition::{self, ConditionKind, LentCondition};
use reference::lines;
use reference::network;
use reference::refusal::Refusal;
use reference::station::{self, StationMeans};

pub const CIRCLE: i64 = 1_296_000_000;

pub fn refused<T>(number: i64, place: i64) -> Result<T, Refusal> {
    Err(Refusal::new(number, place))
}

/// Fields that are no number, for one reason each.
pub const NO_NUMBERS: [&str; 16] = [
    "100000000000",
    "-100000000000",
    "+1",
    "",
    "-",
    "00",
    "-0",
    "-01",
    "01",
    " ",
    "1 ",
    "1\r",
    "\r",
    "--1",
    "1-",
    "\u{664}",
];

/// What a file written with spaces for tabs is listed as, in the same writing.
pub fn list_spaced(list: fn(&[u8]) -> Vec<u8>, file: &str) -> String {
    let listing = list(file.replace(' ', "\t").as_bytes());
    String::from_utf8_lossy(&listing).replace('\t', " ")
}

/// The first line of a listing, without its LF.
pub fn first_line(listing: &str) -> String {
    assert!(listing.ends_with('\n'));
    listing.lines().next().unwrap_or_default().to_string()
}

/// A text with line `number` replaced.
pub fn with_line(text: &str, number: usize, line: &str) -> String {
    let lines = text.lines().enumerate();
    lines
        .map(|(index, old)| format!("{}\n", if index + 1 == number { line } else { old }))
        .collect()
}

/// The listing of a net written with spaces for tabs.
pub fn listing(net: &str) -> String {
    list_spaced(network::listing, net)
}

/// The refusal of a net written with spaces for tabs, without its LF.
pub fn reply(net: &str) -> String {
    first_line(&listing(net))
}

/// The adjustment of rows of conditions; every direction is 0.
pub fn adjust(q: &[i64], rows: &[&[i64]], w: &[i64]) -> Result<Adjustment, Refusal> {
    let lengths = adjustment::AnswerLengths::fitting(q.len(), w.len());
    with_table(q, rows, w, |table| adjustment::adjust(table, lengths))
}

/// Why the first weak row of conditions that all close is weak, if one is.
pub fn weakness(q: &[i64], rows: &[&[i64]]) -> Option<Weakness> {
    with_table(q, rows, &vec![0; rows.len()], adjustment::weakness)
}

fn with_table<T>(
    q: &[i64],
    rows: &[&[i64]],
    w: &[i64],
    operation: impl Fn(&ConditionTable) -> T,
) -> T {
    operation(&ConditionTable {
        directions: &vec![0; q.len()],
        q,
        a: &rows.concat(),
        w,
    })
}

/// The means of sightings written as position, object, face and reading.
pub fn means(sightings: &[[i64; 4]]) -> Result<StationMeans, Refusal> {
    let field = |index: usize| -> Vec<i64> { sightings.iter().map(|s| s[index]).collect() };
    station::station_means_i64(
        &field(0),
        &field(1),
        &field(2),
        &field(3),
        station::AnswerLengths::fitting(),
    )
}

/// The two sightings of a pair with a left reading and its s.
pub fn pair(position: i64, object: i64, left: i64, s: i64) -> [[i64; 4]; 2] {
    let right = (left + CIRCLE / 2 + s).rem_euclid(CIRCLE);
    [
        [position, object, 0, left.rem_euclid(CIRCLE)],
        [position, object, 1, right],
    ]
}

/// A lent condition: directions, kind, target, and terms as letter, value, d, i, k.
#[derive(Clone)]
pub struct Lent {
    pub directions: Vec<i64>,
    pub q: Vec<i64>,
    pub kind: ConditionKind,
    pub target: i64,
    pub terms: Vec<(u8, [i64; 4])>,
}

impl Lent {
    pub fn angle(target: i64, terms: &[(u8, [i64; 4])]) -> Self {
        Lent {
            directions: vec![1_000, 5_000, CIRCLE - 1],
            q: vec![1, 2, 3],
            kind: ConditionKind::Angle,
            target,
            terms: terms.to_vec(),
        }
    }

    pub fn side(terms: &[(u8, [i64; 4])]) -> Self {
        Lent {
            kind: ConditionKind::Side,
            ..Lent::angle(0, terms)
        }
    }

    fn with_condition<T>(&self, operation: impl Fn(&LentCondition) -> T) -> T {
        let field = |index: usize| -> Vec<i64> { self.terms.iter().map(|t| t.1[index]).collect() };
        let kinds: Vec<i64> = self.terms.iter().map(|t| i64::from(t.0)).collect();
        operation(&LentCondition {
            kind: self.kind,
            target: self.target,
            kinds: &kinds,
            values: &field(0),
            d: &field(1),
            i: &field(2),
            k: &field(3),
        })
    }

    pub fn coefficients(&self) -> Result<Vec<i64>, Refusal> {
        self.with_condition(|lent| {
            condition::coefficients(&self.directions, &self.q, lent, self.directions.len())
        })
    }

    pub fn misclosure(&self) -> Result<i64, Refusal> {
        self.with_condition(|lent| condition::misclosure(&self.directions, &self.q, lent))
    }

    /// Both operations refuse alike.
    pub fn both_refuse(&self, number: i64, place: i64) {
        assert_eq!(self.coefficients(), refused(number, place));
        assert_eq!(self.misclosure(), refused(number, place));
    }
}
