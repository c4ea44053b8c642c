//! Inputs for a differential test: long and short, sound and damaged, for each operation.
//! The same seed gives the same inputs for ever; nothing here reads a clock.

mod book;
mod network;
mod pivot;
mod precision;
mod rescue;
mod season;
mod sheet;
mod station;
mod table;
mod terms;
mod text;

pub use book::{book_case, BookCase};
pub use network::{line_case, network_case, number_case, LineCase, NetworkCase, NumberCase};
pub use precision::{precision_case, PrecisionCase};
pub use rescue::{rescue_case, spoiled_book_case, RescueCase};
pub use season::{
    archive_case, reports_case, state_case, sum_case, ArchiveCase, ReportsCase, StateCase, SumCase,
};
pub use sheet::{sheet_case, SheetCase};
pub use station::{station_case, StationCase};
pub use table::{table_case, TableCase};
pub use terms::{terms_case, TermsCase};

const CIRCLE: i64 = 1_296_000_000;

/// Numbers at the ends of the machine's range, and near its 32-bit folds, where a
/// careless size test or a narrowing would show.
const EXTREMES: [i64; 12] = [
    i64::MIN,
    i64::MIN + 1,
    i64::MAX,
    i64::MAX - 1,
    -1,
    1 << 32,
    (1 << 32) + 1,
    -(1 << 32) + 1,
    1 << 31,
    -(1 << 31),
    1 << 62,
    -(1 << 62),
];

/// A splitmix64 generator.
#[derive(Clone, Debug)]
pub struct Rng {
    state: u64,
}

impl Rng {
    pub fn new(seed: u64) -> Self {
        Rng { state: seed }
    }

    pub fn next_u64(&mut self) -> u64 {
        self.state = self.state.wrapping_add(0x9e37_79b9_7f4a_7c15);
        let mut z = self.state;
        z = (z ^ (z >> 30)).wrapping_mul(0xbf58_476d_1ce4_e5b9);
        z = (z ^ (z >> 27)).wrapping_mul(0x94d0_49bb_1331_11eb);
        z ^ (z >> 31)
    }

    /// A number from 0 to bound - 1, or 0 for a bound of 0.
    pub fn below(&mut self, bound: usize) -> usize {
        let bound = (bound as u64).max(1);
        (self.next_u64() % bound) as usize
    }

    /// A number from low to high, both included; low where they are crossed.
    pub fn range(&mut self, low: i64, high: i64) -> i64 {
        let span = (i128::from(high) - i128::from(low) + 1).max(1);
        let step = i128::from(self.next_u64()) % span;
        (i128::from(low) + step) as i64
    }

    /// A count from low to high, both included.
    pub fn count(&mut self, low: usize, high: usize) -> usize {
        low + self.below((high + 1).saturating_sub(low))
    }

    /// True in so many cases of a hundred.
    pub fn chance(&mut self, percent: usize) -> bool {
        self.below(100) < percent
    }

    pub fn sign(&mut self) -> i64 {
        if self.chance(50) {
            1
        } else {
            -1
        }
    }

    /// One of a list that is not empty.
    pub fn pick<T: Copy>(&mut self, list: &[T]) -> T {
        list[self.below(list.len())]
    }

    pub fn shuffle<T>(&mut self, list: &mut [T]) {
        for last in (1..list.len()).rev() {
            let other = self.below(last + 1);
            list.swap(last, other);
        }
    }

    /// `count` different numbers from low to high, in no order.
    fn sample(&mut self, low: i64, high: i64, count: usize) -> Vec<i64> {
        let mut all: Vec<i64> = (low..=high).collect();
        self.shuffle(&mut all);
        all.truncate(count);
        all
    }

    /// A direction on the circle, often next to the place where it wraps.
    fn direction(&mut self) -> i64 {
        match self.below(5) {
            0 => self.range(0, 3),
            1 => CIRCLE - 1 - self.range(0, 3),
            2 => CIRCLE / 2 + self.range(-2, 2),
            _ => self.range(0, CIRCLE - 1),
        }
    }

    /// A size with a random number of digits, so that small ones are as common as large.
    fn size_up_to(&mut self, most: i64) -> i64 {
        let mut top = most;
        for _ in 0..self.below(6) {
            top /= 10;
        }
        self.range(0, top.max(1))
    }

    fn extreme(&mut self) -> i64 {
        self.pick(&EXTREMES)
    }

    /// A value just outside low to high, or far outside.
    fn outside(&mut self, low: i64, high: i64) -> i64 {
        match self.below(4) {
            0 | 1 => self.pick(&[low - 1, high + 1]),
            _ => {
                let far = self.extreme();
                if (low..=high).contains(&far) {
                    high + 1
                } else {
                    far
                }
            }
        }
    }

    /// A length that disagrees with the right one.
    fn wrong_length(&mut self, right: usize) -> usize {
        match self.below(4) {
            0 => right + 1,
            1 => right.saturating_mul(2) + 1,
            2 if right > 0 => 0,
            _ => right.checked_sub(1).unwrap_or(1),
        }
    }
}

/// Puts a value into some place of a list that has one.
fn set(rng: &mut Rng, list: &mut [i64], value: i64) {
    let index = rng.below(list.len());
    if let Some(place) = list.get_mut(index) {
        *place = value;
    }
}

/// A list made one too short or one too long.
fn spoil_length(rng: &mut Rng, list: &mut Vec<i64>) {
    match list.pop() {
        Some(last) if rng.chance(50) => list.extend([last, last]),
        Some(_) => {}
        None => list.push(rng.extreme()),
    }
}

/// Inverse weights: all one, all ten, or mixed.
fn inverse_weights(rng: &mut Rng, m: usize) -> Vec<i64> {
    match rng.below(4) {
        0 => vec![1; m],
        1 => vec![10; m],
        _ => (0..m).map(|_| rng.range(1, 10)).collect(),
    }
}

/// A misclosure that the directions of a condition take up equally, each by 1 for every
/// `share` of it: most often one minute, or just less or more.
fn minute_misclosure(rng: &mut Rng, share: i64) -> i64 {
    let size = match rng.below(3) {
        0 => rng.range(0, 9_000),
        _ => 60_000 * share + rng.range(-share, share),
    };
    rng.sign() * size
}

/// A number of directions, small ones and the full 64 among them.
fn direction_count(rng: &mut Rng) -> usize {
    match rng.below(8) {
        0 => 64,
        1 => rng.count(25, 64),
        2 | 3 => rng.count(8, 32),
        4 => rng.count(1, 3),
        _ => rng.count(2, 10),
    }
}

#[cfg(test)]
mod tests {
    use super::*;

    #[test]
    fn the_same_seed_gives_the_same_numbers() {
        let mut rng = Rng::new(0);
        assert_eq!(rng.next_u64(), 0xe220_a839_7b1d_cdaf);
        let (mut one, mut other) = (Rng::new(7), Rng::new(7));
        for _ in 0..50 {
            assert_eq!(network_case(&mut one).file, network_case(&mut other).file);
            assert_eq!(book_case(&mut one).file, book_case(&mut other).file);
            assert_eq!(precision_case(&mut one), precision_case(&mut other));
            assert_eq!(archive_case(&mut one), archive_case(&mut other));
            assert_eq!(state_case(&mut one), state_case(&mut other));
            assert_eq!(sum_case(&mut one), sum_case(&mut other));
            assert_eq!(reports_case(&mut one), reports_case(&mut other));
            assert_eq!(sheet_case(&mut one), sheet_case(&mut other));
            assert_eq!(rescue_case(&mut one), rescue_case(&mut other));
            let spoiled = spoiled_book_case(&mut one);
            assert_eq!(spoiled, spoiled_book_case(&mut other));
        }
    }

    #[test]
    fn ranges_hold_both_their_ends() {
        let mut rng = Rng::new(1);
        let drawn: Vec<i64> = (0..200).map(|_| rng.range(-1, 1)).collect();
        assert!([-1, 0, 1].iter().all(|x| drawn.contains(x)));
        assert!(drawn.iter().all(|x| (-1..=1).contains(x)));
        assert_eq!(rng.range(3, 2), 3);
        assert_eq!(rng.below(0), 0);
    }
}
