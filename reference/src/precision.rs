//! The precision of an adjustment: mean error and probable error of a direction, from the
//! printed corrections.

use crate::adjustment::{correction_allowed, counts_allowed};
use crate::condition::inverse_weight_allowed;
use crate::numeric::{answer, nearest};
use crate::refusal::{place, Refusal, COUNT, RANGE};

/// The least number that every q divides, so that each square over its q is whole.
pub(crate) const WHOLE: i128 = 2_520;

/// The mean error e and the probable error, in 0.001 second.
#[derive(Clone, Copy, Debug, PartialEq, Eq)]
pub struct Errors {
    pub mean: i64,
    pub probable: i64,
}

/// The errors from lent corrections u and inverse weights q of a net of n conditions.
pub fn probable_error(u: &[i64], q: &[i64], n: usize) -> Result<Errors, Refusal> {
    if !counts_allowed(u.len(), n) || q.len() != u.len() {
        return Err(Refusal::at_zero(COUNT));
    }
    for (index, (&u, &q)) in u.iter().zip(q).enumerate() {
        if !correction_allowed(u) || !inverse_weight_allowed(q) {
            return Err(Refusal::new(RANGE, place(index + 1)));
        }
    }
    let mean = mean_error(weighted_squares(u, q), n as i128);
    Ok(Errors {
        mean: answer(mean),
        probable: answer(nearest(6_745 * mean, 10_000)),
    })
}

/// S, the sum of 2,520*u*u/q, of lists in range.
pub(crate) fn weighted_squares(u: &[i64], q: &[i64]) -> i128 {
    let square = |(&u, &q): (&i64, &i64)| WHOLE / i128::from(q) * i128::from(u).pow(2);
    u.iter().zip(q).map(square).sum()
}

/// The largest whole e with e*e*2,520*n not above S: a float is near it, and the rule
/// itself puts right what the float has rounded.
fn mean_error(s: i128, n: i128) -> i128 {
    let not_above = |e: i128| e * e * WHOLE * n <= s;
    let mut e = (s as f64 / (WHOLE * n) as f64).sqrt() as i128;
    while !not_above(e) {
        e -= 1;
    }
    while not_above(e + 1) {
        e += 1;
    }
    e
}

#[cfg(test)]
mod tests {
    use super::*;

    #[test]
    fn the_rule_puts_right_what_a_float_rounds() {
        // Far past any S of a net, where floats no longer tell neighbours apart.
        for e in [1_000_000_000, (1 << 55) - 5, (1 << 55) + 3] {
            for n in [1, 24] {
                let s = e * e * WHOLE * n;
                assert_eq!(mean_error(s - 1, n), e - 1);
                assert_eq!(mean_error(s, n), e);
                assert_eq!(mean_error(s + 1, n), e);
            }
        }
    }
}
