//! Rounding and circles. Every helper is for this package only, so that its narrow
//! domain (positive divisors and turns, sizes far below `i128`) is kept by the callers.

/// The circle C, in 0.001 second.
pub const CIRCLE: i128 = 1_296_000_000;

/// The nearest whole number to value / divisor, halves away from zero.
pub fn nearest(value: i128, divisor: i128) -> i128 {
    let size = floor(2 * value.abs() + divisor, 2 * divisor);
    if value < 0 {
        -size
    } else {
        size
    }
}

/// The greatest whole number not above value / divisor.
pub fn floor(value: i128, divisor: i128) -> i128 {
    value.div_euclid(divisor)
}

/// The remainder from 0 to turn - 1.
pub fn modulo(value: i128, turn: i128) -> i128 {
    value.rem_euclid(turn)
}

/// The value brought by whole turns into [-turn/2, turn/2).
pub fn about_zero(value: i128, turn: i128) -> i128 {
    let half = turn / 2;
    modulo(value + half, turn) - half
}

/// Whether a value is at most `limit` in size; no value is negated, so none is too small.
pub fn within(value: i128, limit: i128) -> bool {
    (-limit..=limit).contains(&value)
}

/// An answer as it is handed back. Each one is bounded by tests made before it (the largest
/// are R and Q of correlates within 10^8, below 6.2 * 10^18), so nothing is cut off.
pub fn answer(value: i128) -> i64 {
    value as i64
}

#[cfg(test)]
mod tests {
    use super::*;

    #[test]
    fn halves_go_away_from_zero() {
        let halves: Vec<i128> = (-5..=5).map(|x| nearest(x, 2)).collect();
        assert_eq!(halves, [-3, -2, -2, -1, -1, 0, 1, 1, 2, 2, 3]);
        assert_eq!(nearest(-4, 3), -1);
        assert_eq!(nearest(5, 3), 2);
        assert_eq!(nearest(-1, 3), 0);
    }

    #[test]
    fn floor_and_modulo_go_downward() {
        assert_eq!(floor(-1, 4), -1);
        assert_eq!(floor(-4, 4), -1);
        assert_eq!(modulo(-1, CIRCLE), CIRCLE - 1);
        assert_eq!(modulo(CIRCLE, CIRCLE), 0);
    }

    #[test]
    fn half_a_turn_is_brought_to_the_negative_end() {
        assert_eq!(about_zero(CIRCLE / 2, CIRCLE), -CIRCLE / 2);
        assert_eq!(about_zero(CIRCLE / 2 - 1, CIRCLE), CIRCLE / 2 - 1);
        assert_eq!(about_zero(-CIRCLE / 2 - 1, CIRCLE), CIRCLE / 2 - 1);
    }
}
