//! The sighting books of the speed figures: every object in every position on both faces,
//! 512 sightings in no order, the most that the rules allow.

use reference::generate::Rng;

const CIRCLE: i64 = 1_296_000_000;

/// A book of a seed, which is accepted: readings are a few seconds off at most.
pub fn fullest_book(seed: u64) -> Vec<u8> {
    let mut rng = Rng::new(seed);
    let directions = [(); 16].map(|()| rng.range(0, CIRCLE - 1));
    let mut lines = Vec::new();
    for position in 1..=16 {
        let circle = rng.range(0, CIRCLE - 1);
        for (object, direction) in (1..).zip(directions) {
            for face in [0, 1] {
                let off = rng.range(-4_000, 4_000);
                let reading = circle + direction + face * CIRCLE / 2 + off;
                let reading = reading.rem_euclid(CIRCLE);
                lines.push(format!("S\t{position}\t{object}\t{face}\t{reading}\n"));
            }
        }
    }
    rng.shuffle(&mut lines);
    lines.concat().into_bytes()
}

#[cfg(test)]
mod tests {
    use super::*;
    use reference::book;

    #[test]
    fn these_books_are_accepted() {
        for seed in 138..154 {
            let listing = book::listing(&fullest_book(seed));
            assert!(listing.starts_with(b"STA\t512\t16\n"));
        }
    }
}
