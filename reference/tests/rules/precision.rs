//! The probable error of a direction: the root and the rounding at their turning points,
//! every refusal on both sides of its limit, and the E line of a file.

use super::figures::FIGURE_3;
use super::*;
use reference::generate::{network_case, precision_case, PrecisionCase, Rng};
use reference::precision::{probable_error, Errors};

/// The least and the greatest numbers that a caller can lend.
const ENDS: [i64; 4] = [i64::MIN, i64::MIN + 1, i64::MAX - 1, i64::MAX];

fn errors(mean: i64, probable: i64) -> Result<Errors, Refusal> {
    Ok(Errors { mean, probable })
}

/// The mean error alone, of corrections that are accepted.
fn mean(u: &[i64], q: &[i64], n: usize) -> i64 {
    probable_error(u, q, n).unwrap().mean
}

/// The listing with its E line of a net written with spaces for tabs.
fn probable(net: &str) -> String {
    list_spaced(network::probable_listing, net)
}

#[test]
fn no_corrections_have_no_error() {
    for (m, n) in [(1, 1), (24, 24), (64, 1), (64, 24)] {
        assert_eq!(probable_error(&vec![0; m], &vec![7; m], n), errors(0, 0));
    }
}

#[test]
fn the_mean_error_is_the_largest_whole_number() {
    assert_eq!(mean(&[1; 3], &[1; 3], 1), 1);
    assert_eq!(mean(&[1; 4], &[1; 4], 1), 2);
    assert_eq!(mean(&[1; 5], &[1; 5], 1), 2);
    assert_eq!(mean(&[1; 8], &[1; 8], 1), 2);
    assert_eq!(mean(&[1; 9], &[1; 9], 1), 3);
    // It is not rounded to the nearest: the roots are 2.85 and 59,999.5.
    assert_eq!(mean(&[9], &[10], 1), 2);
    assert_eq!(mean(&[59_999, 60_000], &[1; 2], 2), 59_999);
}

/// Corrections of 1: so many with q = 10, 9, 8 and 7.
fn ones(counts: [usize; 4]) -> (Vec<i64>, Vec<i64>) {
    let of_each = counts.into_iter().zip([10, 9, 8, 7]);
    let q: Vec<i64> = of_each.flat_map(|(count, q)| vec![q; count]).collect();
    (vec![1; q.len()], q)
}

#[test]
fn s_one_below_at_and_one_above_a_square() {
    // 2*252 + 8*280 + 5*315 + 2*360 = 5,039 and 3*252 + 280 + 7*315 + 5*360 = 5,041,
    // about 2,520 * 2; more corrections with q = 1 bring S to any square.
    let below = ones([2, 8, 5, 2]);
    let at = (vec![1; 2], vec![1; 2]);
    let above = ones([3, 1, 7, 5]);
    let mean_with = |(u, q): &(Vec<i64>, Vec<i64>), more: &[i64], n: usize| {
        let u = [&u[..], more].concat();
        let q = [&q[..], &vec![1; more.len()]].concat();
        mean(&u, &q, n)
    };
    let cases: [(&[i64], usize, i64); 5] = [
        (&[], 2, 1),
        (&[1, 1], 1, 2),
        (&[7, -7], 1, 10),
        (&[40_000, 282, 21, -5, 3], 1, 40_001),
        (&[60_000, 48_984, 271, -10, 1], 2, 54_770),
    ];
    for (more, n, e) in cases {
        let squares: i64 = more.iter().map(|u| u * u).sum();
        assert_eq!(2 + squares, n as i64 * e * e);
        assert_eq!(mean_with(&below, more, n), e - 1);
        assert_eq!(mean_with(&at, more, n), e);
        assert_eq!(mean_with(&above, more, n), e);
    }
}

#[test]
fn the_largest_corrections() {
    for u in [60_000, -60_000] {
        assert_eq!(
            probable_error(&[u; 64], &[1; 64], 24),
            errors(97_979, 66_087)
        );
        assert_eq!(
            probable_error(&[u; 64], &[1; 64], 1),
            errors(480_000, 323_760)
        );
        assert_eq!(probable_error(&[u], &[1], 1), errors(60_000, 40_470));
        assert_eq!(probable_error(&[u], &[10], 1), errors(18_973, 12_797));
    }
}

#[test]
fn halves_of_the_probable_error_go_away_from_zero() {
    // 6,745*e / 10,000 is a half for e = 1,000, 3,000 and on.
    let lone = |e: i64| probable_error(&[e], &[1], 1);
    assert_eq!(lone(1_000), errors(1_000, 675));
    assert_eq!(lone(3_000), errors(3_000, 2_024));
    assert_eq!(lone(59_000), errors(59_000, 39_796));
    assert_eq!(lone(999), errors(999, 674));
    assert_eq!(lone(1_001), errors(1_001, 675));
    // 1,248.4995 and 100.5005.
    assert_eq!(lone(1_851), errors(1_851, 1_248));
    assert_eq!(lone(149), errors(149, 101));
    assert_eq!(lone(1), errors(1, 1));
    assert_eq!(lone(2), errors(2, 1));
}

#[test]
fn inverse_weights_divide() {
    let of_ten_thousand = [
        10_000, 7_071, 5_773, 5_000, 4_472, 4_082, 3_779, 3_535, 3_333, 3_162,
    ];
    for (q, e) in (1..=10).zip(of_ten_thousand) {
        assert_eq!(mean(&[10_000], &[q], 1), e);
    }
    // 2,520 * (1 + 1/2 + ... + 1/10) is 7,381.
    let q: Vec<i64> = (1..=10).collect();
    assert_eq!(probable_error(&[1_000; 10], &q, 1), errors(1_711, 1_154));
}

#[test]
fn conditions_are_counted_not_directions() {
    for (n, e) in (1..=4).zip([2_000, 1_414, 1_154, 1_000]) {
        assert_eq!(mean(&[1_000; 4], &[1; 4], n), e);
        // A direction without a correction adds nothing.
        assert_eq!(mean(&[1_000, 1_000, 0, 1_000, 1_000], &[1; 5], n), e);
    }
}

#[test]
fn signs_and_order_do_not_matter() {
    let u = [1_430, 3_243, 4_945, 0, 17];
    let q = [1, 2, 3, 4, 5];
    let expected = probable_error(&u, &q, 2);
    let turned = u.map(|u| -u);
    assert_eq!(probable_error(&turned, &q, 2), expected);
    assert_eq!(
        probable_error(&[-1_430, 3_243, -4_945, 0, 17], &q, 2),
        expected
    );
    let back = |mut list: [i64; 5]| {
        list.reverse();
        list
    };
    assert_eq!(probable_error(&back(u), &back(q), 2), expected);
}

#[test]
fn the_publication_has_the_same_to_its_last_place() {
    // Page 144: the squares sum to 88.84, of 12 equations, and the probable error is 1.83,
    // by a factor of 0.674.
    let u = [9_425, 96, 12, 3, 2, 1, 1, 0, 0, 0, 0, 0];
    assert_eq!(u.iter().map(|u| u * u).sum::<i64>(), 88_840_000);
    assert_eq!(probable_error(&u, &[1; 12], 12), errors(2_720, 1_835));
}

#[test]
fn refusal_2_counts_and_lengths() {
    let reply = |m: usize, q: usize, n: usize| probable_error(&vec![0; m], &vec![1; q], n);
    for (m, n) in [(1, 1), (64, 1), (64, 24), (24, 24), (25, 24), (2, 2)] {
        assert_eq!(reply(m, m, n), errors(0, 0));
    }
    let refused_counts = [
        (0, 0),
        (0, 1),
        (1, 0),
        (64, 0),
        (65, 1),
        (65, 24),
        (64, 25),
        (25, 25),
        (1, 2),
        (23, 24),
        (64, usize::MAX),
        (64, 1 << 32 | 1),
    ];
    for (m, n) in refused_counts {
        assert_eq!(reply(m, m, n), refused(2, 0), "m = {m}, n = {n}");
    }
    for (m, q) in [(3, 2), (3, 4), (3, 0), (0, 3), (64, 65), (64, 63), (65, 64)] {
        assert_eq!(
            reply(m, q, 1),
            refused(2, 0),
            "m = {m}, {q} inverse weights"
        );
    }
}

#[test]
fn refusal_3_ranges_by_direction() {
    for u in [60_000, -60_000] {
        assert!(probable_error(&[0, u, 0], &[1; 3], 1).is_ok());
    }
    for u in [[60_001, -60_001].as_slice(), &ENDS].concat() {
        assert_eq!(probable_error(&[0, u, 0], &[1; 3], 1), refused(3, 2));
        assert_eq!(probable_error(&[0, 0, u], &[1; 3], 1), refused(3, 3));
    }
    for q in [1, 10] {
        assert!(probable_error(&[0; 3], &[1, q, 1], 1).is_ok());
    }
    for q in [[0, 11, -1, -10].as_slice(), &ENDS].concat() {
        assert_eq!(probable_error(&[0; 3], &[1, q, 1], 1), refused(3, 2));
        assert_eq!(probable_error(&[0; 3], &[q, 1, 1], 1), refused(3, 1));
    }
    let mut last = [0; 64];
    last[63] = i64::MIN;
    assert_eq!(probable_error(&last, &[1; 64], 24), refused(3, 64));
}

#[test]
fn refusals_in_their_order() {
    // Counts and lengths before ranges.
    assert_eq!(probable_error(&[60_001], &[0], 2), refused(2, 0));
    assert_eq!(probable_error(&[60_001], &[0], 0), refused(2, 0));
    assert_eq!(probable_error(&[60_001; 2], &[0], 1), refused(2, 0));
    assert_eq!(probable_error(&[60_001; 65], &[0; 65], 1), refused(2, 0));
    // Correction and inverse weight together, by direction number.
    assert_eq!(probable_error(&[0, 60_001], &[0, 1], 1), refused(3, 1));
    assert_eq!(probable_error(&[60_001, 0], &[1, 0], 1), refused(3, 1));
    assert_eq!(probable_error(&[0, 60_001], &[1, 0], 1), refused(3, 2));
}

#[test]
fn drawn_corrections_keep_the_rule() {
    let mut rng = Rng::new(202);
    let mut accepted = 0;
    for _ in 0..4_000 {
        let PrecisionCase { u, q, n } = precision_case(&mut rng);
        let Ok(Errors { mean, probable }) = probable_error(&u, &q, n) else {
            continue;
        };
        accepted += 1;
        let s: i64 = u.iter().zip(&q).map(|(u, q)| 2_520 * u * u / q).sum();
        let square = |e: i64| e * e * 2_520 * n as i64;
        assert!(mean >= 0 && square(mean) <= s && s < square(mean + 1));
        let over = 10_000 * probable - 6_745 * mean;
        assert!(-5_000 < over && over <= 5_000);
    }
    assert!(accepted > 2_000);
}

#[test]
fn figure_3_with_its_errors() {
    // The squares of -2,000, -1,000 and 1,000 sum to 6,000,000, over two conditions: the
    // root of 3,000,000 is 1,732.05, and 0.6745 of 1,732 is 1,168.234.
    let expected = format!("{}E 1732 1168\n", listing(FIGURE_3));
    assert_eq!(probable(FIGURE_3), expected);
    let net = FIGURE_3.replace(' ', "\t");
    assert!(network::probable_listing(net.as_bytes()).ends_with(b"\nE\t1732\t1168\n"));
}

#[test]
fn the_printed_corrections_are_squared() {
    // Two directions share a misclosure of 1: V is half of 0.001 second, but u is 1 and -1.
    let net = "D 1 0 1\nD 2 1001 1\nC A 1000\nP 1 2\n";
    assert!(listing(net).contains("V 1 1 1\nV 2 -1 1000\n"));
    assert!(probable(net).ends_with("\nE 1 1\n"));
    // A net that closes has no error.
    let closed = "D 1 0 1\nD 2 1000 1\nC A 1000\nP 1 2\n";
    assert!(probable(closed).ends_with("\nE 0 0\n"));
}

#[test]
fn inverse_weights_of_a_file_divide() {
    // Direction 1 takes the whole misclosure of 3,000 whatever its q is.
    let net = |q: i64| format!("D 1 0 {q}\nD 2 0 1\nC A 3000\nP 0 1\n");
    assert!(probable(&net(1)).ends_with("\nE 3000 2024\n"));
    assert!(probable(&net(9)).ends_with("\nE 1000 675\n"));
}

#[test]
fn a_refused_file_has_no_errors() {
    assert_eq!(probable("X\n"), "REFUSED 1 1\n");
    assert_eq!(probable(""), "REFUSED 2 0\n");
    assert_eq!(probable("D 1 0 11\n"), "REFUSED 3 1\n");
    assert_eq!(probable("D 1 0 1\nC A 60001\nP 0 1\n"), "REFUSED 9 1\n");
    assert!(probable("D 1 0 1\nC A 60000\nP 0 1\n").ends_with("\nE 60000 40470\n"));
}

#[test]
fn refusal_2_room_for_a_listing_with_errors() {
    let net = FIGURE_3.replace(' ', "\t");
    let file = net.as_bytes();
    assert_eq!(network::probable_file(file, 6_605), refused(2, 0));
    assert_eq!(network::probable_file(b"X\n", 6_605), refused(2, 0));
    assert_eq!(network::probable_file(b"X\n", 0), refused(2, 0));
    assert_eq!(network::probable_file(b"X\n", 6_606), refused(1, 1));
    assert_eq!(
        network::probable_file(file, 6_606),
        Ok(network::probable_listing(file))
    );
}

/// The numbers of a field in the lines of a letter.
fn column(text: &str, letter: &str, field: usize) -> Vec<i64> {
    text.lines()
        .map(|line| line.split('\t').collect::<Vec<_>>())
        .filter(|fields| fields[0] == letter)
        .map(|fields| fields[field].parse().unwrap())
        .collect()
}

#[test]
fn drawn_files_are_listed_as_before_and_their_errors_added() {
    let mut rng = Rng::new(203);
    let mut accepted = 0;
    for _ in 0..2_000 {
        let file = network_case(&mut rng).file;
        let listing = network::listing(&file);
        let with_errors = network::probable_listing(&file);
        if listing.starts_with(b"REFUSED") {
            assert_eq!(with_errors, listing);
            continue;
        }
        accepted += 1;
        let (listing, net) = (String::from_utf8(listing), String::from_utf8(file));
        let (listing, net) = (listing.unwrap(), net.unwrap());
        let (u, q) = (column(&listing, "V", 2), column(&net, "D", 3));
        let n = column(&listing, "K", 1).len();
        let Errors { mean, probable } = probable_error(&u, &q, n).unwrap();
        let expected = format!("{listing}E\t{mean}\t{probable}\n");
        assert_eq!(with_errors, expected.into_bytes());
    }
    assert!(accepted > 300);
}
