//! At least two cases for each number of the table of refusals.

use super::figures::FIGURE_3;
use super::*;

const THREE: &str = "D 1 1000 1\nD 2 5000 2\nD 3 9000 3\n";

fn reply_under(conditions: &str) -> String {
    reply(&format!("{THREE}{conditions}"))
}

#[test]
fn refusal_1_malformed_lines() {
    assert_eq!(reply("X\n"), "REFUSED 1 1");
    assert_eq!(reply("D 1 5\n"), "REFUSED 1 1");
    assert_eq!(reply_under("C S\nP 0 1\n"), "REFUSED 1 5");
    assert_eq!(reply_under("C A 0\nL 0 1 0 1\n"), "REFUSED 1 5");
    assert_eq!(reply_under("P 0 1\n"), "REFUSED 1 4");
    assert_eq!(reply_under("C A 0\nD 4 0 1\n"), "REFUSED 1 5");
}

#[test]
fn refusal_1_kinds_that_do_not_fit() {
    Lent::angle(0, &[(b'P', [0, 0, 0, 1]), (b'L', [0, 0, 0, 1])]).both_refuse(1, 2);
    Lent::side(&[(b'P', [0, 0, 0, 1])]).both_refuse(1, 1);
    assert_eq!(ConditionKind::from_letter(65), Ok(ConditionKind::Angle));
    assert_eq!(ConditionKind::from_letter(83), Ok(ConditionKind::Side));
    assert_eq!(ConditionKind::from_letter(97), refused(1, 0));
    assert_eq!(ConditionKind::from_letter(65 + 256), refused(1, 0));
}

#[test]
fn refusal_2_counts_in_files() {
    assert_eq!(reply("D 2 0 1\n"), "REFUSED 2 1");
    assert_eq!(reply(THREE), "REFUSED 2 0");
    assert_eq!(reply_under("C A 0\nC A 0\n"), "REFUSED 2 5");
    let thirteen = "P 0 1\n".repeat(13);
    assert_eq!(reply_under(&format!("C A 0\n{thirteen}")), "REFUSED 2 17");
    let conditions = "C A 0\nP 0 1\n".repeat(25);
    assert_eq!(reply_under(&conditions), "REFUSED 2 52");
    let directions: String = (1..=65).map(|i| format!("D {i} 0 1\n")).collect();
    assert_eq!(reply(&directions), "REFUSED 2 65");
}

#[test]
fn refusal_2_counts_of_lent_lists() {
    assert_eq!(adjust(&[], &[], &[]), refused(2, 0));
    assert_eq!(adjust(&[1; 65], &[&[100; 65]], &[0]), refused(2, 0));
    assert_eq!(adjust(&[1; 3], &[&[100; 4]], &[0]), refused(2, 0));
    let most: Vec<&[i64]> = vec![&[100; 64]; 25];
    assert_eq!(adjust(&[1; 64], &most, &[0; 25]), refused(2, 0));
    Lent::angle(0, &[]).both_refuse(2, 0);
    Lent::angle(0, &[(b'P', [0, 0, 0, 1]); 13]).both_refuse(2, 0);
}

#[test]
fn refusal_2_room_for_a_listing() {
    let net = FIGURE_3.replace(' ', "\t");
    let file = net.as_bytes();
    assert_eq!(network::adjust_file(file, 6_559), refused(2, 0));
    assert_eq!(network::adjust_file(b"X\n", 6_559), refused(2, 0));
    assert_eq!(network::adjust_file(b"X\n", 6_560), refused(1, 1));
    assert_eq!(
        network::adjust_file(file, 6_560),
        Ok(network::listing(file))
    );
}

#[test]
fn refusal_3_ranges_in_files() {
    assert_eq!(reply("D 1 1296000000 1\n"), "REFUSED 3 1");
    assert_eq!(reply("D 1 0 11\n"), "REFUSED 3 1");
    assert_eq!(reply("D 1 0 0\n"), "REFUSED 3 1");
    assert_eq!(reply_under("C A 15552000001\n"), "REFUSED 3 4");
    assert_eq!(reply_under("C A -1\n"), "REFUSED 3 4");
    assert_eq!(reply_under("C A 0\nP 0 4\n"), "REFUSED 3 5");
    assert_eq!(reply_under("C A 0\nP -1 2\n"), "REFUSED 3 5");
    assert_eq!(reply_under("C A 0\nF 1296000000\n"), "REFUSED 3 5");
    assert_eq!(reply_under("C S\nL 200000001 5 1 2\n"), "REFUSED 3 5");
    assert_eq!(reply_under("C S\nR 0 2001 1 2\n"), "REFUSED 3 5");
    assert_eq!(reply_under("C S\nR 0 -2001 1 2\n"), "REFUSED 3 5");
}

#[test]
fn refusal_3_ranges_of_lent_lists() {
    assert_eq!(adjust(&[1, 11], &[&[100, 0]], &[0]), refused(3, 2));
    assert_eq!(adjust(&[0, 11], &[&[100, 0]], &[0]), refused(3, 1));
    Lent::angle(-1, &[(b'P', [0, 0, 0, 1])]).both_refuse(3, 0);
    Lent::angle(12 * CIRCLE + 1, &[(b'P', [0, 0, 0, 1])]).both_refuse(3, 0);
    Lent::angle(0, &[(b'P', [0, 0, 0, 1]), (b'F', [CIRCLE, 0, 0, 1])]).both_refuse(3, 2);
    Lent::side(&[(b'L', [0, 1, 0, 0])]).both_refuse(3, 1);
}

#[test]
fn refusal_4_coefficients() {
    let side = "C S\nL 0 2000 0 1\nR 0 -1 0 1\n";
    assert_eq!(reply_under(side), "REFUSED 4 1");
    let second = format!("C A 1000\nP 0 1\n{side}");
    assert_eq!(reply_under(&second), "REFUSED 4 2");
    assert_eq!(adjust(&[1], &[&[2_001]], &[0]), refused(4, 1));
    assert_eq!(adjust(&[1], &[&[-2_001]], &[0]), refused(4, 1));
    let lent = Lent::side(&[(b'L', [0, 2_000, 0, 1]), (b'R', [0, -1, 0, 1])]);
    assert_eq!(lent.coefficients(), refused(4, 1));
    assert_eq!(lent.misclosure(), Ok(0));
}

#[test]
fn refusal_5_misclosures() {
    assert_eq!(reply_under("C A 1001001\nP 0 1\n"), "REFUSED 5 1");
    assert!(reply_under("C A 1001000\nP 0 1\n").starts_with("REFUSED 7"));
    assert_eq!(
        reply_under("C S\nL 10001 100 0 1\nR 0 0 0 0\n"),
        "REFUSED 5 1"
    );
    assert_eq!(adjust(&[1], &[&[100]], &[1_000_001]), refused(5, 1));
    assert_eq!(adjust(&[1], &[&[100]], &[-1_000_001]), refused(5, 1));
    let lent = Lent::angle(1_001_001, &[(b'P', [0, 0, 0, 1])]);
    assert_eq!(lent.misclosure(), refused(5, 1));
    assert_eq!(lent.coefficients(), Ok(vec![100, 0, 0]));
}

#[test]
fn refusal_6_weak_rows() {
    assert_eq!(adjust(&[1], &[&[0]], &[0]), refused(6, 1));
    let rows: [&[i64]; 3] = [&[100, 0, 0], &[0, 100, 0], &[100, -100, 0]];
    assert_eq!(adjust(&[1; 3], &rows, &[0; 3]), refused(6, 3));
    let repeated = format!("{FIGURE_3}C A 648000000\nP 0 1\nP 0 2\nF 216000000\n");
    assert_eq!(reply(&repeated), "REFUSED 6 3");
}

#[test]
fn refusal_7_correlates() {
    assert_eq!(adjust(&[1], &[&[10]], &[1_001]), refused(7, 1));
    assert_eq!(adjust(&[1], &[&[10]], &[-1_001]), refused(7, 1));
    // Back order: row 2 is refused before row 1 is begun.
    let rows: [&[i64]; 2] = [&[10, 0], &[0, 10]];
    assert_eq!(adjust(&[1, 1], &rows, &[2_000, 2_000]), refused(7, 2));
    assert_eq!(adjust(&[1, 1], &rows, &[2_000, 0]), refused(7, 1));
}

#[test]
fn refusal_7_the_lightest_conditions_with_the_largest_misclosures() {
    // Both pivots are 1 and L(2) is 2 * 10^9, so K(2) is formed as -2 * 10^13.
    let net = "\
D 1 0 1
D 2 0 1
C S
L 0 1 0 1
R 10000 0 0 0
C S
L 10000 1 0 1
L 0 1 0 2
";
    assert_eq!(reply(net), "REFUSED 7 2");
    let rows: [&[i64]; 2] = [&[1, 0], &[1, 1]];
    let reply = |w: [i64; 2]| adjust(&[1, 1], &rows, &w);
    assert_eq!(reply([-1_000_000, 1_000_000]), refused(7, 2));
    assert_eq!(reply([1_000_000, -1_000_000]), refused(7, 2));
    assert_eq!(reply([1_000_000, 1_000_000]), refused(7, 1));
}

#[test]
fn refusal_8_remainders() {
    assert_eq!(adjust(&[10; 4], &[&[2_000; 4]], &[200]), refused(8, 1));
    let first: Vec<i64> = [vec![100], vec![0; 4]].concat();
    let second: Vec<i64> = [vec![0], vec![2_000; 4]].concat();
    assert_eq!(
        adjust(&[10; 5], &[&first, &second], &[5, 200]),
        refused(8, 2)
    );
}

#[test]
fn refusal_9_corrections_of_lent_tables() {
    // The one direction takes the whole misclosure.
    for side in [1, -1] {
        let limit = adjust(&[1], &[&[100]], &[side * 60_000]).unwrap();
        assert_eq!(limit.u, [side * -60_000]);
        assert_eq!(adjust(&[1], &[&[100]], &[side * 60_001]), refused(9, 1));
    }
    // The lowest direction, neither the largest correction nor the first condition.
    let rows: [&[i64]; 3] = [&[0, 0, 100], &[0, 100, 0], &[100, 0, 0]];
    let reply = |w: [i64; 3]| adjust(&[1; 3], &rows, &w);
    assert_eq!(reply([90_000, 60_001, 60_000]), refused(9, 2));
    assert_eq!(reply([-60_001, 60_000, 60_000]), refused(9, 3));
    assert_eq!(reply([60_001, 90_000, -60_001]), refused(9, 1));
    let mut last = [0; 64];
    last[63] = 100;
    assert_eq!(adjust(&[1; 64], &[&last], &[60_001]), refused(9, 64));
}

#[test]
fn refusal_9_corrections_in_files() {
    // Direction 2 lies at 105,000, which the target asks it to leave.
    let angle = |target: i64| reply(&format!("D 1 0 1\nD 2 105000 1\nC A {target}\nP 0 2\n"));
    assert_eq!(angle(45_000), "ADJ 2 1");
    assert_eq!(angle(44_999), "REFUSED 9 2");
    assert_eq!(angle(165_000), "ADJ 2 1");
    assert_eq!(angle(165_001), "REFUSED 9 2");
    // Side conditions: u = -100 * w / d, and w goes by hundreds.
    let side =
        |left: i64, right: i64| reply_under(&format!("C S\nL {left} 1000 0 3\nR {right} 0 0 0\n"));
    assert_eq!(side(6_000, 0), "ADJ 3 1");
    assert_eq!(side(6_001, 0), "REFUSED 9 3");
    assert_eq!(side(0, 6_000), "ADJ 3 1");
    assert_eq!(side(0, 6_001), "REFUSED 9 3");
    // Direction 3 of figure 3, had it been read 140 seconds too far.
    let blunder = FIGURE_3.replace("215997000", "216137000");
    assert_eq!(reply(&blunder), "REFUSED 9 3");
}

#[test]
fn refusal_21_counts_of_sightings() {
    assert_eq!(means(&[]), refused(21, 0));
    assert_eq!(means(&[[1, 1, 0, 0]; 513]), refused(21, 0));
    let fitting = station::AnswerLengths::fitting();
    let lists: [&[i64]; 2] = [&[1, 1], &[1]];
    let unequal =
        |p, o, f, r| station::station_means_i64(lists[p], lists[o], lists[f], lists[r], fitting);
    assert_eq!(unequal(1, 0, 0, 0), refused(21, 0));
    assert_eq!(unequal(0, 1, 0, 0), refused(21, 0));
    assert_eq!(unequal(0, 0, 1, 0), refused(21, 0));
    assert_eq!(unequal(0, 0, 0, 1), refused(21, 0));
}

#[test]
fn refusal_22_fields_of_sightings() {
    let sound = pair(1, 1, 0, 0);
    for (field, value) in [
        (0, 0),
        (0, 17),
        (1, 0),
        (1, 17),
        (2, -1),
        (2, 2),
        (3, -1),
        (3, CIRCLE),
        (3, i64::MIN),
        (0, i64::MAX),
    ] {
        let mut sightings = sound;
        sightings[1][field] = value;
        assert_eq!(means(&sightings), refused(22, 2));
    }
}

#[test]
fn refusal_23_faces() {
    assert_eq!(means(&[[3, 1, 0, 0]]), refused(23, 301));
    let doubled = [pair(1, 1, 0, 0), pair(1, 1, 0, 0)].concat();
    assert_eq!(means(&doubled), refused(23, 101));
    let mut missing = [pair(2, 1, 0, 0), pair(2, 16, 5, 0)].concat();
    missing.pop();
    assert_eq!(means(&missing), refused(23, 216));
}

#[test]
fn refusal_24_positions_without_the_initial() {
    assert_eq!(means(&pair(4, 2, 0, 0)), refused(24, 401));
    let second = [pair(16, 2, 0, 0), pair(1, 1, 0, 0)].concat();
    assert_eq!(means(&second), refused(24, 1_601));
}

#[test]
fn refusal_25_faces_apart() {
    assert_eq!(means(&pair(1, 1, 0, 60_001)), refused(25, 101));
    assert_eq!(means(&pair(1, 1, 7, -60_001)), refused(25, 101));
    assert_eq!(means(&pair(1, 1, 7, CIRCLE / 2)), refused(25, 101));
    let object = [pair(2, 1, 0, -60_000), pair(2, 3, 5, 60_001)].concat();
    assert_eq!(means(&object), refused(25, 203));
}

#[test]
fn refusal_26_positions_apart() {
    // e = 2 * 60,000 + 1 by way of s, then e = -120,002 by way of the left reading.
    let first = [
        pair(1, 1, 0, 0),
        pair(1, 2, 100, 0),
        pair(2, 1, 0, 0),
        pair(2, 2, 60_100, 1),
    ];
    assert_eq!(means(&first.concat()), refused(26, 202));
    let second = [
        pair(5, 1, 0, 0),
        pair(5, 9, 100, 0),
        pair(7, 1, 0, 0),
        pair(7, 9, 100 - 60_001, 0),
    ];
    assert_eq!(means(&second.concat()), refused(26, 709));
}

#[test]
fn station_limits_pass() {
    let list = [
        pair(1, 1, 0, 60_000),
        pair(1, 2, 100, -60_000),
        pair(2, 1, 0, 0),
        // g of position 1 is 200 - 120,000; this one is 200 - 120,000 + 120,000.
        pair(2, 2, 100, 0),
    ];
    let means = means(&list.concat()).unwrap();
    assert_eq!(means.pairs[..2], [2, 2]);
    assert_eq!(means.directions[1], CIRCLE + 100 - 30_000);
}
