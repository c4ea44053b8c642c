//! The ten figures of the one table.

use super::*;

#[test]
fn figure_1_side_condition_of_the_publication() {
    let table = ConditionTable {
        directions: &[0; 3],
        q: &[1; 3],
        a: &[-306, 694, -1_058],
        w: &[-79_200],
    };
    assert_eq!(adjustment::normals(&table), Ok(vec![vec![1_694_636]]));
    let adjusted = adjust(table.q, &[table.a], table.w).unwrap();
    assert_eq!(adjusted.k, [467_357]);
    assert_eq!(adjusted.r, [-2_948]);
    assert_eq!(adjusted.u, [-1_430, 3_243, -4_945]);
    assert_eq!(adjusted.q, [3_200_000]);
}

#[test]
fn figure_2_quadrilateral_angle_condition() {
    let adjusted = adjust(&[1; 4], &[&[-100, 100, -100, 100]], &[9_300]).unwrap();
    assert_eq!(adjusted.k, [-2_325_000]);
    assert_eq!(adjusted.u, [2_325, -2_325, 2_325, -2_325]);
    assert_eq!(adjusted.r, [0]);
}

pub const FIGURE_3: &str = "\
D 1 216000000 1
D 2 216003000 1
D 3 215997000 1
C A 648000000
P 0 1
P 0 2
F 216000000
C A 648000000
P 0 2
P 0 3
F 216000000
";

pub const FIGURE_3_LISTING: &str = "\
ADJ 3 2
V 1 -2000 215998000
V 2 -1000 216002000
V 3 1000 215998000
K 1 -2000000 0 0
K 2 1000000 0 0
";

#[test]
fn figure_3_network_file() {
    assert_eq!(listing(FIGURE_3), FIGURE_3_LISTING);
}

#[test]
fn figure_4_two_equal_conditions() {
    for w in [[0, 0], [500, 500], [500, -700], [1_000_000, -1_000_000]] {
        let rows: [&[i64]; 2] = [&[100, 100], &[100, 100]];
        assert_eq!(adjust(&[1, 1], &rows, &w), refused(6, 2));
    }
}

#[test]
fn figure_5_correlate_at_its_limit() {
    assert_eq!(adjust(&[1], &[&[10]], &[1_000]).unwrap().k, [-100_000_000]);
    assert_eq!(adjust(&[1], &[&[10]], &[1_001]), refused(7, 1));
}

#[test]
fn figure_6_a_light_condition_is_accepted_with_everything_zero() {
    let adjusted = adjust(&[1], &[&[9]], &[0]).unwrap();
    assert_eq!((adjusted.k, adjusted.v), (vec![0], vec![0]));
    assert_eq!((adjusted.u, adjusted.adjusted), (vec![0], vec![0]));
    assert_eq!((adjusted.r, adjusted.q), (vec![0], vec![0]));
}

#[test]
fn figure_7_remainder_too_large() {
    assert_eq!(adjust(&[10; 4], &[&[2_000; 4]], &[200]), refused(8, 1));
    // What is refused: N*K + 10^7*w with K = -13.
    assert_eq!(160_000_000 * -13 + 10_000_000 * 200_i64, -80_000_000);
}

#[test]
fn figure_8_remainder_at_its_limit() {
    let adjusted = adjust(&[10; 10], &[&[1_000; 10]], &[5]).unwrap();
    assert_eq!(adjusted.k, [-1]);
    assert_eq!(adjusted.r, [-50_000_000]);
}

#[test]
fn figure_9_station_of_two_objects() {
    let sightings = [
        [1, 1, 0, 0],
        [1, 1, 1, 648_004_000],
        [1, 2, 0, 144_010_000],
        [1, 2, 1, 792_016_000],
    ];
    let means = means(&sightings).unwrap();
    assert_eq!(means.directions[..3], [0, 144_011_000, 0]);
    assert_eq!(means.pairs[..3], [1, 1, 0]);
}

#[test]
fn figure_10_halves_go_upward() {
    // g = 2(L - L1) + s - s1 with L1 = s1 = 0.
    let last = [pair(1, 1, 0, 0), pair(1, 2, CIRCLE - 1, 1)].concat();
    assert_eq!(means(&last).unwrap().directions[1], 0);
    let third = [pair(1, 1, 0, 0), pair(1, 2, 1, 1)].concat();
    assert_eq!(means(&third).unwrap().directions[1], 2);
}
