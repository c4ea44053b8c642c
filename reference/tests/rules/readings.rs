//! How open points of the rules are read, one test for each reading that can be tested.

use super::figures::FIGURE_3;
use super::*;
use reference::adjustment::AnswerLengths;
use reference::lines::{line, line_status, read_number, LineStatus};

const THREE: &str = "D 1 1000 1\nD 2 5000 2\nD 3 9000 3\n";

fn reply_under(conditions: &str) -> String {
    reply(&format!("{THREE}{conditions}"))
}

#[test]
fn reading_01_limit_is_the_length_of_the_file() {
    assert_eq!(reply(&"\n".repeat(65_535)), "REFUSED 1 1");
    assert_eq!(reply(&"\n".repeat(65_536)), "REFUSED 2 0");
    let long = |length: usize| {
        let mut file = FIGURE_3.to_string();
        file.push_str(&"\n".repeat(length - file.len()));
        file
    };
    assert_eq!(reply(&long(65_535)), "REFUSED 1 12");
    assert_eq!(reply(&long(65_536)), "REFUSED 2 0");
    assert_eq!(reply(&"x".repeat(65_535)), "REFUSED 1 1");
    assert_eq!(reply(&"x".repeat(70_000)), "REFUSED 2 0");
}

#[test]
fn reading_02_empty_file_and_empty_lines() {
    assert_eq!(reply(""), "REFUSED 2 0");
    assert_eq!(reply("\n"), "REFUSED 1 1");
    assert_eq!(reply(&format!("{FIGURE_3}\n")), "REFUSED 1 12");
    assert_eq!(reply_under("\nC A 0\n"), "REFUSED 1 4");
}

#[test]
fn reading_03_last_line_without_its_lf() {
    assert_eq!(reply(FIGURE_3.trim_end()), "REFUSED 1 11");
    let directions: String = (1..=64).map(|i| format!("D {i} 0 1\n")).collect();
    assert_eq!(reply(&format!("{directions}D 65 0 1")), "REFUSED 1 65");
    let terms = "P 0 1\n".repeat(12);
    assert_eq!(reply_under(&format!("C A 0\n{terms}P 0 1")), "REFUSED 1 17");
    assert_eq!(reply("D 2 0 1\nX"), "REFUSED 2 1");
    assert_eq!(reply("D 1 0 1"), "REFUSED 1 1");
}

#[test]
fn reading_04_number_decides_over_the_whole_line() {
    assert_eq!(reply("D 7 -1 x\n"), "REFUSED 1 1");
    assert_eq!(reply("D 7 -1 99\n"), "REFUSED 2 1");
    assert_eq!(reply("D 1 -1 99\n"), "REFUSED 3 1");
    assert_eq!(reply_under("C A 0\nP 9 x\n"), "REFUSED 1 5");
}

#[test]
fn reading_05_malformed_numbers() {
    for field in NO_NUMBERS {
        assert_eq!(read_number(field.as_bytes()), None, "{field:?}");
        // The reader of nets in these tests writes tabs for blanks, so this one does not.
        let file = format!("D\t1\t{field}\t1\n");
        let listing = network::listing(file.as_bytes());
        assert_eq!(listing, b"REFUSED\t1\t1\n", "{field:?}");
    }
    assert_eq!(read_number(b"99999999999"), Some(99_999_999_999));
    assert_eq!(read_number(b"-99999999999"), Some(-99_999_999_999));
    assert_eq!(read_number(b"0"), Some(0));
    assert_eq!(read_number(b"-10"), Some(-10));
    assert_eq!(reply("D 1 99999999999 1\n"), "REFUSED 3 1");
    for number in ["0", "-1", "2", "99999999999"] {
        assert_eq!(reply(&format!("D {number} 0 1\n")), "REFUSED 2 1");
    }
}

#[test]
fn reading_06_wrong_form_or_heading() {
    for first in [
        "D 1 0 1 ", "D  1 0 1", "D 1 0", "D", "d 1 0 1", " D 1 0 1", "DD 1 0 1",
    ] {
        assert_eq!(reply(&format!("{first}\n")), "REFUSED 1 1", "{first:?}");
    }
    for fourth in [
        "C S 5",
        "C S ",
        "C A",
        "C X",
        "C",
        "c A 0",
        "C a 0",
        "C A 0 0",
        "P 0 1",
        "F 0",
        "L 0 0 0 0",
    ] {
        assert_eq!(
            reply_under(&format!("{fourth}\n")),
            "REFUSED 1 4",
            "{fourth:?}"
        );
    }
    for fifth in [
        "L 0 0 0 0",
        "R 0 0 0 0",
        "D 4 0 1",
        "D 9 -1 99",
        "P 0",
        "P 0 1 2",
        "F",
        "F 0 0",
    ] {
        assert_eq!(
            reply_under(&format!("C A 0\n{fifth}\n")),
            "REFUSED 1 5",
            "{fifth:?}"
        );
    }
    for fifth in ["P 0 1", "F 0", "L 0 0 0", "R 0 0 0 0 0"] {
        assert_eq!(
            reply_under(&format!("C S\n{fifth}\n")),
            "REFUSED 1 5",
            "{fifth:?}"
        );
    }
}

#[test]
fn reading_07_one_too_many() {
    let directions: String = (1..=64).map(|i| format!("D {i} 0 1\n")).collect();
    assert_eq!(reply(&format!("{directions}D 65 -1 0\n")), "REFUSED 2 65");
    assert_eq!(reply(&format!("{directions}D 65 x 0\n")), "REFUSED 1 65");
    assert_eq!(reply(&directions), "REFUSED 2 0");

    let conditions = "C A 0\nP 0 1\n".repeat(24);
    let last = |line: &str| reply(&format!("{directions}{conditions}{line}\n"));
    assert_eq!(last("C A -1"), "REFUSED 2 113");
    assert_eq!(last("C A x"), "REFUSED 1 113");
    assert_eq!(last("P 0 0"), "REFUSED 3 113");

    let terms = "P 0 1\n".repeat(12);
    let extra = |line: &str| reply_under(&format!("C A 0\n{terms}{line}\n"));
    assert_eq!(extra("P 9 9"), "REFUSED 2 17");
    assert_eq!(extra("P 9 x"), "REFUSED 1 17");
    assert_eq!(extra("L 0 0 0 0"), "REFUSED 1 17");

    assert_eq!(reply_under("C A 0\nC A -1\n"), "REFUSED 2 5");
    assert_eq!(reply_under("C A 0\nC A\n"), "REFUSED 1 5");
    assert_eq!(reply_under("C S\nC S\n"), "REFUSED 2 5");
}

#[test]
fn reading_08_counts_at_the_end_of_the_file() {
    assert_eq!(reply("C A 0\nF 0\n"), "REFUSED 2 0");
    assert_eq!(reply("D 1 0 1\n"), "REFUSED 2 0");
    assert_eq!(reply("D 1 0 1\nC A 0\n"), "REFUSED 2 0");
    let twice = "D 1 0 1\nC A 0\nP 0 1\nC A 0\nP 0 1\n";
    assert_eq!(reply(twice), "REFUSED 2 0");
    assert_eq!(reply(&format!("{twice}X\n")), "REFUSED 1 6");
    assert_eq!(reply("C A 0\nP 0 1\n"), "REFUSED 3 2");
}

#[test]
fn reading_09_i_equal_to_k() {
    assert_eq!(reply_under("C A 0\nP 0 0\n"), "REFUSED 3 5");
    assert_eq!(reply_under("C A 0\nP 3 3\n"), "REFUSED 3 5");
    assert_eq!(reply_under("C S\nL 0 1 0 0\n"), "REFUSED 3 5");
    assert_eq!(reply_under("C S\nR 0 0 2 2\n"), "REFUSED 3 5");
    assert_eq!(reply_under("C S\nR 200000001 0 0 0\n"), "REFUSED 3 5");
    let fixed = "L 200000000 0 0 0\nR 200000000 0 0 0\n".repeat(5);
    let side = format!("C S\n{fixed}L 7 100 0 1\nR 7 0 1 2\n");
    assert_eq!(reply_under(&side), "ADJ 3 1");
}

#[test]
fn reading_10_angles_and_targets() {
    // (0 - 5,000) modulo C, then w = sum - target without a circle.
    let back = Lent::angle(CIRCLE - 5_000, &[(b'P', [0, 0, 2, 0])]);
    assert_eq!(back.misclosure(), Ok(0));
    assert_eq!(back.coefficients(), Ok(vec![0, -100, 0]));
    let round = Lent::angle(0, &[(b'P', [0, 0, 1, 2]), (b'P', [0, 0, 2, 1])]);
    assert_eq!(round.misclosure(), refused(5, 1));
    let closed = Lent {
        target: CIRCLE,
        ..round
    };
    assert_eq!(closed.misclosure(), Ok(0));
    let fixed = [(b'F', [CIRCLE - 1, 0, 0, 0]); 12];
    assert_eq!(Lent::angle(12 * CIRCLE, &fixed).misclosure(), Ok(-12));
    assert_eq!(reply_under("C A 15552000000\nP 0 1\n"), "REFUSED 5 1");
}

#[test]
fn reading_11_no_coefficients_is_a_weak_row() {
    assert_eq!(reply_under("C A 7\nF 7\n"), "REFUSED 6 1");
    assert_eq!(reply_under("C S\nL 7 0 0 0\n"), "REFUSED 6 1");
    assert_eq!(
        reply_under("C A 1000\nP 0 1\nC S\nL 7 0 0 0\n"),
        "REFUSED 6 2"
    );
}

#[test]
fn reading_12_coefficients_are_totals_tested_after_the_file() {
    let back_again = "C S\nL 0 2000 0 1\nL 0 2000 0 1\nR 0 2000 0 1\n";
    assert_eq!(reply_under(back_again), "ADJ 3 1");
    let initial = "C S\nL 0 2000 1 0\nL 0 2000 2 0\nL 0 2000 3 0\n";
    assert_eq!(reply_under(initial), "ADJ 3 1");

    let four = "C S\nL 0 2000 0 1\nL 0 1 0 1\n";
    let five = "C S\nL 10001 100 0 2\n";
    let both = "C S\nL 10001 2000 0 1\nL 0 1 0 1\n";
    assert_eq!(reply_under(both), "REFUSED 4 1");
    assert_eq!(reply_under(&format!("{five}{four}")), "REFUSED 5 1");
    assert_eq!(reply_under(&format!("{four}{five}")), "REFUSED 4 1");
    assert_eq!(reply_under(&format!("{four}X\n")), "REFUSED 1 7");
    let many = format!("{four}{}", "C A 1000\nP 0 1\n".repeat(3));
    assert_eq!(reply_under(&many), "REFUSED 2 0");
}

#[test]
fn reading_13_line_reader() {
    let file = b"ab\n\ncd";
    let read = |start: usize| (line(file, start), line_status(file, start));
    assert_eq!(read(0), (&b"ab"[..], LineStatus::Line));
    assert_eq!(read(1), (&b"b"[..], LineStatus::Line));
    assert_eq!(read(2), (&b""[..], LineStatus::Line));
    assert_eq!(read(3), (&b""[..], LineStatus::Line));
    assert_eq!(read(4), (&b""[..], LineStatus::LfMissing));
    assert_eq!(read(5), (&b""[..], LineStatus::LfMissing));
    assert_eq!(read(6), (&b""[..], LineStatus::NoneLeft));
    assert_eq!(read(usize::MAX), (&b""[..], LineStatus::NoneLeft));
    assert_eq!(line_status(b"", 0), LineStatus::NoneLeft);
    let mut long = vec![b'x'; 200_000];
    long.push(b'\n');
    assert_eq!(line(&long, 0).len(), 200_000);
    // The part handed back lies in the caller's own bytes.
    assert_eq!(line(file, 1).as_ptr(), file[1..].as_ptr());
}

#[test]
fn reading_14_tabs_and_lf_of_the_refusal_line() {
    assert_eq!(network::listing(b""), b"REFUSED\t2\t0\n");
    let listing = network::listing(b"D\t1\t0\t1\nC\tA\t0\nP\t0\t1\n");
    assert_eq!(listing, b"ADJ\t1\t1\nV\t1\t0\t0\nK\t1\t0\t0\t0\n");
}

#[test]
fn reading_15_counts_then_directions_together_with_q() {
    let rows: [&[i64]; 2] = [&[100], &[100]];
    assert_eq!(adjust(&[99], &rows, &[0, 0]), refused(2, 0));
    let table = |directions: &[i64], q: &[i64]| {
        let table = ConditionTable {
            directions,
            q,
            a: &[9_999, 0, 0],
            w: &[0],
        };
        adjustment::adjust(&table, AnswerLengths::fitting(3, 1))
    };
    assert_eq!(table(&[0, 0, -1], &[1, 11, 1]), refused(3, 2));
    assert_eq!(table(&[0, CIRCLE, 0], &[1, 1, 11]), refused(3, 2));
    assert_eq!(table(&[0, 0, 0], &[1, 1, 1]), refused(4, 1));
}

#[test]
fn reading_16_both_operations_check_alike() {
    // Ranges of fields that only the other operation uses are tested all the same.
    Lent::side(&[(b'L', [200_000_001, 0, 0, 1])]).both_refuse(3, 1);
    Lent::side(&[(b'L', [0, 2_001, 0, 1])]).both_refuse(3, 1);
    Lent::angle(0, &[(b'F', [-1, 0, 0, 0])]).both_refuse(3, 1);

    // By term: the first term's 3 comes before the second's 1.
    let order = Lent::angle(0, &[(b'P', [0, 0, 1, 1]), (b'X', [0; 4])]);
    order.both_refuse(3, 1);
    Lent::angle(0, &[(b'X', [-1; 4]), (b'P', [0, 0, 1, 1])]).both_refuse(1, 1);
    Lent::angle(-1, &[(b'X', [-1; 4])]).both_refuse(3, 0);
    let direction = Lent {
        q: vec![1, 0, 1],
        ..Lent::angle(-1, &[(b'X', [-1; 4])])
    };
    direction.both_refuse(3, 2);

    // What a kind does not use is not read.
    let least = i64::MIN;
    let unread = Lent::angle(
        1_005,
        &[
            (b'P', [least, least, 0, 1]),
            (b'F', [5, least, least, least]),
        ],
    );
    assert_eq!(unread.misclosure(), Ok(0));
    assert_eq!(unread.coefficients(), Ok(vec![100, 0, 0]));
    let side = Lent {
        target: least,
        ..Lent::side(&[(b'R', [7, -30, 1, 2])])
    };
    assert_eq!(side.misclosure(), Ok(-700));
    assert_eq!(side.coefficients(), Ok(vec![-30, 30, 0]));
}

#[test]
fn reading_16a_kinds_are_codes_of_letters() {
    let directions = [0, 5];
    let with_code = |code: i64| {
        let condition = LentCondition {
            kind: ConditionKind::Angle,
            target: 0,
            kinds: &[code],
            values: &[0],
            d: &[0],
            i: &[0],
            k: &[1],
        };
        condition::coefficients(&directions, &[1, 1], &condition, 2)
    };
    assert_eq!(with_code(80), Ok(vec![100, 0]));
    assert_eq!(with_code(70), Ok(vec![0, 0]));
    for code in [
        76,
        82,
        0,
        112,
        80 + 256,
        80 + (1 << 32),
        -80,
        i64::MIN,
        i64::MAX,
    ] {
        assert_eq!(with_code(code), refused(1, 1));
    }
}

#[test]
fn reading_17_the_least_number_is_only_out_of_range() {
    let least = i64::MIN;
    assert_eq!(adjust(&[least], &[&[100]], &[0]), refused(3, 1));
    assert_eq!(adjust(&[1], &[&[least]], &[0]), refused(4, 1));
    assert_eq!(adjust(&[1], &[&[100]], &[least]), refused(5, 1));
    assert_eq!(means(&[[least; 4]]), refused(22, 1));
    Lent::side(&[(b'L', [0, least, 0, 1])]).both_refuse(3, 1);
    Lent::side(&[(b'L', [least, 0, 0, 1])]).both_refuse(3, 1);
    Lent::side(&[(b'L', [0, 0, least, least])]).both_refuse(3, 1);
    Lent::angle(least, &[(b'P', [0, 0, 0, 1])]).both_refuse(3, 0);
}

#[test]
fn reading_18_answer_lists_of_the_wrong_length() {
    let (directions, q, a, w) = ([0, 0], [1, 1], [100, 0], [0]);
    let table = ConditionTable {
        directions: &directions,
        q: &q,
        a: &a,
        w: &w,
    };
    let fitting = AnswerLengths::fitting(2, 1);
    assert!(adjustment::adjust(&table, fitting).is_ok());
    let wrong = [
        AnswerLengths { v: 1, ..fitting },
        AnswerLengths { u: 3, ..fitting },
        AnswerLengths {
            adjusted: 0,
            ..fitting
        },
        AnswerLengths { k: 2, ..fitting },
        AnswerLengths { r: 0, ..fitting },
        AnswerLengths { q: 2, ..fitting },
    ];
    for lengths in wrong {
        assert_eq!(adjustment::adjust(&table, lengths), refused(2, 0));
    }

    let condition = LentCondition {
        kind: ConditionKind::Angle,
        target: -1,
        kinds: &[80],
        values: &[0],
        d: &[0],
        i: &[0],
        k: &[1],
    };
    let coefficients = |length| condition::coefficients(&directions, &q, &condition, length);
    assert_eq!(coefficients(1), refused(2, 0));
    assert_eq!(coefficients(3), refused(2, 0));
    assert_eq!(coefficients(2), refused(3, 0));

    for (directions, pairs) in [(15, 16), (16, 17), (0, 0)] {
        let lengths = station::AnswerLengths { directions, pairs };
        let means = station::station_means_u64(&[99], &[1], &[0], &[0], lengths);
        assert_eq!(means, refused(21, 0));
    }
}

/// A first pivot of 1, which the second row meets.
fn steepest(meeting: i64) -> Result<Adjustment, Refusal> {
    adjust(&[1; 2], &[&[1, 0], &[meeting, 40]], &[0, 0])
}

/// Ten directions of 1 with q = 10 make a pivot of 100; the second row meets them.
fn steep(first_of_second: i64) -> Result<Adjustment, Refusal> {
    let mut first = vec![1; 10];
    first.resize(12, 0);
    let mut second = vec![1_000; 12];
    second[0] = first_of_second;
    adjust(&[10; 12], &[&first, &second], &[0, 0])
}

/// L(2) is 1,000 * w(2) + 3 * 10^9, a little more for a larger meeting than 1,500. Eight
/// directions share it, so that no correction passes one minute.
fn heavy(meeting: i64, w: i64) -> Result<Adjustment, Refusal> {
    let first = [[500; 4], [0; 4]].concat();
    let second = [[meeting; 4], [2_000; 4]].concat();
    adjust(&[1; 8], &[&first, &second], &[-1_000_000, w])
}

#[test]
fn reading_19_the_first_weak_row_is_the_place() {
    let rows: [&[i64]; 3] = [&[100, 0, 0], &[100, 0, 0], &[100, 0, 0]];
    assert_eq!(adjust(&[1; 3], &rows, &[0; 3]), refused(6, 2));
    let rows: [&[i64]; 2] = [&[0, 0], &[0, 0]];
    assert_eq!(adjust(&[1; 2], &rows, &[0; 2]), refused(6, 1));
    // M belongs to the row it is formed in.
    assert_eq!(steep(1_001), refused(6, 1));
    for meeting in [1_001, 2_000] {
        assert_eq!(steepest(meeting), refused(6, 1));
        assert_eq!(steepest(-meeting), refused(6, 1));
    }
    assert_eq!(heavy(1_501, 1_000_000), refused(6, 2));
}

/// Five conditions of which the last two meet as D(4,5) = 2,560,000,000 + `over`. Rounding
/// takes 3 of 20 from the second pivot, and thereby, the third row being mostly of the
/// second's kind, all but 600 of 1,620 from the third.
fn amplified(over: i64) -> [Vec<i64>; 5] {
    let signs: Vec<i64> = (0..60).map(|i| 1 - 2 * (i % 2)).collect();
    let sized = |size: i64| signs.iter().map(|sign| size * sign).collect::<Vec<i64>>();
    let first = [sized(1_998), vec![0; 4]].concat();
    let mut second = [sized(5), vec![0; 4]].concat();
    (second[0], second[2]) = (6, 4);
    let mut third = [vec![0; 60], vec![9, 9, 0, 0]].concat();
    (third[0], third[2]) = (17, -17);
    let fourth = [vec![2_000; 63], vec![1]].concat();
    let fifth = [vec![2_000; 60], vec![-2_000, -2_000, 1_200, over]].concat();
    [first, second, third, fourth, fifth]
}

#[test]
fn reading_19_a_coefficient_past_its_limit_is_a_weak_row() {
    let q = [vec![10; 63], vec![1]].concat();
    let reply = |rows: &[Vec<i64>]| {
        let rows: Vec<&[i64]> = rows.iter().map(Vec::as_slice).collect();
        let reply = adjust(&q, &rows, &vec![0; rows.len()]);
        (reply.map(|_| ()), weakness(&q, &rows))
    };
    let past = (refused(6, 4), Some(Weakness::Coefficient));
    // At its limit it passes; rounding has spoilt the last pivot all the same.
    let passes = (refused(6, 5), Some(Weakness::PivotBelowOne));
    for side in [1, -1] {
        let last_two = |over: i64| {
            let mut rows = amplified(over);
            rows[4].iter_mut().for_each(|a| *a *= side);
            reply(&rows)
        };
        assert_eq!(last_two(-1), passes);
        assert_eq!(last_two(0), passes);
        assert_eq!(last_two(1), past);
        assert_eq!(last_two(2_000), past);
    }
    assert_eq!(reply(&amplified(1)[..4]), (Ok(()), None));
}

#[test]
fn reading_20_limits_of_the_solution_pass() {
    assert_eq!(adjust(&[1], &[&[10]], &[1_000]).unwrap().k, [-100_000_000]);
    assert_eq!(adjust(&[1], &[&[10]], &[-1_000]).unwrap().k, [100_000_000]);
    let remainder = adjust(&[10; 10], &[&[1_000; 10]], &[-5]).unwrap();
    assert_eq!(remainder.r, [50_000_000]);
    assert!(steep(1_000).is_ok());
    assert!(steepest(1_000).is_ok() && steepest(-1_000).is_ok());
    assert!(heavy(1_500, 1_000_000).is_ok());
    let fullest = adjust(&[10; 64], &[&[2_000; 64]], &[256]).unwrap();
    assert_eq!((fullest.k, fullest.r), (vec![-1], vec![0]));
    // K as a whole is tested: its parts at row 1 are -1.01 * 10^8 and 10^6.
    let rows: [&[i64]; 2] = [&[10, 0], &[1, 100]];
    let whole = adjust(&[1, 1], &rows, &[1_010, 10_101]).unwrap();
    assert_eq!(whole.k, [-100_000_000, -10_000_000]);
    assert_eq!(adjust(&[1, 1], &rows, &[1_011, 10_101]), refused(7, 1));
}

#[test]
fn reading_21_adjusted_directions_stay_on_the_circle() {
    let file =
        |direction: i64, target: i64| listing(&format!("D 1 {direction} 1\nC A {target}\nP 0 1\n"));
    assert!(file(5, 0).contains("V 1 -5 0\n"));
    let down = ConditionTable {
        directions: &[1],
        q: &[1],
        a: &[100],
        w: &[2],
    };
    let lengths = AnswerLengths::fitting(1, 1);
    let adjusted = |table: &ConditionTable| adjustment::adjust(table, lengths).unwrap().adjusted;
    assert_eq!(adjusted(&down), [CIRCLE - 1]);
    let up = ConditionTable {
        directions: &[CIRCLE - 1],
        w: &[-1],
        ..down
    };
    assert_eq!(adjusted(&up), [0]);
}

#[test]
fn reading_22_each_station_check_covers_the_whole_list() {
    assert_eq!(means(&[[99, 99, 99, -1]; 513]), refused(21, 0));
    // 22 at the end comes before 23 at the start.
    assert_eq!(means(&[[1, 1, 0, 0], [1, 1, 2, 0]]), refused(22, 2));
    // 23 in position 9 comes before 24 in position 2; 24 before 25.
    let far = [pair(2, 2, 0, 99_999).to_vec(), vec![[9, 1, 0, 0]]].concat();
    assert_eq!(means(&far), refused(23, 901));
    let initial = [pair(1, 1, 0, 99_999), pair(2, 2, 0, 0)].concat();
    assert_eq!(means(&initial), refused(24, 201));
    // By position, then object, not by arrival.
    let order = [[2, 1, 0, 0], [1, 5, 0, 0], [1, 3, 1, 0]];
    assert_eq!(means(&order), refused(23, 103));
    // 25 of the last pair comes before 26.
    let apart = [
        pair(1, 1, 0, 0),
        pair(1, 2, 0, 0),
        pair(2, 1, 0, 0),
        pair(2, 2, 500_000, 0),
        pair(2, 3, 0, 60_001),
    ];
    assert_eq!(means(&apart.concat()), refused(25, 203));
}

#[test]
fn reading_23_the_base_is_the_lowest_position() {
    // Seen first in position 7; the base is that of position 3, and 5 is the one apart.
    let list = [
        pair(7, 1, 0, 0),
        pair(7, 2, 100, 0),
        pair(5, 1, 0, 0),
        pair(5, 2, 100_100, 0),
        pair(3, 1, 0, 0),
        pair(3, 2, 100, 0),
    ];
    assert_eq!(means(&list.concat()), refused(26, 502));
    // Object before position: object 2 in position 9 before object 3 in position 4.
    let order = [
        pair(2, 1, 0, 0),
        pair(2, 2, 0, 0),
        pair(2, 3, 0, 0),
        pair(4, 1, 0, 0),
        pair(4, 3, 99_000, 0),
        pair(9, 1, 0, 0),
        pair(9, 2, 99_000, 0),
    ];
    assert_eq!(means(&order.concat()), refused(26, 902));
}

#[test]
fn reading_24_means_round_downward_below_zero() {
    // b = 0 and e = -3: t = -3, P = 2.
    let list = [
        pair(1, 1, 0, 0),
        pair(1, 2, 0, 0),
        pair(2, 1, 10, 0),
        pair(2, 2, 8, 1),
    ];
    let means = means(&list.concat()).unwrap();
    assert_eq!(means.directions[..2], [0, CIRCLE - 1]);
    assert_eq!(means.pairs[..2], [2, 2]);
}

#[test]
fn reading_25_the_printed_correction_is_tested() {
    // Two directions share w, and V = 6,000,050,000 is rounded away from zero.
    let half = |w: i64| adjust(&[1; 2], &[&[100, 100]], &[w]);
    // A second condition takes 1 from both: V = 6,000,049,999.
    let rows: [&[i64]; 2] = [&[100, 100, 0], &[1, 1, 300]];
    let below = |w: [i64; 2]| adjust(&[1; 3], &rows, &w).unwrap();
    for side in [1, -1] {
        assert_eq!(half(side * 120_001), refused(9, 1));
        assert_eq!(half(side * 120_000).unwrap().u, [side * -60_000; 2]);
        let below = below([side * 120_001, side * 1_200]);
        assert_eq!(below.v[..2], [side * -6_000_049_999; 2]);
        assert_eq!(below.u, [side * -60_000, side * -60_000, 0]);
    }
    // The second condition in direction 1 alone: direction 2 is the one past the limit.
    let rows: [&[i64]; 2] = [&[100, 100, 0], &[1, 0, 200]];
    assert_eq!(adjust(&[1; 3], &rows, &[-120_001, -600]), refused(9, 2));
}

#[test]
fn reading_25_all_other_refusals_come_first() {
    // Direction 1 has u = -60,001; condition 2, in the other four, is refused before that.
    let table = |q: i64, a: i64, w: i64| {
        let rows: [&[i64]; 2] = [&[100, 0, 0, 0, 0], &[0, a, a, a, a]];
        adjust(&[1, q, q, q, q], &rows, &[60_001, w])
    };
    assert_eq!(table(1, 100, 0), refused(9, 1));
    assert_eq!(table(11, 100, 0), refused(3, 2));
    assert_eq!(table(1, 2_001, 0), refused(4, 2));
    assert_eq!(table(1, 100, 1_000_001), refused(5, 2));
    assert_eq!(table(1, 0, 0), refused(6, 2));
    assert_eq!(table(1, 5, 1_001), refused(7, 2));
    assert_eq!(table(10, 2_000, 200), refused(8, 2));

    let file = |second: &str| {
        let others: String = (2..=5).map(|i| format!("D {i} 0 10\n")).collect();
        reply(&format!("D 1 0 1\n{others}C A 60001\nP 0 1\n{second}"))
    };
    assert_eq!(file(""), "REFUSED 9 1");
    assert_eq!(file("C S\n"), "REFUSED 2 0");
    assert_eq!(file("C S\nL 0 2000 0 2\nR 0 1 2 0\n"), "REFUSED 4 2");
    assert_eq!(file("C S\nL 10001 2000 0 2\n"), "REFUSED 5 2");
    assert_eq!(file("C A 60001\nP 0 1\n"), "REFUSED 6 2");
    assert_eq!(file("C S\nL 20 4 0 2\n"), "REFUSED 7 2");
    let three = "L 0 2000 0 3\nL 0 2000 0 4\nL 0 2000 0 5\n";
    assert_eq!(file(&format!("C S\nL 2 2000 0 2\n{three}")), "REFUSED 8 2");
}

/// Two conditions that share all but one direction, which is the second's own: D(2,2) is
/// the square of its coefficient, and N(2,2) has the squares of the shared ones besides.
fn sharing(shared: &[i64], own: i64, w: [i64; 2]) -> Result<Adjustment, Refusal> {
    let first = [shared, &[0]].concat();
    let second = [shared, &[own]].concat();
    adjust(&vec![1; first.len()], &[&first, &second], &w)
}

#[test]
fn reading_27_a_pivot_is_weighed_against_its_entry() {
    // D is 1, then 10,000. The squares of the shared ones are one more than 999 times D,
    // just that, and one less, so that 1,000*D is one below N, at it, and one above.
    let limits: [(i64, [&[i64]; 3]); 2] = [
        (1, [&[31, 6, 1, 1, 1], &[31, 6, 1, 1], &[31, 6, 1]]),
        (
            100,
            [
                &[2_000, 2_000, 1_201, 740],
                &[1_998, 1_994, 1_418, 106],
                &[1_999, 1_995, 1_418, 57],
            ],
        ),
    ];
    for (own, [below, at, above]) in limits {
        for own in [own, -own] {
            assert_eq!(sharing(below, own, [0, 0]), refused(6, 2));
            assert!(sharing(at, own, [0, 0]).is_ok());
            assert!(sharing(above, own, [0, 0]).is_ok());
        }
    }
    // What the first condition leaves open, the second's own direction closes alone.
    let closed = sharing(&[31, 6, 1, 1], 1, [0, 1]).unwrap();
    assert_eq!(closed.k, [10_000_000, -10_000_000]);
    assert_eq!(closed.u, [0, 0, 0, 0, -100]);
    assert_eq!((closed.r, closed.q), (vec![0, 0], vec![0, 0]));
}

#[test]
fn reading_27_the_entry_is_that_of_the_row_before_any_reduction() {
    // N(3,3) is 101 more than the square; row 1 takes the square away, row 2 the 100, so
    // that D(3,3) is 1 each time.
    let third = |a: i64| {
        let rows: [&[i64]; 3] = [&[100, 0, 0], &[0, 10, 0], &[a, 10, 1]];
        adjust(&[1; 3], &rows, &[0; 3])
    };
    for side in [1, -1] {
        assert!(third(side * 29).is_ok());
        assert_eq!(third(side * 30), refused(6, 3));
        assert_eq!(third(side * 100), refused(6, 3));
    }
    // Neither the heaviest row before it nor the one after it counts.
    let rows: [&[i64]; 3] = [&[2_000, 0, 0], &[0, 1, 0], &[0, 0, 2_000]];
    assert!(adjust(&[1; 3], &rows, &[0; 3]).is_ok());
}

#[test]
fn reading_27_a_pivot_below_one_is_weak_whatever_its_entry() {
    let below_one = Some(Weakness::PivotBelowOne);
    // D = N = 0, which no comparison of the two would refuse.
    for q in 1..=10 {
        assert_eq!(adjust(&[q], &[&[0]], &[0]), refused(6, 1));
        assert_eq!(weakness(&[q], &[&[0]]), below_one);
    }
    let nothing: [&[i64]; 2] = [&[1, 0], &[0, 0]];
    assert_eq!(adjust(&[1; 2], &nothing, &[0; 2]), refused(6, 2));
    // D = 0 and D = 1, under entries far below 1,000.
    assert_eq!(sharing(&[1], 0, [0, 0]), refused(6, 2));
    assert!(sharing(&[1], 1, [0, 0]).is_ok());
    // D = -600: the factor is rounded up.
    let rows: [&[i64]; 2] = [&[1_999; 64], &[1_502; 64]];
    assert_eq!(adjust(&[10; 64], &rows, &[0; 2]), refused(6, 2));
    assert_eq!(weakness(&[10; 64], &rows), below_one);
}

#[test]
fn reading_27_light_conditions_are_not_weak() {
    for q in 1..=10 {
        let light = |w: i64| adjust(&[q], &[&[1]], &[w]);
        let zero = light(0).unwrap();
        assert_eq!((zero.k, zero.v, zero.r), (vec![0], vec![0], vec![0]));
        // K reaches its limit, and the direction takes up 100 for each 1 of w.
        let most = light(10 * q).unwrap();
        assert_eq!((most.k, most.r), (vec![-100_000_000], vec![0]));
        assert_eq!((most.u, most.q), (vec![-1_000 * q], vec![0]));
        assert_eq!(light(10 * q + 1), refused(7, 1));
    }
    // The lightest net there is: 24 conditions, each in a direction of its own.
    let rows: Vec<Vec<i64>> = (0..24)
        .map(|j| (0..24).map(|i| i64::from(i == j)).collect())
        .collect();
    let rows: Vec<&[i64]> = rows.iter().map(Vec::as_slice).collect();
    assert_eq!(adjust(&[1; 24], &rows, &[1; 24]).unwrap().u, [-100; 24]);
    let file = "D 1 0 1\nC S\nL 100 1 0 1\nR 100 0 0 0\n";
    assert_eq!(reply(file), "ADJ 1 1");
}

#[test]
fn reading_27_a_heavy_condition_said_twice_is_weak() {
    // D(2,2) = 360 under N(2,2) = 1,440,000,000 is what rounding the factor has left.
    let rows: [&[i64]; 2] = [&[1_999; 64], &[1_500; 64]];
    for w in [[0, 0], [1_999, 1_500], [40, 30]] {
        assert_eq!(adjust(&[10; 64], &rows, &w), refused(6, 2));
    }
    let below_entry = Some(Weakness::PivotBelowEntry);
    assert_eq!(weakness(&[10; 64], &rows), below_entry);
    // 154 under 1.8 * 10^9: a little of its own, most of which is rounded away.
    let first: Vec<i64> = (0..64).map(|i| 1_683 * (2 * (i % 2) - 1)).collect();
    let mut second = first.clone();
    second[..4].copy_from_slice(&[-1_692, 1_687, -1_684, 1_685]);
    let rows: [&[i64]; 2] = [&first, &second];
    assert_eq!(adjust(&[10; 64], &rows, &[0; 2]), refused(6, 2));
    assert_eq!(weakness(&[10; 64], &rows), below_entry);
}

#[test]
fn means_do_not_average_across_the_circle() {
    // 0.5 and 359 59 59.5 make 0, not 180 degrees.
    let list = [
        pair(1, 1, 0, 0),
        pair(1, 2, 500, 0),
        pair(2, 1, 0, 0),
        pair(2, 2, CIRCLE - 500, 0),
    ];
    assert_eq!(means(&list.concat()).unwrap().directions[1], 0);
}
