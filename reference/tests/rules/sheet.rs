//! The check of another office's sheet: every refusal, both sides of every limit, and which
//! of two faults is named.

use super::figures::{FIGURE_3, FIGURE_3_LISTING as SHEET};
use super::*;
use reference::generate::{network_case, sheet_case, Rng};
use reference::sheet::{self, Answer, Fault};

/// The answer for a net and a listing, all three with spaces for tabs, without its LF.
fn check(net: &str, listing: &str) -> String {
    check_tabs(net, &listing.replace(' ', "\t"))
}

/// The same for a listing with its tabs.
fn check_tabs(net: &str, listing: &str) -> String {
    let net = net.replace(' ', "\t");
    let answer = sheet::listing(net.as_bytes(), listing.as_bytes());
    first_line(&String::from_utf8_lossy(&answer).replace('\t', " "))
}

/// The answer for a listing, and the net of figure 3.
fn of_figure_3(listing: &str) -> String {
    check(FIGURE_3, listing)
}

/// The sheet of figure 3 with line `number` replaced.
fn with(number: usize, line: &str) -> String {
    with_line(SHEET, number, line)
}

/// The lines of figure 3's sheet in another choice and order, counted from 1.
fn lines_of(numbers: &[usize]) -> String {
    let lines: Vec<&str> = SHEET.lines().collect();
    numbers
        .iter()
        .map(|number| format!("{}\n", lines[number - 1]))
        .collect()
}

/// A net of one direction at 0 and one side condition, a = d and w = 100 * apart.
fn lone_side(d: i64, apart: i64) -> String {
    let side = if apart < 0 { "R" } else { "L" };
    format!("D 1 0 1\nC S\nL 0 {d} 0 1\n{side} {} 0 0 0\n", apart.abs())
}

/// A sheet of one direction and one condition: u, adjusted; K, R, Q.
fn lone_sheet(u: i64, adjusted: i64, [k, r, q]: [i64; 3]) -> String {
    format!("ADJ 1 1\nV 1 {u} {adjusted}\nK 1 {k} {r} {q}\n")
}

/// A listing of these counts whose numbers are all 0.
fn zeros(m: usize, n: usize) -> String {
    let directions: String = (1..=m).map(|i| format!("V {i} 0 0\n")).collect();
    let conditions: String = (1..=n).map(|j| format!("K {j} 0 0 0\n")).collect();
    format!("ADJ {m} {n}\n{directions}{conditions}")
}

/// A net of m directions at 0 and n conditions that close.
fn closing_net(m: usize, n: usize) -> String {
    let directions: String = (1..=m).map(|i| format!("D {i} 0 1\n")).collect();
    let conditions: String = (1..=n).map(|j| format!("C A 0\nP 0 {j}\n")).collect();
    format!("{directions}{conditions}")
}

#[test]
fn the_sheet_of_figure_3_gets_yes() {
    assert_eq!(of_figure_3(SHEET), "YES");
    let [net, listing] = [FIGURE_3, SHEET].map(|text| text.replace(' ', "\t"));
    let (net, listing) = (net.as_bytes(), listing.as_bytes());
    assert_eq!(sheet::listing(net, listing), b"YES\n");
    assert_eq!(sheet::check(net, listing), Ok(Answer::Yes));
    assert_eq!(sheet::fault(net, listing), None);
    assert_eq!(sheet::listing(net, b""), b"REFUSED\t31\t1\n");
    assert_eq!(sheet::check(net, b""), refused(31, 1));
    let other = lines_of(&[1, 2, 3, 4, 5]) + "K 2 1000000 0 1\n";
    let other = other.replace(' ', "\t");
    assert_eq!(sheet::listing(net, other.as_bytes()), b"NO\t6\n");
    assert_eq!(sheet::check(net, other.as_bytes()), Ok(Answer::No(6)));
}

#[test]
fn every_field_of_figure_3_counts() {
    for (number, line, answer) in [
        (1, "ADJ 4 2", "REFUSED 31 5"),
        (1, "ADJ 2 2", "REFUSED 31 4"),
        (1, "ADJ 3 3", "REFUSED 31 7"),
        (1, "ADJ 3 1", "REFUSED 31 6"),
        (2, "V 2 -2000 215998000", "REFUSED 31 2"),
        (2, "V 1 -2001 215998000", "NO 2"),
        (2, "V 1 2000 215998000", "NO 2"),
        (2, "V 1 -2000 215998001", "NO 2"),
        (2, "V 1 -2001 215997999", "NO 2"),
        (4, "V 3 1000 215998001", "NO 4"),
        (4, "V 3 1000 1511998000", "NO 4"),
        (4, "V 3 1000 -1080002000", "NO 4"),
        (5, "K 2 -2000000 0 0", "REFUSED 31 5"),
        (5, "K 1 -2000001 0 0", "NO 5"),
        (5, "K 1 -2100000 0 0", "NO 2"),
        (5, "K 1 -2000000 1 0", "NO 5"),
        (5, "K 1 -2000000 0 -1", "NO 5"),
        (6, "K 2 1000000 -1 0", "NO 6"),
        (6, "K 2 1000000 0 1", "NO 6"),
        (6, "K 2 1000001 0 0", "NO 5"),
    ] {
        assert_eq!(of_figure_3(&with(number, line)), answer, "{line}");
    }
}

#[test]
fn no_byte_of_figure_3_can_be_another() {
    let [net, listing] = [FIGURE_3, SHEET].map(|text| text.replace(' ', "\t").into_bytes());
    let is_yes = |listing: &[u8]| sheet::check(&net, listing) == Ok(Answer::Yes);
    assert!(is_yes(&listing));
    for index in 0..listing.len() {
        let mut other = listing.clone();
        other.remove(index);
        assert!(!is_yes(&other), "{index}");
        assert!(!is_yes(&listing[..index]), "{index}");
        for byte in 0..=255 {
            let mut other = listing.clone();
            other[index] = byte;
            assert_eq!(is_yes(&other), byte == listing[index], "{index} {byte}");
            other[index] = listing[index];
            other.insert(index, byte);
            assert!(!is_yes(&other), "{index} {byte}");
        }
    }
}

#[test]
fn the_refusals_of_the_net_come_first() {
    for (net, answer) in [
        ("X\n", "REFUSED 1 1"),
        ("D 1 0 1", "REFUSED 1 1"),
        ("D 1 0 1\nC A 0\nP 0 1\n\n", "REFUSED 1 4"),
        ("", "REFUSED 2 0"),
        ("D 2 0 1\n", "REFUSED 2 1"),
        ("D 1 0 1\nC A 0\n", "REFUSED 2 0"),
        ("D 1 0 1\nC A 0\nP 0 1\nC A 0\nP 0 1\n", "REFUSED 2 0"),
        ("D 1 0 11\n", "REFUSED 3 1"),
        ("D 1 0 1\nC A 0\nP 1 1\n", "REFUSED 3 3"),
        ("D 1 0 1\nC S\nL 0 2000 0 1\nL 0 1 0 1\n", "REFUSED 4 1"),
        ("D 1 0 1\nC A 1000001\nP 0 1\n", "REFUSED 5 1"),
    ] {
        let whole = zeros(1, 1);
        for listing in [&whole, SHEET, "", "X\n", "ADJ 0 0\n", "REFUSED 1 1\n"] {
            assert_eq!(check(net, listing), answer, "{net} {listing}");
        }
    }
    let long = format!("{FIGURE_3}{}", "F 0\n".repeat(16_400));
    assert!(long.len() > 65_535);
    assert_eq!(check(&long, SHEET), "REFUSED 2 0");
    assert_eq!(check(&long, ""), "REFUSED 2 0");
    // 65,535 bytes are read, and here too many terms are found in them.
    assert_eq!(check(&long[..65_535], SHEET), "REFUSED 2 21");
}

#[test]
fn what_the_solution_is_refused_for_is_not_asked() {
    // 6: the same condition twice. Each sharing of the misclosure between them closes both.
    let twice = "D 1 1000 1\nD 2 5000 1\nC A 3000\nP 1 2\nC A 3000\nP 1 2\n";
    assert_eq!(reply(twice), "REFUSED 6 2");
    let head = "ADJ 2 2\nV 1 500 1500\nV 2 -500 4500\n";
    for (one, other) in [
        (-500_000, 0),
        (0, -500_000),
        (-300_000, -200_000),
        (-99_999_999, 99_499_999),
    ] {
        let sheet = format!("{head}K 1 {one} 0 0\nK 2 {other} 0 0\n");
        assert_eq!(check(twice, &sheet), "YES", "{sheet}");
    }
    assert_eq!(
        check(twice, &format!("{head}K 1 0 0 0\nK 2 -500001 0 0\n")),
        "NO 4"
    );
    // Without coefficients any correlates do.
    let empty = "D 1 7 1\nC A 5\nF 5\n";
    assert_eq!(reply(empty), "REFUSED 6 1");
    for k in [0, 1, -100_000_000, 100_000_000] {
        assert_eq!(check(empty, &lone_sheet(0, 7, [k, 0, 0])), "YES");
    }
    // One that is open by itself: R = 10^7*w, beyond its limit once w is 6.
    assert_eq!(
        check(
            "D 1 7 1\nC A 0\nF 5\n",
            &lone_sheet(0, 7, [0, 50_000_000, 50_000_000])
        ),
        "YES"
    );
    assert_eq!(
        check(
            "D 1 7 1\nC A 0\nF 6\n",
            &lone_sheet(0, 7, [0, 60_000_000, 60_000_000])
        ),
        "NO 3"
    );
    // 7: K is -110,000,000.
    let steep = lone_side(10, 11);
    assert_eq!(reply(&steep), "REFUSED 7 1");
    assert_eq!(
        check(
            &steep,
            &lone_sheet(-11_000, 1_295_989_000, [-110_000_000, 0, 0])
        ),
        "NO 3"
    );
    assert_eq!(
        check(
            &steep,
            &lone_sheet(0, 0, [0, 11_000_000_000, 11_000_000_000])
        ),
        "NO 3"
    );
    // 8: figure 7, by other correlates too.
    let heavy = "D 1 0 10\nD 2 0 10\nD 3 0 10\nD 4 0 10\nC S\n\
        L 2 2000 0 1\nL 0 2000 0 2\nL 0 2000 0 3\nL 0 2000 0 4\n";
    assert_eq!(reply(heavy), "REFUSED 8 1");
    let corrections: String = (1..=4).map(|i| format!("V {i} -3 1295999997\n")).collect();
    let sheet = format!("ADJ 4 1\n{corrections}K 1 -13 -80000000 -400000000\n");
    assert_eq!(check(heavy, &sheet), "NO 6");
    // 9: u is -60,001.
    let blunder = "D 1 60001 1\nC A 0\nP 0 1\n";
    assert_eq!(reply(blunder), "REFUSED 9 1");
    assert_eq!(
        check(blunder, &lone_sheet(-60_001, 0, [-60_001_000, 0, 0])),
        "NO 2"
    );
}

#[test]
fn correlates_other_than_ours_get_yes_while_they_close() {
    // R moves by 10,000 for each millionth, and may go to 50,000,000.
    let net = "D 1 1000 1\nC A 0\nP 0 1\n";
    assert_eq!(listing(net), lone_sheet(-1000, 0, [-1_000_000, 0, 0]));
    for (off, u, answer) in [
        (499_i64, -1000_i64, "YES"),
        (500, -1000, "YES"),
        (501, -999, "YES"),
        (-499, -1000, "YES"),
        (-500, -1001, "YES"),
        (4_999, -995, "YES"),
        (5_000, -995, "YES"),
        (5_001, -995, "NO 3"),
        (-5_000, -1005, "YES"),
        (-5_001, -1005, "NO 3"),
    ] {
        let adjusted = (1_000 + u).rem_euclid(CIRCLE);
        let q = 10_000_000 * (1_000 + u);
        let sheet = lone_sheet(u, adjusted, [-1_000_000 + off, 10_000 * off, q]);
        assert_eq!(check(net, &sheet), answer, "{off}");
    }
}

#[test]
fn the_sizes_of_correlates() {
    let sheet = |k: i64| lone_sheet(-10_000, 1_295_990_000, [k, 0, 0]);
    assert_eq!(check(&lone_side(10, 10), &sheet(-100_000_000)), "YES");
    assert_eq!(check(&lone_side(10, 10), &sheet(-100_000_001)), "NO 3");
    assert_eq!(check(&lone_side(-10, -10), &sheet(100_000_000)), "YES");
    assert_eq!(check(&lone_side(-10, -10), &sheet(100_000_001)), "NO 3");
    // At the limit it is the other tests that fail, beyond it none of them is reached.
    let wrong = |k: i64| lone_sheet(1, 1, [k, 0, 0]);
    assert_eq!(check(&lone_side(10, 10), &wrong(-100_000_000)), "NO 2");
    assert_eq!(check(&lone_side(10, 10), &wrong(100_000_000)), "NO 2");
    for k in [
        100_000_001,
        -100_000_001,
        4_294_967_296,
        999_999_999_999_999_999,
        -999_999_999_999_999_999,
    ] {
        assert_eq!(check(&lone_side(10, 10), &wrong(k)), "NO 3", "{k}");
    }
}

#[test]
fn the_sizes_of_remainders() {
    // N = 1 and w = 0, so R = K.
    let net = lone_side(1, 0);
    for (k, answer) in [
        (50_000_000_i64, "YES"),
        (50_000_001, "NO 3"),
        (49_999_999, "YES"),
        (-50_000_000, "YES"),
        (-50_000_001, "NO 3"),
    ] {
        let u = k.signum() * 500;
        let sheet = lone_sheet(u, u.rem_euclid(CIRCLE), [k, k, u * 100_000]);
        assert_eq!(check(&net, &sheet), answer, "{k}");
        let other = lone_sheet(u, u.rem_euclid(CIRCLE), [k, k - k.signum(), u * 100_000]);
        assert_eq!(check(&net, &other), "NO 3", "{k}");
    }
}

#[test]
fn the_sizes_of_corrections() {
    // w = -60,000 and 60,000: K to the millionth, R = 10,000 for each.
    for (sign, direction) in [(1, 0), (-1, 120_000)] {
        let net = format!("D 1 {direction} 1\nC A 60000\nP 0 1\n");
        let sheet = |u: i64, off: i64| {
            let u = sign * u;
            let q = 10_000_000 * (u - sign * 60_000);
            let numbers = [sign * (60_000_000 + off), sign * 10_000 * off, q];
            lone_sheet(u, (direction + u).rem_euclid(CIRCLE), numbers)
        };
        assert_eq!(check(&net, &sheet(60_000, 0)), "YES");
        assert_eq!(check(&net, &sheet(60_000, 499)), "YES");
        assert_eq!(check(&net, &sheet(60_001, 500)), "NO 2");
        assert_eq!(check(&net, &sheet(60_000, 500)), "NO 2");
        assert_eq!(check(&net, &sheet(60_001, 1_000)), "NO 2");
        assert_eq!(check(&net, &sheet(60_000, -500)), "YES");
        assert_eq!(check(&net, &sheet(59_999, -501)), "YES");
        let [net, listing] = [net, sheet(60_001, 500)].map(|text| text.replace(' ', "\t"));
        let fault = sheet::fault(net.as_bytes(), listing.as_bytes());
        assert_eq!(fault, Some(Fault::Minute));
    }
}

#[test]
fn the_counts_of_the_adj_line() {
    for (counts, answer) in [
        ("0 1", "REFUSED 31 1"),
        ("1 0", "REFUSED 31 1"),
        ("0 0", "REFUSED 31 1"),
        ("65 24", "REFUSED 31 1"),
        ("64 25", "REFUSED 31 1"),
        ("-1 1", "REFUSED 31 1"),
        ("1 -1", "REFUSED 31 1"),
        ("4294967297 1", "REFUSED 31 1"),
        ("1 4294967297", "REFUSED 31 1"),
        ("999999999999999999 1", "REFUSED 31 1"),
        ("1 1", "REFUSED 31 2"),
        ("64 24", "REFUSED 31 2"),
        ("1 24", "REFUSED 31 2"),
    ] {
        assert_eq!(of_figure_3(&format!("ADJ {counts}\n")), answer, "{counts}");
    }
    for (m, n) in [(1, 1), (1, 24), (64, 1), (64, 24), (24, 24), (3, 1), (4, 2)] {
        // More conditions than directions are no matter of form.
        assert_eq!(of_figure_3(&zeros(m, n)), "NO 1", "{m} {n}");
    }
    assert_eq!(of_figure_3(&zeros(65, 24)), "REFUSED 31 1");
    assert_eq!(of_figure_3(&zeros(64, 25)), "REFUSED 31 1");
    for (m, n) in [(1, 1), (64, 1), (24, 24), (64, 24)] {
        assert_eq!(check(&closing_net(m, n), &zeros(m, n)), "YES");
    }
}

#[test]
fn the_form_of_a_line() {
    for (number, line) in [
        (1, ""),
        (1, "ADJ"),
        (1, "ADJ 3"),
        (1, "ADJ 3 2 0"),
        (1, "ADJ 3 2 "),
        (1, "ADJ  3 2"),
        (1, " ADJ 3 2"),
        (1, "Adj 3 2"),
        (1, "ADJ3 2"),
        (1, "ADJ 3 2\r"),
        (1, "REFUSED 1 1"),
        (1, "V 1 -2000 215998000"),
        (2, ""),
        (2, "V 1 -2000"),
        (2, "V 1 -2000 215998000 "),
        (2, "V 1 -2000 215998000 0"),
        (2, "V  1 -2000 215998000"),
        (2, "v 1 -2000 215998000"),
        (2, "K 1 -2000 215998000"),
        (2, "V 0 -2000 215998000"),
        (2, "V -1 -2000 215998000"),
        (2, "V 01 -2000 215998000"),
        (2, "V +1 -2000 215998000"),
        (2, "V 11 -2000 215998000"),
        (2, "V 1 -2000 215998000\r"),
        (5, "K 1 -2000000 0"),
        (5, "K 1 -2000000 0 0 "),
        (5, "K 1 -2000000 0 0 0"),
        (5, "V 1 -2000000 0 0"),
        (5, "V 4 0 0"),
        (6, "K 1 1000000 0 0"),
        (6, "K 3 1000000 0 0"),
        (6, "K 2 1000000 0 0\r"),
        (6, "E 0 0"),
    ] {
        let answer = format!("REFUSED 31 {number}");
        assert_eq!(of_figure_3(&with(number, line)), answer, "{line}");
    }
}

#[test]
fn the_numbers_of_a_line() {
    let lines = [
        (1, "ADJ # 2"),
        (1, "ADJ 3 #"),
        (2, "V # -2000 215998000"),
        (2, "V 1 # 215998000"),
        (2, "V 1 -2000 #"),
        (5, "K # -2000000 0 0"),
        (5, "K 1 # 0 0"),
        (5, "K 1 -2000000 # 0"),
        (5, "K 1 -2000000 0 #"),
    ];
    let twelve_digits = |field: &&str| field.len() < 12;
    let mut malformed: Vec<&str> = NO_NUMBERS.into_iter().filter(twelve_digits).collect();
    malformed.extend([
        "1000000000000000000",
        "-1000000000000000000",
        "0000000000000000000",
        "9223372036854775808",
        "18446744073709551619",
    ]);
    for (number, line) in lines {
        for field in &malformed {
            let sheet = with(number, line).replace(' ', "\t").replace('#', field);
            let answer = format!("REFUSED 31 {number}");
            assert_eq!(check_tabs(FIGURE_3, &sheet), answer, "{line} {field}");
        }
    }
    // 12 to 18 digits are numbers here, and are no matter of form but where a line is counted.
    for field in [
        "100000000000",
        "999999999999999999",
        "-999999999999999999",
        "-100000000000",
    ] {
        for (number, line) in lines {
            let answer = match line {
                _ if number == 1 || line.starts_with("V #") || line.starts_with("K #") => {
                    format!("REFUSED 31 {number}")
                }
                _ => format!("NO {number}"),
            };
            let sheet = with(number, &line.replace('#', field));
            assert_eq!(of_figure_3(&sheet), answer, "{line} {field}");
        }
    }
    assert_eq!(
        lines::read_long_number(b"999999999999999999"),
        Some(999_999_999_999_999_999)
    );
    assert_eq!(
        lines::read_long_number(b"-999999999999999999"),
        Some(-999_999_999_999_999_999)
    );
    assert_eq!(lines::read_long_number(b"1000000000000000000"), None);
    assert_eq!(lines::read_long_number(b"-0"), None);
}

#[test]
fn lines_that_are_missing_or_not_due() {
    assert_eq!(of_figure_3(""), "REFUSED 31 1");
    assert_eq!(of_figure_3("\n"), "REFUSED 31 1");
    for kept in 1..6 {
        // Cut after a line, and within the next.
        let cut = lines_of(&(1..=kept).collect::<Vec<_>>());
        let answer = format!("REFUSED 31 {}", kept + 1);
        assert_eq!(of_figure_3(&cut), answer);
        assert_eq!(of_figure_3(&format!("{cut}V")), answer);
        let next = lines_of(&[kept + 1]);
        assert_eq!(of_figure_3(&format!("{cut}{}", next.trim_end())), answer);
    }
    assert_eq!(of_figure_3(SHEET.trim_end()), "REFUSED 31 6");
    for (order, answer) in [
        (&[2, 3, 4, 5, 6][..], 1),
        (&[1, 3, 4, 5, 6], 2),
        (&[1, 2, 4, 5, 6], 3),
        (&[1, 2, 3, 5, 6], 4),
        (&[1, 2, 3, 4, 6], 5),
        (&[1, 1, 2, 3, 4, 5, 6], 2),
        (&[1, 2, 2, 3, 4, 5, 6], 3),
        (&[1, 2, 3, 4, 4, 5, 6], 5),
        (&[1, 2, 3, 4, 5, 5, 6], 6),
        (&[1, 2, 3, 4, 5, 6, 6], 7),
        (&[1, 2, 3, 4, 5, 6, 1], 7),
        (&[2, 1, 3, 4, 5, 6], 1),
        (&[1, 3, 2, 4, 5, 6], 2),
        (&[1, 2, 3, 5, 4, 6], 4),
        (&[1, 2, 3, 4, 6, 5], 5),
        (&[1, 5, 6, 2, 3, 4], 2),
        (&[1, 2, 3, 4, 5, 6, 1, 2, 3, 4, 5, 6], 7),
    ] {
        let answer = format!("REFUSED 31 {answer}");
        assert_eq!(of_figure_3(&lines_of(order)), answer, "{order:?}");
    }
    for more in [
        "\n",
        " ",
        "x",
        "x\n",
        "\r\n",
        "\0",
        "E 894 603\n",
        ".\n",
        "K 3 0 0 0\n",
    ] {
        let sheet = format!("{SHEET}{more}");
        assert_eq!(of_figure_3(&sheet), "REFUSED 31 7", "{more}");
    }
    let probable = list_spaced(network::probable_listing, FIGURE_3);
    assert_eq!(of_figure_3(&probable), "REFUSED 31 7");
}

#[test]
fn which_of_two_faults_is_named() {
    // A malformed last line before counts that differ, and these before a K beyond 10^8.
    let other_counts = "ADJ 1 1\nV 1 5 5\nK 1 100000001 7 7\n";
    assert_eq!(of_figure_3(other_counts), "NO 1");
    assert_eq!(of_figure_3(other_counts.trim_end()), "REFUSED 31 3");
    assert_eq!(of_figure_3(&format!("{other_counts}\n")), "REFUSED 31 4");
    // The first K beyond 10^8 before any other line.
    let sheet = |u: i64, one: &str, other: &str| {
        format!("ADJ 3 2\nV 1 {u} 215998000\nV 2 -1000 216002000\nV 3 1000 215998000\nK 1 {one}\nK 2 {other}\n")
    };
    let beyond = "-100000001 5 5";
    assert_eq!(
        of_figure_3(&sheet(-2_000, "-2000000 0 0", "1000000 0 0")),
        "YES"
    );
    assert_eq!(of_figure_3(&sheet(1, "-2000000 0 0", beyond)), "NO 6");
    assert_eq!(of_figure_3(&sheet(1, beyond, beyond)), "NO 5");
    assert_eq!(of_figure_3(&sheet(-2_000, "-2000000 9 9", beyond)), "NO 6");
    // Then the lines in order: V before K, and u, R and Q in their lines.
    assert_eq!(
        of_figure_3(&sheet(1, "-2000000 9 9", "1000000 9 9")),
        "NO 2"
    );
    assert_eq!(
        of_figure_3(&sheet(-2_000, "-2000000 0 9", "1000000 9 0")),
        "NO 5"
    );
    // A u past one minute that follows, before a u that does not; and the other way round.
    let net = "D 1 0 1\nD 2 0 1\nC A 60001\nP 0 1\nC A 0\nP 0 2\n";
    let sheet = |first: &str, second: &str| {
        format!("ADJ 2 2\nV 1 {first}\nV 2 {second}\nK 1 60001000 0 0\nK 2 0 0 0\n")
    };
    assert_eq!(check(net, &sheet("60001 60001", "0 0")), "NO 2");
    assert_eq!(check(net, &sheet("60001 60001", "1 1")), "NO 2");
    let net = "D 1 0 1\nD 2 0 1\nC A 0\nP 0 1\nC A 60001\nP 0 2\n";
    let sheet = |first: &str| {
        format!("ADJ 2 2\nV 1 {first}\nV 2 60001 60001\nK 1 0 0 0\nK 2 60001000 0 0\n")
    };
    assert_eq!(check(net, &sheet("1 1")), "NO 2");
    assert_eq!(check(net, &sheet("0 0")), "NO 3");
    // An R beyond its limit in condition 1 before a wrong Q in condition 2.
    let net = "D 1 0 1\nD 2 0 1\nC S\nL 0 1 0 1\nC S\nL 0 1 0 2\n";
    let sheet = |k: i64, q: i64| {
        format!("ADJ 2 2\nV 1 500 500\nV 2 0 0\nK 1 {k} {k} 50000000\nK 2 0 0 {q}\n")
    };
    assert_eq!(check(net, &sheet(50_000_000, 0)), "YES");
    assert_eq!(check(net, &sheet(50_000_001, 0)), "NO 4");
    assert_eq!(check(net, &sheet(50_000_001, 1)), "NO 4");
    assert_eq!(check(net, &sheet(50_000_000, 1)), "NO 5");
}

#[test]
fn directions_wrap_and_weights_multiply() {
    let net = "D 1 0 2\nD 2 1295999999 10\nC A 100\nP 1 0\nC A 1295999900\nP 0 2\n";
    let own = listing(net);
    assert!(own.starts_with("ADJ 2 2\nV 1 -100 1295999900\nV 2 -99 1295999900\n"));
    assert_eq!(check(net, &own), "YES");
    assert_eq!(
        check(net, &own.replace("V 1 -100 1295999900", "V 1 -100 -100")),
        "NO 2"
    );
    assert_eq!(
        check(net, &own.replace("V 2 -99 1295999900", "V 2 -99 0")),
        "NO 3"
    );
}

#[test]
fn a_sheet_of_another_net() {
    // The correlates are the sheet's own, so that it is the adjusted direction that differs.
    for (old, new, answer) in [
        ("216000000 1", "216000001 1", "NO 2"),
        ("216003000", "216003001", "NO 3"),
    ] {
        let other = FIGURE_3.replace(old, new);
        let own = listing(&other);
        assert_eq!(check(&other, &own), "YES");
        assert_eq!(of_figure_3(&own), answer);
        assert_eq!(check(&other, SHEET), answer);
    }
    // Here it is the target alone, and so R.
    let other = FIGURE_3.replacen("648000000", "648000001", 1);
    assert_eq!(of_figure_3(&listing(&other)), "NO 5");
    assert_eq!(check(&other, SHEET), "NO 5");
    let smaller = "D 1 1000 1\nC A 0\nP 0 1\n";
    assert_eq!(of_figure_3(&listing(smaller)), "NO 1");
    assert_eq!(check(smaller, SHEET), "NO 1");
}

#[test]
fn our_own_listing_gets_yes() {
    let mut rng = Rng::new(206);
    let mut accepted = 0;
    for _ in 0..3_000 {
        let net = network_case(&mut rng).file;
        let answer = sheet::check(&net, &network::listing(&net));
        match network::adjust_network(&net) {
            Ok(_) => {
                assert_eq!(answer, Ok(Answer::Yes));
                accepted += 1;
            }
            Err(refusal) if refusal.number <= 5 => assert_eq!(answer, Err(refusal)),
            Err(_) => assert_eq!(answer, refused(31, 1)),
        }
    }
    assert!(accepted > 500);
}

/// The longest listing in form: its numbers have 18 digits and a minus.
fn longest() -> String {
    let number = "-999999999999999999";
    let directions: String = (1..=64)
        .map(|i| format!("V {i} {number} {number}\n"))
        .collect();
    let conditions: String = (1..=24)
        .map(|j| format!("K {j} {number} {number} {number}\n"))
        .collect();
    format!("ADJ 64 24\n{directions}{conditions}")
}

#[test]
fn the_longest_listing_in_form() {
    let longest = longest();
    assert_eq!(longest.len(), 4_432);
    assert_eq!(check(&closing_net(64, 24), &longest), "NO 66");
    assert_eq!(of_figure_3(&longest), "NO 1");
    assert_eq!(of_figure_3(&format!("{longest}x")), "REFUSED 31 90");
}

#[test]
fn what_comes_late_in_a_long_listing_is_not_asked() {
    const ENOUGH: usize = 7_298;
    let same = |net: &[u8], listing: &[u8]| {
        let whole = sheet::check(net, listing);
        for cut in [ENOUGH, ENOUGH + 1, listing.len() - 1, listing.len()] {
            let cut = &listing[..cut.min(listing.len())];
            assert_eq!(sheet::check(net, cut), whole);
        }
        // The least length that is enough: one byte more than the longest listing in form.
        assert_eq!(sheet::check(net, &listing[..4_433]), whole);
    };
    let net = FIGURE_3.replace(' ', "\t").into_bytes();
    let starts = [
        String::new(),
        SHEET.to_string(),
        longest(),
        "ADJ ".to_string(),
        "ADJ 3 2\nV 1 ".to_string(),
        SHEET[..SHEET.len() - 1].to_string(),
    ];
    for start in starts {
        for byte in [b'\n', b'9', b'\t', b'x', 0] {
            let mut listing = start.replace(' ', "\t").into_bytes();
            listing.resize(80_000, byte);
            same(&net, &listing);
            assert!(sheet::check(&net, &listing).is_err());
        }
    }
    let mut rng = Rng::new(7_298);
    let mut long = 0;
    for _ in 0..3_000 {
        let case = sheet_case(&mut rng);
        if case.listing.len() > ENOUGH {
            same(&case.net, &case.listing);
            long += 1;
        }
    }
    assert!(long > 20, "{long}");
}
