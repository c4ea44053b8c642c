//! The season report: the nets of an archive, each total, the net past 100,000, the sum of
//! two reports, the stream in every cut, and every refusal on both sides of its limit.

use super::*;
use reference::generate::{network_case, Rng};
use reference::season::{self, add_reports, report_of, HELD, MOST_NETS, MOST_TOTAL};

type Totals = [u64; 16];

/// Places of the totals.
const NETS: usize = 0;
const ACCEPTED: usize = 1;
const A_SUM: usize = 11;
const A_LARGEST: usize = 12;
const S_SUM: usize = 13;
const S_LARGEST: usize = 14;
const SHARED: usize = 15;

/// Accepted, with an angle condition whose w is -1,000.
const GOOD: &str = "D 1 0 1\nC A 1000\nP 0 1\n";

/// Totals that are 0 but for those named.
fn totals(named: &[(usize, u64)]) -> Totals {
    let mut totals = [0; 16];
    for &(place, total) in named {
        totals[place] = total;
    }
    totals
}

/// The place of the nets counted under a number.
fn under(number: usize) -> usize {
    1 + number
}

fn tabs(text: &str) -> Vec<u8> {
    text.replace(' ', "\t").into_bytes()
}

/// The totals of an archive written with spaces for tabs, of which no net is past.
fn totals_of(archive: &str) -> Totals {
    let report = report_of(&tabs(archive));
    assert!(!report.past);
    report.totals
}

/// The number of nets in an archive, and how many of them were counted under each number,
/// 0 for accepted, in order.
fn numbers(archive: &str) -> (u64, Vec<u64>) {
    let totals = totals_of(archive);
    let times = |(number, &count): (u64, &u64)| vec![number; count as usize];
    let counts = (0..).zip(&totals[ACCEPTED..A_SUM]);
    (totals[NETS], counts.flat_map(times).collect())
}

/// A net by its lines, as an archive of this net alone.
fn closed(net: &str) -> String {
    format!("{net}.\n")
}

/// The state of a stream.
#[derive(Clone, Debug, PartialEq, Eq)]
struct Stream {
    held: Vec<u8>,
    totals: Vec<u64>,
    place: Vec<u64>,
}

impl Stream {
    /// A state of no nets; what is held is of no account.
    fn new() -> Self {
        Stream {
            held: vec![0xa5; HELD],
            totals: vec![0; 16],
            place: vec![0; 3],
        }
    }

    fn at(place: [u64; 3]) -> Self {
        Stream {
            place: place.to_vec(),
            ..Stream::new()
        }
    }

    fn begin(&mut self) -> Result<(), Refusal> {
        season::begin(&self.held, &mut self.totals, &mut self.place)
    }

    fn next(&mut self, bytes: &[u8]) -> Result<(), Refusal> {
        season::next(bytes, &mut self.held, &mut self.totals, &mut self.place)
    }

    fn end(&mut self) -> Result<(), Refusal> {
        season::end(&self.held, &mut self.totals, &mut self.place)
    }

    /// The three operations that look at a state all refuse this one, and change nothing.
    fn refused_by_all(&self, number: i64, place: i64) {
        let mut stream = self.clone();
        assert_eq!(stream.next(b"x\n.\n"), refused(number, place));
        assert_eq!(stream.next(b""), refused(number, place));
        assert_eq!(stream.end(), refused(number, place));
        assert_eq!(&stream, self);
    }
}

/// The report of an archive by a stream that takes it in parts.
fn streamed<'a>(parts: impl IntoIterator<Item = &'a [u8]>) -> (Result<(), Refusal>, Vec<u64>) {
    let mut stream = Stream {
        totals: vec![u64::MAX; 16],
        place: vec![u64::MAX; 3],
        ..Stream::new()
    };
    assert_eq!(stream.begin(), Ok(()));
    for part in parts {
        assert_eq!(stream.next(part), Ok(()));
    }
    let reply = stream.end();
    (reply, stream.totals)
}

/// The report of an archive as a whole, in the same form.
fn whole(archive: &[u8]) -> (Result<(), Refusal>, Vec<u64>) {
    let mut totals = vec![u64::MAX; 16];
    let reply = season::report(archive, &mut totals);
    (reply, totals)
}

// ---- the nets of an archive

#[test]
fn an_empty_archive_has_no_nets() {
    assert_eq!(totals_of(""), [0; 16]);
    assert_eq!(whole(b""), (Ok(()), vec![0; 16]));
    assert_eq!(streamed([]), (Ok(()), vec![0; 16]));
}

#[test]
fn a_closed_net_counts_under_its_reply() {
    let nets = [
        (0, GOOD),
        (1, "X\n"),
        (2, "D 2 0 1\n"),
        (3, "D 1 0 11\n"),
        (4, "D 1 0 1\nC S\nL 1 2000 0 1\nL 1 1 0 1\nR 2 0 0 0\n"),
        (5, "D 1 0 1\nC A 1000001\nP 0 1\n"),
        (6, "D 1 0 1\nC A 0\nF 0\n"),
        (7, "D 1 0 1\nC S\nL 1011 10 0 1\nR 1000 0 0 0\n"),
        (8, "D 1 0 10\nD 2 0 10\nD 3 0 10\nD 4 0 10\nC S\nL 2 2000 0 1\nL 0 2000 0 2\nL 0 2000 0 3\nL 0 2000 0 4\n"),
        (9, "D 1 0 1\nC A 60001\nP 0 1\n"),
    ];
    for (number, net) in nets {
        let reply = reply(net);
        let expected = match number {
            0 => "ADJ".to_string(),
            _ => format!("REFUSED {number} "),
        };
        assert!(reply.starts_with(&expected), "{reply}");
        let mut expected = totals(&[(NETS, 1), (under(number), 1)]);
        if number == 0 {
            expected[A_SUM] = 1_000;
            expected[A_LARGEST] = 1_000;
        }
        assert_eq!(totals_of(&closed(net)), expected);
    }
    // All of them together, and then all of them twice.
    let all: String = nets.iter().map(|(_, net)| closed(net)).collect();
    let expected = |times: u64| {
        let mut expected = totals(&[(NETS, 10 * times), (A_SUM, 1_000 * times)]);
        expected[A_LARGEST] = 1_000;
        expected[ACCEPTED..A_SUM].fill(times);
        expected
    };
    assert_eq!(totals_of(&all), expected(1));
    assert_eq!(totals_of(&all.repeat(2)), expected(2));
}

#[test]
fn bytes_left_are_one_net_under_1() {
    // Whatever they are: a net that would be accepted, too.
    for left in [
        GOOD,
        "x",
        "\n",
        "\n\n",
        ".",
        "..",
        "\n.",
        "D 1 0 1",
        "\0",
        &GOOD.repeat(9),
    ] {
        assert_eq!(numbers(left), (1, vec![1]), "{left:?}");
        let after = format!("{}{left}", closed(GOOD));
        assert_eq!(numbers(&after), (2, vec![0, 1]), "{left:?}");
    }
    // A last full stop without LF is left itself, with all before it in its net.
    assert_eq!(numbers(&format!("{GOOD}.")), (1, vec![1]));
    assert_eq!(numbers(&format!("{GOOD}.\n.")), (2, vec![0, 1]));
    assert_eq!(numbers(&format!("{GOOD}.\n{GOOD}.")), (2, vec![0, 1]));
}

#[test]
fn bytes_left_may_be_any_number() {
    for length in [1, 65_534, 65_535, 65_536, 65_537, 200_000] {
        for byte in ["x", "\n", "."] {
            assert_eq!(numbers(&byte.repeat(length)), (1, vec![1]));
            let after = format!("{}{}", closed(GOOD), byte.repeat(length));
            assert_eq!(numbers(&after), (2, vec![0, 1]));
        }
    }
}

#[test]
fn empty_nets_count_under_2() {
    assert_eq!(numbers(".\n"), (1, vec![2]));
    assert_eq!(numbers(".\n.\n"), (2, vec![2, 2]));
    assert_eq!(numbers(&format!(".\n{}", closed(GOOD))), (2, vec![0, 2]));
    let between = format!("{}.\n{}", closed(GOOD), closed(GOOD));
    assert_eq!(numbers(&between), (3, vec![0, 0, 2]));
    assert_eq!(numbers(&format!("{}.\n", closed(GOOD))), (2, vec![0, 2]));
    assert_eq!(numbers(".\n."), (2, vec![1, 2]));
}

#[test]
fn only_a_full_stop_alone_in_its_line_closes() {
    // Each of these lines is a line of the net, malformed at its place in it.
    let lines = [
        "..", "...", ". ", " .", ".x", "x.", ".\r", "\r.", ".\0", "\0.", "D.", "1.", "", ",",
    ];
    for line in lines {
        let before = format!("{line}\n{GOOD}.\n");
        assert_eq!(numbers(&before), (1, vec![1]), "{line:?}");
        let behind = format!("{GOOD}{line}\n.\n");
        assert_eq!(numbers(&behind), (1, vec![1]), "{line:?}");
        // What follows it is a net of its own.
        let then = format!("{behind}{GOOD}.\n");
        assert_eq!(numbers(&then), (2, vec![0, 1]), "{line:?}");
    }
    // A full stop at the end of a net's last line closes nothing.
    assert_eq!(numbers("D 1 0 1\nC A 0\nP 0 1.\n"), (1, vec![1]));
    assert_eq!(numbers("D 1 0 1\nC A 0\nP 0 1.\n.\n"), (1, vec![1]));
    assert_eq!(numbers("D 1 0 1\nC A 0\nP 0 1.\n.\n."), (2, vec![1, 1]));
}

#[test]
fn a_net_without_its_last_lf_cannot_be_closed() {
    // The full stop would be at the end of a line.
    let without = GOOD.trim_end();
    assert_eq!(numbers(&format!("{without}.\n")), (1, vec![1]));
}

/// So many bytes that end with LF and have no full stop line.
fn bytes_of(length: usize) -> String {
    format!("{}\n", "x".repeat(length - 1))
}

#[test]
fn the_longest_net_and_one_byte_more() {
    assert_eq!(numbers(&closed(&bytes_of(65_535))), (1, vec![1]));
    assert_eq!(numbers(&closed(&bytes_of(65_536))), (1, vec![2]));
    assert_eq!(numbers(&closed(&bytes_of(65_537))), (1, vec![2]));
    assert_eq!(numbers(&closed(&bytes_of(300_000))), (1, vec![2]));
    // Of empty lines alone, and with what would be refused or accepted at its start.
    assert_eq!(numbers(&closed(&"\n".repeat(65_535))), (1, vec![1]));
    assert_eq!(numbers(&closed(&"\n".repeat(65_536))), (1, vec![2]));
    for start in ["D 1 0 11\n", GOOD] {
        let net = |length: usize| closed(&format!("{start}{}", bytes_of(length - start.len())));
        let shorter = if start == GOOD { 1 } else { 3 };
        assert_eq!(numbers(&net(65_535)), (1, vec![shorter]));
        assert_eq!(numbers(&net(65_536)), (1, vec![2]));
    }
    // The full stop line is no part of the length, and the next net is read as ever.
    let next = format!("{}{}", closed(&bytes_of(65_536)), closed(GOOD));
    assert_eq!(numbers(&next), (2, vec![0, 2]));
    let next = format!("{}{}", closed(&bytes_of(65_535)), closed(GOOD));
    assert_eq!(numbers(&next), (2, vec![0, 1]));
    // A long net is skipped to its full stop line, over full stops that close nothing.
    let stops = format!("{}..\n.x\nx.\n", bytes_of(65_536));
    assert_eq!(
        numbers(&format!("{}{GOOD}.\n", closed(&stops))),
        (2, vec![0, 2])
    );
}

// ---- the misclosures

/// A net of one direction for each w of an angle condition, and each of a side condition,
/// which is a multiple of 100.
fn net_of(angles: &[i64], sides: &[i64]) -> String {
    let mut net = String::new();
    for number in 1..=angles.len() + sides.len() {
        net += &format!("D {number} 5000000 1\n");
    }
    for (number, w) in (1..).zip(angles) {
        net += &format!("C A {}\nP 0 {number}\n", 5_000_000 - w);
    }
    for (number, w) in (1 + angles.len()..).zip(sides) {
        assert_eq!(w % 100, 0);
        let left = 1_000_000 + w / 100;
        net += &format!("C S\nL {left} 2000 0 {number}\nR 1000000 0 0 0\n");
    }
    net
}

/// The four numbers of the misclosures of an archive.
fn misclosures(archive: &str) -> [u64; 4] {
    let totals = totals_of(archive);
    [A_SUM, A_LARGEST, S_SUM, S_LARGEST].map(|place| totals[place])
}

#[test]
fn sizes_by_kind_of_condition() {
    let cases: [(&[i64], &[i64], [u64; 4]); 9] = [
        (&[0], &[], [0, 0, 0, 0]),
        (&[7], &[], [7, 7, 0, 0]),
        (&[-7], &[], [7, 7, 0, 0]),
        (&[7, -9, 2], &[], [18, 9, 0, 0]),
        (&[], &[500], [0, 0, 500, 500]),
        (&[], &[-500], [0, 0, 500, 500]),
        (&[], &[-300, 100, 200], [0, 0, 600, 300]),
        (&[-60_000, 1], &[200, -100], [60_001, 60_000, 300, 200]),
        (&[1, -2, 3], &[-900, 100], [6, 3, 1_000, 900]),
    ];
    let mut all = String::new();
    for (angles, sides, expected) in cases {
        let archive = closed(&net_of(angles, sides));
        assert_eq!(numbers(&archive), (1, vec![0]));
        assert_eq!(misclosures(&archive), expected);
        all += &archive;
    }
    // Sums over all nets, and the largest of all.
    assert_eq!(
        misclosures(&all),
        [
            7 + 7 + 18 + 60_001 + 6,
            60_000,
            500 + 500 + 600 + 300 + 1_000,
            900
        ]
    );
}

#[test]
fn sizes_of_accepted_nets_alone() {
    let large = closed(&net_of(&[60_001], &[]));
    assert_eq!(numbers(&large), (1, vec![9]));
    assert_eq!(misclosures(&large), [0; 4]);
    // Its second condition is refused: nothing of the first is taken.
    let second = closed(&net_of(&[5, 1_000_001], &[700]));
    assert_eq!(numbers(&second), (1, vec![5]));
    assert_eq!(misclosures(&second), [0; 4]);
    let small = closed(&net_of(&[3], &[100]));
    let archive = format!("{large}{small}{second}{small}{}", net_of(&[8], &[800]));
    assert_eq!(misclosures(&archive), [6, 3, 200, 100]);
}

#[test]
fn the_largest_misclosures() {
    // 24 conditions with the largest sizes that an accepted net can have here, of both kinds.
    let sides: Vec<i64> = (0..24)
        .map(|index| if index % 2 == 0 { 999_900 } else { -1_000_000 })
        .collect();
    let archive = closed(&net_of(&[], &sides));
    assert_eq!(misclosures(&archive), [0, 0, 12 * 1_999_900, 1_000_000]);
    assert_eq!(
        misclosures(&archive.repeat(3)),
        [0, 0, 36 * 1_999_900, 1_000_000]
    );
    let archive = closed(&net_of(&[-60_000; 24], &[]));
    assert_eq!(misclosures(&archive), [24 * 60_000, 60_000, 0, 0]);
}

#[test]
fn the_misclosure_is_that_before_the_adjustment() {
    // w of an angle condition whose angles go over zero, by two directions.
    let net = "D 1 1295999990 1\nD 2 20 1\nC A 33\nP 1 2\n";
    assert_eq!(misclosures(&closed(net)), [3, 3, 0, 0]);
    let fixed = "D 1 1295999990 1\nD 2 20 1\nC A 1030\nP 1 2\nF 1007\n";
    assert_eq!(misclosures(&closed(fixed)), [7, 7, 0, 0]);
}

// ---- shared directions

/// A net of m directions at 0 with conditions that all close, by the lines of their terms.
fn net_with(m: usize, conditions: &[&str]) -> String {
    let directions: String = (1..=m).map(|number| format!("D {number} 0 1\n")).collect();
    let lines = |terms: &&str| {
        let heading = if terms.contains('P') { "C A 0" } else { "C S" };
        format!("{heading}\n{}\n", terms.replace(", ", "\n"))
    };
    directions + &conditions.iter().map(lines).collect::<String>()
}

/// How many nets of an accepted net are counted as shared.
fn shared(m: usize, conditions: &[&str]) -> u64 {
    let archive = closed(&net_with(m, conditions));
    assert_eq!(numbers(&archive), (1, vec![0]), "{archive}");
    totals_of(&archive)[SHARED]
}

#[test]
fn three_shared_directions_count_and_two_do_not() {
    assert_eq!(shared(3, &["P 1 2, P 0 3", "P 0 1, P 0 2, P 0 3"]), 1);
    assert_eq!(shared(3, &["P 1 2, P 0 3", "P 0 1, P 0 2"]), 0);
    assert_eq!(shared(3, &["P 1 2", "P 0 1, P 0 2, P 0 3"]), 0);
    assert_eq!(shared(4, &["P 1 2, P 3 4", "P 2 1, P 3 4"]), 1);
    assert_eq!(shared(6, &["P 1 2, P 3 4", "P 2 1, P 5 6"]), 0);
    assert_eq!(shared(6, &["P 1 2, P 0 3", "P 0 4, P 5 6"]), 0);
    // One condition shares with no other, however many directions it has.
    assert_eq!(shared(6, &["P 1 2, P 3 4, P 5 6"]), 0);
}

#[test]
fn any_two_conditions_may_share() {
    let other = ["P 0 4", "P 0 5", "P 0 6"];
    let one = "P 1 2, P 0 3";
    let two = "P 0 1, P 0 2, P 0 3";
    assert_eq!(shared(6, &other), 0);
    assert_eq!(shared(6, &[other[0], one, two]), 1);
    assert_eq!(shared(6, &[one, other[0], two]), 1);
    assert_eq!(shared(6, &[one, two, other[0]]), 1);
    assert_eq!(shared(6, &[one, other[0], other[1], other[2], two]), 1);
    // Three conditions in pairs, of which no two share more than two.
    assert_eq!(
        shared(4, &["P 1 2, P 0 3", "P 0 2, P 0 3, P 0 4", "P 1 4"]),
        0
    );
    // What both share with a third is not shared by them.
    assert_eq!(
        shared(6, &["P 0 1, P 0 2", "P 1 2, P 3 4, P 5 6", "P 0 3, P 0 4"]),
        0
    );
}

#[test]
fn the_64th_direction_is_shared_like_the_first() {
    assert_eq!(
        shared(64, &["P 62 63, P 0 64", "P 0 62, P 0 63, P 0 64"]),
        1
    );
    assert_eq!(shared(64, &["P 62 63, P 0 64", "P 0 62, P 0 63"]), 0);
    assert_eq!(shared(64, &["P 62 63, P 0 64", "P 0 62, P 0 64"]), 0);
    assert_eq!(shared(64, &["P 1 2, P 0 64", "P 0 1, P 0 2, P 0 64"]), 1);
    assert_eq!(shared(64, &["P 1 2, P 0 64", "P 0 1, P 0 2, P 0 63"]), 0);
    assert_eq!(shared(64, &["P 1 32, P 0 64", "P 0 1, P 0 32, P 0 64"]), 1);
    assert_eq!(shared(64, &["P 1 33, P 0 64", "P 0 1, P 0 33, P 0 64"]), 1);
}

#[test]
fn coefficients_that_cancel_are_not_touched() {
    let one = "P 1 2, P 0 3";
    // Direction 3 is named and cancels to zero.
    assert_eq!(shared(3, &[one, "P 0 1, P 0 2, P 0 3, P 3 0"]), 0);
    assert_eq!(shared(3, &[one, "P 0 1, P 3 2, P 0 3"]), 0);
    assert_eq!(shared(3, &[one, "P 0 1, P 0 2, P 0 3, P 3 0, P 0 3"]), 1);
    // A side term with d = 0, and two that cancel.
    let sides = "L 0 100 0 1, L 0 100 0 2";
    assert_eq!(shared(3, &[one, &format!("{sides}, L 0 1 0 3")]), 1);
    assert_eq!(shared(3, &[one, &format!("{sides}, L 0 0 0 3")]), 0);
    assert_eq!(
        shared(3, &[one, &format!("{sides}, L 0 1 0 3, R 0 1 0 3")]),
        0
    );
    assert_eq!(
        shared(3, &[one, &format!("{sides}, L 0 1 0 3, L 0 -1 0 3")]),
        0
    );
    assert_eq!(
        shared(3, &[one, &format!("{sides}, L 0 1 0 3, R 0 -1 0 3")]),
        1
    );
    // The fixed initial is no direction that is shared.
    assert_eq!(shared(2, &["P 0 1, P 0 2", "P 0 1, P 2 0"]), 0);
}

#[test]
fn conditions_of_both_kinds_share() {
    let side = "L 0 100 0 1, L 0 100 0 2, L 0 100 0 3";
    assert_eq!(shared(3, &["P 1 2, P 0 3", side]), 1);
    assert_eq!(shared(3, &[side, "P 1 2, P 0 3"]), 1);
    assert_eq!(shared(3, &[side, "L 0 100 1 2, L 0 100 0 3"]), 1);
}

#[test]
fn a_net_is_shared_once_and_only_if_accepted() {
    let rows = [
        "P 1 2, P 3 4",
        "P 2 1, P 3 4",
        "P 1 2, P 0 3, P 0 4",
        "P 0 1, P 0 2, P 0 3",
    ];
    assert_eq!(shared(4, &rows), 1);
    // The same condition twice shares all it has, and is refused.
    let twice = closed(&net_with(4, &[rows[0], rows[0]]));
    assert_eq!(numbers(&twice), (1, vec![6]));
    assert_eq!(totals_of(&twice)[SHARED], 0);
    let one = closed(&net_with(4, &rows));
    let none = closed(&net_with(4, &["P 0 1"]));
    let archive = format!("{one}{none}{twice}{one}{none}{one}{}", net_with(4, &rows));
    assert_eq!(numbers(&archive), (7, vec![0, 0, 0, 0, 0, 1, 6]));
    assert_eq!(totals_of(&archive)[SHARED], 3);
}

// ---- 100,000 nets

const MOST: usize = MOST_NETS as usize;

#[test]
fn the_net_past_100_000() {
    let good = String::from_utf8(tabs(&closed(GOOD))).unwrap();
    let all = totals(&[(NETS, 100_000), (under(2), 100_000)]);
    let empty = |count: usize| ".\n".repeat(count);
    let reports = [
        (
            empty(99_999),
            all.map(|total| total.saturating_sub(1)),
            false,
        ),
        (empty(100_000), all, false),
        (empty(100_001), all, true),
        (empty(100_002), all, true),
        // Bytes left after 99,999 nets are counted, after 100,000 they are past.
        (
            empty(99_999) + "x",
            totals(&[(NETS, 100_000), (under(2), 99_999), (under(1), 1)]),
            false,
        ),
        (empty(100_000) + "x", all, true),
        (empty(100_000) + ".", all, true),
        (empty(100_000) + &good.repeat(3), all, true),
        (empty(100_001) + "x", all, true),
        // Some that are accepted, the 100,000th among them.
        (
            empty(99_997) + &good.repeat(3),
            totals(&[
                (NETS, 100_000),
                (ACCEPTED, 3),
                (under(2), 99_997),
                (A_SUM, 3_000),
                (A_LARGEST, 1_000),
            ]),
            false,
        ),
        (
            empty(99_999) + &good.repeat(3),
            totals(&[
                (NETS, 100_000),
                (ACCEPTED, 1),
                (under(2), 99_999),
                (A_SUM, 1_000),
                (A_LARGEST, 1_000),
            ]),
            true,
        ),
    ];
    for (archive, totals, past) in reports {
        let archive = archive.as_bytes();
        let report = report_of(archive);
        assert_eq!((report.totals, report.past), (totals, past));
        let reply = if past { refused(30, 100_001) } else { Ok(()) };
        assert_eq!(whole(archive), (reply, totals.to_vec()));
        assert_eq!(streamed([archive]), (reply, totals.to_vec()));
        assert_eq!(streamed(archive.chunks(65_536)), (reply, totals.to_vec()));
        assert_eq!(streamed(archive.chunks(1)), (reply, totals.to_vec()));
    }
}

#[test]
fn the_largest_report() {
    // 24 side conditions of 10^6, 100,000 times, as the rule defines them.
    let net = tabs(&closed(&net_of(&[], &[1_000_000; 24])));
    let share = report_of(&net).totals;
    assert_eq!([share[S_SUM], share[S_LARGEST]], [24_000_000, 1_000_000]);
    let sum = totals(&[
        (NETS, 100_000),
        (ACCEPTED, 100_000),
        (S_SUM, 2_400_000_000_000),
        (S_LARGEST, 1_000_000),
    ]);
    let mut added = [0; 16];
    for _ in 0..MOST {
        let before = added;
        add_reports(&before, &share, &mut added).unwrap();
    }
    assert_eq!(added, sum);
}

// ---- the report as an operation

#[test]
fn the_totals_of_a_report_have_their_length() {
    for length in [0, 1, 15, 17, 32] {
        for archive in [&b""[..], b".\n", b"x"] {
            let mut totals = vec![7; length];
            assert_eq!(season::report(archive, &mut totals), refused(2, 0));
            assert_eq!(totals, vec![7; length]);
        }
    }
    let mut totals = vec![7; 16];
    assert_eq!(season::report(b"", &mut totals), Ok(()));
    assert_eq!(totals, vec![0; 16]);
}

// ---- joined archives

#[test]
fn joined_archives_are_the_sum_of_their_reports() {
    let mut rng = Rng::new(205);
    for _ in 0..200 {
        // The first ends with a full stop line, or is empty; the second may be anything.
        let [first, second] = [3, 3].map(|most| {
            let mut archive = Vec::new();
            for _ in 0..rng.below(most + 1) {
                archive.extend(network_case(&mut rng).file);
                if archive.last().is_some_and(|&last| last != b'\n') {
                    archive.push(b'\n');
                }
                archive.extend(b".\n");
            }
            archive
        });
        let left = match rng.below(3) {
            0 => network_case(&mut rng).file,
            1 => b".".to_vec(),
            _ => Vec::new(),
        };
        let second = [second, left].concat();
        let mut sum = [0; 16];
        let reports = [report_of(&first), report_of(&second)];
        let reply = add_reports(&reports[0].totals, &reports[1].totals, &mut sum);
        assert_eq!(reply, Ok(()));
        assert_eq!(report_of(&[first, second].concat()).totals, sum);
    }
}

#[test]
fn archives_joined_within_a_net_are_not_the_sum() {
    let (first, second) = GOOD.split_at(8);
    let second = closed(second);
    assert_eq!(numbers(first), (1, vec![1]));
    assert_eq!(numbers(&second), (1, vec![3]));
    assert_eq!(numbers(&format!("{first}{second}")), (1, vec![0]));
    // Nor where the first ends with a full stop whose LF is the second's first byte.
    assert_eq!(numbers(&format!("{GOOD}.")), (1, vec![1]));
    assert_eq!(numbers("\n"), (1, vec![1]));
    assert_eq!(numbers(&format!("{GOOD}.\n")), (1, vec![0]));
}

#[test]
fn joined_up_to_100_000_nets() {
    let archive = |count: usize| ".\n".repeat(count);
    for (first, second) in [(1, 99_999), (50_000, 50_000), (100_000, 0), (0, 100_000)] {
        let reports = [first, second].map(|count| report_of(archive(count).as_bytes()).totals);
        let mut sum = [0; 16];
        assert_eq!(add_reports(&reports[0], &reports[1], &mut sum), Ok(()));
        let joined = archive(first) + &archive(second);
        assert_eq!(whole(joined.as_bytes()), (Ok(()), sum.to_vec()));
        // One more, in either of them.
        let more = report_of(archive(first + 1).as_bytes());
        if !more.past {
            let mut sum = [9; 16];
            let reply = add_reports(&more.totals, &reports[1], &mut sum);
            assert_eq!((reply, sum), (refused(30, 100_001), [9; 16]));
        }
        let joined = joined + ".\n";
        assert_eq!(whole(joined.as_bytes()).0, refused(30, 100_001));
    }
}

// ---- the sum of two reports

#[test]
fn sums_and_the_larger_of_the_largest() {
    let first: Totals = std::array::from_fn(|index| index as u64 + 1);
    let second: Totals = std::array::from_fn(|index| 100 - 7 * index as u64 % 50);
    let mut sum = [0; 16];
    assert_eq!(add_reports(&first, &second, &mut sum), Ok(()));
    for index in 0..16 {
        let expected = match index {
            A_LARGEST | S_LARGEST => first[index].max(second[index]),
            _ => first[index] + second[index],
        };
        assert_eq!(sum[index], expected);
    }
    let mut other = [0; 16];
    assert_eq!(add_reports(&second, &first, &mut other), Ok(()));
    assert_eq!(sum, other);
    // Nothing is asked of how the numbers go together.
    let alone = totals(&[(SHARED, 5), (A_LARGEST, 3)]);
    assert_eq!(add_reports(&alone, &[0; 16], &mut sum), Ok(()));
    assert_eq!(sum, alone);
}

#[test]
fn refusal_2_of_a_sum() {
    for lengths in [
        [15, 16, 16],
        [16, 15, 16],
        [16, 16, 15],
        [17, 17, 17],
        [0, 0, 0],
        [16, 16, 0],
    ] {
        let [first, second, sum] = lengths.map(|length| vec![u64::MAX; length]);
        let mut given = sum.clone();
        assert_eq!(add_reports(&first, &second, &mut given), refused(2, 0));
        assert_eq!(given, sum);
    }
}

#[test]
fn refusal_3_of_a_sum() {
    for index in 0..16 {
        let place = index as i64 + 1;
        let largest = [A_LARGEST, S_LARGEST].contains(&index);
        let reply = |first: u64, second: u64| {
            let mut sum = [9; 16];
            let reply = add_reports(
                &totals(&[(index, first)]),
                &totals(&[(index, second)]),
                &mut sum,
            );
            assert!(reply.is_ok() || sum == [9; 16]);
            reply
        };
        let at_limit = if index == NETS {
            refused(30, 100_001)
        } else {
            Ok(())
        };
        assert_eq!(reply(MOST_TOTAL, 0), at_limit);
        assert_eq!(reply(0, MOST_TOTAL), at_limit);
        assert_eq!(reply(MOST_TOTAL - 1, 1), at_limit);
        for over in [MOST_TOTAL + 1, u64::MAX] {
            assert_eq!(reply(over, 0), refused(3, place));
            assert_eq!(reply(0, over), refused(3, place));
            assert_eq!(reply(over, over), refused(3, place));
        }
        let together = if largest { Ok(()) } else { refused(3, place) };
        assert_eq!(reply(MOST_TOTAL, 1), together);
        assert_eq!(reply(1, MOST_TOTAL), together);
        assert_eq!(reply(MOST_TOTAL, MOST_TOTAL), together);
    }
}

#[test]
fn refusals_of_a_sum_in_their_order() {
    let mut sum = [9; 16];
    // By place, whichever of the two reports has it, and also for what they make together.
    let first = totals(&[(5, u64::MAX), (3, MOST_TOTAL)]);
    let second = totals(&[(4, u64::MAX), (3, 1)]);
    assert_eq!(add_reports(&first, &second, &mut sum), refused(3, 4));
    assert_eq!(add_reports(&first, &[0; 16], &mut sum), refused(3, 6));
    assert_eq!(add_reports(&[0; 16], &second, &mut sum), refused(3, 5));
    // 2 before 3, and 3 of the last before 30.
    assert_eq!(
        add_reports(&[u64::MAX; 15], &second, &mut sum),
        refused(2, 0)
    );
    let many = totals(&[(NETS, 100_000)]);
    let one = totals(&[(NETS, 1)]);
    let odd = totals(&[(NETS, 1), (SHARED, MOST_TOTAL + 1)]);
    assert_eq!(add_reports(&many, &odd, &mut sum), refused(3, 16));
    assert_eq!(add_reports(&many, &one, &mut sum), refused(30, 100_001));
    assert_eq!(add_reports(&one, &many, &mut sum), refused(30, 100_001));
    assert_eq!(sum, [9; 16]);
    assert_eq!(add_reports(&many, &[0; 16], &mut sum), Ok(()));
    assert_eq!(sum, many);
    let less = totals(&[(NETS, 99_999)]);
    assert_eq!(add_reports(&less, &one, &mut sum), Ok(()));
    assert_eq!(sum, many);
}

// ---- the stream

#[test]
fn every_cut_of_small_archives_gives_the_report_of_the_whole() {
    let good = tabs(&closed(GOOD));
    let archives = [
        b"".to_vec(),
        b".\n".to_vec(),
        b".".to_vec(),
        b"\n".to_vec(),
        b"\n.\n".to_vec(),
        b".\n.\n.".to_vec(),
        b"..\n.\n\n..\n".to_vec(),
        b"x.\n.\n.x\n.\n".to_vec(),
        good.clone(),
        [&good[..], b".\n", &good, b"D\t1"].concat(),
        [&good[..], &good[..good.len() - 1]].concat(),
        tabs(&closed(&net_with(
            3,
            &["P 1 2, P 0 3", "P 0 1, P 0 2, P 0 3"],
        ))),
    ];
    for archive in archives {
        let expected = whole(&archive);
        let report = report_of(&archive);
        assert_eq!(expected, (Ok(()), report.totals.to_vec()));
        for size in 1..=archive.len().max(1) {
            assert_eq!(streamed(archive.chunks(size)), expected);
        }
        // Every two cuts, empty parts among them.
        for first in 0..=archive.len() {
            for second in first..=archive.len() {
                let parts = [
                    &archive[..first],
                    &archive[first..second],
                    &archive[second..],
                ];
                assert_eq!(streamed(parts), expected);
            }
        }
    }
}

#[test]
fn drawn_archives_in_drawn_parts() {
    let mut rng = Rng::new(206);
    for _ in 0..100 {
        let mut archive = Vec::new();
        for _ in 0..rng.below(4) {
            archive.extend(network_case(&mut rng).file);
            archive.extend(rng.pick(&[&b".\n"[..], b"\n.\n", b".", b"\n"]));
        }
        let expected = whole(&archive);
        let mut rest = &archive[..];
        let mut parts = Vec::new();
        while !rest.is_empty() {
            let longest = rng.pick(&[1, 3, 40, 500, 70_000]);
            let (part, behind) = rest.split_at(rng.below(longest + 1).min(rest.len()));
            parts.push(part);
            rest = behind;
        }
        assert_eq!(streamed(parts), expected);
    }
}

#[test]
fn long_nets_in_parts() {
    for length in [65_534, 65_535, 65_536, 65_537, 65_538, 131_072, 200_001] {
        let archive = closed(&bytes_of(length)) + "D.\n";
        let expected = whole(archive.as_bytes());
        for size in [1, 2, 65_534, 65_535, 65_536, 65_537, 65_538, 1_000_000] {
            assert_eq!(streamed(archive.as_bytes().chunks(size)), expected);
        }
    }
}

#[test]
fn what_a_stream_holds() {
    let mut stream = Stream::new();
    stream.totals = vec![1; 16];
    stream.place = vec![u64::MAX, 5, 2];
    // The beginning looks at lengths alone, and does not write what is held.
    assert_eq!(stream.begin(), Ok(()));
    assert_eq!(stream, Stream::new());
    assert_eq!(stream.next(b""), Ok(()));
    assert_eq!(stream, Stream::new());
    let mut steps = |bytes: &[u8], held: &[u8], place: [u64; 3], nets: u64| {
        assert_eq!(stream.next(bytes), Ok(()));
        let mut expected = held.to_vec();
        expected.resize(HELD, 0xa5);
        assert_eq!(stream.held, expected);
        assert_eq!(stream.place, place);
        assert_eq!(stream.totals, totals(&[(NETS, nets), (under(1), nets)]));
    };
    steps(b"ab", b"ab", [2, 2, 0], 0);
    steps(b"\n", b"ab\n", [3, 0, 0], 0);
    steps(b"\n", b"ab\n\n", [4, 0, 0], 0);
    steps(b".", b"ab\n\n.", [5, 1, 0], 0);
    steps(b".", b"ab\n\n..", [6, 2, 0], 0);
    steps(b".", b"ab\n\n...", [7, 2, 0], 0);
    steps(b"\n.", b"ab\n\n...\n.", [9, 1, 0], 0);
    // The LF that ends a full stop line is not held, and what was held stays.
    steps(b"\n", b"ab\n\n...\n.", [0, 0, 0], 1);
    steps(b"c", b"cb\n\n...\n.", [1, 2, 0], 1);
    steps(b"\n.\n", b"c\n.\n...\n.", [0, 0, 0], 2);
    steps(b"", b"c\n.\n...\n.", [0, 0, 0], 2);
}

#[test]
fn the_open_net_is_counted_to_65_537() {
    let mut stream = Stream::new();
    assert_eq!(stream.next(&vec![b'x'; 65_535]), Ok(()));
    assert_eq!(stream.place, [65_535, 2, 0]);
    assert_eq!(stream.held[65_534..], [b'x', 0xa5]);
    assert_eq!(stream.next(b"y"), Ok(()));
    assert_eq!(stream.place, [65_536, 2, 0]);
    assert_eq!(stream.held[65_534..], [b'x', b'y']);
    for _ in 0..3 {
        assert_eq!(stream.next(b"z"), Ok(()));
        assert_eq!(stream.place, [65_537, 2, 0]);
        assert_eq!(stream.held[65_534..], [b'x', b'y']);
    }
    // At the start of a line the full stop is seen as ever.
    assert_eq!(stream.next(b"\n."), Ok(()));
    assert_eq!(stream.place, [65_537, 1, 0]);
    assert_eq!(stream.totals, [0; 16]);
    assert_eq!(stream.next(b"\n"), Ok(()));
    assert_eq!(stream.place, [0, 0, 0]);
    assert_eq!(stream.totals, totals(&[(NETS, 1), (under(2), 1)]));
}

#[test]
fn a_net_is_judged_by_what_is_lent_as_held() {
    let good = tabs(GOOD);
    let mut stream = Stream::at([good.len() as u64 + 1, 1, 0]);
    stream.held[..good.len()].copy_from_slice(&good);
    // The byte in the place of the full stop is not looked at.
    assert_eq!(stream.next(b"\n"), Ok(()));
    assert_eq!(stream.totals[..2], [1, 1]);
    // 65,535 bytes before the full stop are read: empty lines are 1. One more is 2.
    for (open, number) in [(65_536, 1), (65_537, 2)] {
        let mut stream = Stream::at([open, 1, 0]);
        stream.held.fill(b'\n');
        assert_eq!(stream.next(b"\n"), Ok(()));
        assert_eq!(stream.totals, totals(&[(NETS, 1), (under(number), 1)]));
        assert_eq!(stream.place, [0; 3]);
    }
    // An empty net.
    let mut stream = Stream::at([1, 1, 0]);
    assert_eq!(stream.next(b"\n"), Ok(()));
    assert_eq!(stream.totals, totals(&[(NETS, 1), (under(2), 1)]));
    // Elsewhere in a line with no bytes: no stream is there, and it is not refused.
    let mut stream = Stream::at([0, 2, 0]);
    assert_eq!(stream.next(b".\n"), Ok(()));
    assert_eq!(
        (&stream.held[..3], &stream.place[..]),
        (&b".\n\xa5"[..], &[2, 0, 0][..])
    );
    let mut stream = Stream::at([0, 2, 0]);
    assert_eq!(stream.end(), Ok(()));
    assert_eq!(stream, Stream::new());
}

#[test]
fn totals_go_on_from_those_that_are_lent() {
    let good = tabs(&closed(GOOD));
    let mut stream = Stream::new();
    stream.totals = (1..=16).collect();
    stream.totals[A_LARGEST] = 1_001;
    let mut expected = stream.totals.clone();
    assert_eq!(stream.next(&good), Ok(()));
    expected[NETS] += 1;
    expected[ACCEPTED] += 1;
    expected[A_SUM] += 1_000;
    assert_eq!(stream.totals, expected);
    // Past 18 digits they are still the sum; the next call refuses them.
    let mut stream = Stream::new();
    stream.totals = vec![MOST_TOTAL; 16];
    stream.totals[NETS] = 3;
    assert_eq!(stream.next(&good), Ok(()));
    let mut expected = vec![MOST_TOTAL; 16];
    expected[NETS] = 4;
    expected[ACCEPTED] += 1;
    expected[A_SUM] += 1_000;
    assert_eq!(stream.totals, expected);
    stream.refused_by_all(3, 2);
}

#[test]
fn the_end_of_a_stream() {
    for open in [1, 2, 65_535, 65_536, 65_537] {
        for in_line in [0, 1, 2] {
            let mut stream = Stream::at([open, in_line, 0]);
            assert_eq!(stream.end(), Ok(()));
            let mut expected = Stream::new();
            expected.totals = totals(&[(NETS, 1), (under(1), 1)]).to_vec();
            assert_eq!(stream, expected);
            // The state is then one at the start of a net, and could go on.
            assert_eq!(stream.end(), Ok(()));
            assert_eq!(stream, expected);
        }
    }
    let mut stream = Stream::new();
    assert_eq!(stream.end(), Ok(()));
    assert_eq!(stream, Stream::new());
}

#[test]
fn the_net_past_100_000_in_a_stream() {
    let many = |nets: u64, place: [u64; 3]| {
        let mut stream = Stream::at(place);
        stream.totals[NETS] = nets;
        stream.totals[ACCEPTED] = nets;
        stream
    };
    // The 100,000th is counted, and the one after it is past.
    let mut stream = many(99_999, [0; 3]);
    assert_eq!(stream.next(b".\n"), Ok(()));
    assert_eq!(stream.totals[..4], [100_000, 99_999, 0, 1]);
    assert_eq!(stream.place, [0, 0, 0]);
    let before = stream.clone();
    assert_eq!(stream.clone().end(), Ok(()));
    assert_eq!(stream.next(b"x"), Ok(()));
    assert_eq!(
        (&stream.totals, &stream.place[..]),
        (&before.totals, &[1, 2, 0][..])
    );
    let mut left = stream.clone();
    assert_eq!(left.end(), refused(30, 100_001));
    assert_eq!(
        (&left.totals, &left.place[..]),
        (&before.totals, &[0, 0, 1][..])
    );
    assert_eq!(stream.next(b"\n.\n"), Ok(()));
    assert_eq!(
        (&stream.totals, &stream.place[..]),
        (&before.totals, &[0, 0, 1][..])
    );
    // Nothing changes any more, and the end says it as often as it is asked.
    let past = stream.clone();
    for bytes in [&b"x"[..], b".", b"\n", b".\n", b"abc\n.\n.\n", b""] {
        assert_eq!(stream.next(bytes), Ok(()));
        assert_eq!(stream, past);
    }
    for _ in 0..2 {
        assert_eq!(stream.end(), refused(30, 100_001));
        assert_eq!(stream, past);
    }
    // The rest of the very bytes in which it came changes nothing either.
    let mut stream = many(99_999, [0; 3]);
    assert_eq!(stream.next(b".\n.\nabc\n.\nx"), Ok(()));
    assert_eq!(stream.held[..2], [b'.', 0xa5]);
    assert_eq!(stream.place, [0, 0, 1]);
    // A state that is past may be lent with any counts: its open net goes uncounted.
    let mut stream = many(3, [7, 2, 1]);
    let lent = stream.clone();
    assert_eq!(stream.next(b"\n.\n"), Ok(()));
    assert_eq!(stream, lent);
    assert_eq!(stream.end(), refused(30, 100_001));
    assert_eq!(stream, many(3, [0, 0, 1]));
    // 99,999 and bytes left are 100,000.
    let mut stream = many(99_999, [1, 1, 0]);
    assert_eq!(stream.end(), Ok(()));
    assert_eq!(stream.totals[..3], [100_000, 99_999, 1]);
}

#[test]
fn refusal_2_of_a_stream() {
    let lengths = [
        [65_535, 16, 3],
        [65_537, 16, 3],
        [0, 16, 3],
        [65_536, 15, 3],
        [65_536, 17, 3],
        [65_536, 0, 3],
        [65_536, 16, 2],
        [65_536, 16, 4],
        [65_536, 16, 0],
        [0, 0, 0],
    ];
    for [held, totals, place] in lengths {
        // Before all numbers.
        let stream = Stream {
            held: vec![1; held],
            totals: vec![u64::MAX; totals],
            place: vec![u64::MAX; place],
        };
        stream.refused_by_all(2, 0);
        let mut begun = stream.clone();
        assert_eq!(begun.begin(), refused(2, 0));
        assert_eq!(begun, stream);
    }
}

#[test]
fn refusal_3_of_a_stream() {
    let accepted = |stream: &Stream| {
        assert_eq!(stream.clone().next(b"x"), Ok(()));
        let reply = stream.clone().end();
        let past = stream.place[2] == 1 || stream.totals[NETS] == 100_000 && stream.place[0] > 0;
        assert_eq!(reply, if past { refused(30, 100_001) } else { Ok(()) });
    };
    for index in 0..16 {
        let (limit, place) = (
            if index == NETS { MOST_NETS } else { MOST_TOTAL },
            index as i64 + 1,
        );
        let mut stream = Stream::new();
        stream.totals[index] = limit;
        accepted(&stream);
        for over in [limit + 1, 1 << 63, u64::MAX] {
            stream.totals[index] = over;
            stream.refused_by_all(3, place);
        }
    }
    for place in [
        [0, 0, 0],
        [0, 2, 0],
        [0, 0, 1],
        [1, 1, 0],
        [65_536, 1, 0],
        [65_537, 0, 0],
        [65_537, 1, 1],
        [65_537, 2, 1],
    ] {
        accepted(&Stream::at(place));
    }
    let ends = [1 << 32, 1 << 63, u64::MAX];
    for open in [65_538, 65_539].iter().chain(&ends) {
        Stream::at([*open, 0, 0]).refused_by_all(3, 17);
    }
    for in_line in [3, 4].iter().chain(&ends) {
        Stream::at([0, *in_line, 0]).refused_by_all(3, 18);
        Stream::at([9, *in_line, 0]).refused_by_all(3, 18);
    }
    // After a full stop there is at least this byte.
    Stream::at([0, 1, 0]).refused_by_all(3, 18);
    Stream::at([0, 1, 1]).refused_by_all(3, 18);
    for past in [2, 3].iter().chain(&ends) {
        Stream::at([0, 0, *past]).refused_by_all(3, 19);
    }
}

#[test]
fn refusals_of_a_stream_go_by_ordinal() {
    let mut stream = Stream::at([65_538, 3, 2]);
    for index in 0..16 {
        stream.totals[index] = u64::MAX;
    }
    for ordinal in 1..=19 {
        stream.refused_by_all(3, ordinal);
        match ordinal {
            1..=16 => stream.totals[ordinal as usize - 1] = 0,
            _ => stream.place[ordinal as usize - 17] = 0,
        }
    }
    assert_eq!(stream, Stream::new());
    assert_eq!(stream.end(), Ok(()));
}
