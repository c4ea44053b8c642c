//! Reports as text: what one is written as, and the program that adds up reports, with
//! every line that it refuses.

use super::*;
use reference::generate::{network_case, Rng};
use reference::reports;
use reference::season;

/// The report of an archive, both with spaces for tabs.
fn report(archive: &str) -> String {
    list_spaced(reports::report, archive)
}

/// The sum of reports, both with spaces for tabs.
fn add(reports: &str) -> String {
    list_spaced(reports::add_reports, reports)
}

const EMPTY: &str = "\
NETS 0
ACCEPTED 0
COUNT 1 0
COUNT 2 0
COUNT 3 0
COUNT 4 0
COUNT 5 0
COUNT 6 0
COUNT 7 0
COUNT 8 0
COUNT 9 0
A 0 0
S 0 0
SHARED 0
";

/// A report of all kinds of numbers.
const FULL: &str = "\
NETS 57
ACCEPTED 12
COUNT 1 1
COUNT 2 2
COUNT 3 3
COUNT 4 4
COUNT 5 5
COUNT 6 6
COUNT 7 7
COUNT 8 8
COUNT 9 9
A 12345 678
S 90123 4567
SHARED 11
";

/// A report of so many nets, all of them accepted.
fn nets(count: u64) -> String {
    with_line(
        &with_line(EMPTY, 1, &format!("NETS {count}")),
        2,
        &format!("ACCEPTED {count}"),
    )
}

#[test]
fn a_report_as_text() {
    assert_eq!(report(""), EMPTY);
    assert_eq!(
        reports::report(b"").first_chunk(),
        Some(b"NETS\t0\nACCEPTED\t0\nCOUNT\t1\t0\n")
    );
    let archive = "\
D 1 0 1
C A 1000
P 0 1
.
X
.
D 1 0 1
D 2 0 1
D 3 0 1
C A 3
P 1 2
P 0 3
C S
L 700 100 0 1
L 0 100 0 2
R 705 -100 0 3
.
.
x";
    let expected = "\
NETS 5
ACCEPTED 2
COUNT 1 2
COUNT 2 1
COUNT 3 0
COUNT 4 0
COUNT 5 0
COUNT 6 0
COUNT 7 0
COUNT 8 0
COUNT 9 0
A 1003 1000
S 500 500
SHARED 1
";
    assert_eq!(report(archive), expected);
}

#[test]
fn a_net_past_100_000_ends_the_report() {
    let all = with_line(&with_line(EMPTY, 1, "NETS 100000"), 4, "COUNT 2 100000");
    assert_eq!(report(&".\n".repeat(100_000)), all);
    let past = format!("{all}REFUSED 30 100001\n");
    assert_eq!(report(&".\n".repeat(100_001)), past);
    assert_eq!(report(&format!("{}x", ".\n".repeat(100_000))), past);
    // Such a report is none that can be added.
    assert_eq!(add(&past), "REFUSED 1 15\n");
    assert_eq!(add(&all), all);
}

#[test]
fn one_report_is_its_own_sum() {
    assert_eq!(add(EMPTY), EMPTY);
    assert_eq!(add(FULL), FULL);
    assert_eq!(add(&format!("{EMPTY}{FULL}{EMPTY}")), FULL);
}

#[test]
fn reports_are_added_line_by_line() {
    let other = "\
NETS 3
ACCEPTED 2
COUNT 1 0
COUNT 2 0
COUNT 3 0
COUNT 4 1
COUNT 5 0
COUNT 6 0
COUNT 7 0
COUNT 8 0
COUNT 9 0
A 1000 999
S 5 4
SHARED 1
";
    let sum = "\
NETS 60
ACCEPTED 14
COUNT 1 1
COUNT 2 2
COUNT 3 3
COUNT 4 5
COUNT 5 5
COUNT 6 6
COUNT 7 7
COUNT 8 8
COUNT 9 9
A 13345 999
S 90128 4567
SHARED 12
";
    assert_eq!(add(&format!("{FULL}{other}")), sum);
    assert_eq!(add(&format!("{other}{FULL}")), sum);
    assert_eq!(
        add(&format!("{sum}{other}{FULL}")),
        add(&format!("{sum}{sum}"))
    );
}

#[test]
fn reports_of_drawn_archives_are_added() {
    let mut rng = Rng::new(207);
    for _ in 0..100 {
        let archives: Vec<Vec<u8>> = (0..rng.count(1, 4))
            .map(|_| {
                let mut archive = network_case(&mut rng).file;
                archive.extend(b"\n.\n");
                archive
            })
            .collect();
        let texts: Vec<u8> = archives
            .iter()
            .flat_map(|archive| reports::report(archive))
            .collect();
        assert_eq!(
            reports::add_reports(&texts),
            reports::report(&archives.concat())
        );
    }
}

#[test]
fn empty_input_and_missing_lines() {
    assert_eq!(add(""), "REFUSED 1 1\n");
    let lines: Vec<&str> = FULL.split_inclusive('\n').collect();
    for count in 1..14 {
        // Cut off: what is missing was due next.
        let start = lines[..count].concat();
        assert_eq!(add(&start), format!("REFUSED 1 {}\n", count + 1));
        assert_eq!(
            add(&format!("{FULL}{start}")),
            format!("REFUSED 1 {}\n", count + 15)
        );
    }
    for missing in 0..14 {
        // Left out: the line after it is not the one due.
        let mut left = lines.clone();
        left.remove(missing);
        let place = missing + 1;
        assert_eq!(add(&left.concat()), format!("REFUSED 1 {place}\n"));
        let mut twice = lines.clone();
        twice.insert(missing, lines[missing]);
        assert_eq!(add(&twice.concat()), format!("REFUSED 1 {}\n", place + 1));
    }
    for first in 0..13 {
        let mut turned = lines.clone();
        turned.swap(first, first + 1);
        assert_eq!(add(&turned.concat()), format!("REFUSED 1 {}\n", first + 1));
    }
}

#[test]
fn a_line_without_lf() {
    let lines: Vec<&str> = FULL.split_inclusive('\n').collect();
    for count in 1..=14 {
        let start = lines[..count].concat();
        let cut = &start[..start.len() - 1];
        assert_eq!(add(cut), format!("REFUSED 1 {count}\n"));
        assert_eq!(
            add(&format!("{FULL}{cut}")),
            format!("REFUSED 1 {}\n", count + 14)
        );
    }
    assert_eq!(add(&format!("{FULL}N")), "REFUSED 1 15\n");
    assert_eq!(add("N"), "REFUSED 1 1\n");
    // With LF, but nothing else.
    assert_eq!(add("\n"), "REFUSED 1 1\n");
    assert_eq!(add(&format!("{FULL}\n")), "REFUSED 1 15\n");
    assert_eq!(add(&format!("\n{FULL}")), "REFUSED 1 1\n");
    assert_eq!(add(&format!("{FULL}\n{FULL}")), "REFUSED 1 15\n");
}

#[test]
fn malformed_numbers() {
    let none = [
        "",
        "-1",
        "-0",
        "+1",
        "00",
        "01",
        "007",
        " 1",
        "1 ",
        "1\r",
        "\r",
        "1.0",
        "x",
        "0x1",
        "1x",
        "-",
        "1\u{664}",
        "\0",
        "1\0",
        "1000000000000000000",
        "9999999999999999999",
        "0000000000000000000",
        "18446744073709551617",
        "100000000000000000000000000000000000000000",
    ];
    for (index, line) in FULL.lines().enumerate() {
        let number = index + 1;
        let fields: Vec<&str> = line.split(' ').collect();
        let due = if line.starts_with("COUNT") { 2 } else { 1 };
        for field in due..fields.len() {
            for text in none {
                let mut changed = fields.clone();
                changed[field] = text;
                // Written with tabs at once: a blank here is no tab.
                let line = changed.join("\t");
                let text = with_line(&FULL.replace(' ', "\t"), number, &line);
                let reply = reports::add_reports(text.as_bytes());
                assert_eq!(
                    reply,
                    format!("REFUSED\t1\t{number}\n").into_bytes(),
                    "{line:?}"
                );
            }
        }
    }
}

#[test]
fn malformed_lines() {
    for (index, line) in FULL.lines().enumerate() {
        let number = index + 1;
        let (word, rest) = line.split_once(' ').unwrap();
        let lines = [
            String::new(),
            word.to_string(),
            rest.to_string(),
            format!("{word} "),
            format!(" {line}"),
            format!("{line} "),
            format!("{line} 0"),
            format!("{word}  {rest}"),
            format!("{} {rest}", word.to_lowercase()),
            format!("{word}X {rest}"),
            format!("X{line}"),
            format!("{} {rest}", &word[1..]),
            format!("{line}\r"),
            format!("\u{feff}{line}"),
            "REFUSED 30 100001".to_string(),
            "REFUSED 1 1".to_string(),
            ".".to_string(),
            "NETS".to_string(),
            "COUNT 10 0".to_string(),
            "COUNT 0 0".to_string(),
        ];
        for line in lines {
            let text = with_line(FULL, number, &line);
            assert_eq!(add(&text), format!("REFUSED 1 {number}\n"), "{line:?}");
            let second = format!("{FULL}{text}");
            assert_eq!(
                add(&second),
                format!("REFUSED 1 {}\n", number + 14),
                "{line:?}"
            );
        }
        // Blanks are no tabs.
        let blanks = with_line(&FULL.replace(' ', "\t"), number, line);
        let reply = reports::add_reports(blanks.as_bytes());
        assert_eq!(reply, format!("REFUSED\t1\t{number}\n").into_bytes());
    }
    // The numbers of the COUNT lines go up by one.
    for number in 1..=9 {
        for other in (0..=10).filter(|&other| other != number) {
            let line = format!("COUNT {other} {number}");
            let place = number + 2;
            let text = with_line(FULL, place, &line);
            assert_eq!(add(&text), format!("REFUSED 1 {place}\n"));
        }
        let zero = with_line(FULL, number + 2, &format!("COUNT 0{number} {number}"));
        assert_eq!(add(&zero), format!("REFUSED 1 {}\n", number + 2));
    }
}

#[test]
fn numbers_of_18_digits() {
    let most = season::MOST_TOTAL;
    for (number, line) in [
        (12, format!("A {most} 0")),
        (12, format!("A 0 {most}")),
        (13, format!("S {most} {most}")),
        (14, format!("SHARED {most}")),
    ] {
        let text = with_line(FULL, number, &line);
        assert_eq!(add(&text), text);
        let longer = line.replacen(&most.to_string(), "1000000000000000000", 1);
        assert_eq!(
            add(&with_line(FULL, number, &longer)),
            format!("REFUSED 1 {number}\n")
        );
    }
}

#[test]
fn counts_that_do_not_add_up() {
    for (number, line) in [
        (1, "NETS 56"),
        (1, "NETS 58"),
        (1, "NETS 0"),
        (2, "ACCEPTED 0"),
        (2, "ACCEPTED 13"),
        (3, "COUNT 1 0"),
        (10, "COUNT 8 9"),
        (11, "COUNT 9 8"),
        (11, "COUNT 9 10"),
    ] {
        // The last COUNT line shows it, in the first report or in a later one.
        let text = with_line(FULL, number, line);
        assert_eq!(add(&text), "REFUSED 1 11\n");
        assert_eq!(add(&format!("{FULL}{text}")), "REFUSED 1 25\n");
        assert_eq!(add(&format!("{text}{FULL}")), "REFUSED 1 11\n");
    }
    // Before a fault of a later line, and after one of an earlier line.
    let text = with_line(&with_line(FULL, 1, "NETS 56"), 12, "A x 0");
    assert_eq!(add(&text), "REFUSED 1 11\n");
    let text = with_line(&with_line(FULL, 1, "NETS 56"), 10, "COUNT 8 x");
    assert_eq!(add(&text), "REFUSED 1 10\n");
    // A report that does not add up is not put right by the next.
    let less = with_line(FULL, 1, "NETS 56");
    let more = with_line(FULL, 1, "NETS 58");
    assert_eq!(add(&format!("{less}{more}")), "REFUSED 1 11\n");
    // Nothing else is asked of a report.
    let odd = with_line(EMPTY, 12, "A 3 5");
    assert_eq!(
        add(&with_line(&odd, 14, "SHARED 9")),
        with_line(&odd, 14, "SHARED 9")
    );
    // Ten numbers of 18 digits are added without harm.
    let mut large = EMPTY.to_string();
    for number in 1..=9 {
        large = with_line(
            &large,
            number + 2,
            &format!("COUNT {number} 999999999999999999"),
        );
    }
    assert_eq!(add(&large), "REFUSED 1 11\n");
}

#[test]
fn more_than_100_000_nets_together() {
    assert_eq!(add(&nets(100_000)), nets(100_000));
    assert_eq!(add(&nets(100_001)), "REFUSED 30 100001\n");
    assert_eq!(add(&nets(999_999_999_999_999_999)), "REFUSED 30 100001\n");
    let together =
        |counts: &[u64]| add(&counts.iter().map(|&count| nets(count)).collect::<String>());
    assert_eq!(together(&[99_999, 1]), nets(100_000));
    assert_eq!(together(&[50_000, 50_000, 0, 0]), nets(100_000));
    assert_eq!(together(&[100_000, 0]), nets(100_000));
    assert_eq!(together(&[100_000, 1]), "REFUSED 30 100001\n");
    assert_eq!(together(&[1, 100_000]), "REFUSED 30 100001\n");
    assert_eq!(together(&[50_000, 50_000, 1]), "REFUSED 30 100001\n");
    assert_eq!(together(&[100_001, 0]), "REFUSED 30 100001\n");
    assert_eq!(together(&[0, 100_001, 100_000]), "REFUSED 30 100001\n");
}

#[test]
fn refusal_1_of_any_line_comes_before_30() {
    let past = nets(100_001);
    assert_eq!(add(&format!("{past}x\n")), "REFUSED 1 15\n");
    assert_eq!(add(&format!("{past}NETS 0\n")), "REFUSED 1 16\n");
    assert_eq!(add(&format!("{past}NETS 0")), "REFUSED 1 15\n");
    assert_eq!(add(&format!("{past}REFUSED 30 100001\n")), "REFUSED 1 15\n");
    assert_eq!(add(&with_line(&past, 14, "SHARED x")), "REFUSED 1 14\n");
    let cut = past.trim_end();
    assert_eq!(add(cut), "REFUSED 1 14\n");
    assert_eq!(add("NETS 100001\n"), "REFUSED 1 2\n");
    // Counts that do not add up are such a refusal too, in this report and in a later one.
    assert_eq!(
        add(&with_line(&past, 2, "ACCEPTED 100000")),
        "REFUSED 1 11\n"
    );
    let odd = with_line(FULL, 1, "NETS 56");
    assert_eq!(add(&format!("{past}{odd}")), "REFUSED 1 25\n");
    assert_eq!(add(&format!("{past}{FULL}")), "REFUSED 30 100001\n");
}

#[test]
fn totals_that_pass_18_digits() {
    let most = "999999999999999999";
    // The line that makes a total pass is refused, whichever report it is of.
    for (number, line, one) in [
        (12, format!("A {most} 5"), "A 1 0"),
        (13, format!("S {most} 5"), "S 1 0"),
        (14, format!("SHARED {most}"), "SHARED 1"),
    ] {
        let large = with_line(EMPTY, number, &line);
        let one = with_line(EMPTY, number, one);
        assert_eq!(add(&format!("{large}{EMPTY}")), large);
        assert_eq!(add(&format!("{EMPTY}{large}")), large);
        assert_eq!(
            add(&format!("{large}{one}")),
            format!("REFUSED 1 {}\n", number + 14)
        );
        assert_eq!(
            add(&format!("{one}{large}")),
            format!("REFUSED 1 {}\n", number + 14)
        );
        assert_eq!(
            add(&format!("{large}{EMPTY}{one}")),
            format!("REFUSED 1 {}\n", number + 28)
        );
        let less = large.replace(most, "999999999999999998");
        assert_eq!(add(&format!("{less}{one}")), large);
    }
    // The larger of two largest passes nothing.
    let largest = with_line(EMPTY, 12, &format!("A 0 {most}"));
    assert_eq!(add(&format!("{largest}{largest}")), largest);
    // Counts pass where they do not add up; the line that passes is the earlier one.
    let accepted = with_line(EMPTY, 2, &format!("ACCEPTED {most}"));
    assert_eq!(add(&accepted), "REFUSED 1 11\n");
    assert_eq!(add(&format!("{}{accepted}", nets(1))), "REFUSED 1 16\n");
    // A fault of an earlier line comes first, one of a later line does not.
    let large = with_line(EMPTY, 12, &format!("A {most} 5"));
    let one = with_line(EMPTY, 12, "A 1 0");
    assert_eq!(
        add(&format!("{large}{}", with_line(&one, 11, "COUNT 9 x"))),
        "REFUSED 1 25\n"
    );
    assert_eq!(
        add(&format!("{large}{}", with_line(&one, 13, "S x 0"))),
        "REFUSED 1 26\n"
    );
}

#[test]
fn past_100_000_nets_nothing_is_added_up() {
    let large = with_line(EMPTY, 12, "A 999999999999999999 5");
    // Not in the report whose NETS line passes, nor in any after it.
    let past = with_line(&nets(100_001), 12, "A 1 0");
    let one = with_line(EMPTY, 12, "A 1 0");
    assert_eq!(add(&format!("{large}{past}")), "REFUSED 30 100001\n");
    assert_eq!(
        add(&format!("{large}{past}{large}{large}")),
        "REFUSED 30 100001\n"
    );
    assert_eq!(
        add(&format!("{large}{}{one}", nets(100_001))),
        "REFUSED 30 100001\n"
    );
    assert_eq!(add(&format!("{past}{large}{large}")), "REFUSED 30 100001\n");
    // Before it they are.
    assert_eq!(add(&format!("{large}{one}{past}")), "REFUSED 1 26\n");
    // A number of nets that would pass 18 digits is past 100,000 by that.
    let most = nets(999_999_999_999_999_999);
    assert_eq!(add(&format!("{}{most}", nets(1))), "REFUSED 30 100001\n");
    assert_eq!(add(&format!("{most}{most}")), "REFUSED 30 100001\n");
}
