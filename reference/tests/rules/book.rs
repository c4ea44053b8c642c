//! The sighting book: the station's figures as books, every refusal with its place, both
//! sides of every limit, the order of the checks, and the listing.

use super::*;
use reference::book::{self, station_book};
use reference::generate::{book_case, Rng};

/// The listing of a book written with spaces for tabs.
fn listing(book: &str) -> String {
    list_spaced(book::listing, book)
}

/// The first line of that listing.
fn reply(book: &str) -> String {
    first_line(&listing(book))
}

/// Sightings as the lines of a book.
pub fn lines(sightings: &[[i64; 4]]) -> String {
    let line = |[position, object, face, reading]: &[i64; 4]| {
        format!("S {position} {object} {face} {reading}\n")
    };
    sightings.iter().map(line).collect()
}

/// The first line of the listing of pairs, each as position, object, left reading and s.
fn reply_of(pairs: &[[i64; 4]]) -> String {
    reply(&book_of(pairs))
}

pub fn book_of(pairs: &[[i64; 4]]) -> String {
    let both = |&[position, object, left, s]: &[i64; 4]| lines(&pair(position, object, left, s));
    pairs.iter().map(both).collect()
}

pub const FIGURE_9: &str = "\
S 1 1 0 0
S 1 1 1 648004000
S 1 2 0 144010000
S 1 2 1 792016000
";

/// Every object in every position on both faces: 512 lines.
pub fn fullest() -> String {
    let objects = (1..=16).flat_map(|position| (1..=16).map(move |object| (position, object)));
    objects
        .map(|(position, object)| {
            let left = (CIRCLE - object + 70_000_000 * position) % CIRCLE;
            lines(&pair(position, object, left, 0))
        })
        .collect()
}

#[test]
fn figure_9_as_a_book() {
    assert_eq!(listing(FIGURE_9), "STA 4 2\nO 1 0 1\nO 2 144011000 1\n");
}

#[test]
fn figure_10_as_books() {
    // s = 1 and the left reading make g = 2C - 1 and g = 3.
    let initial = "S 1 1 0 0\nS 1 1 1 648000000\n";
    let last = format!("{initial}S 1 2 0 1295999999\nS 1 2 1 648000000\n");
    assert_eq!(listing(&last), "STA 4 2\nO 1 0 1\nO 2 0 1\n");
    let third = format!("{initial}S 1 2 0 1\nS 1 2 1 648000002\n");
    assert_eq!(listing(&third), "STA 4 2\nO 1 0 1\nO 2 2 1\n");
}

#[test]
fn a_listing_has_the_objects_seen_in_order() {
    // Object 9 in both positions, object 16 in one, the others in none.
    let book = "\
S 7 9 1 648003000
S 7 9 0 3000
S 7 16 0 1295999000
S 7 16 1 647999000
S 7 1 0 0
S 7 1 1 648000000
S 3 1 1 0
S 3 1 0 648000000
S 3 9 0 648001000
S 3 9 1 1000
";
    let means = "STA 10 3\nO 1 0 2\nO 9 2000 2\nO 16 1295999000 1\n";
    assert_eq!(listing(book), means);
    assert_eq!(
        book::listing(b"S\t2\t1\t1\t648000007\nS\t2\t1\t0\t7\n"),
        b"STA\t2\t1\nO\t1\t0\t1\n"
    );
    assert_eq!(book::listing(b""), b"REFUSED\t21\t0\n");
}

#[test]
fn the_means_of_a_book_are_those_of_its_list() {
    let pairs = [
        [2, 1, 5, -3],
        [2, 4, 77_000, 9],
        [9, 4, 77_011, 0],
        [9, 1, 0, 8],
    ];
    let sightings: Vec<_> = pairs
        .iter()
        .flat_map(|&[position, object, left, s]| pair(position, object, left, s))
        .collect();
    let means = means(&sightings).unwrap();
    let [initial, other] = [0, 3].map(|index| (means.directions[index], means.pairs[index]));
    let expected = format!(
        "STA 8 2\nO 1 {} {}\nO 4 {} {}\n",
        initial.0, initial.1, other.0, other.1
    );
    assert_eq!(listing(&lines(&sightings)), expected);
}

#[test]
fn rearranged_lines_change_no_byte_of_the_listing() {
    for book in [FIGURE_9.to_string(), fullest()] {
        let expected = listing(&book);
        assert!(expected.starts_with("STA"));
        let mut lines: Vec<&str> = book.split_inclusive('\n').collect();
        lines.reverse();
        assert_eq!(listing(&lines.concat()), expected);
        for turn in [1, 2, lines.len() / 2] {
            lines.rotate_left(turn);
            assert_eq!(listing(&lines.concat()), expected);
        }
        // By face, by reading as text, by object: orders that tear every pair apart.
        for field in [3, 4, 2] {
            lines.sort_by_key(|line| line.split(' ').nth(field).map(str::to_string));
            assert_eq!(listing(&lines.concat()), expected);
        }
    }
    // A refusal of a field goes with its line; the others stay where they are.
    assert_eq!(reply("S 1 1 2 0\nS 1 1 0 0\n"), "REFUSED 22 1");
    assert_eq!(reply("S 1 1 0 0\nS 1 1 2 0\n"), "REFUSED 22 2");
    assert_eq!(reply("S 1 3 0 0\nS 1 2 0 0\n"), "REFUSED 23 102");
    assert_eq!(reply("S 1 2 0 0\nS 1 3 0 0\n"), "REFUSED 23 102");
}

#[test]
fn drawn_books_may_be_rearranged() {
    let mut rng = Rng::new(14);
    let mut accepted = 0;
    for _ in 0..1_000 {
        let file = book_case(&mut rng).file;
        if let Ok(listing) = station_book(&file, book::LISTING_ROOM) {
            let mut lines: Vec<&[u8]> = file.split_inclusive(|&byte| byte == b'\n').collect();
            rng.shuffle(&mut lines);
            assert_eq!(book::listing(&lines.concat()), listing);
            accepted += 1;
        }
    }
    assert!(accepted > 300);
}

#[test]
fn refusal_1_form_of_a_line() {
    for line in [
        // Letters.
        "",
        "X 1 1 0 0",
        "s 1 1 0 0",
        "D 1 1 0 0",
        "SS 1 1 0 0",
        "1 1 1 0 0",
        " 1 1 0 0",
        // Fields missing.
        "S",
        "S 1",
        "S 1 1",
        "S 1 1 0",
        "1 1 0 0",
        // Fields too many, and those that a trailing, leading or doubled tab makes.
        "S 1 1 0 0 0",
        "S 1 1 0 0 ",
        "S  1 1 0 0",
        "S 1 1 0  0",
        " S 1 1 0 0",
        "S 1 1 0 ",
        // What a listing has, and the end of a net.
        "STA 4 2",
        "O 1 0 1",
        ".",
    ] {
        assert_eq!(reply(&format!("{line}\n")), "REFUSED 1 1", "{line:?}");
        let last = format!("{FIGURE_9}{line}\n");
        assert_eq!(reply(&last), "REFUSED 1 5", "{line:?}");
        let second = format!("S 1 1 0 0\n{line}\n{FIGURE_9}");
        assert_eq!(reply(&second), "REFUSED 1 2", "{line:?}");
    }
}

#[test]
fn refusal_1_bytes_that_are_no_tab_and_no_lf() {
    // These are written as they are: a blank is no tab, and CR is no end of a line.
    for file in [
        &b"S 1 1 0 0\n"[..],
        b"S\t1\t1\t0 0\n",
        b"S\t1\t1\t0\t0 \n",
        b"S \t1\t1\t0\t0\n",
        b"S\t1\t1\t0\t0\r\n",
        b"S\t1\t1\t0\t0\r",
        b"S\t1\t1\t0\t0\0\n",
        b"S,1,1,0,0\n",
        b"\xef\xbb\xbfS\t1\t1\t0\t0\n",
        b"\r\n",
        b"\t\n",
        b"\0",
        b"\xff\n",
    ] {
        let shown = file.escape_ascii();
        assert_eq!(book::listing(file), b"REFUSED\t1\t1\n", "{shown}");
    }
}

#[test]
fn refusal_1_numbers() {
    for field in 1..=4 {
        for text in NO_NUMBERS {
            // Not by way of spaces, since some of these fields have one.
            let mut fields = ["S", "1", "1", "0", "0"];
            fields[field] = text;
            let file = format!("S\t1\t1\t0\t0\n{}\n", fields.join("\t"));
            let listing = book::listing(file.as_bytes());
            assert_eq!(listing, b"REFUSED\t1\t2\n", "{text:?} in field {field}");
        }
        // Eleven digits are a number, with a minus too, and out of every range.
        for text in ["99999999999", "-99999999999", "10000000000", "-1"] {
            let mut fields = ["S", "1", "1", "0", "0"];
            fields[field] = text;
            let book = format!("S 1 1 0 0\n{}\n", fields.join(" "));
            assert_eq!(reply(&book), "REFUSED 22 2", "{text:?} in field {field}");
        }
    }
}

#[test]
fn refusal_1_last_line_without_its_lf() {
    assert_eq!(reply("S 1 1 0 0"), "REFUSED 1 1");
    assert_eq!(reply("S"), "REFUSED 1 1");
    assert_eq!(reply(FIGURE_9.trim_end()), "REFUSED 1 4");
    assert_eq!(reply(&format!("{FIGURE_9}S")), "REFUSED 1 5");
    assert_eq!(reply(&format!("{FIGURE_9}\n")), "REFUSED 1 5");
    assert_eq!(reply(fullest().trim_end()), "REFUSED 1 512");
    assert_eq!(reply(&format!("{}S 1 1 0 0", fullest())), "REFUSED 1 513");
}

/// So many bytes of well-formed lines, the last one with more digits than the others.
pub fn well_formed(length: usize) -> String {
    let usual = "S 1 1 0 0\n";
    let count = length / usual.len() - 1;
    let digits = length - count * usual.len() - "S 1 1 0 \n".len();
    let reading = "1".repeat(digits);
    format!("{}S 1 1 0 {reading}\n", usual.repeat(count))
}

#[test]
fn refusal_2_length_of_the_file() {
    assert_eq!(well_formed(65_535).len(), 65_535);
    assert_eq!(reply(&well_formed(65_535)), "REFUSED 21 0");
    assert_eq!(reply(&well_formed(65_536)), "REFUSED 2 0");
    assert_eq!(reply(&well_formed(70_000)), "REFUSED 2 0");
    let long = |length: usize| {
        let mut file = FIGURE_9.to_string();
        file.push_str(&"\n".repeat(length - file.len()));
        file
    };
    assert_eq!(reply(&long(65_535)), "REFUSED 1 5");
    assert_eq!(reply(&long(65_536)), "REFUSED 2 0");
    // One line alone may be as long as the file.
    assert_eq!(reply(&"x".repeat(65_535)), "REFUSED 1 1");
    assert_eq!(reply(&"x".repeat(65_536)), "REFUSED 2 0");
}

#[test]
fn refusal_21_counts_of_lines() {
    assert_eq!(reply(""), "REFUSED 21 0");
    assert_eq!(fullest().lines().count(), 512);
    assert_eq!(reply(&fullest()), "STA 512 16");
    assert_eq!(reply(&format!("{}S 1 1 0 0\n", fullest())), "REFUSED 21 0");
    let same = |count: usize| reply(&"S 1 1 0 0\n".repeat(count));
    assert_eq!(same(512), "REFUSED 23 101");
    assert_eq!(same(513), "REFUSED 21 0");
}

#[test]
fn refusal_22_ranges() {
    for (within, without) in [
        ("S 1 1 0 0", "S 0 1 0 0"),
        ("S 16 1 0 0", "S 17 1 0 0"),
        ("S 1 1 0 0", "S 1 0 0 0"),
        ("S 1 16 0 0", "S 1 17 0 0"),
        ("S 1 1 0 0", "S 1 1 -1 0"),
        ("S 1 1 1 0", "S 1 1 2 0"),
        ("S 1 1 0 0", "S 1 1 0 -1"),
        ("S 1 1 0 1295999999", "S 1 1 0 1296000000"),
        // 2^32 + 1 and 2^32, where a narrowing would bring them back into range.
        ("S 1 1 0 0", "S 4294967297 1 0 0"),
        ("S 1 1 0 0", "S 1 4294967297 0 0"),
        ("S 1 1 0 0", "S 1 1 4294967296 0"),
        ("S 1 1 0 0", "S 1 1 0 4294967296"),
    ] {
        assert!(reply(&format!("{within}\n")).starts_with("REFUSED 23"));
        assert_eq!(reply(&format!("{without}\n")), "REFUSED 22 1");
        let fifth = format!("{FIGURE_9}{without}\n{without}\n");
        assert_eq!(reply(&fifth), "REFUSED 22 5");
    }
    let last = fullest().replacen("S 16 16 1 ", "S 16 16 2 ", 1);
    assert_eq!(reply(&last), "REFUSED 22 512");
    // Both ends of every range, accepted.
    let ends = "\
S 1 1 0 0
S 1 1 1 648000000
S 16 16 1 1295999999
S 16 1 0 0
S 16 1 1 648000000
S 16 16 0 647999999
";
    assert_eq!(listing(ends), "STA 6 2\nO 1 0 2\nO 16 647999999 1\n");
}

#[test]
fn refusal_23_faces() {
    assert_eq!(reply("S 3 1 0 0\n"), "REFUSED 23 301");
    assert_eq!(reply("S 3 1 1 0\n"), "REFUSED 23 301");
    assert_eq!(reply(&format!("{FIGURE_9}S 1 2 1 5\n")), "REFUSED 23 102");
    assert_eq!(reply(&format!("{FIGURE_9}S 1 2 0 5\n")), "REFUSED 23 102");
    assert_eq!(reply(&FIGURE_9.repeat(2)), "REFUSED 23 101");
    assert_eq!(
        reply(&format!("{FIGURE_9}S 16 16 0 5\n")),
        "REFUSED 23 1616"
    );
    // Faces of two positions or of two objects are no pair.
    assert_eq!(reply("S 2 1 0 0\nS 1 1 1 648000000\n"), "REFUSED 23 101");
    assert_eq!(reply("S 1 2 0 0\nS 1 1 1 648000000\n"), "REFUSED 23 101");
    let missing = fullest().replacen("S 16 16 1 ", "S 16 16 0 ", 1);
    assert_eq!(reply(&missing), "REFUSED 23 1616");
}

#[test]
fn refusal_24_positions_without_the_initial() {
    assert_eq!(reply_of(&[[4, 2, 0, 0]]), "REFUSED 24 401");
    assert_eq!(reply_of(&[[16, 16, 0, 0], [1, 1, 0, 0]]), "REFUSED 24 1601");
    assert_eq!(reply_of(&[[9, 2, 0, 0], [8, 2, 0, 0]]), "REFUSED 24 801");
    assert_eq!(reply_of(&[[4, 1, 0, 0]]), "STA 2 1");
}

#[test]
fn refusal_25_faces_apart() {
    for s in [60_000, -60_000] {
        assert_eq!(reply_of(&[[1, 1, 0, s]]), "STA 2 1");
        assert_eq!(reply_of(&[[1, 1, 0, 0], [1, 16, 7, s]]), "STA 4 2");
    }
    for s in [60_001, -60_001, CIRCLE / 2, CIRCLE / 4] {
        assert_eq!(reply_of(&[[1, 1, 0, s]]), "REFUSED 25 101");
        assert_eq!(reply_of(&[[1, 1, 0, 0], [1, 16, 7, s]]), "REFUSED 25 116");
    }
    // By position, then object.
    let far = [
        [3, 2, 0, 60_001],
        [3, 1, 0, 0],
        [2, 5, 0, 60_001],
        [2, 1, 0, 0],
    ];
    assert_eq!(reply_of(&far), "REFUSED 25 205");
}

#[test]
fn refusal_26_positions_apart() {
    // e is twice the difference of the left readings, and s.
    let apart = |left: i64, s: i64| {
        let pairs = [
            [2, 1, 0, 0],
            [2, 3, 0, 0],
            [5, 1, 9, 0],
            [5, 3, 9 + left, s],
        ];
        reply_of(&pairs)
    };
    assert_eq!(apart(60_000, 0), "STA 8 2");
    assert_eq!(apart(-60_000, 0), "STA 8 2");
    assert_eq!(apart(60_000, 1), "REFUSED 26 503");
    assert_eq!(apart(-60_000, -1), "REFUSED 26 503");
    assert_eq!(apart(CIRCLE / 2, 0), "REFUSED 26 503");
    // By object, then position: object 2 in position 9 before object 3 in position 4.
    let order = [
        [2, 1, 0, 0],
        [2, 2, 0, 0],
        [2, 3, 0, 0],
        [4, 1, 0, 0],
        [4, 3, 99_000, 0],
        [9, 1, 0, 0],
        [9, 2, 99_000, 0],
    ];
    assert_eq!(reply_of(&order), "REFUSED 26 902");
}

#[test]
fn length_comes_before_the_form_of_a_line() {
    let long = |length: usize| format!("X\n{}", "S 1 1 0 0\n".repeat(length / 10));
    assert_eq!(reply(&long(65_530)), "REFUSED 1 1");
    assert_eq!(reply(&long(65_540)), "REFUSED 2 0");
}

#[test]
fn the_form_of_every_line_comes_before_the_count() {
    let many = "S 1 1 0 0\n".repeat(599);
    assert_eq!(reply(&many), "REFUSED 21 0");
    for line in ["X\n", "\n", "S 1 1 0\n", "S 1 1 0 00\n", "S 1 1 0 0"] {
        assert_eq!(reply(&format!("{many}{line}")), "REFUSED 1 600", "{line:?}");
    }
    assert_eq!(reply(&format!("{many}X\nY\n")), "REFUSED 1 600");
    // A last line in the file's last bytes, far behind line 512.
    let last = format!("{}S 1 1\n", "S 1 1 0 0\n".repeat(6_552));
    assert_eq!(reply(&last), "REFUSED 1 6553");
}

#[test]
fn the_form_of_every_line_comes_before_ranges() {
    assert_eq!(reply("S 99 1 0 0\nX\n"), "REFUSED 1 2");
    assert_eq!(reply("S 99 1 0 0\nS 1 1 0 0"), "REFUSED 1 2");
    assert_eq!(reply("S 99 1 0 x\n"), "REFUSED 1 1");
    assert_eq!(reply("S 99 1 0 0 0\n"), "REFUSED 1 1");
    assert_eq!(reply("S 99 1 0 0\nS 1 1 0 0\n"), "REFUSED 22 1");
}

#[test]
fn the_count_comes_before_ranges_and_ranges_before_faces() {
    assert_eq!(reply(&"S 99 99 9 -1\n".repeat(513)), "REFUSED 21 0");
    assert_eq!(reply(&"S 99 99 9 -1\n".repeat(512)), "REFUSED 22 1");
    let last = format!("{}S 1 1 0 -1\n", "S 1 1 0 0\n".repeat(511));
    assert_eq!(reply(&last), "REFUSED 22 512");
    assert_eq!(reply("S 1 1 0 0\nS 1 1 2 0\n"), "REFUSED 22 2");
}

#[test]
fn station_checks_each_cover_the_whole_book() {
    // 23 in position 9 comes before 24 in position 2.
    let single = format!("{}S 9 1 0 0\n", book_of(&[[2, 2, 0, 99_999]]));
    assert_eq!(reply(&single), "REFUSED 23 901");
    // 24 of the second position comes before 25 of the first.
    let initial = [[1, 1, 0, 99_999], [2, 2, 0, 0]];
    assert_eq!(reply_of(&initial), "REFUSED 24 201");
    // 25 of the last pair comes before 26.
    let apart = [
        [1, 1, 0, 0],
        [1, 2, 0, 0],
        [2, 1, 0, 0],
        [2, 2, 500_000, 0],
        [2, 3, 0, 60_001],
    ];
    assert_eq!(reply_of(&apart), "REFUSED 25 203");
    assert_eq!(reply_of(&apart[..4]), "REFUSED 26 202");
}

#[test]
fn room_for_a_listing() {
    let file = FIGURE_9.replace(' ', "\t");
    let file = file.as_bytes();
    let too_long = vec![b'x'; 65_536];
    for room in [0, 1, 40, 1_135] {
        assert_eq!(station_book(file, room), refused(21, 0));
        assert_eq!(station_book(b"X\n", room), refused(21, 0));
        assert_eq!(station_book(&too_long, room), refused(21, 0));
    }
    assert_eq!(station_book(b"X\n", 1_136), refused(1, 1));
    assert_eq!(station_book(&too_long, 1_136), refused(2, 0));
    for room in [1_136, 1_137, 9_999] {
        assert_eq!(station_book(file, room), Ok(book::listing(file)));
    }
    let longest = fullest().replace(' ', "\t");
    assert!(book::listing(longest.as_bytes()).len() <= 1_136);
}
