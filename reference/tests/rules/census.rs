//! What the generator reaches, and that nothing panics on what no generator would send.

use super::*;
use reference::census::{self, Replies};
use reference::generate::Rng;
use reference::{book, precision, reports, rescue, season, sheet};

fn assert_frequent(name: &str, replies: &Replies, numbers: &[i64], cases: usize) {
    for number in numbers {
        let count = replies.get(number).copied().unwrap_or(0);
        assert!(
            200 * count >= cases,
            "{name}: {number} occurs {count} times"
        );
    }
    assert!(replies.keys().all(|number| numbers.contains(number)));
}

#[test]
fn every_reply_occurs_often() {
    let cases = 3_000;
    let census = census::take(138, cases);
    println!("{}", census::report(&census));
    let station = [0, 21, 22, 23, 24, 25, 26];
    assert_frequent("station", &census.station, &station, cases);
    assert_frequent(
        "coefficients",
        &census.coefficients,
        &[0, 1, 2, 3, 4],
        cases,
    );
    assert_frequent("misclosure", &census.misclosure, &[0, 1, 2, 3, 5], cases);
    let table = [0, 2, 3, 4, 5, 6, 7, 8, 9];
    assert_frequent("table", &census.table, &table, cases);
    let network = [0, 1, 2, 3, 4, 5, 6, 7, 8, 9];
    assert_frequent("network", &census.network, &network, cases);
    assert_frequent("probable error", &census.probable_error, &[0, 2, 3], cases);
    assert_eq!(census.probable_file, census.network);
    let book = [0, 1, 2, 21, 22, 23, 24, 25, 26];
    assert_frequent("book", &census.book, &book, cases);
    assert_frequent("rescue", &census.rescue, &[0, 21, 22, 32], cases);
    let reasons = &census.rescue_reasons;
    assert_frequent("reasons of a rescue", reasons, &[0, 1, 2, 3, 4], cases);
    assert_frequent("what is kept", &census.rescued_means, &[0, 26], cases);
    assert_eq!(census.rescue_limits.len(), 4);
    assert!(census
        .rescue_limits
        .values()
        .all(|count| 50 * count >= cases));
    assert!(census.rescue_sizes.iter().all(|&count| count > 0));
    let book = [0, 1, 2, 21, 22, 32];
    assert_frequent("rescue of a book", &census.rescue_book, &book, cases);
    assert_frequent("season next", &census.season_next, &[0, 2, 3], cases);
    assert_frequent("season end", &census.season_end, &[0, 2, 3, 30], cases);
    assert_frequent("add reports", &census.add_reports, &[0, 2, 3, 30], cases);
    let texts = &census.texts_of_reports;
    assert_frequent("texts of reports", texts, &[0, 1, 30], cases);
    assert_frequent("sheet", &census.sheet, &[0, 1, 2, 3, 4, 5, 31], cases);
    assert!(census.sheets_yes.keys().eq(&[0, 6, 7, 8, 9]));
    assert!(census.sheets_no.keys().eq(&[0, 6, 7, 8, 9]));
    assert!(5 * census.sheets_yes.values().sum::<usize>() >= cases);
    assert_eq!(census.sheet_faults.len(), 8);
    assert!(census
        .sheet_faults
        .values()
        .all(|count| 200 * count >= cases));
    let limits = [census.sheets_at_limits, census.sheets_past_limits];
    assert!(limits.as_flattened().iter().all(|&count| count > 0));
    assert!(census.largest_sheets.iter().all(|&count| count > 0));
    assert!(100 * census.long_sheets >= cases);
    // Archives of 100,000 nets are few, since they are long.
    assert!(census.report.keys().eq(&[0, 2, 30]));
    assert_frequent("nets", &census.season_nets, &network, cases);
    assert!(5 * census.season_shared >= cases);
    assert!(census.archives.iter().all(|&count| 20 * count >= cases));
    assert!(census.states.iter().all(|&count| 20 * count >= cases));
    assert!(census.long_states.iter().all(|&count| 200 * count >= cases));
    assert!(census.state_ordinals.keys().copied().eq(1..=19));
    assert!(census.sum_ordinals.keys().copied().eq(1..=16));
    assert_eq!(census.table_weaknesses.len(), 5);
    assert_eq!(census.network_weaknesses.len(), 5);
    for pivots in [census.table_pivots, census.network_pivots] {
        assert!(pivots.iter().all(|&count| 600 * count >= cases));
    }
    assert!(census.table_coefficients.iter().all(|&count| count > 0));
    assert_eq!(census.line_statuses.len(), 3);
    assert!(census.largest_tables.iter().all(|&count| count > 0));
    assert!(census.largest_networks.iter().all(|&count| count > 0));
    assert!(census.largest_corrections.iter().all(|&count| count > 0));
    assert!(census.squares.iter().all(|&count| 50 * count >= cases));
    assert!(100 * census.halves >= cases);
    assert!(census.book_sizes.iter().all(|&count| count > 0));
    assert!(census.book_lengths.iter().all(|&count| count > 0));
    assert!(census.limits_met.iter().all(|&count| count > 0));
    for minutes in [&census.table_minutes, &census.network_minutes] {
        assert_eq!(minutes.len(), 4);
        assert!(minutes.values().all(|&count| 600 * count >= cases));
    }
}

/// Lists of any length and any numbers, many of them the ends of the machine's range.
fn wild_list(rng: &mut Rng, length: usize) -> Vec<i64> {
    let length = if rng.chance(90) {
        length
    } else {
        rng.below(70)
    };
    let ends = [i64::MIN, i64::MAX, 0, 1, -1, 80, 70, 76, 82];
    (0..length)
        .map(|_| {
            if rng.chance(50) {
                rng.pick(&ends)
            } else {
                rng.range(-3, 20)
            }
        })
        .collect()
}

/// Every operation of the season on lists of any numbers, most often of the right lengths.
fn wild_season(rng: &mut Rng, bytes: &[u8]) {
    let numbers = |rng: &mut Rng, right: usize| -> Vec<u64> {
        let list = wild_list(rng, right).into_iter();
        let small = rng.chance(70);
        list.map(|x| {
            if small {
                x.unsigned_abs() % 4
            } else {
                x as u64
            }
        })
        .collect()
    };
    let length = if rng.chance(95) { season::HELD } else { 7 };
    let mut held = vec![b'\n'; length];
    let [mut totals, other, mut sum] = [(); 3].map(|()| numbers(rng, 16));
    let mut place = numbers(rng, 3);
    if rng.chance(50) && !place.is_empty() {
        place[0] = place[0].saturating_add(65_534);
    }
    let _ = season::add_reports(&totals, &other, &mut sum);
    let _ = season::next(bytes, &mut held, &mut totals, &mut place);
    let _ = season::next(b"\n.\n.\n", &mut held, &mut totals, &mut place);
    let _ = season::end(&held, &mut totals, &mut place);
    let _ = season::report(bytes, &mut totals);
    let _ = season::begin(&held, &mut totals, &mut place);
}

/// A net that is sound, of the largest coefficients and misclosure.
const WILD_NET: &[u8] = b"D\t1\t0\t10\nC\tS\nL\t10000\t2000\t0\t1\n";

/// A sheet in form of one direction and one condition, with any numbers.
fn wild_sheet(rng: &mut Rng) -> Vec<u8> {
    let ends = [0, 1, 60_000, 100_000_000, 10_i64.pow(18) - 1];
    let [u, adjusted, k, r, q] = [(); 5].map(|()| rng.sign() * rng.pick(&ends));
    format!("ADJ\t1\t1\nV\t1\t{u}\t{adjusted}\nK\t1\t{k}\t{r}\t{q}\n").into_bytes()
}

#[test]
fn no_input_panics() {
    let mut rng = Rng::new(24);
    for _ in 0..3_000 {
        let (m, n) = (rng.count(0, 4), rng.count(0, 4));
        let directions = wild_list(&mut rng, m);
        let q = wild_list(&mut rng, m);
        let [kinds, values, d, i, k] = [(); 5].map(|()| wild_list(&mut rng, n));
        let condition = LentCondition {
            kind: rng.pick(&[ConditionKind::Angle, ConditionKind::Side]),
            target: rng.pick(&[i64::MIN, i64::MAX, 0]),
            kinds: &kinds,
            values: &values,
            d: &d,
            i: &i,
            k: &k,
        };
        let _ = condition::coefficients(&directions, &q, &condition, m);
        let _ = condition::misclosure(&directions, &q, &condition);
        let a = wild_list(&mut rng, m * n);
        let table = ConditionTable {
            directions: &directions,
            q: &q,
            a: &a,
            w: &values,
        };
        let _ = adjustment::adjust(&table, adjustment::AnswerLengths::fitting(m, n));
        let _ = adjustment::weakness(&table);
        let _ = adjustment::margins(&table);
        let _ = adjustment::blunder(&table);
        let n = rng.pick(&[n, usize::MAX]);
        let _ = precision::probable_error(&directions, &q, n);
        let fitting = station::AnswerLengths::fitting();
        let _ = station::station_means_i64(&kinds, &values, &d, &i, fitting);
        let lengths = [rng.pick(&[kinds.len(), 0, usize::MAX]); rescue::ANSWERS];
        let _ = rescue::rescue(&kinds, &values, &d, &i, lengths);
        let bytes: Vec<u8> = (0..rng.below(60))
            .map(|_| rng.range(0, 255) as u8)
            .collect();
        let _ = network::listing(&bytes);
        let _ = network::probable_listing(&bytes);
        let _ = network::weakness(&bytes);
        let _ = network::margins(&bytes);
        let _ = network::blunder(&bytes);
        let _ = book::listing(&bytes);
        let _ = book::rescued_listing(&bytes);
        let _ = book::dropped_listing(&bytes);
        let _ = reports::report(&bytes);
        let _ = reports::add_reports(&bytes);
        let _ = sheet::listing(&bytes, &bytes);
        let _ = sheet::listing(WILD_NET, &wild_sheet(&mut rng));
        wild_season(&mut rng, &bytes);
        let _ = lines::line(&bytes, rng.below(70));
        let _ = lines::read_number(&bytes);
    }
    let wide = [i128::MIN, i128::MAX];
    let fitting = station::AnswerLengths::fitting();
    assert_eq!(
        station::station_means(&wide, &wide, &wide, &wide, fitting),
        refused(22, 1)
    );
}
