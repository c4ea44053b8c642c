//! How often each reply occurs among the generated inputs, so that one sees what a
//! differential test over them would reach.

use std::collections::BTreeMap;
use std::fmt::Debug;

use crate::adjustment::{Adjustment, Weakness};
use crate::generate::{
    archive_case, book_case, line_case, network_case, number_case, precision_case, reports_case,
    rescue_case, sheet_case, spoiled_book_case, state_case, station_case, sum_case, table_case,
    terms_case, PrecisionCase, RescueCase, Rng, SheetCase,
};
use crate::refusal::{Refusal, CORRECTION, RANGE};
use crate::rescue::{rescue, Rescued};
use crate::sheet::{self, Answer, Fault};
use crate::{adjustment, book, condition, lines, network, precision, reports, season, station};

/// Replies by number, 0 for acceptance, with how often each occurred.
pub type Replies = BTreeMap<i64, usize>;

/// The counts of one seed and so many cases for each kind of input.
#[derive(Clone, Debug, Default, PartialEq, Eq)]
pub struct Census {
    pub station: Replies,
    pub coefficients: Replies,
    pub misclosure: Replies,
    pub table: Replies,
    pub network: Replies,
    pub probable_error: Replies,
    pub probable_file: Replies,
    pub book: Replies,
    pub report: Replies,
    pub season_next: Replies,
    pub season_end: Replies,
    pub add_reports: Replies,
    pub texts_of_reports: Replies,
    pub rescue: Replies,
    /// Accepted lists by the reasons for which sightings of them are dropped, each list once
    /// for each reason, and under 0 where none is.
    pub rescue_reasons: Replies,
    /// What the means of the kept sightings are refused with, 0 for accepted.
    pub rescued_means: Replies,
    /// Pairs of lists that are not refused by s, at its limits and just past them.
    pub rescue_limits: Replies,
    /// Accepted lists of 512 sightings, those of which over 256 are dropped, and those of
    /// which one pair is left.
    pub rescue_sizes: [usize; 3],
    pub rescue_book: Replies,
    pub sheet: Replies,
    /// Sheets with yes and with no, by what the net is refused with when it is adjusted.
    pub sheets_yes: Replies,
    pub sheets_no: Replies,
    /// Which test was the first to fail.
    pub sheet_faults: BTreeMap<Fault, usize>,
    /// Sheets with yes in which some |K| is 10^8, some |R| 50,000,000 and some |u| 60,000;
    /// then those with no for one more.
    pub sheets_at_limits: [usize; 3],
    pub sheets_past_limits: [usize; 3],
    /// Listings with a yes of n = 24, of m = 64, and of both.
    pub largest_sheets: [usize; 3],
    /// Listings of more than 65,535 bytes.
    pub long_sheets: usize,
    /// Accepted tables of n = 24, of m = 64, and of both; then the same of networks.
    pub largest_tables: [usize; 3],
    pub largest_networks: [usize; 3],
    /// Accepted lists of corrections of n = 24, of m = 64, and of both.
    pub largest_corrections: [usize; 3],
    /// Those whose S is one below a square times 2,520*n, just that, and one above it.
    pub squares: [usize; 3],
    /// Those whose probable error is a half, before it is rounded.
    pub halves: usize,
    /// Accepted books of 512 sightings, of 16 objects, and of one pair alone.
    pub book_sizes: [usize; 3],
    /// Books that are just as long as a file may be, and just one byte longer.
    pub book_lengths: [usize; 2],
    /// Accepted tables in which some |K| is 10^8, and in which some |R| is 50,000,000.
    pub limits_met: [usize; 2],
    /// Accepted tables in which some |u| is 60,000, and those refused for a |u| of 60,001,
    /// by u; then the same of networks.
    pub table_minutes: BTreeMap<i64, usize>,
    pub network_minutes: BTreeMap<i64, usize>,
    /// Why weak rows were weak, in tables and in networks.
    pub table_weaknesses: BTreeMap<Weakness, usize>,
    pub network_weaknesses: BTreeMap<Weakness, usize>,
    /// Rows whose 1,000*D(j,j) was up to 10 below N(j,j), at it, and up to 10 above, in
    /// tables and in networks.
    pub table_pivots: [usize; 3],
    pub network_pivots: [usize; 3],
    /// Places beside a pivot whose |D| was up to 30 below its limit, at it, and up to 30
    /// above, in tables.
    pub table_coefficients: [usize; 3],
    /// Nets of archives by the number that they count under, and those of them with two
    /// conditions that share three directions.
    pub season_nets: Replies,
    pub season_shared: usize,
    /// Archives of no bytes, those with bytes left, and those in more than one part.
    pub archives: [usize; 3],
    /// States at the start of a line, after a full stop there and elsewhere, of those that
    /// are not refused.
    pub states: [usize; 3],
    /// The same states by the bytes of the open net: 65,535, 65,536 and 65,537.
    pub long_states: [usize; 3],
    /// Ordinals of the numbers for which states and reports are refused with 3.
    pub state_ordinals: Replies,
    pub sum_ordinals: Replies,
    pub line_statuses: BTreeMap<lines::LineStatus, usize>,
    /// Malformed and well-formed numbers.
    pub numbers: BTreeMap<bool, usize>,
}

/// Takes the census of `cases` inputs of each kind.
pub fn take(seed: u64, cases: usize) -> Census {
    let mut census = Census::default();
    let mut rng = Rng::new(seed);
    // What came later is drawn apart, so that the other inputs stay those they were.
    let mut later = Rng::new(!seed);
    let mut latest = Rng::new(seed.rotate_left(32));
    let mut spoiled = Rng::new(!seed.rotate_left(32));
    for _ in 0..cases {
        count_station(&mut rng, &mut census);
        count_terms(&mut rng, &mut census);
        count_table(&mut rng, &mut census);
        count_network(&mut rng, &mut census);
        count_probable(&mut rng, &mut census);
        count_book(&mut rng, &mut census);
        count_season(&mut later, &mut census);
        count_states(&mut later, &mut census);
        count_sums(&mut later, &mut census);
        count_sheet(&mut latest, &mut census);
        count_rescue(&mut spoiled, &mut census);
        let case = line_case(&mut rng);
        let status = lines::line_status(&case.file, case.start);
        *census.line_statuses.entry(status).or_default() += 1;
        let number = lines::read_number(&number_case(&mut rng).field);
        *census.numbers.entry(number.is_some()).or_default() += 1;
    }
    census
}

fn count<T>(replies: &mut Replies, reply: &Result<T, Refusal>) {
    let number = match reply {
        Ok(_) => 0,
        Err(refusal) => refusal.number,
    };
    *replies.entry(number).or_default() += 1;
}

fn count_station(rng: &mut Rng, census: &mut Census) {
    let case = station_case(rng);
    let reply = station::station_means_i64(
        &case.position,
        &case.object,
        &case.face,
        &case.reading,
        case.lengths,
    );
    count(&mut census.station, &reply);
}

fn count_terms(rng: &mut Rng, census: &mut Census) {
    let case = terms_case(rng);
    let lent = case.condition();
    let coefficients =
        condition::coefficients(&case.directions, &case.q, &lent, case.answer_length);
    count(&mut census.coefficients, &coefficients);
    let misclosure = condition::misclosure(&case.directions, &case.q, &lent);
    count(&mut census.misclosure, &misclosure);
}

fn count_table(rng: &mut Rng, census: &mut Census) {
    let case = table_case(rng);
    let reply = adjustment::adjust(&case.table(), case.lengths);
    count(&mut census.table, &reply);
    let blunder = || adjustment::blunder(&case.table());
    count_minutes(&mut census.table_minutes, &reply, blunder);
    if let Ok(adjustment) = reply {
        let largest = largest(adjustment.v.len(), adjustment.k.len());
        add(&mut census.largest_tables, largest);
        let met = |list: &[i64], limit: i64| list.iter().any(|x| x.abs() == limit);
        let limits = [
            met(&adjustment.k, 100_000_000),
            met(&adjustment.r, 50_000_000),
        ];
        add(&mut census.limits_met, limits);
    }
    let weakness = adjustment::weakness(&case.table());
    count_weakness(&mut census.table_weaknesses, weakness);
    let margins = adjustment::margins(&case.table()).unwrap_or_default();
    count_margins(&mut census.table_pivots, &margins.pivots, 10);
    count_margins(&mut census.table_coefficients, &margins.coefficients, 30);
}

fn count_network(rng: &mut Rng, census: &mut Census) {
    let file = network_case(rng).file;
    let reply = network::adjust_network(&file);
    count(&mut census.network, &reply);
    count_minutes(&mut census.network_minutes, &reply, || {
        network::blunder(&file)
    });
    if let Ok(adjustment) = reply {
        let largest = largest(adjustment.v.len(), adjustment.k.len());
        add(&mut census.largest_networks, largest);
    }
    count_weakness(&mut census.network_weaknesses, network::weakness(&file));
    let margins = network::margins(&file).unwrap_or_default();
    count_margins(&mut census.network_pivots, &margins.pivots, 10);
    let probable = network::probable_file(&file, network::PROBABLE_ROOM);
    count(&mut census.probable_file, &probable);
}

fn count_weakness(weaknesses: &mut BTreeMap<Weakness, usize>, weakness: Option<Weakness>) {
    if let Some(weakness) = weakness {
        *weaknesses.entry(weakness).or_default() += 1;
    }
}

/// Adds the margins that are just below 0, 0, and just above.
fn count_margins(totals: &mut [usize; 3], margins: &[i64], just: i64) {
    for margin in margins {
        let seen = [
            (-just..=-1).contains(margin),
            *margin == 0,
            (1..=just).contains(margin),
        ];
        add(totals, seen);
    }
}

fn count_minutes(
    minutes: &mut BTreeMap<i64, usize>,
    reply: &Result<Adjustment, Refusal>,
    blunder: impl Fn() -> Option<i64>,
) {
    let met = |u: &i64| match reply {
        Ok(adjustment) => u.abs() == 60_000 && adjustment.u.contains(u),
        Err(refusal) => refusal.number == CORRECTION && blunder() == Some(*u),
    };
    for u in [-60_001, -60_000, 60_000, 60_001].into_iter().filter(met) {
        *minutes.entry(u).or_default() += 1;
    }
}

fn count_probable(rng: &mut Rng, census: &mut Census) {
    let PrecisionCase { u, q, n } = precision_case(rng);
    let reply = precision::probable_error(&u, &q, n);
    count(&mut census.probable_error, &reply);
    if let Ok(errors) = reply {
        add(&mut census.largest_corrections, largest(u.len(), n));
        let s = precision::weighted_squares(&u, &q);
        let square = |e: i64| i128::from(e).pow(2) * precision::WHOLE * n as i128;
        let (below, above) = (square(errors.mean), square(errors.mean + 1));
        add(
            &mut census.squares,
            [s + 1 == above, s == below, s - 1 == below],
        );
        census.halves += usize::from(6_745 * errors.mean % 10_000 == 5_000);
    }
}

fn count_book(rng: &mut Rng, census: &mut Census) {
    let file = book_case(rng).file;
    let reply = book::station_book(&file, book::LISTING_ROOM);
    count(&mut census.book, &reply);
    let longest = lines::MOST_BYTES;
    let lengths = [file.len() == longest, file.len() == longest + 1];
    add(&mut census.book_lengths, lengths);
    if let Ok(listing) = reply {
        let sizes = [
            listing.starts_with(b"STA\t512\t"),
            listing.split_inclusive(|&byte| byte == b'\n').count() == 17,
            listing.starts_with(b"STA\t2\t"),
        ];
        add(&mut census.book_sizes, sizes);
    }
}

fn count_rescue(rng: &mut Rng, census: &mut Census) {
    let case = rescue_case(rng);
    let RescueCase {
        position,
        object,
        face,
        reading,
        lengths,
    } = &case;
    let reply = rescue(position, object, face, reading, *lengths);
    count(&mut census.rescue, &reply);
    if let Ok(rescued) = reply {
        count_rescued(&case, &rescued, census);
    }
    let file = spoiled_book_case(rng).file;
    let reply = book::rescue_book(&file, book::RESCUED_ROOM);
    count(&mut census.rescue_book, &reply);
}

fn count_rescued(case: &RescueCase, rescued: &Rescued, census: &mut Census) {
    let mut seen = |reason: i64| *census.rescue_reasons.entry(reason).or_default() += 1;
    for reason in (1..=4).filter(|reason| rescued.reasons.contains(reason)) {
        seen(reason as i64);
    }
    if rescued.reasons.is_empty() {
        seen(0);
    }
    let means = station::station_means_i64(
        &rescued.position,
        &rescued.object,
        &rescued.face,
        &rescued.reading,
        station::AnswerLengths::fitting(),
    );
    count(&mut census.rescued_means, &means);
    let sizes = [
        case.position.len() == 512,
        rescued.ordinals.len() > 256,
        rescued.position.len() == 2,
    ];
    add(&mut census.rescue_sizes, sizes);
    let faces = |face: i64| (0..case.face.len()).filter(move |&index| case.face[index] == face);
    for left in faces(0) {
        let key = |index: usize| [case.position[index], case.object[index]];
        for right in faces(1).filter(|&right| key(right) == key(left)) {
            let [left, right] = [left, right].map(|index| i128::from(case.reading[index]));
            let s = station::s_of(left, right) as i64;
            if [60_000, 60_001].contains(&s.abs()) {
                *census.rescue_limits.entry(s).or_default() += 1;
            }
        }
    }
}

fn count_season(rng: &mut Rng, census: &mut Census) {
    let case = archive_case(rng);
    let mut totals = vec![0; case.room];
    let reply = season::report(&case.archive, &mut totals);
    count(&mut census.report, &reply);
    let left =
        !case.archive.is_empty() && !case.archive.ends_with(b"\n.\n") && case.archive != b".\n";
    let seen = [case.archive.is_empty(), left, case.cuts.len() > 1];
    add(&mut census.archives, seen);
    // Of the largest archives nearly all nets are alike.
    if let ([nets, counts @ .., _, _, _, _, shared], true) = (&totals[..], reply.is_ok()) {
        if *nets < 1_000 {
            for (number, &nets) in (0..).zip(counts) {
                *census.season_nets.entry(number).or_default() += nets as usize;
            }
            census.season_shared += *shared as usize;
        }
    }
}

fn count_states(rng: &mut Rng, census: &mut Census) {
    let case = state_case(rng);
    let (mut held, mut totals) = (case.held.clone(), case.totals.clone());
    let mut place = case.place.clone();
    let reply = season::end(&held, &mut totals, &mut place);
    count(&mut census.season_end, &reply);
    let (mut totals, mut place) = (case.totals.clone(), case.place.clone());
    let reply = season::next(&case.bytes, &mut held, &mut totals, &mut place);
    count(&mut census.season_next, &reply);
    count_ordinal(&mut census.state_ordinals, &reply);
    if let (Ok(()), [open, in_line, _]) = (reply, &case.place[..]) {
        add(&mut census.states, [0, 1, 2].map(|place| place == *in_line));
        let long = [65_535, 65_536, 65_537].map(|length| length == *open);
        add(&mut census.long_states, long);
    }
}

fn count_sums(rng: &mut Rng, census: &mut Census) {
    let case = sum_case(rng);
    let reply = season::add_reports(&case.first, &case.second, &mut vec![0; case.room]);
    count(&mut census.add_reports, &reply);
    count_ordinal(&mut census.sum_ordinals, &reply);
    let text = reports::add_reports(&reports_case(rng).file);
    let number = match text.strip_prefix(b"REFUSED\t") {
        Some(rest) if rest.starts_with(b"30\t") => 30,
        Some(_) => 1,
        None => 0,
    };
    *census.texts_of_reports.entry(number).or_default() += 1;
}

fn count_sheet(rng: &mut Rng, census: &mut Census) {
    let SheetCase { net, listing } = sheet_case(rng);
    let reply = sheet::check(&net, &listing);
    count(&mut census.sheet, &reply);
    census.long_sheets += usize::from(listing.len() > lines::MOST_BYTES);
    let Ok(answer) = reply else { return };
    let adjusted = network::adjust_network(&net);
    let sizes = SheetSizes::of(&listing);
    match answer {
        Answer::Yes => {
            count(&mut census.sheets_yes, &adjusted);
            add(&mut census.sheets_at_limits, sizes.largest_are(0));
            add(
                &mut census.largest_sheets,
                largest(sizes.u.len(), sizes.k.len()),
            );
        }
        Answer::No(_) => count(&mut census.sheets_no, &adjusted),
    }
    if let Some(fault) = sheet::fault(&net, &listing) {
        *census.sheet_faults.entry(fault).or_default() += 1;
        let limits = [Fault::Correlate, Fault::RemainderSize, Fault::Minute];
        let past = sizes.largest_are(1);
        let past = [0, 1, 2].map(|index| past[index] && fault == limits[index]);
        add(&mut census.sheets_past_limits, past);
    }
}

/// The sizes of the numbers of a listing that have limits.
struct SheetSizes {
    k: Vec<u64>,
    r: Vec<u64>,
    u: Vec<u64>,
}

impl SheetSizes {
    /// Those of a listing in form.
    fn of(listing: &[u8]) -> Self {
        let text = String::from_utf8_lossy(listing);
        let sizes = |letter: &str, field: usize| -> Vec<u64> {
            let lines = text
                .lines()
                .map(|line| line.split('\t').collect::<Vec<_>>());
            let fields = lines.filter(|line| line[0] == letter);
            let number = |line: Vec<&str>| line[field].parse::<i64>().map_or(0, i64::unsigned_abs);
            fields.map(number).collect()
        };
        SheetSizes {
            k: sizes("K", 2),
            r: sizes("K", 3),
            u: sizes("V", 2),
        }
    }

    /// Whether the largest K, R and u stand so far past their limits.
    fn largest_are(&self, past: u64) -> [bool; 3] {
        let is_largest = |list: &[u64], size: u64| list.iter().max() == Some(&size);
        [
            is_largest(&self.k, 100_000_000 + past),
            is_largest(&self.r, 50_000_000 + past),
            is_largest(&self.u, 60_000 + past),
        ]
    }
}

/// Adds the place of a number out of its range.
fn count_ordinal(ordinals: &mut Replies, reply: &Result<(), Refusal>) {
    if let Err(Refusal {
        number: RANGE,
        place,
    }) = reply
    {
        *ordinals.entry(*place).or_default() += 1;
    }
}

/// Whether n is 24, m is 64, and both.
fn largest(m: usize, n: usize) -> [bool; 3] {
    [n == 24, m == 64, n == 24 && m == 64]
}

fn add<const N: usize>(totals: &mut [usize; N], seen: [bool; N]) {
    for (total, seen) in totals.iter_mut().zip(seen) {
        *total += usize::from(seen);
    }
}

/// The census as text, one line for each kind of input.
pub fn report(census: &Census) -> String {
    let sizes = |name: &str, [conditions, directions, both]: [usize; 3]| {
        format!("{name} accepted: n = 24 {conditions}, m = 64 {directions}, both {both}\n")
    };
    let next_to = |name: &str, [below, at, above]: [usize; 3]| {
        format!("{name}: below {below}, at {at}, above {above}\n")
    };
    let [k, r] = census.limits_met;
    let [below, at, above] = census.squares;
    let [sightings, objects, pair] = census.book_sizes;
    let [longest, too_long] = census.book_lengths;
    let [most, many, one] = census.rescue_sizes;
    let [empty, left, parts] = census.archives;
    let [start, stop, elsewhere] = census.states;
    let [one_less, held, more] = census.long_states;
    let limits = |name: &str, [k, r, u]: [usize; 3]| format!("{name}: K {k}, R {r}, u {u}\n");
    [
        describe("station", &census.station),
        describe("coefficients", &census.coefficients),
        describe("misclosure", &census.misclosure),
        describe("table", &census.table),
        describe("network", &census.network),
        describe("probable error", &census.probable_error),
        describe("probable file", &census.probable_file),
        describe("book", &census.book),
        describe("report", &census.report),
        describe("season next", &census.season_next),
        describe("season end", &census.season_end),
        describe("add reports", &census.add_reports),
        describe("texts of reports", &census.texts_of_reports),
        describe("rescue", &census.rescue),
        describe("reasons of a rescue", &census.rescue_reasons),
        describe("means of what is kept", &census.rescued_means),
        describe("faces next to their limit", &census.rescue_limits),
        format!(
            "lists rescued: 512 sightings {most}, over 256 dropped {many}, one pair left {one}\n"
        ),
        describe("rescue of a book", &census.rescue_book),
        describe("sheet", &census.sheet),
        describe("sheets with yes, by the net", &census.sheets_yes),
        describe("sheets with no, by the net", &census.sheets_no),
        describe("first faults of sheets", &census.sheet_faults),
        limits("limits met in sheets with yes", census.sheets_at_limits),
        limits("limits passed by one in sheets", census.sheets_past_limits),
        sizes("sheets", census.largest_sheets),
        format!("listings of over 65,535 bytes {}\n", census.long_sheets),
        sizes("tables", census.largest_tables),
        sizes("networks", census.largest_networks),
        sizes("corrections", census.largest_corrections),
        format!("squares in accepted corrections: S below {below}, at {at}, above {above}\n"),
        format!("probable errors of a half {}\n", census.halves),
        format!(
            "books accepted: 512 sightings {sightings}, 16 objects {objects}, one pair {pair}\n"
        ),
        format!("books of 65,535 bytes {longest}, of 65,536 {too_long}\n"),
        format!("limits met exactly in accepted tables: K {k}, R {r}\n"),
        describe(
            "corrections next to one minute, tables",
            &census.table_minutes,
        ),
        describe(
            "corrections next to one minute, networks",
            &census.network_minutes,
        ),
        describe("weak rows, tables", &census.table_weaknesses),
        describe("weak rows, networks", &census.network_weaknesses),
        next_to("1,000*D next to N, tables", census.table_pivots),
        next_to("1,000*D next to N, networks", census.network_pivots),
        next_to("|D| next to its limit, tables", census.table_coefficients),
        describe("nets of archives", &census.season_nets),
        format!(
            "nets that share three directions {}\n",
            census.season_shared
        ),
        format!("archives: empty {empty}, with bytes left {left}, in parts {parts}\n"),
        format!("states: line start {start}, after a full stop {stop}, elsewhere {elsewhere}\n"),
        format!("open nets of 65,535 bytes {one_less}, of 65,536 {held}, of more {more}\n"),
        describe("numbers out of range, states", &census.state_ordinals),
        describe("numbers out of range, reports", &census.sum_ordinals),
        describe("line statuses", &census.line_statuses),
        describe("numbers well formed", &census.numbers),
    ]
    .concat()
}

fn describe<K: Debug>(name: &str, counts: &BTreeMap<K, usize>) -> String {
    let total: usize = counts.values().sum();
    let share = |count: usize| 100.0 * count as f64 / total.max(1) as f64;
    let shares = counts
        .iter()
        .map(|(key, &count)| format!("{key:?}: {count} ({:.1}%)", share(count)));
    format!("{name}: {}\n", shares.collect::<Vec<_>>().join(", "))
}
