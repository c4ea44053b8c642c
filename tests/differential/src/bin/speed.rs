//! speed [CALLS [REPEATS]]: how long the library and `reference/` take for nets and
//! sighting books as large as the rules allow, in one process and in turn; then for the
//! archive of a season.
//! speed season [REPEATS]: the archive alone.
//! speed net [NUMBER], speed book [NUMBER]: the file of one of these nets or books, 1 to
//! 16, for timing the programs.

use std::env;
use std::hint::black_box;
use std::io::{self, Write};
use std::process::ExitCode;
use std::time::Instant;

use differential::book::fullest_book;
use differential::lent::Lent;
use differential::molsadriu::{
    self, Counts, OnFile, Verdict, LISTING, PROBABLE_LISTING, STATION_LISTING,
};
use differential::net::{self, Net};
use reference::precision::Errors;
use reference::refusal::Refusal;
use reference::season::{report_of, HELD, MOST_NETS, PLACES, TOTALS};
use reference::{adjustment, book, network, precision};

/// Nets, or books, in rotation. One net over and over would flatter: the processor learns
/// its branches.
const ROTATION: usize = 16;
/// Net 1 and book 1 are drawn from this seed, and each of the others from the next.
const SEED: u64 = 138;
const CALLS: usize = 10_000;
const REPEATS: usize = 5;
/// Calls between two looks at the clock, some rounds of all nets or books; the two sides take
/// turns in such blocks.
const BLOCK: usize = 5 * ROTATION;

/// The net of the season, which is there as often as a report holds nets.
const SEASON_NET: &[u8] = include_bytes!("../../../../examples/quadrilateral.net");
/// The bytes of a part in which a stream takes the season.
const PART: usize = 65_536;

const ACCEPTED: Verdict = Verdict {
    number: 0,
    place: 0,
};

fn main() -> ExitCode {
    let words: Vec<String> = env::args().skip(1).collect();
    let number = |index: usize, otherwise: usize| match words.get(index) {
        Some(word) => word.parse().unwrap_or(0),
        None => otherwise,
    };
    if words.first().is_some_and(|word| word == "season") {
        return match number(1, REPEATS) {
            0 => usage(),
            repeats => season(repeats),
        };
    }
    let nets: Option<Vec<Net>> = (SEED..).take(ROTATION).map(net::accepted).collect();
    let Some(nets) = nets else {
        eprintln!("a seed has no net that is accepted");
        return ExitCode::FAILURE;
    };
    let books: Vec<Vec<u8>> = (SEED..).take(ROTATION).map(fullest_book).collect();
    let wanted = number(1, 1).wrapping_sub(1);
    match words.first().map(String::as_str) {
        Some("net") => return write_file(nets.get(wanted).map(|net| &net.file)),
        Some("book") => return write_file(books.get(wanted)),
        _ => {}
    }
    let (blocks, repeats) = (number(0, CALLS) / BLOCK, number(1, REPEATS));
    if blocks == 0 || repeats == 0 {
        return usage();
    }
    let mut tables: Vec<Table> = nets.iter().map(Table::of).collect();
    let mut corrections: Vec<Corrections> = nets.iter().map(Corrections::of).collect();
    // The second reading is lent the same once more: the two are called in turn.
    let also_lent: Vec<Corrections> = nets.iter().map(Corrections::of).collect();
    let lent_net = |net: &Net| File::of(&net.file, LISTING, molsadriu::adjust_file);
    let with_errors = |net: &Net| File::of(&net.file, PROBABLE_LISTING, molsadriu::probable_file);
    let lent_book = |book: &Vec<u8>| File::of(book, STATION_LISTING, molsadriu::station_book);
    let mut files: Vec<File> = nets.iter().map(lent_net).collect();
    let mut probable_files: Vec<File> = nets.iter().map(with_errors).collect();
    let mut lent_books: Vec<File> = books.iter().map(lent_book).collect();

    // Both sides are timed on the same work only if they agree on it.
    let mut lent = tables.iter_mut().zip(&mut files).zip(&nets);
    if !lent.all(|((table, file), net)| {
        table.agrees(net) && file.agrees(network::adjust_file(&net.file, LISTING))
    }) {
        eprintln!("the two sides do not agree on a net");
        return ExitCode::FAILURE;
    }
    let mut lent = corrections.iter_mut().zip(&mut probable_files).zip(&nets);
    if !lent.all(|((corrections, file), net)| {
        corrections.agrees() && file.agrees(network::probable_file(&net.file, PROBABLE_LISTING))
    }) {
        eprintln!("the two sides do not agree on the errors of a net");
        return ExitCode::FAILURE;
    }
    let mut lent = lent_books.iter_mut().zip(&books);
    if !lent.all(|(lent, book)| lent.agrees(book::station_book(book, STATION_LISTING))) {
        eprintln!("the two sides do not agree on a book");
        return ExitCode::FAILURE;
    }

    println!(
        "{ROTATION} nets of 64 directions and 24 conditions of 12 terms in rotation, and {ROTATION} books of 512 sightings; times per call in microseconds"
    );
    report(
        "condition table",
        blocks,
        repeats,
        |net| {
            black_box(black_box(&mut tables[net]).adjust());
        },
        |net| {
            let table = black_box(&nets[net].table);
            let _ = black_box(adjustment::adjust(&table.table(), table.lengths));
        },
    );
    let bytes: usize = nets.iter().map(|net| net.file.len()).sum();
    report(
        &format!("network file of {} bytes in the mean", bytes / ROTATION),
        blocks,
        repeats,
        |net| {
            black_box(black_box(&mut files[net]).list());
        },
        |net| {
            let _ = black_box(network::adjust_file(black_box(&nets[net].file), LISTING));
        },
    );
    report(
        "probable error from the corrections of a net",
        blocks,
        repeats,
        |net| {
            black_box(black_box(&mut corrections[net]).errors());
        },
        |net| {
            let _ = black_box(black_box(&also_lent[net]).reference_errors());
        },
    );
    report(
        "the same network files, listed with the E line",
        blocks,
        repeats,
        |net| {
            black_box(black_box(&mut probable_files[net]).list());
        },
        |net| {
            let file = black_box(&nets[net].file);
            let _ = black_box(network::probable_file(file, PROBABLE_LISTING));
        },
    );
    let bytes: usize = books.iter().map(Vec::len).sum();
    report(
        &format!("sighting book of {} bytes in the mean", bytes / ROTATION),
        blocks,
        repeats,
        |book| {
            black_box(black_box(&mut lent_books[book]).list());
        },
        |book| {
            let _ = black_box(book::station_book(black_box(&books[book]), STATION_LISTING));
        },
    );
    season(repeats)
}

fn usage() -> ExitCode {
    eprintln!(
        "use: speed [CALLS [REPEATS]], at least {BLOCK} and 1; speed season [REPEATS]; or speed net [NUMBER] or speed book [NUMBER], 1 to {ROTATION}"
    );
    ExitCode::from(2)
}

fn write_file(file: Option<&Vec<u8>>) -> ExitCode {
    match file.map(|file| io::stdout().write_all(file)) {
        Some(Ok(())) => ExitCode::SUCCESS,
        Some(Err(_)) => ExitCode::FAILURE,
        None => usage(),
    }
}

/// A net's table as it is lent to the library, with its answer lists.
struct Table {
    lists: [Lent<i64>; 10],
}

impl Table {
    fn of(net: &Net) -> Self {
        let table = &net.table;
        let (m, n) = (Lent::blank(table.q.len()), Lent::blank(table.w.len()));
        Table {
            lists: [
                Lent::holding(&table.directions),
                Lent::holding(&table.q),
                Lent::holding(&table.a),
                Lent::holding(&table.w),
                m.clone(),
                m.clone(),
                m,
                n.clone(),
                n.clone(),
                n,
            ],
        }
    }

    fn adjust(&mut self) -> Verdict {
        molsadriu::adjust_table(&mut self.lists)
    }

    /// Whether both sides accept the net and give the same answers.
    fn agrees(&mut self, net: &Net) -> bool {
        let verdict = self.adjust();
        adjustment::adjust(&net.table.table(), net.table.lengths).is_ok_and(|all| {
            let answers = [&all.v, &all.u, &all.adjusted, &all.k, &all.r, &all.q];
            let mut pairs = self.lists[4..].iter().zip(answers);
            verdict == ACCEPTED && pairs.all(|(lent, answer)| lent.list() == &answer[..])
        })
    }
}

/// A net's printed corrections and inverse weights as they are lent to the library, with
/// the two numbers for the answer.
struct Corrections {
    lists: [Lent<i64>; 4],
    n: usize,
}

impl Corrections {
    /// All nets here are accepted; a net that is not would have no corrections.
    fn of(net: &Net) -> Self {
        let table = &net.table;
        let adjusted = adjustment::adjust(&table.table(), table.lengths);
        let u = adjusted.map_or(Vec::new(), |all| all.u);
        Corrections {
            lists: [
                Lent::holding(&u),
                Lent::holding(&table.q),
                Lent::blank(1),
                Lent::blank(1),
            ],
            n: table.w.len(),
        }
    }

    fn errors(&mut self) -> Verdict {
        molsadriu::probable_error(self.n, &mut self.lists)
    }

    fn reference_errors(&self) -> Result<Errors, Refusal> {
        let [u, q, ..] = &self.lists;
        precision::probable_error(u.list(), q.list(), self.n)
    }

    /// Whether both sides accept the corrections and give the same errors.
    fn agrees(&mut self) -> bool {
        let verdict = self.errors();
        let [_, _, mean, probable] = &self.lists;
        self.reference_errors().is_ok_and(|errors| {
            verdict == ACCEPTED
                && mean.list() == [errors.mean]
                && probable.list() == [errors.probable]
        })
    }
}

/// A file as it is lent to an operation of the library, with what its listing goes into.
struct File {
    bytes: Lent<u8>,
    out: Lent<u8>,
    length: Lent<i64>,
    operation: OnFile,
}

impl File {
    fn of(file: &[u8], room: usize, operation: OnFile) -> Self {
        File {
            bytes: Lent::holding(file),
            out: Lent::blank(room),
            length: Lent::blank(1),
            operation,
        }
    }

    fn list(&mut self) -> Verdict {
        (self.operation)(&mut self.bytes, &mut self.out, &mut self.length)
    }

    /// Whether both sides accept the file and give the same listing.
    fn agrees(&mut self, reply: Result<Vec<u8>, Refusal>) -> bool {
        let verdict = self.list();
        reply.is_ok_and(|listing| {
            verdict == ACCEPTED
                && self.length.list() == [listing.len() as i64]
                && self.out.list().starts_with(&listing)
        })
    }
}

/// A season's archive as it is lent to the library, whole and in parts, with the lists of
/// its answers.
struct Season {
    archive: Lent<u8>,
    parts: Vec<Lent<u8>>,
    held: Lent<u8>,
    /// Totals and place.
    counts: [Counts; 2],
}

impl Season {
    fn of(archive: &[u8]) -> Self {
        Season {
            archive: Lent::holding(archive),
            parts: archive.chunks(PART).map(Lent::holding).collect(),
            held: Lent::blank(HELD),
            counts: [Lent::blank(TOTALS), Lent::blank(PLACES)],
        }
    }

    fn report(&mut self) -> Verdict {
        molsadriu::report(&mut self.archive, &mut self.counts[0])
    }

    /// The verdict at the end of the stream, or the first that is not 0.
    fn stream(&mut self) -> Verdict {
        let Season {
            parts,
            held,
            counts,
            ..
        } = self;
        let begun = molsadriu::season_begin(held, counts);
        let mut taken = parts
            .iter_mut()
            .map(|part| molsadriu::season_next(part, held, counts));
        match taken.find(|verdict| *verdict != ACCEPTED) {
            Some(verdict) => verdict,
            None if begun != ACCEPTED => begun,
            None => molsadriu::season_end(held, counts),
        }
    }
}

/// Times the archive of as many nets as a report holds, whole and in parts, against its nets
/// adjusted one by one.
fn season(repeats: usize) -> ExitCode {
    let net = [SEASON_NET, b".\n"].concat();
    let archive = net.repeat(MOST_NETS as usize);
    let mut season = Season::of(&archive);
    let mut file = File::of(SEASON_NET, LISTING, molsadriu::adjust_file);
    let expected = report_of(&archive).totals;
    let mut agrees = file.agrees(network::adjust_file(SEASON_NET, LISTING));
    for call in [Season::report, Season::stream] {
        season.counts[0] = Lent::blank(TOTALS);
        agrees &= call(&mut season) == ACCEPTED && season.counts[0].list() == expected;
    }
    if !agrees {
        eprintln!("the two sides do not agree on the season");
        return ExitCode::FAILURE;
    }
    println!(
        "archive of {MOST_NETS} nets, all of them examples/quadrilateral.net, {} bytes: {repeats} times; parts of {PART} bytes",
        archive.len()
    );
    let mut all = [Vec::new(), Vec::new(), Vec::new(), Vec::new()];
    for repeat in 1..=repeats {
        let took = [
            seconds(|| {
                black_box(black_box(&mut season).report());
            }),
            seconds(|| {
                black_box(black_box(&mut season).stream());
            }),
            seconds(|| {
                for _ in 0..MOST_NETS {
                    black_box(black_box(&mut file).list());
                }
            }),
            seconds(|| {
                black_box(report_of(black_box(&archive)));
            }),
        ];
        let [whole, parts, nets, reference] = took;
        println!(
            "  {repeat}: whole {whole:.3} s, in parts {parts:.3} s, net by net {nets:.3} s, reference {reference:.3} s"
        );
        for (times, took) in all.iter_mut().zip(took) {
            times.push(took);
        }
    }
    let per_net = |seconds: f64| seconds * 1e6 / MOST_NETS as f64;
    let [whole, parts, nets, reference] = all.map(|times| least_and_median(times).0);
    println!(
        "  least, per net in microseconds: whole {:.2}, in parts {:.2}, net by net {:.2}, reference {:.2}",
        per_net(whole),
        per_net(parts),
        per_net(nets),
        per_net(reference)
    );
    println!(
        "  least: whole / net by net {:.2}, in parts / net by net {:.2}, reference / whole {:.2}",
        whole / nets,
        parts / nets,
        reference / whole
    );
    ExitCode::SUCCESS
}

fn seconds(work: impl FnOnce()) -> f64 {
    let start = Instant::now();
    work();
    start.elapsed().as_secs_f64()
}

/// Times both sides in turn, and writes totals, least and median, and their ratios. Each
/// side is told the net or the book of a call by its place.
fn report(
    name: &str,
    blocks: usize,
    repeats: usize,
    mut library: impl FnMut(usize),
    mut reference: impl FnMut(usize),
) {
    println!("{name}: {} calls of each, {repeats} times", blocks * BLOCK);
    let mut all = [Vec::new(), Vec::new()];
    for repeat in 1..=repeats {
        let mut totals = [0.0, 0.0];
        for _ in 0..blocks {
            let took = [block(&mut library), block(&mut reference)];
            for side in 0..2 {
                totals[side] += took[side];
                all[side].push(took[side] / BLOCK as f64);
            }
        }
        let [library, reference] = totals.map(|total| total / 1e6);
        println!(
            "  {repeat}: library {library:.3} s, reference {reference:.3} s, reference / library {:.2}",
            reference / library
        );
    }
    let [(least, middle), (other_least, other_middle)] = all.map(least_and_median);
    println!(
        "  least:  library {least:.2}, reference {other_least:.2}, reference / library {:.2}",
        other_least / least
    );
    println!(
        "  median: library {middle:.2}, reference {other_middle:.2}, reference / library {:.2}",
        other_middle / middle
    );
}

/// Microseconds of a block of calls, net after net or book after book.
fn block(call: &mut impl FnMut(usize)) -> f64 {
    let start = Instant::now();
    for turn in 0..BLOCK {
        call(turn % ROTATION);
    }
    start.elapsed().as_secs_f64() * 1e6
}

fn least_and_median(mut times: Vec<f64>) -> (f64, f64) {
    times.sort_by(f64::total_cmp);
    (times[0], times[times.len() / 2])
}
