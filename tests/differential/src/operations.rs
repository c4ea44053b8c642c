//! Each operation of the header beside its second reading, and what cases are drawn for
//! it beyond those of the generator: null pointers, letters, rooms, lists of any length.

use std::fmt;

use reference::adjustment::{self, AnswerLengths};
use reference::book;
use reference::condition::{self, ConditionKind, LentCondition};
use reference::generate::{
    book_case, line_case, network_case, precision_case, station_case, table_case, terms_case,
    LineCase, PrecisionCase, Rng, StationCase, TableCase, TermsCase,
};
use reference::lines::{self, LineStatus};
use reference::network;
use reference::precision;
use reference::refusal::{refused_line, Refusal};
use reference::station;

use crate::compare::{Operation, Outcome, Reply};
use crate::lent::{Lent, Mark};
use crate::molsadriu::{
    self, Counts, OnFile, Verdict, LISTING, PROBABLE_LISTING, REFUSED_LINE, STATION_LISTING,
};

pub struct StationMeans;
pub struct Coefficients;
pub struct Misclosure;
pub struct AdjustTable;
pub struct AdjustFile;
pub struct ProbableError;
pub struct ProbableFile;
pub struct StationBook;
pub struct RefusedLine;
pub struct ListFile;
pub struct Line;
pub struct LineStatusAt;

/// A drawn case, and whether its empty lists are lent as null pointers.
#[derive(Debug)]
pub struct Drawn<C> {
    pub case: C,
    pub null: bool,
}

impl<C> Drawn<C> {
    pub(crate) fn new(case: C, rng: &mut Rng) -> Self {
        let null = rng.chance(50);
        Drawn { case, null }
    }

    pub(crate) fn holding(&self, values: &[i64]) -> Lent<i64> {
        Lent::holding(values).or_null(self.null)
    }

    pub(crate) fn blank(&self, length: usize) -> Lent<i64> {
        Lent::blank(length).or_null(self.null)
    }

    pub(crate) fn counts(&self, values: &[u64]) -> Counts {
        Lent::holding(values).or_null(self.null)
    }

    pub(crate) fn bytes(&self, values: &[u8]) -> Lent<u8> {
        Lent::holding(values).or_null(self.null)
    }
}

/// A list of any length and of any numbers, in one case of thirty in place of a drawn one.
pub(crate) fn wild(rng: &mut Rng, most: usize) -> Vec<i64> {
    let ends = [i64::MIN, i64::MAX, i64::MIN + 1, 0, 1, -1, 80, 70, 76, 82];
    let length = rng.below(most + 1);
    let number = |rng: &mut Rng| match rng.below(2) {
        0 => rng.pick(&ends),
        _ => rng.range(-3, 20),
    };
    (0..length).map(|_| number(rng)).collect()
}

/// The same of bytes.
pub(crate) fn wild_bytes(rng: &mut Rng) -> Vec<u8> {
    let length = rng.below(60);
    (0..length).map(|_| rng.range(0, 255) as u8).collect()
}

pub(crate) fn is_wild(rng: &mut Rng) -> bool {
    rng.below(30) == 0
}

/// Number and place of a refusal, as a verdict has them.
pub(crate) fn refused(refusal: Refusal) -> [u64; 2] {
    [refusal.number, refusal.place].map(|x| u64::try_from(x).unwrap_or(!0))
}

pub(crate) fn told(verdict: Verdict) -> [u64; 2] {
    [verdict.number, verdict.place]
}

/// What a call without lists of signed numbers leaves behind.
pub(crate) fn outcome(said: [u64; 2], counts: Vec<Counts>, bytes: Vec<Lent<u8>>) -> Outcome {
    Outcome {
        said,
        numbers: Vec::new(),
        counts,
        bytes,
    }
}

fn of_verdict(verdict: Verdict, numbers: impl Into<Vec<Lent<i64>>>) -> Outcome {
    Outcome {
        said: told(verdict),
        numbers: numbers.into(),
        counts: Vec::new(),
        bytes: Vec::new(),
    }
}

/// The outcome by the reference: the lists as they were lent, and where the input is
/// accepted the answers in the last of them.
fn expected<T>(
    reply: Result<T, Refusal>,
    numbers: impl Into<Vec<Lent<i64>>>,
    answers: impl Fn(&T) -> Vec<&[i64]>,
) -> Outcome {
    let mut numbers = numbers.into();
    let verdict = match reply {
        Ok(answer) => {
            let answers = answers(&answer);
            let first = numbers.len() - answers.len();
            for (lent, answer) in numbers[first..].iter_mut().zip(answers) {
                assert_eq!(lent.length(), answer.len());
                lent.put(answer);
            }
            [0, 0]
        }
        Err(refusal) => refused(refusal),
    };
    Outcome {
        said: verdict,
        numbers,
        counts: Vec::new(),
        bytes: Vec::new(),
    }
}

pub(crate) fn verdict_reply(outcome: &Outcome) -> Reply {
    match outcome.said {
        [0, _] => Reply::Accepted,
        [number, _] => Reply::Refused(number),
    }
}

fn station_lists(drawn: &Drawn<StationCase>) -> [Lent<i64>; 6] {
    let case = &drawn.case;
    [
        drawn.holding(&case.position),
        drawn.holding(&case.object),
        drawn.holding(&case.face),
        drawn.holding(&case.reading),
        drawn.blank(case.lengths.directions),
        drawn.blank(case.lengths.pairs),
    ]
}

impl Operation for StationMeans {
    type Case = Drawn<StationCase>;
    const NAME: &'static str = "station means";

    fn draw(rng: &mut Rng) -> Self::Case {
        let mut case = station_case(rng);
        if is_wild(rng) {
            let most = rng.pick(&[2, 40, 520]);
            let lists = [
                &mut case.position,
                &mut case.object,
                &mut case.face,
                &mut case.reading,
            ];
            for list in lists {
                *list = wild(rng, most);
            }
        }
        Drawn::new(case, rng)
    }

    fn library(drawn: &Self::Case) -> Outcome {
        let mut lists = station_lists(drawn);
        of_verdict(molsadriu::station_means(&mut lists), lists)
    }

    fn reference(drawn: &Self::Case) -> Outcome {
        let case = &drawn.case;
        let reply = station::station_means_i64(
            &case.position,
            &case.object,
            &case.face,
            &case.reading,
            case.lengths,
        );
        expected(reply, station_lists(drawn), |means| {
            vec![&means.directions, &means.pairs]
        })
    }

    fn reply(outcome: &Outcome) -> Reply {
        verdict_reply(outcome)
    }
}

/// A condition's terms under a letter, which may be none.
#[derive(Debug)]
pub struct Lettered {
    pub letter: u8,
    pub terms: TermsCase,
}

impl Lettered {
    fn draw(rng: &mut Rng) -> Self {
        let mut terms = terms_case(rng);
        if is_wild(rng) {
            let most = rng.pick(&[2, 12, 70]);
            let lists = [
                &mut terms.directions,
                &mut terms.q,
                &mut terms.kinds,
                &mut terms.values,
                &mut terms.d,
                &mut terms.i,
                &mut terms.k,
            ];
            for list in lists {
                *list = wild(rng, most);
            }
        }
        let letter = match (rng.below(25), terms.kind) {
            (0, _) => rng.range(0, 255) as u8,
            (1, _) => rng.pick(b"asPFLRCDBT\0\xc1\xd3"),
            (_, ConditionKind::Angle) => b'A',
            (_, ConditionKind::Side) => b'S',
        };
        Lettered { letter, terms }
    }

    fn condition(&self) -> Result<LentCondition<'_>, Refusal> {
        let kind = ConditionKind::from_letter(i64::from(self.letter))?;
        Ok(LentCondition {
            kind,
            ..self.terms.condition()
        })
    }
}

/// The seven lists that are read, and the one for the answer.
fn term_lists(drawn: &Drawn<Lettered>, answer: Lent<i64>) -> [Lent<i64>; 8] {
    let terms = &drawn.case.terms;
    [
        drawn.holding(&terms.directions),
        drawn.holding(&terms.q),
        drawn.holding(&terms.kinds),
        drawn.holding(&terms.values),
        drawn.holding(&terms.d),
        drawn.holding(&terms.i),
        drawn.holding(&terms.k),
        answer,
    ]
}

impl Operation for Coefficients {
    type Case = Drawn<Lettered>;
    const NAME: &'static str = "coefficients";

    fn draw(rng: &mut Rng) -> Self::Case {
        Drawn::new(Lettered::draw(rng), rng)
    }

    fn library(drawn: &Self::Case) -> Outcome {
        let Lettered { letter, terms } = &drawn.case;
        let mut lists = term_lists(drawn, drawn.blank(terms.answer_length));
        let verdict = molsadriu::coefficients(*letter, terms.target, &mut lists);
        of_verdict(verdict, lists)
    }

    fn reference(drawn: &Self::Case) -> Outcome {
        let terms = &drawn.case.terms;
        let reply = drawn.case.condition().and_then(|condition| {
            condition::coefficients(&terms.directions, &terms.q, &condition, terms.answer_length)
        });
        let lists = term_lists(drawn, drawn.blank(terms.answer_length));
        expected(reply, lists, |a| vec![a])
    }

    fn reply(outcome: &Outcome) -> Reply {
        verdict_reply(outcome)
    }
}

impl Operation for Misclosure {
    type Case = Drawn<Lettered>;
    const NAME: &'static str = "misclosure";

    fn draw(rng: &mut Rng) -> Self::Case {
        Drawn::new(Lettered::draw(rng), rng)
    }

    fn library(drawn: &Self::Case) -> Outcome {
        let Lettered { letter, terms } = &drawn.case;
        let mut lists = term_lists(drawn, drawn.blank(1));
        let verdict = molsadriu::misclosure(*letter, terms.target, &mut lists);
        of_verdict(verdict, lists)
    }

    fn reference(drawn: &Self::Case) -> Outcome {
        let terms = &drawn.case.terms;
        let reply = drawn.case.condition().and_then(|condition| {
            condition::misclosure(&terms.directions, &terms.q, &condition).map(|w| [w])
        });
        expected(reply, term_lists(drawn, drawn.blank(1)), |w| vec![w])
    }

    fn reply(outcome: &Outcome) -> Reply {
        verdict_reply(outcome)
    }
}

fn table_lists(drawn: &Drawn<TableCase>) -> [Lent<i64>; 10] {
    let case = &drawn.case;
    [
        drawn.holding(&case.directions),
        drawn.holding(&case.q),
        drawn.holding(&case.a),
        drawn.holding(&case.w),
        drawn.blank(case.lengths.v),
        drawn.blank(case.lengths.u),
        drawn.blank(case.lengths.adjusted),
        drawn.blank(case.lengths.k),
        drawn.blank(case.lengths.r),
        drawn.blank(case.lengths.q),
    ]
}

impl Operation for AdjustTable {
    type Case = Drawn<TableCase>;
    const NAME: &'static str = "adjust table";

    fn draw(rng: &mut Rng) -> Self::Case {
        let mut case = table_case(rng);
        if is_wild(rng) {
            let (m, n) = (rng.count(0, 4), rng.count(0, 4));
            case.lengths = AnswerLengths::fitting(m, n);
            case.directions = wild(rng, m);
            case.q = wild(rng, m);
            case.a = wild(rng, m * n);
            case.w = wild(rng, n);
        }
        Drawn::new(case, rng)
    }

    fn library(drawn: &Self::Case) -> Outcome {
        let mut lists = table_lists(drawn);
        of_verdict(molsadriu::adjust_table(&mut lists), lists)
    }

    fn reference(drawn: &Self::Case) -> Outcome {
        let reply = adjustment::adjust(&drawn.case.table(), drawn.case.lengths);
        expected(reply, table_lists(drawn), |all| {
            vec![&all.v, &all.u, &all.adjusted, &all.k, &all.r, &all.q]
        })
    }

    fn reply(outcome: &Outcome) -> Reply {
        verdict_reply(outcome)
    }
}

/// Corrections and inverse weights, and the two numbers for the answer.
fn precision_lists(drawn: &Drawn<PrecisionCase>) -> [Lent<i64>; 4] {
    let PrecisionCase { u, q, .. } = &drawn.case;
    [
        drawn.holding(u),
        drawn.holding(q),
        drawn.blank(1),
        drawn.blank(1),
    ]
}

impl Operation for ProbableError {
    type Case = Drawn<PrecisionCase>;
    const NAME: &'static str = "probable error";

    fn draw(rng: &mut Rng) -> Self::Case {
        let mut case = precision_case(rng);
        if is_wild(rng) {
            let most = rng.pick(&[2, 12, 70]);
            case.u = wild(rng, most);
            case.q = wild(rng, most);
            case.n = rng.pick(&[0, 1, 2, most, usize::MAX]);
        }
        Drawn::new(case, rng)
    }

    fn library(drawn: &Self::Case) -> Outcome {
        let mut lists = precision_lists(drawn);
        of_verdict(molsadriu::probable_error(drawn.case.n, &mut lists), lists)
    }

    fn reference(drawn: &Self::Case) -> Outcome {
        let PrecisionCase { u, q, n } = &drawn.case;
        let reply = precision::probable_error(u, q, *n);
        let reply = reply.map(|errors| [[errors.mean], [errors.probable]]);
        expected(reply, precision_lists(drawn), |[mean, probable]| {
            vec![mean, probable]
        })
    }

    fn reply(outcome: &Outcome) -> Reply {
        verdict_reply(outcome)
    }
}

/// A network file or a sighting book, and the room lent for its listing.
pub struct FileCase {
    pub file: Vec<u8>,
    pub room: usize,
}

impl fmt::Debug for FileCase {
    fn fmt(&self, out: &mut fmt::Formatter) -> fmt::Result {
        write!(out, "room {}, file {}", self.room, u8::literal(&self.file))
    }
}

fn file_lists(drawn: &Drawn<FileCase>) -> [Lent<u8>; 2] {
    let FileCase { file, room } = &drawn.case;
    [drawn.bytes(file), Lent::blank(*room).or_null(drawn.null)]
}

/// A file of one kind, seldom one of any bytes, and room about the `least` that it asks.
pub(crate) fn draw_file(
    rng: &mut Rng,
    draw: fn(&mut Rng) -> Vec<u8>,
    least: usize,
) -> Drawn<FileCase> {
    let mut file = draw(rng);
    if is_wild(rng) {
        file = wild_bytes(rng);
    }
    let room = draw_room(rng, least);
    Drawn::new(FileCase { file, room }, rng)
}

fn draw_net(rng: &mut Rng, least: usize) -> Drawn<FileCase> {
    draw_file(rng, |rng| network_case(rng).file, least)
}

/// Room for an answer that asks `least`: seldom less, seldom more.
fn draw_room(rng: &mut Rng, least: usize) -> usize {
    match rng.below(40) {
        0 => 0,
        1 => least - 1,
        2 => rng.below(least),
        3 => least + rng.count(1, 500),
        _ => least,
    }
}

/// What an operation of the library leaves behind of a file.
pub(crate) fn of_file(drawn: &Drawn<FileCase>, operation: OnFile) -> Outcome {
    let [mut file, mut out] = file_lists(drawn);
    let mut length = Lent::blank(1);
    let verdict = operation(&mut file, &mut out, &mut length);
    Outcome {
        bytes: vec![file, out],
        ..of_verdict(verdict, [length])
    }
}

/// The outcome by the reference: a listing in the first bytes of the buffer, and its
/// length; refused, both as they were.
pub(crate) fn expected_of_file(
    drawn: &Drawn<FileCase>,
    reply: Result<Vec<u8>, Refusal>,
) -> Outcome {
    let [file, mut out] = file_lists(drawn);
    let reply = reply.map(|listing| {
        out.put(&listing);
        [listing.len() as i64]
    });
    Outcome {
        bytes: vec![file, out],
        ..expected(reply, [Lent::blank(1)], |length| vec![length])
    }
}

impl Operation for AdjustFile {
    type Case = Drawn<FileCase>;
    const NAME: &'static str = "adjust file";

    fn draw(rng: &mut Rng) -> Self::Case {
        draw_net(rng, LISTING)
    }

    fn library(drawn: &Self::Case) -> Outcome {
        of_file(drawn, molsadriu::adjust_file)
    }

    fn reference(drawn: &Self::Case) -> Outcome {
        let FileCase { file, room } = &drawn.case;
        expected_of_file(drawn, network::adjust_file(file, *room))
    }

    fn reply(outcome: &Outcome) -> Reply {
        verdict_reply(outcome)
    }
}

impl Operation for ProbableFile {
    type Case = Drawn<FileCase>;
    const NAME: &'static str = "probable file";

    fn draw(rng: &mut Rng) -> Self::Case {
        draw_net(rng, PROBABLE_LISTING)
    }

    fn library(drawn: &Self::Case) -> Outcome {
        of_file(drawn, molsadriu::probable_file)
    }

    fn reference(drawn: &Self::Case) -> Outcome {
        let FileCase { file, room } = &drawn.case;
        expected_of_file(drawn, network::probable_file(file, *room))
    }

    fn reply(outcome: &Outcome) -> Reply {
        verdict_reply(outcome)
    }
}

impl Operation for StationBook {
    type Case = Drawn<FileCase>;
    const NAME: &'static str = "station book";

    fn draw(rng: &mut Rng) -> Self::Case {
        draw_file(rng, |rng| book_case(rng).file, STATION_LISTING)
    }

    fn library(drawn: &Self::Case) -> Outcome {
        of_file(drawn, molsadriu::station_book)
    }

    fn reference(drawn: &Self::Case) -> Outcome {
        let FileCase { file, room } = &drawn.case;
        expected_of_file(drawn, book::station_book(file, *room))
    }

    fn reply(outcome: &Outcome) -> Reply {
        verdict_reply(outcome)
    }
}

/// A verdict's two numbers, whatever they are, and the room lent for its line.
#[derive(Debug)]
pub struct RefusedCase {
    pub verdict: Verdict,
    pub room: usize,
}

/// Numbers of few digits and of many, most of them at an end of their count of digits.
fn draw_count(rng: &mut Rng) -> u64 {
    let power = 10_u64.pow(rng.below(20) as u32);
    match rng.below(4) {
        0 => rng.next_u64(),
        1 => rng.range(0, 1_700) as u64,
        2 => power,
        _ => rng.pick(&[0, u64::MAX, power - 1]),
    }
}

fn of_bytes(said: u64, bytes: Vec<Lent<u8>>) -> Outcome {
    outcome([said, 0], Vec::new(), bytes)
}

/// The outcome by the reference of an operation that answers in the first bytes of the
/// last buffer, and says how many they are: none, where it has less than `least` room.
fn written(answer: &[u8], least: usize, mut bytes: Vec<Lent<u8>>) -> Outcome {
    let enough = bytes.last_mut().filter(|out| out.length() >= least);
    let length = enough.map_or(0, |out| {
        out.put(answer);
        answer.len()
    });
    of_bytes(length as u64, bytes)
}

impl Operation for RefusedLine {
    type Case = Drawn<RefusedCase>;
    const NAME: &'static str = "refused line";

    fn draw(rng: &mut Rng) -> Self::Case {
        let verdict = Verdict {
            number: draw_count(rng),
            place: draw_count(rng),
        };
        let room = draw_room(rng, REFUSED_LINE);
        Drawn::new(RefusedCase { verdict, room }, rng)
    }

    fn library(drawn: &Self::Case) -> Outcome {
        let RefusedCase { verdict, room } = drawn.case;
        let mut out = Lent::blank(room).or_null(drawn.null);
        let length = molsadriu::refused_line(verdict.number, verdict.place, &mut out);
        of_bytes(length as u64, vec![out])
    }

    fn reference(drawn: &Self::Case) -> Outcome {
        let RefusedCase { verdict, room } = drawn.case;
        let line = refused_line(verdict.number, verdict.place);
        let out = Lent::blank(room).or_null(drawn.null);
        written(&line, REFUSED_LINE, vec![out])
    }

    fn reply(outcome: &Outcome) -> Reply {
        Reply::Named(match outcome.said {
            [0, _] => "no room",
            _ => "line",
        })
    }
}

impl Operation for ListFile {
    type Case = Drawn<FileCase>;
    const NAME: &'static str = "list file";

    fn draw(rng: &mut Rng) -> Self::Case {
        draw_net(rng, LISTING)
    }

    fn library(drawn: &Self::Case) -> Outcome {
        let [mut file, mut out] = file_lists(drawn);
        let length = molsadriu::list_file(&mut file, &mut out);
        of_bytes(length as u64, vec![file, out])
    }

    fn reference(drawn: &Self::Case) -> Outcome {
        let listing = network::listing(&drawn.case.file);
        written(&listing, LISTING, file_lists(drawn).into())
    }

    fn reply(outcome: &Outcome) -> Reply {
        let [length, _] = outcome.said;
        let listing = &outcome.bytes[1].list()[..length as usize];
        let mut fields = listing.split(|&byte| byte == b'\t');
        match (fields.next(), fields.next()) {
            (Some(b"REFUSED"), Some(number)) => Reply::Refused(
                number
                    .iter()
                    .fold(0, |sum, digit| 10 * sum + u64::from(digit - b'0')),
            ),
            (Some(b"ADJ"), _) => Reply::Accepted,
            _ => Reply::Named("no room"),
        }
    }
}

/// Bytes of the generator for lines, or a whole network file, and a start.
fn draw_line(rng: &mut Rng) -> Drawn<LineCase> {
    let mut case = line_case(rng);
    if rng.chance(10) {
        case.file = network_case(rng).file;
        case.start = rng.below(case.file.len() + 2);
    }
    Drawn::new(case, rng)
}

fn line_list(drawn: &Drawn<LineCase>) -> Lent<u8> {
    drawn.bytes(&drawn.case.file)
}

fn of_line(said: u64, file: Lent<u8>) -> Outcome {
    of_bytes(said, vec![file])
}

impl Operation for Line {
    type Case = Drawn<LineCase>;
    const NAME: &'static str = "line";

    fn draw(rng: &mut Rng) -> Self::Case {
        draw_line(rng)
    }

    fn library(drawn: &Self::Case) -> Outcome {
        let mut file = line_list(drawn);
        let length = molsadriu::line(&mut file, drawn.case.start);
        of_line(length as u64, file)
    }

    fn reference(drawn: &Self::Case) -> Outcome {
        let line = lines::line(&drawn.case.file, drawn.case.start);
        of_line(line.len() as u64, line_list(drawn))
    }

    fn reply(outcome: &Outcome) -> Reply {
        Reply::Named(match outcome.said {
            [0, _] => "empty",
            _ => "some bytes",
        })
    }
}

impl Operation for LineStatusAt {
    type Case = Drawn<LineCase>;
    const NAME: &'static str = "line status";

    fn draw(rng: &mut Rng) -> Self::Case {
        draw_line(rng)
    }

    fn library(drawn: &Self::Case) -> Outcome {
        let mut file = line_list(drawn);
        let status = molsadriu::line_status(&mut file, drawn.case.start);
        of_line(status, file)
    }

    fn reference(drawn: &Self::Case) -> Outcome {
        let status = match lines::line_status(&drawn.case.file, drawn.case.start) {
            LineStatus::Line => 0,
            LineStatus::NoneLeft => 1,
            LineStatus::LfMissing => 2,
        };
        of_line(status, line_list(drawn))
    }

    fn reply(outcome: &Outcome) -> Reply {
        Reply::Named(match outcome.said {
            [0, _] => "line",
            [1, _] => "none left",
            _ => "LF missing",
        })
    }
}
