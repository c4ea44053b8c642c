//! The season report: totals over the nets of an archive, the sum of two reports, and the
//! stream, which takes an archive in parts.

use crate::condition::ConditionKind;
use crate::lines::{line, line_status, LineStatus, MOST_BYTES};
use crate::network::{accepted_conditions, Accepted};
use crate::refusal::{place as at, Refusal, COUNT, MALFORMED, NET_PAST, RANGE};

/// The numbers of a report: nets; accepted ones; those counted under 1 to 9; sum and
/// largest of the misclosures' sizes, of angle and then of side conditions; and nets in
/// which two conditions share three or more directions.
pub const TOTALS: usize = 16;

/// The most nets of a report.
pub const MOST_NETS: u64 = 100_000;

/// The largest total that is lent or written: one of 18 digits.
pub const MOST_TOTAL: u64 = 999_999_999_999_999_999;

/// The bytes of an open net that a stream keeps: the longest net and its full stop.
pub const HELD: usize = MOST_BYTES + 1;

/// The numbers that say where a stream stands.
pub const PLACES: usize = 3;

const NETS: usize = 0;
pub(crate) const A_SUM: usize = 11;
const A_LARGEST: usize = 12;
pub(crate) const S_SUM: usize = 13;
const S_LARGEST: usize = 14;
pub(crate) const SHARED: usize = 15;

/// So many shared directions make two conditions count.
const MANY_SHARED: usize = 3;

/// Of the three numbers of a stream's place, how many bytes the open net has, counted to one
/// more than are kept.
const OPEN: usize = 0;
/// Where in its line the stream stands: one of the three below.
const IN_LINE: usize = 1;
/// 1 once a net past the most has come.
const PAST: usize = 2;

const LINE_START: u64 = 0;
const AFTER_FULL_STOP: u64 = 1;
const ELSEWHERE: u64 = 2;

const MOST_OPEN: u64 = HELD as u64 + 1;

pub(crate) type Totals = [i128; TOTALS];

pub(crate) const NO_NETS: Totals = [0; TOTALS];

/// The report of an archive.
#[derive(Clone, Copy, Debug, PartialEq, Eq)]
pub struct Report {
    pub totals: [u64; TOTALS],
    /// Whether there is a net past those that the totals are of.
    pub past: bool,
}

/// A net of an archive.
enum Part<'a> {
    /// Bytes that a full stop line closes, without it.
    Closed(&'a [u8]),
    /// Bytes left after the last full stop line, whatever they are.
    Left,
}

/// The report of an archive by its definition: over the list of its nets.
pub fn report_of(archive: &[u8]) -> Report {
    let nets = nets_of(archive);
    let reported = nets.iter().take(MOST_NETS as usize);
    let totals = reported.map(Part::share).fold(NO_NETS, together);
    Report {
        totals: totals.map(narrow),
        past: nets.len() > MOST_NETS as usize,
    }
}

/// The report of an archive, by a caller who lends a list for its totals. They are written
/// also where a net past the most is refused: it is the one refusal that comes with them.
pub fn report(archive: &[u8], totals: &mut [u64]) -> Result<(), Refusal> {
    if totals.len() != TOTALS {
        return Err(Refusal::at_zero(COUNT));
    }
    let report = report_of(archive);
    totals.copy_from_slice(&report.totals);
    if report.past {
        Err(net_past())
    } else {
        Ok(())
    }
}

/// The refusal of a net past the most; its place is that net's ordinal.
pub(crate) fn net_past() -> Refusal {
    Refusal::new(NET_PAST, MOST_NETS as i64 + 1)
}

/// The nets of an archive in their order.
fn nets_of(archive: &[u8]) -> Vec<Part<'_>> {
    let mut nets = Vec::new();
    let mut net = 0;
    let mut start = 0;
    while line_status(archive, start) == LineStatus::Line {
        let line = line(archive, start);
        let next = start + line.len() + 1;
        if line == b"." {
            nets.push(Part::Closed(&archive[net..start]));
            net = next;
        }
        start = next;
    }
    if net < archive.len() {
        nets.push(Part::Left);
    }
    nets
}

impl Part<'_> {
    fn share(&self) -> Totals {
        match self {
            Part::Closed(net) => share_of(net),
            Part::Left => counted_under(MALFORMED),
        }
    }
}

/// What a closed net adds to the totals.
fn share_of(net: &[u8]) -> Totals {
    match accepted_conditions(net) {
        Ok(conditions) => share_of_accepted(&conditions),
        Err(refusal) => counted_under(refusal.number),
    }
}

/// The share of a net that adds nothing but itself: one net, under its number, 0 to 9.
fn counted_under(number: i64) -> Totals {
    let mut share = NO_NETS;
    share[NETS] = 1;
    let counts = share[NETS + 1..A_SUM].iter_mut();
    if let Some((_, count)) = (0..).zip(counts).find(|(of, _)| *of == number) {
        *count = 1;
    }
    share
}

fn share_of_accepted(conditions: &[Accepted]) -> Totals {
    let sizes = |kind: ConditionKind| -> Vec<i128> {
        let of_kind = conditions.iter().filter(|condition| condition.kind == kind);
        of_kind.map(|condition| condition.w.abs()).collect()
    };
    let (angles, sides) = (sizes(ConditionKind::Angle), sizes(ConditionKind::Side));
    let mut share = counted_under(0);
    share[A_SUM] = angles.iter().sum();
    share[A_LARGEST] = angles.into_iter().max().unwrap_or(0);
    share[S_SUM] = sides.iter().sum();
    share[S_LARGEST] = sides.into_iter().max().unwrap_or(0);
    share[SHARED] = i128::from(some_two_share(conditions));
    share
}

/// Whether two conditions share many directions: those that both have a coefficient other
/// than zero for.
fn some_two_share(conditions: &[Accepted]) -> bool {
    let share = |one: &Accepted, other: &Accepted| {
        let pairs = one.a.iter().zip(&other.a);
        pairs.filter(|&(a, b)| *a != 0 && *b != 0).count() >= MANY_SHARED
    };
    conditions.iter().enumerate().any(|(index, one)| {
        let mut later = conditions.iter().skip(index + 1);
        later.any(|other| share(one, other))
    })
}

/// Two reports, or a report and a share, as one: sums, but the larger of two largest.
pub(crate) fn together(first: Totals, second: Totals) -> Totals {
    std::array::from_fn(|index| match index {
        A_LARGEST | S_LARGEST => first[index].max(second[index]),
        _ => first[index] + second[index],
    })
}

/// The sum of two reports, by a caller who lends a list for it.
pub fn add_reports(first: &[u64], second: &[u64], sum: &mut [u64]) -> Result<(), Refusal> {
    let (Some(first), Some(second)) = (wide(first), wide(second)) else {
        return Err(Refusal::at_zero(COUNT));
    };
    if sum.len() != TOTALS {
        return Err(Refusal::at_zero(COUNT));
    }
    let totals = together(first, second);
    for index in 0..TOTALS {
        let numbers = [first[index], second[index], totals[index]];
        if !numbers.into_iter().all(total_allowed) {
            return Err(Refusal::new(RANGE, at(index + 1)));
        }
    }
    if totals[NETS] > i128::from(MOST_NETS) {
        return Err(net_past());
    }
    sum.copy_from_slice(&totals.map(narrow));
    Ok(())
}

pub(crate) fn total_allowed(total: i128) -> bool {
    (0..=i128::from(MOST_TOTAL)).contains(&total)
}

/// A lent list as totals, if it has their length.
fn wide(list: &[u64]) -> Option<Totals> {
    let list: [u64; TOTALS] = list.try_into().ok()?;
    Some(list.map(i128::from))
}

/// A total as it is handed back. None is above that of 100,000 nets and a lent one, so
/// nothing is cut off.
fn narrow(total: i128) -> u64 {
    total as u64
}

/// Begins a stream in three lent lists: no nets so far, and at the start of a line.
pub fn begin(held: &[u8], totals: &mut [u64], place: &mut [u64]) -> Result<(), Refusal> {
    check_lengths(held, totals, place)?;
    totals.fill(0);
    place.fill(0);
    Ok(())
}

/// Takes the next bytes of an archive. After a net past the most nothing changes.
pub fn next(
    bytes: &[u8],
    held: &mut [u8],
    totals: &mut [u64],
    place: &mut [u64],
) -> Result<(), Refusal> {
    check_state(held, totals, place)?;
    for &byte in bytes {
        if place[PAST] == 1 {
            break;
        }
        if byte == b'\n' && place[IN_LINE] == AFTER_FULL_STOP {
            let share = share_of_held(held, place[OPEN]);
            count(share, totals, place);
        } else {
            hold(byte, held, place);
        }
    }
    Ok(())
}

/// Ends a stream: bytes left are a net counted under 1. The totals are then the report,
/// also where a net past the most is refused.
pub fn end(held: &[u8], totals: &mut [u64], place: &mut [u64]) -> Result<(), Refusal> {
    check_state(held, totals, place)?;
    if place[OPEN] > 0 {
        count(counted_under(MALFORMED), totals, place);
    }
    place[OPEN] = 0;
    place[IN_LINE] = LINE_START;
    if place[PAST] == 1 {
        Err(net_past())
    } else {
        Ok(())
    }
}

fn check_lengths(held: &[u8], totals: &[u64], place: &[u64]) -> Result<(), Refusal> {
    if [held.len(), totals.len(), place.len()] == [HELD, TOTALS, PLACES] {
        Ok(())
    } else {
        Err(Refusal::at_zero(COUNT))
    }
}

/// The lengths, and then by ordinal the numbers of a state that no stream has: the totals
/// first, then the three of the place.
fn check_state(held: &[u8], totals: &[u64], place: &[u64]) -> Result<(), Refusal> {
    check_lengths(held, totals, place)?;
    let mut sound: Vec<bool> = totals.iter().map(|&total| total <= MOST_TOTAL).collect();
    sound[NETS] = totals[NETS] <= MOST_NETS;
    sound.push(place[OPEN] <= MOST_OPEN);
    sound.push(match place[IN_LINE] {
        AFTER_FULL_STOP => place[OPEN] > 0,
        in_line => in_line <= ELSEWHERE,
    });
    sound.push(place[PAST] <= 1);
    match sound.iter().position(|sound| !sound) {
        Some(index) => Err(Refusal::new(RANGE, at(index + 1))),
        None => Ok(()),
    }
}

/// Adds a byte to the open net: it is kept where there is room, and always counted.
fn hold(byte: u8, held: &mut [u8], place: &mut [u64]) {
    if let Some(cell) = held.get_mut(place[OPEN] as usize) {
        *cell = byte;
    }
    place[OPEN] = MOST_OPEN.min(place[OPEN] + 1);
    place[IN_LINE] = match (byte, place[IN_LINE]) {
        (b'\n', _) => LINE_START,
        (b'.', LINE_START) => AFTER_FULL_STOP,
        _ => ELSEWHERE,
    };
}

/// The share of the open net, of whose bytes the last is the full stop that closes it.
fn share_of_held(held: &[u8], open: u64) -> Totals {
    let length = (open as usize).saturating_sub(1);
    if length > MOST_BYTES {
        // It was not kept whole.
        counted_under(COUNT)
    } else {
        share_of(&held[..length])
    }
}

/// Counts a net, or notes that it is past the most; the next one begins.
fn count(share: Totals, totals: &mut [u64], place: &mut [u64]) {
    if place[PAST] == 1 || totals[NETS] >= MOST_NETS {
        place[PAST] = 1;
    } else if let Some(so_far) = wide(totals) {
        totals.copy_from_slice(&together(so_far, share).map(narrow));
    }
    place[OPEN] = 0;
    place[IN_LINE] = LINE_START;
}
