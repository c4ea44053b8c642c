//! The check of another office's sheet: whether a listing is one of a network file.

use crate::adjustment::{
    correction_allowed, correlate_allowed, remainder_allowed, Net, MOST_CONDITIONS,
};
use crate::condition::MOST_DIRECTIONS;
use crate::lines::{line, line_status, read_behind, read_long_number, LineStatus};
use crate::network::sound_net;
use crate::refusal::{listing_or_refused, place, Refusal, SHEET};

/// What is said of a sheet that could be checked.
#[derive(Clone, Copy, Debug, PartialEq, Eq)]
pub enum Answer {
    Yes,
    /// The line of the first test that fails.
    No(i64),
}

/// The first test that fails. The answer tells only its line; the census tells which.
#[derive(Clone, Copy, Debug, PartialEq, Eq, PartialOrd, Ord)]
pub enum Fault {
    /// The counts are not those of the net.
    Counts,
    /// A correlate is beyond 10^8.
    Correlate,
    /// A printed correction does not follow from the correlates.
    Correction,
    /// An adjusted direction does not follow from them.
    Adjusted,
    /// A printed correction is past one minute.
    Minute,
    /// A remainder R is not what the correlates give.
    Remainder,
    /// A remainder R is beyond 50,000,000.
    RemainderSize,
    /// A printed remainder Q is not what the correlates give.
    PrintedRemainder,
}

/// The answer as a line of text, or the one line of a refusal.
pub fn listing(net: &[u8], sheet: &[u8]) -> Vec<u8> {
    let text = |answer| match answer {
        Answer::Yes => "YES\n".to_string(),
        Answer::No(line) => format!("NO\t{line}\n"),
    };
    listing_or_refused(check(net, sheet).map(|answer| text(answer).into_bytes()))
}

/// Whether a listing is a sheet of a network file. The file's own refusals come first, but
/// what its solution would be refused for is not asked.
pub fn check(net: &[u8], listing: &[u8]) -> Result<Answer, Refusal> {
    Ok(match first_fault(net, listing)? {
        None => Answer::Yes,
        Some((line, _)) => Answer::No(line),
    })
}

/// Why the answer is no, if it is.
pub fn fault(net: &[u8], listing: &[u8]) -> Option<Fault> {
    let (_, fault) = first_fault(net, listing).ok()??;
    Some(fault)
}

/// The first test that fails, with its line, if one does.
fn first_fault(net: &[u8], listing: &[u8]) -> Result<Option<(i64, Fault)>, Refusal> {
    let net = sound_net(net)?;
    let sheet = Sheet::read(listing)?;
    Ok(sheet.first_fault(&net))
}

/// What the lines of a listing say, by direction and by condition.
#[derive(Default)]
struct Sheet {
    u: Vec<i64>,
    adjusted: Vec<i64>,
    k: Vec<i64>,
    r: Vec<i64>,
    q: Vec<i64>,
}

impl Sheet {
    /// Only the form is looked at here, every line where it is due.
    fn read(listing: &[u8]) -> Result<Sheet, Refusal> {
        let mut rest = Rest {
            listing,
            start: 0,
            line: 1,
        };
        let mut sheet = Sheet::default();
        let [m, n] = rest.take("ADJ", counts_allowed)?;
        for number in 1..=m {
            let [u, adjusted] = rest.take(&format!("V\t{number}"), |_| true)?;
            sheet.u.push(u);
            sheet.adjusted.push(adjusted);
        }
        for number in 1..=n {
            let [k, r, q] = rest.take(&format!("K\t{number}"), |_| true)?;
            sheet.k.push(k);
            sheet.r.push(r);
            sheet.q.push(q);
        }
        rest.take_end()?;
        Ok(sheet)
    }

    /// The counts, then the sizes of the correlates, then all lines in order.
    fn first_fault(&self, net: &Net) -> Option<(i64, Fault)> {
        let (m, n) = (self.u.len(), self.k.len());
        if (m, n) != (net.directions.len(), net.w.len()) {
            return Some((1, Fault::Counts));
        }
        let v_line = |index: usize| place(2 + index);
        let k_line = |index: usize| place(2 + m + index);
        if let Some(index) = self.k.iter().position(|&k| !correlate_allowed(k.into())) {
            return Some((k_line(index), Fault::Correlate));
        }
        let given = net.given_by(&self.k);
        let v_lines = (0..m).map(|i| {
            let tests = [
                (self.u[i] == given.u[i], Fault::Correction),
                (self.adjusted[i] == given.adjusted[i], Fault::Adjusted),
                (correction_allowed(self.u[i]), Fault::Minute),
            ];
            (v_line(i), tests)
        });
        let k_lines = (0..n).map(|j| {
            let tests = [
                (self.r[j] == given.r[j], Fault::Remainder),
                (remainder_allowed(self.r[j]), Fault::RemainderSize),
                (self.q[j] == given.q[j], Fault::PrintedRemainder),
            ];
            (k_line(j), tests)
        });
        v_lines.chain(k_lines).find_map(|(line, tests)| {
            let (_, fault) = tests.into_iter().find(|(passed, _)| !passed)?;
            Some((line, fault))
        })
    }
}

/// The counts that an ADJ line may have; that n is not above m is the net's to say.
fn counts_allowed([m, n]: &[i64; 2]) -> bool {
    (1..=place(MOST_DIRECTIONS)).contains(m) && (1..=place(MOST_CONDITIONS)).contains(n)
}

/// What of a listing has not been read, and the line that begins it.
struct Rest<'a> {
    listing: &'a [u8],
    start: usize,
    line: i64,
}

impl Rest<'_> {
    /// The numbers of the line that is due: behind its heading just so many, and allowed.
    fn take<const N: usize>(
        &mut self,
        heading: &str,
        allowed: fn(&[i64; N]) -> bool,
    ) -> Result<[i64; N], Refusal> {
        if line_status(self.listing, self.start) != LineStatus::Line {
            return Err(self.malformed());
        }
        let line = line(self.listing, self.start);
        let numbers = read_behind(line, heading, read_long_number)
            .and_then(|numbers| numbers.try_into().ok())
            .filter(allowed)
            .ok_or(self.malformed())?;
        self.start += line.len() + 1;
        self.line += 1;
        Ok(numbers)
    }

    /// After the last line that is due not one byte is.
    fn take_end(&self) -> Result<(), Refusal> {
        match line_status(self.listing, self.start) {
            LineStatus::NoneLeft => Ok(()),
            LineStatus::Line | LineStatus::LfMissing => Err(self.malformed()),
        }
    }

    fn malformed(&self) -> Refusal {
        Refusal::new(SHEET, self.line)
    }
}
