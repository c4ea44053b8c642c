//! Reports as text: the lines of one, and the program that adds up reports.

use crate::lines::{line, line_status, read_behind, read_long_number, LineStatus};
use crate::refusal::{listing_or_refused, refused_line, Refusal, MALFORMED};
use crate::season::{
    net_past, report_of, together, total_allowed, Totals, A_SUM, MOST_NETS, NO_NETS, SHARED, S_SUM,
    TOTALS,
};

/// The line of a report that shows whether its counts add up.
const LAST_COUNT: usize = 10;

/// A line of a report: what it begins with, and which of the totals follow.
struct Line {
    heading: String,
    totals: std::ops::Range<usize>,
}

/// The report of an archive as text.
pub fn report(archive: &[u8]) -> Vec<u8> {
    let report = report_of(archive);
    let mut text = text_of(report.totals.map(i128::from));
    if report.past {
        let refusal = net_past();
        text.extend(refused_line(refusal.number, refusal.place));
    }
    text
}

/// The sum of reports, one after another as text, or the one line of a refusal.
pub fn add_reports(reports: &[u8]) -> Vec<u8> {
    listing_or_refused(sum_of(reports).map(text_of))
}

/// The lines of a report in their order.
fn lines_due() -> Vec<Line> {
    let line = |heading: &str, totals| Line {
        heading: heading.to_string(),
        totals,
    };
    let mut lines = vec![line("NETS", 0..1), line("ACCEPTED", 1..2)];
    for number in 1..=9 {
        lines.push(line(&format!("COUNT\t{number}"), 1 + number..2 + number));
    }
    lines.push(line("A", A_SUM..S_SUM));
    lines.push(line("S", S_SUM..SHARED));
    lines.push(line("SHARED", SHARED..TOTALS));
    lines
}

fn text_of(totals: Totals) -> Vec<u8> {
    let mut text = String::new();
    for due in lines_due() {
        text += &due.heading;
        for total in &totals[due.totals] {
            text += &format!("\t{total}");
        }
        text.push('\n');
    }
    text.into_bytes()
}

/// Reports as far as their lines have been read.
struct Sum {
    totals: Totals,
    /// Whether the reports hold more nets than one may: nothing more is added up then.
    past: bool,
    /// The report whose lines are being read.
    own: Totals,
}

/// Reads reports to the end, each line where it is due. That they hold too many nets comes
/// after the refusal of any line.
fn sum_of(reports: &[u8]) -> Result<Totals, Refusal> {
    let due = lines_due();
    let mut sum = Sum {
        totals: NO_NETS,
        past: false,
        own: NO_NETS,
    };
    let mut start = 0;
    let mut number = 1;
    loop {
        for (index, due) in due.iter().enumerate() {
            match line_status(reports, start) {
                // At least one report is due.
                LineStatus::NoneLeft if index == 0 && number > 1 => return sum.reply(),
                LineStatus::NoneLeft | LineStatus::LfMissing => {
                    return Err(Refusal::new(MALFORMED, number));
                }
                LineStatus::Line => {
                    let line = line(reports, start);
                    sum.take_line(line, due, index)
                        .ok_or(Refusal::new(MALFORMED, number))?;
                    start += line.len() + 1;
                    number += 1;
                }
            }
        }
    }
}

impl Sum {
    /// Takes the line that is due, or nothing where it is not that one, or shows that
    /// something does not add up.
    fn take_line(&mut self, line: &[u8], due: &Line, index: usize) -> Option<()> {
        let numbers = read_behind(line, &due.heading, read_total)?;
        if numbers.len() != due.totals.len() {
            return None;
        }
        if index == 0 {
            self.own = NO_NETS;
        }
        self.own[due.totals.clone()].copy_from_slice(&numbers);
        if index == LAST_COUNT && self.own[1..A_SUM].iter().sum::<i128>() != self.own[0] {
            return None;
        }
        self.add(due.totals.clone())
    }

    /// Adds up the totals of a line.
    fn add(&mut self, line: std::ops::Range<usize>) -> Option<()> {
        let totals = together(self.totals, self.own);
        if line.start == 0 && totals[0] > i128::from(MOST_NETS) {
            self.past = true;
        }
        if self.past {
            return Some(());
        }
        self.totals[line.clone()].copy_from_slice(&totals[line.clone()]);
        let mut passing = self.totals[line].iter();
        passing.all(|&total| total_allowed(total)).then_some(())
    }

    fn reply(self) -> Result<Totals, Refusal> {
        if self.past {
            Err(net_past())
        } else {
            Ok(self.totals)
        }
    }
}

/// A total as a report writes it: it has no minus.
fn read_total(field: &[u8]) -> Option<i128> {
    let total = read_long_number(field).filter(|&total| total >= 0)?;
    Some(total.into())
}
