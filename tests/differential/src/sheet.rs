//! The check of another office's sheet beside its second reading. Net and listing are
//! compared after every call, and so is the line, which a refusal leaves as it was.

use std::fmt;

use reference::generate::{sheet_case, Rng, SheetCase};
use reference::sheet::{self, Answer};

use crate::compare::{Operation, Outcome, Reply};
use crate::lent::{Lent, Mark};
use crate::molsadriu;
use crate::operations::{is_wild, outcome, refused, told, wild_bytes, Drawn};

pub struct CheckSheet;

/// Net and listing as text, so that a case that differs can be written into a program again.
pub struct Sheet(SheetCase);

impl fmt::Debug for Sheet {
    fn fmt(&self, out: &mut fmt::Formatter) -> fmt::Result {
        let SheetCase { net, listing } = &self.0;
        let [net, listing] = [net, listing].map(|bytes| u8::literal(bytes));
        write!(out, "net {net}, listing {listing}")
    }
}

fn lists(drawn: &Drawn<Sheet>) -> [Lent<u8>; 2] {
    let SheetCase { net, listing } = &drawn.case.0;
    [drawn.bytes(net), drawn.bytes(listing)]
}

impl Operation for CheckSheet {
    type Case = Drawn<Sheet>;
    const NAME: &'static str = "check sheet";

    fn draw(rng: &mut Rng) -> Self::Case {
        let mut case = sheet_case(rng);
        if is_wild(rng) {
            case.listing = wild_bytes(rng);
        }
        if is_wild(rng) {
            case.net = wild_bytes(rng);
        }
        Drawn::new(Sheet(case), rng)
    }

    fn library(drawn: &Self::Case) -> Outcome {
        let mut lists = lists(drawn);
        let mut line = Lent::blank(1);
        let verdict = molsadriu::check_sheet(&mut lists, &mut line);
        outcome(told(verdict), vec![line], lists.into())
    }

    fn reference(drawn: &Self::Case) -> Outcome {
        let SheetCase { net, listing } = &drawn.case.0;
        let mut line = Lent::blank(1);
        let said = match sheet::check(net, listing) {
            Ok(answer) => {
                line.put(&[match answer {
                    Answer::Yes => 0,
                    Answer::No(line) => line as u64,
                }]);
                [0, 0]
            }
            Err(refusal) => refused(refusal),
        };
        outcome(said, vec![line], lists(drawn).into())
    }

    /// A no is counted by the kind of its line.
    fn reply(outcome: &Outcome) -> Reply {
        let [number, _] = outcome.said;
        let line = outcome.counts[0].list()[0];
        let listing = outcome.bytes[1].list();
        let mut lines = listing.split(|&byte| byte == b'\n');
        match (number, line) {
            (0, 0) => Reply::Named("yes"),
            (0, line) => Reply::Named(match lines.nth(line as usize - 1) {
                Some([b'A', ..]) => "no at ADJ",
                Some([b'V', ..]) => "no at V",
                _ => "no at K",
            }),
            (number, _) => Reply::Refused(number),
        }
    }
}
