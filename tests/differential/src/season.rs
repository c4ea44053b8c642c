//! The operations of the season report beside their second reading: an archive whole and in
//! parts, each call of a stream by itself on states that may be none, and the sum of two
//! reports. Every list is compared after every call, refused or not.

use std::fmt;

use reference::generate::{
    archive_case, state_case, sum_case, ArchiveCase, Rng, StateCase, SumCase,
};
use reference::refusal::Refusal;
use reference::season::{self, HELD, PLACES, TOTALS};

use crate::compare::{Operation, Outcome, Reply};
use crate::lent::{Lent, Mark};
use crate::molsadriu::{self, Counts};
use crate::operations::{is_wild, outcome, refused, told, verdict_reply, wild_bytes, Drawn};

pub struct Report;
/// A whole stream: begun, given an archive in parts, and ended. What the reference's stream
/// has come to must also be what the library reports of the archive as a whole.
pub struct Season;
pub struct Begin;
pub struct Next;
pub struct End;
pub struct AddReports;

/// What a call of the reference says.
fn said(reply: Result<(), Refusal>) -> [u64; 2] {
    reply.err().map_or([0, 0], refused)
}

/// A list of any length and any numbers, many of them the ends of their range.
fn wild_counts(rng: &mut Rng) -> Vec<u64> {
    let length = rng.pick(&[0, 1, 2, 3, 4, 15, 16, 16, 17, 40]);
    let ends = [0, 1, 2, 3, 65_536, 65_537, 100_000, 1 << 63, u64::MAX];
    (0..length).map(|_| rng.pick(&ends)).collect()
}

/// An archive as text, so that a case that differs can be written into a program again.
pub struct Archive(ArchiveCase);

impl fmt::Debug for Archive {
    fn fmt(&self, out: &mut fmt::Formatter) -> fmt::Result {
        let ArchiveCase {
            archive,
            room,
            cuts,
        } = &self.0;
        let text = u8::literal(archive);
        write!(out, "room {room}, cuts {cuts:?}, archive {text}")
    }
}

fn draw_archive(rng: &mut Rng) -> Drawn<Archive> {
    let mut case = archive_case(rng);
    if is_wild(rng) {
        case.archive = wild_bytes(rng);
        case.cuts.clear();
    }
    Drawn::new(Archive(case), rng)
}

impl Operation for Report {
    type Case = Drawn<Archive>;
    const NAME: &'static str = "report";

    fn draw(rng: &mut Rng) -> Self::Case {
        draw_archive(rng)
    }

    fn library(drawn: &Self::Case) -> Outcome {
        let ArchiveCase { archive, room, .. } = &drawn.case.0;
        let mut archive = drawn.bytes(archive);
        let mut totals = Lent::blank(*room).or_null(drawn.null);
        let verdict = molsadriu::report(&mut archive, &mut totals);
        outcome(told(verdict), vec![totals], vec![archive])
    }

    fn reference(drawn: &Self::Case) -> Outcome {
        let ArchiveCase { archive, room, .. } = &drawn.case.0;
        let mut totals = Lent::blank(*room).or_null(drawn.null);
        let mut answer = totals.list().to_vec();
        let reply = season::report(archive, &mut answer);
        totals.put(&answer);
        outcome(said(reply), vec![totals], vec![drawn.bytes(archive)])
    }

    fn reply(outcome: &Outcome) -> Reply {
        verdict_reply(outcome)
    }
}

/// The state of a stream in three lent lists, and what it was after each call.
struct Stream {
    held: Lent<u8>,
    /// Totals and place.
    counts: [Counts; 2],
    /// After each call: what it said, totals and place; and what was held.
    seen: Vec<Counts>,
    seen_bytes: Vec<Lent<u8>>,
}

impl Stream {
    /// A state that has not begun.
    fn blank() -> Self {
        Stream {
            held: Lent::blank(HELD),
            counts: [Lent::blank(TOTALS), Lent::blank(PLACES)],
            seen: Vec::new(),
            seen_bytes: Vec::new(),
        }
    }

    fn holding(drawn: &Drawn<State>) -> Self {
        let StateCase {
            held,
            totals,
            place,
            ..
        } = &drawn.case.0;
        Stream {
            held: drawn.bytes(held),
            counts: [drawn.counts(totals), drawn.counts(place)],
            ..Stream::blank()
        }
    }

    /// Keeps what a call has left behind, and is told what it said.
    fn look(&mut self, said: [u64; 2]) -> [u64; 2] {
        self.seen.push(Lent::holding(&said));
        self.seen.extend(self.counts.iter().cloned());
        self.seen_bytes.push(self.held.clone());
        said
    }

    /// A call of the reference on the lists, which it may write.
    fn by_reference(
        &mut self,
        call: impl FnOnce(&mut [u8], &mut [u64], &mut [u64]) -> Result<(), Refusal>,
    ) -> [u64; 2] {
        let mut held = self.held.list().to_vec();
        let [mut totals, mut place] = [0, 1].map(|index: usize| self.counts[index].list().to_vec());
        let reply = call(&mut held, &mut totals, &mut place);
        self.held.put(&held);
        self.counts[0].put(&totals);
        self.counts[1].put(&place);
        self.look(said(reply))
    }

    fn outcome(self, said: [u64; 2]) -> Outcome {
        outcome(said, self.seen, self.seen_bytes)
    }
}

impl Operation for Season {
    type Case = Drawn<Archive>;
    const NAME: &'static str = "season";

    fn draw(rng: &mut Rng) -> Self::Case {
        draw_archive(rng)
    }

    fn library(drawn: &Self::Case) -> Outcome {
        let mut stream = Stream::blank();
        let verdict = molsadriu::season_begin(&mut stream.held, &mut stream.counts);
        stream.look(told(verdict));
        for part in drawn.case.0.parts() {
            let mut part = drawn.bytes(part);
            let Stream { held, counts, .. } = &mut stream;
            let verdict = molsadriu::season_next(&mut part, held, counts);
            stream.look(told(verdict));
            stream.seen_bytes.push(part);
        }
        let verdict = molsadriu::season_end(&mut stream.held, &mut stream.counts);
        let said = stream.look(told(verdict));
        let mut totals = Lent::blank(TOTALS);
        let verdict = molsadriu::report(&mut drawn.bytes(&drawn.case.0.archive), &mut totals);
        stream.seen.push(totals);
        stream.seen.push(Lent::holding(&told(verdict)));
        stream.outcome(said)
    }

    fn reference(drawn: &Self::Case) -> Outcome {
        let mut stream = Stream::blank();
        stream.by_reference(|held, totals, place| season::begin(held, totals, place));
        for part in drawn.case.0.parts() {
            stream.by_reference(|held, totals, place| season::next(part, held, totals, place));
            stream.seen_bytes.push(drawn.bytes(part));
        }
        let said = stream.by_reference(|held, totals, place| season::end(held, totals, place));
        let [totals, _] = stream.counts.clone();
        stream.seen.push(totals);
        stream.seen.push(Lent::holding(&said));
        stream.outcome(said)
    }

    fn reply(outcome: &Outcome) -> Reply {
        verdict_reply(outcome)
    }
}

/// A state as it is lent; what is held is written out only as far as it counts.
pub struct State(StateCase);

impl fmt::Debug for State {
    fn fmt(&self, out: &mut fmt::Formatter) -> fmt::Result {
        let StateCase {
            bytes,
            held,
            totals,
            place,
        } = &self.0;
        let open = place.first().map_or(0, |&open| open as usize);
        let shown = u8::literal(&held[..open.min(held.len())]);
        write!(
            out,
            "bytes {}, held {shown} of {}, totals {totals:?}, place {place:?}",
            u8::literal(bytes),
            held.len()
        )
    }
}

fn draw_state(rng: &mut Rng) -> Drawn<State> {
    let mut case = state_case(rng);
    if is_wild(rng) {
        case.totals = wild_counts(rng);
        case.place = wild_counts(rng);
        case.place.truncate(rng.pick(&[3, 3, 40]));
        case.held.truncate(rng.pick(&[HELD, HELD, 0, 1]));
    }
    Drawn::new(State(case), rng)
}

impl Operation for Begin {
    type Case = Drawn<State>;
    const NAME: &'static str = "season begin";

    fn draw(rng: &mut Rng) -> Self::Case {
        draw_state(rng)
    }

    fn library(drawn: &Self::Case) -> Outcome {
        let mut stream = Stream::holding(drawn);
        let verdict = molsadriu::season_begin(&mut stream.held, &mut stream.counts);
        let said = stream.look(told(verdict));
        stream.outcome(said)
    }

    fn reference(drawn: &Self::Case) -> Outcome {
        let mut stream = Stream::holding(drawn);
        let said = stream.by_reference(|held, totals, place| season::begin(held, totals, place));
        stream.outcome(said)
    }

    fn reply(outcome: &Outcome) -> Reply {
        verdict_reply(outcome)
    }
}

impl Operation for Next {
    type Case = Drawn<State>;
    const NAME: &'static str = "season next";

    fn draw(rng: &mut Rng) -> Self::Case {
        draw_state(rng)
    }

    fn library(drawn: &Self::Case) -> Outcome {
        let mut stream = Stream::holding(drawn);
        let mut bytes = drawn.bytes(&drawn.case.0.bytes);
        let Stream { held, counts, .. } = &mut stream;
        let verdict = molsadriu::season_next(&mut bytes, held, counts);
        let said = stream.look(told(verdict));
        stream.seen_bytes.push(bytes);
        stream.outcome(said)
    }

    fn reference(drawn: &Self::Case) -> Outcome {
        let mut stream = Stream::holding(drawn);
        let bytes = &drawn.case.0.bytes;
        let said =
            stream.by_reference(|held, totals, place| season::next(bytes, held, totals, place));
        stream.seen_bytes.push(drawn.bytes(bytes));
        stream.outcome(said)
    }

    fn reply(outcome: &Outcome) -> Reply {
        verdict_reply(outcome)
    }
}

impl Operation for End {
    type Case = Drawn<State>;
    const NAME: &'static str = "season end";

    fn draw(rng: &mut Rng) -> Self::Case {
        draw_state(rng)
    }

    fn library(drawn: &Self::Case) -> Outcome {
        let mut stream = Stream::holding(drawn);
        let verdict = molsadriu::season_end(&mut stream.held, &mut stream.counts);
        let said = stream.look(told(verdict));
        stream.outcome(said)
    }

    fn reference(drawn: &Self::Case) -> Outcome {
        let mut stream = Stream::holding(drawn);
        let said = stream.by_reference(|held, totals, place| season::end(held, totals, place));
        stream.outcome(said)
    }

    fn reply(outcome: &Outcome) -> Reply {
        verdict_reply(outcome)
    }
}

/// Two reports, and the list for their sum.
fn sum_lists(drawn: &Drawn<SumCase>) -> [Counts; 3] {
    let SumCase {
        first,
        second,
        room,
    } = &drawn.case;
    [
        drawn.counts(first),
        drawn.counts(second),
        Lent::blank(*room).or_null(drawn.null),
    ]
}

impl Operation for AddReports {
    type Case = Drawn<SumCase>;
    const NAME: &'static str = "add reports";

    fn draw(rng: &mut Rng) -> Self::Case {
        let mut case = sum_case(rng);
        if is_wild(rng) {
            case.first = wild_counts(rng);
            case.second = wild_counts(rng);
        }
        Drawn::new(case, rng)
    }

    fn library(drawn: &Self::Case) -> Outcome {
        let mut lists = sum_lists(drawn);
        let verdict = molsadriu::add_reports(&mut lists);
        outcome(told(verdict), lists.into(), Vec::new())
    }

    fn reference(drawn: &Self::Case) -> Outcome {
        let SumCase { first, second, .. } = &drawn.case;
        let mut lists = sum_lists(drawn);
        let mut sum = lists[2].list().to_vec();
        let reply = season::add_reports(first, second, &mut sum);
        lists[2].put(&sum);
        outcome(said(reply), lists.into(), Vec::new())
    }

    fn reply(outcome: &Outcome) -> Reply {
        verdict_reply(outcome)
    }
}
