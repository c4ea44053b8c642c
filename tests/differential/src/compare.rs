//! Draws the cases of an operation, runs both sides on each, and counts.

use std::collections::BTreeMap;
use std::fmt::{self, Debug};

use reference::generate::Rng;

use crate::lent::Lent;

/// Differences that are written out in full; the others are only counted.
const WRITTEN_OUT: usize = 3;

/// What a call leaves behind: what it said, and every list that it was lent.
#[derive(Clone, Debug, PartialEq, Eq)]
pub struct Outcome {
    /// Number and place, or the one number that the function returns and 0.
    pub said: [u64; 2],
    pub numbers: Vec<Lent<i64>>,
    pub counts: Vec<Lent<u64>>,
    pub bytes: Vec<Lent<u8>>,
}

/// The kind of a reply, as the table counts it.
#[derive(Clone, Copy, Debug, PartialEq, Eq, PartialOrd, Ord)]
pub enum Reply {
    Accepted,
    Refused(u64),
    Named(&'static str),
}

impl fmt::Display for Reply {
    fn fmt(&self, out: &mut fmt::Formatter) -> fmt::Result {
        match self {
            Reply::Accepted => write!(out, "accepted"),
            Reply::Refused(number) => write!(out, "{number}"),
            Reply::Named(name) => write!(out, "{name}"),
        }
    }
}

/// An operation of the library, with the generator of its inputs.
pub trait Operation {
    type Case: Debug;
    const NAME: &'static str;
    fn draw(rng: &mut Rng) -> Self::Case;
    fn library(case: &Self::Case) -> Outcome;
    fn reference(case: &Self::Case) -> Outcome;
    fn reply(outcome: &Outcome) -> Reply;
}

/// The counts of one operation.
pub struct Tally {
    pub name: &'static str,
    pub cases: u64,
    pub replies: BTreeMap<Reply, u64>,
    pub differences: u64,
}

/// Case `number` by itself, so that one can be run again without those before it.
fn draw<O: Operation>(seed: u64, number: u64) -> O::Case {
    let own = O::NAME.bytes().fold(seed, |seed, byte| {
        Rng::new(seed ^ u64::from(byte)).next_u64()
    });
    let start = Rng::new(own.wrapping_add(number)).next_u64();
    O::draw(&mut Rng::new(start))
}

/// Runs the cases 1 to `cases` of a seed.
pub fn run<O: Operation>(seed: u64, cases: u64) -> Tally {
    let mut tally = Tally {
        name: O::NAME,
        cases,
        replies: BTreeMap::new(),
        differences: 0,
    };
    for number in 1..=cases {
        let case = draw::<O>(seed, number);
        let outcome = O::reference(&case);
        *tally.replies.entry(O::reply(&outcome)).or_default() += 1;
        if O::library(&case) != outcome {
            tally.differences += 1;
            if tally.differences <= WRITTEN_OUT as u64 {
                println!(
                    "DIFFERENCE. Again: tests/differential/run case '{}' {seed} {number}",
                    O::NAME
                );
                write_out::<O>(&case);
            }
        }
    }
    tally
}

/// Writes out one case, and what either side makes of it. True if they agree.
pub fn show<O: Operation>(seed: u64, number: u64) -> bool {
    write_out::<O>(&draw::<O>(seed, number))
}

fn write_out<O: Operation>(case: &O::Case) -> bool {
    let (library, reference) = (O::library(case), O::reference(case));
    println!("{}: {case:?}", O::NAME);
    println!("library:   {library:?}");
    println!("reference: {reference:?}");
    library == reference
}

impl Tally {
    pub const HEADING: &'static str = "operation         cases differ  replies, refusals by number";

    pub fn line(&self) -> String {
        let replies: Vec<String> = self
            .replies
            .iter()
            .map(|(reply, count)| format!("{reply}: {count}"))
            .collect();
        format!(
            "{:<14} {:>8} {:>6}  {}",
            self.name,
            self.cases,
            self.differences,
            replies.join(", ")
        )
    }
}
