//! differential [CASES [SEED]]: the library against `reference/` on so many cases for
//! each operation. Status 1 where any differ.
//! differential case OPERATION SEED NUMBER: one case alone, written out.

use std::env;
use std::process::ExitCode;

use differential::compare::{run, show, Operation, Tally};
use differential::operations::{
    AdjustFile, AdjustTable, Coefficients, Line, LineStatusAt, ListFile, Misclosure, ProbableError,
    ProbableFile, RefusedLine, StationBook, StationMeans,
};
use differential::rescue::{DroppedBook, RescueBook, RescueSightings};
use differential::season::{AddReports, Begin, End, Next, Report, Season};
use differential::sheet::CheckSheet;

const CASES: u64 = 75_000;
const SEED: u64 = 138;

/// An operation's name, the run of its cases, and one case alone.
type Row = (&'static str, fn(u64, u64) -> Tally, fn(u64, u64) -> bool);

fn row<O: Operation>() -> Row {
    (O::NAME, run::<O>, show::<O>)
}

fn main() -> ExitCode {
    let words: Vec<String> = env::args().skip(1).collect();
    let words: Vec<&str> = words.iter().map(String::as_str).collect();
    match reply(&words) {
        Some(true) => ExitCode::SUCCESS,
        Some(false) => ExitCode::FAILURE,
        None => {
            eprintln!("use: run [CASES [SEED]], or run case OPERATION SEED NUMBER");
            ExitCode::from(2)
        }
    }
}

/// Whether both sides agree; nothing where the words say nothing.
fn reply(words: &[&str]) -> Option<bool> {
    let rows = [
        row::<StationMeans>(),
        row::<Coefficients>(),
        row::<Misclosure>(),
        row::<AdjustTable>(),
        row::<AdjustFile>(),
        row::<ProbableError>(),
        row::<ProbableFile>(),
        row::<StationBook>(),
        row::<RescueSightings>(),
        row::<RescueBook>(),
        row::<DroppedBook>(),
        row::<Report>(),
        row::<Season>(),
        row::<Begin>(),
        row::<Next>(),
        row::<End>(),
        row::<AddReports>(),
        row::<CheckSheet>(),
        row::<RefusedLine>(),
        row::<ListFile>(),
        row::<Line>(),
        row::<LineStatusAt>(),
    ];
    let number = |word: &str| word.parse::<u64>().ok();
    match *words {
        [] => Some(all(&rows, CASES, SEED)),
        [cases] => Some(all(&rows, number(cases)?, SEED)),
        [cases, seed] => Some(all(&rows, number(cases)?, number(seed)?)),
        ["case", name, seed, case] => {
            let (_, _, show) = rows.iter().find(|row| row.0 == name)?;
            Some(show(number(seed)?, number(case)?))
        }
        _ => None,
    }
}

fn all(rows: &[Row], cases: u64, seed: u64) -> bool {
    println!("{}", Tally::HEADING);
    let (mut total, mut differences) = (0, 0);
    for (_, run, _) in rows {
        let tally = run(seed, cases);
        println!("{}", tally.line());
        total += tally.cases;
        differences += tally.differences;
    }
    println!("{total} cases of seed {seed}, {differences} differences");
    differences == 0
}
