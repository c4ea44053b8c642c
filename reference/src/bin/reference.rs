//! Writes the listing of the network file on standard input; with the argument `probable`,
//! that with its E line; with `means`, that of the sighting book there; with `rescue`, the
//! lines that a rescue of this book keeps, and with `dropped` the list of the sightings that
//! it drops; with `report`, the season report of the archive there; with `add_reports`, the
//! sum of the reports there. With `check` and the names of a network file and of a listing
//! it writes whether the one is a sheet of the other; or, with `census` (and a number of
//! cases and a seed), how often each reply occurs among the generated inputs.

use std::env;
use std::fs;
use std::io::{self, Read, Write};
use std::process::ExitCode;

use reference::{book, census, network, reports, sheet};

fn main() -> ExitCode {
    let arguments: Vec<String> = env::args().skip(1).collect();
    let done = match arguments.first().map(String::as_str) {
        None => write_listing(network::listing),
        Some("probable") if arguments.len() == 1 => write_listing(network::probable_listing),
        Some("means") if arguments.len() == 1 => write_listing(book::listing),
        Some("rescue") if arguments.len() == 1 => write_listing(book::rescued_listing),
        Some("dropped") if arguments.len() == 1 => write_listing(book::dropped_listing),
        Some("report") if arguments.len() == 1 => write_listing(reports::report),
        Some("add_reports") if arguments.len() == 1 => write_listing(reports::add_reports),
        Some("check") if arguments.len() == 3 => write_check(&arguments[1], &arguments[2]),
        Some("census") => write_census(&arguments[1..]),
        Some(_) => Err(io::Error::other(
            "use: reference < net, reference probable < net, reference means < book, \
             reference rescue < book, reference dropped < book, \
             reference report < archive, reference add_reports < reports, \
             reference check NET LISTING, or reference census [cases [seed]]",
        )),
    };
    match done {
        Ok(()) => ExitCode::SUCCESS,
        Err(error) => {
            eprintln!("{error}");
            ExitCode::FAILURE
        }
    }
}

fn write_listing(listing: fn(&[u8]) -> Vec<u8>) -> io::Result<()> {
    let mut file = Vec::new();
    io::stdin().lock().read_to_end(&mut file)?;
    io::stdout().lock().write_all(&listing(&file))
}

fn write_check(net: &str, listing: &str) -> io::Result<()> {
    let (net, listing) = (fs::read(net)?, fs::read(listing)?);
    io::stdout()
        .lock()
        .write_all(&sheet::listing(&net, &listing))
}

fn write_census(arguments: &[String]) -> io::Result<()> {
    let number = |index: usize, otherwise: u64| match arguments.get(index) {
        Some(text) => text.parse().map_err(io::Error::other),
        None => Ok(otherwise),
    };
    let cases = usize::try_from(number(0, 20_000)?).map_err(io::Error::other)?;
    let seed = number(1, 138)?;
    let report = census::report(&census::take(seed, cases));
    io::stdout().lock().write_all(report.as_bytes())
}
