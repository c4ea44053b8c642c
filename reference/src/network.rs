//! The network file: its lines, its checks, and the listing it ends in.

use crate::adjustment::{answers, Adjustment, Margins, Net, Weakness, MOST_CONDITIONS};
use crate::condition::{
    direction_allowed, sum_coefficients, sum_misclosure, target_allowed, ConditionKind, Side, Term,
    MOST_DIRECTIONS, MOST_TERMS,
};
use crate::lines::{fields, read_lines, read_number};
use crate::precision::{probable_error, Errors};
use crate::refusal::{listing_or_refused, place, Refusal, COUNT, MALFORMED, RANGE};

/// The least room that is lent for a listing: it holds the longest one.
pub const LISTING_ROOM: usize = 6_560;

/// The same for a listing with its E line.
pub const PROBABLE_ROOM: usize = 6_606;

/// The listing of a network file: the adjustment, or the one line of a refusal.
pub fn listing(file: &[u8]) -> Vec<u8> {
    listing_or_refused(adjust_file(file, LISTING_ROOM))
}

/// The listing of a network file with its E line, or the one line of a refusal.
pub fn probable_listing(file: &[u8]) -> Vec<u8> {
    listing_or_refused(probable_file(file, PROBABLE_ROOM))
}

/// The listing of a network file that is accepted, by a caller who lends so much room.
/// Too little of it is a length that disagrees, and is seen first.
pub fn adjust_file(file: &[u8], room: usize) -> Result<Vec<u8>, Refusal> {
    if room < LISTING_ROOM {
        return Err(Refusal::at_zero(COUNT));
    }
    let adjustment = adjust_network(file)?;
    Ok(adjustment_text(&adjustment).into_bytes())
}

/// The listing of a network file that is accepted, with the errors of a direction in an
/// E line at its end; the room is seen first, as above.
pub fn probable_file(file: &[u8], room: usize) -> Result<Vec<u8>, Refusal> {
    if room < PROBABLE_ROOM {
        return Err(Refusal::at_zero(COUNT));
    }
    let net = sound_net(file)?;
    let adjustment = net.adjust()?;
    // Whatever this could refuse, the net has been refused for before.
    let errors = probable_error(&adjustment.u, &answers(net.q), adjustment.k.len())?;
    let text = adjustment_text(&adjustment) + &errors_text(errors);
    Ok(text.into_bytes())
}

/// The adjustment of a network file.
pub fn adjust_network(file: &[u8]) -> Result<Adjustment, Refusal> {
    sound_net(file)?.adjust()
}

/// What a season report takes from a condition of an accepted net.
pub(crate) struct Accepted {
    pub(crate) kind: ConditionKind,
    pub(crate) w: i128,
    /// The coefficients, one for each direction.
    pub(crate) a: Vec<i128>,
}

/// The conditions of a network file that is accepted.
pub(crate) fn accepted_conditions(file: &[u8]) -> Result<Vec<Accepted>, Refusal> {
    let network = read_file(file)?;
    let kinds: Vec<ConditionKind> = network.conditions.iter().map(|c| c.kind).collect();
    let net = network.into_net();
    net.check_conditions()?;
    net.adjust()?;
    let conditions = kinds.into_iter().zip(net.w).zip(net.a);
    Ok(conditions
        .map(|((kind, w), a)| Accepted { kind, w, a })
        .collect())
}

/// The printed correction for which a network file is refused with 9, if it is.
pub fn blunder(file: &[u8]) -> Option<i64> {
    sound_net(file).ok()?.blunder()
}

/// Why the first weak row of a sound network file is weak, if one is.
pub fn weakness(file: &[u8]) -> Option<Weakness> {
    sound_net(file).ok()?.weakness()
}

/// The margins of a sound network file.
pub fn margins(file: &[u8]) -> Option<Margins> {
    Some(sound_net(file).ok()?.margins())
}

/// The net of a file, with every check before the normals.
pub(crate) fn sound_net(file: &[u8]) -> Result<Net, Refusal> {
    let net = read_file(file)?.into_net();
    net.check_conditions()?;
    Ok(net)
}

pub(crate) fn adjustment_text(adjustment: &Adjustment) -> String {
    let mut text = format!("ADJ\t{}\t{}\n", adjustment.u.len(), adjustment.k.len());
    let corrections = adjustment.u.iter().zip(&adjustment.adjusted);
    for (index, (u, adjusted)) in corrections.enumerate() {
        text += &format!("V\t{}\t{u}\t{adjusted}\n", index + 1);
    }
    let correlates = adjustment.k.iter().zip(&adjustment.r).zip(&adjustment.q);
    for (index, ((k, r), q)) in correlates.enumerate() {
        text += &format!("K\t{}\t{k}\t{r}\t{q}\n", index + 1);
    }
    text
}

fn errors_text(errors: Errors) -> String {
    format!("E\t{}\t{}\n", errors.mean, errors.probable)
}

/// What a well-formed line says, before any count or range is tested.
enum Entry {
    Direction { number: i64, direction: i64, q: i64 },
    Condition { kind: ConditionKind, target: i64 },
    Term(Term),
}

/// A condition as far as its lines have been read.
struct Condition {
    kind: ConditionKind,
    target: i64,
    terms: Vec<Term>,
}

/// The network as far as its lines have been read.
#[derive(Default)]
struct Network {
    directions: Vec<i64>,
    q: Vec<i64>,
    conditions: Vec<Condition>,
}

fn read_file(file: &[u8]) -> Result<Network, Refusal> {
    let mut network = Network::default();
    read_lines(file, |line| network.take_line(line))?;
    network.check_end()?;
    Ok(network)
}

impl Network {
    /// One line's checks: 1 over the whole of it, then 2, then 3.
    fn take_line(&mut self, line: &[u8]) -> Result<(), i64> {
        let entry = read_entry(line)
            .filter(|entry| self.heading_allows(entry))
            .ok_or(MALFORMED)?;
        if !self.counts_allow(&entry) {
            return Err(COUNT);
        }
        if !self.in_range(&entry) {
            return Err(RANGE);
        }
        self.add(entry);
        Ok(())
    }

    fn heading_allows(&self, entry: &Entry) -> bool {
        match (entry, self.conditions.last()) {
            (Entry::Direction { .. }, last) => last.is_none(),
            (Entry::Condition { .. }, _) => true,
            (Entry::Term(term), Some(last)) => term.fits(last.kind),
            (Entry::Term(_), None) => false,
        }
    }

    fn counts_allow(&self, entry: &Entry) -> bool {
        match entry {
            Entry::Direction { number, .. } => {
                self.directions.len() < MOST_DIRECTIONS
                    && *number == place(self.directions.len() + 1)
            }
            Entry::Condition { .. } => {
                self.conditions.len() < MOST_CONDITIONS && self.last_has_terms()
            }
            Entry::Term(_) => {
                let last = self.conditions.last();
                last.is_some_and(|condition| condition.terms.len() < MOST_TERMS)
            }
        }
    }

    fn in_range(&self, entry: &Entry) -> bool {
        match entry {
            Entry::Direction { direction, q, .. } => direction_allowed(*direction, *q),
            Entry::Condition { kind, target } => {
                *kind == ConditionKind::Side || target_allowed(*target)
            }
            Entry::Term(term) => term.in_range(self.directions.len()),
        }
    }

    fn add(&mut self, entry: Entry) {
        match entry {
            Entry::Direction { direction, q, .. } => {
                self.directions.push(direction);
                self.q.push(q);
            }
            Entry::Condition { kind, target } => self.conditions.push(Condition {
                kind,
                target,
                terms: Vec::new(),
            }),
            Entry::Term(term) => {
                if let Some(last) = self.conditions.last_mut() {
                    last.terms.push(term);
                }
            }
        }
    }

    /// Whether the condition last begun, if any, is not left without terms.
    fn last_has_terms(&self) -> bool {
        let last = self.conditions.last();
        last.is_none_or(|condition| !condition.terms.is_empty())
    }

    /// The counts that are seen only at the end of the file.
    fn check_end(&self) -> Result<(), Refusal> {
        let m = self.directions.len();
        let n = self.conditions.len();
        if m == 0 || n == 0 || n > m || !self.last_has_terms() {
            return Err(Refusal::at_zero(COUNT));
        }
        Ok(())
    }

    fn into_net(self) -> Net {
        let m = self.directions.len();
        let row = |condition: &Condition| sum_coefficients(&condition.terms, m);
        let misclosure = |condition: &Condition| {
            sum_misclosure(
                condition.kind,
                condition.target,
                &condition.terms,
                &self.directions,
            )
        };
        Net {
            a: self.conditions.iter().map(row).collect(),
            w: self.conditions.iter().map(misclosure).collect(),
            directions: self.directions.iter().copied().map(i128::from).collect(),
            q: self.q.iter().copied().map(i128::from).collect(),
        }
    }
}

/// The form of a line by itself: letters, number of fields, and well-formed numbers.
fn read_entry(line: &[u8]) -> Option<Entry> {
    match fields(line)[..] {
        [b"D", number, direction, q] => Some(Entry::Direction {
            number: read_number(number)?,
            direction: read_number(direction)?,
            q: read_number(q)?,
        }),
        [b"C", b"A", target] => Some(Entry::Condition {
            kind: ConditionKind::Angle,
            target: read_number(target)?,
        }),
        [b"C", b"S"] => Some(Entry::Condition {
            kind: ConditionKind::Side,
            target: 0,
        }),
        [b"P", i, k] => Some(Entry::Term(Term::Angle {
            i: read_number(i)?,
            k: read_number(k)?,
        })),
        [b"F", angle] => Some(Entry::Term(Term::FixedAngle {
            angle: read_number(angle)?,
        })),
        [b"L", logarithm, d, i, k] => read_log(Side::Left, [logarithm, d, i, k]),
        [b"R", logarithm, d, i, k] => read_log(Side::Right, [logarithm, d, i, k]),
        _ => None,
    }
}

fn read_log(side: Side, [logarithm, d, i, k]: [&[u8]; 4]) -> Option<Entry> {
    Some(Entry::Term(Term::Log {
        side,
        logarithm: read_number(logarithm)?,
        d: read_number(d)?,
        i: read_number(i)?,
        k: read_number(k)?,
    }))
}
