//! The rescue of spoiled sightings beside its second reading, of lists and of books. Every
//! list is compared whole after a call, with the places that have no answer.

use reference::book;
use reference::generate::{rescue_case, spoiled_book_case, RescueCase, Rng};
use reference::rescue::{self, ANSWERS};

use crate::compare::{Operation, Outcome, Reply};
use crate::lent::Lent;
use crate::molsadriu::{self, Counts, Numbers, DROPPED_LISTING, RESCUED_BOOK};
use crate::operations::{
    draw_file, expected_of_file, is_wild, of_file, refused, told, verdict_reply, wild, Drawn,
    FileCase,
};

pub struct RescueSightings;
pub struct RescueBook;
pub struct DroppedBook;

/// The four lists that are read and those for the kept sightings; then the lists for the
/// dropped ones, and the two numbers, which never have another length than 1.
fn lists(drawn: &Drawn<RescueCase>) -> ([Numbers; 8], [Counts; 4]) {
    let case = &drawn.case;
    let [position, object, face, reading, ordinals, reasons] = case.lengths;
    let numbers = [
        drawn.holding(&case.position),
        drawn.holding(&case.object),
        drawn.holding(&case.face),
        drawn.holding(&case.reading),
        drawn.blank(position),
        drawn.blank(object),
        drawn.blank(face),
        drawn.blank(reading),
    ];
    let [ordinals, reasons] =
        [ordinals, reasons].map(|length| Lent::blank(length).or_null(drawn.null));
    let counts = [ordinals, reasons, Lent::blank(1), Lent::blank(1)];
    (numbers, counts)
}

fn outcome(said: [u64; 2], (numbers, counts): ([Numbers; 8], [Counts; 4])) -> Outcome {
    Outcome {
        said,
        numbers: numbers.into(),
        counts: counts.into(),
        bytes: Vec::new(),
    }
}

impl Operation for RescueSightings {
    type Case = Drawn<RescueCase>;
    const NAME: &'static str = "rescue";

    fn draw(rng: &mut Rng) -> Self::Case {
        let mut case = rescue_case(rng);
        if is_wild(rng) {
            let most = rng.pick(&[2, 40, 520]);
            case.lengths = [rng.below(most + 1); ANSWERS];
            let lists = [
                &mut case.position,
                &mut case.object,
                &mut case.face,
                &mut case.reading,
            ];
            for list in lists {
                *list = wild(rng, most);
            }
        }
        Drawn::new(case, rng)
    }

    fn library(drawn: &Self::Case) -> Outcome {
        let (mut numbers, mut counts) = lists(drawn);
        let verdict = molsadriu::rescue_sightings(&mut numbers, &mut counts);
        outcome(told(verdict), (numbers, counts))
    }

    fn reference(drawn: &Self::Case) -> Outcome {
        let case = &drawn.case;
        let reply = rescue::rescue(
            &case.position,
            &case.object,
            &case.face,
            &case.reading,
            case.lengths,
        );
        let (mut numbers, mut counts) = lists(drawn);
        let said = match reply {
            Ok(rescued) => {
                let [.., position, object, face, reading] = &mut numbers;
                position.put(&rescued.position);
                object.put(&rescued.object);
                face.put(&rescued.face);
                reading.put(&rescued.reading);
                let [ordinals, reasons, kept, dropped] = &mut counts;
                ordinals.put(&rescued.ordinals);
                reasons.put(&rescued.reasons);
                kept.put(&[rescued.position.len() as u64]);
                dropped.put(&[rescued.ordinals.len() as u64]);
                [0, 0]
            }
            Err(refusal) => refused(refusal),
        };
        outcome(said, (numbers, counts))
    }

    fn reply(outcome: &Outcome) -> Reply {
        verdict_reply(outcome)
    }
}

impl Operation for RescueBook {
    type Case = Drawn<FileCase>;
    const NAME: &'static str = "rescue book";

    fn draw(rng: &mut Rng) -> Self::Case {
        draw_file(rng, |rng| spoiled_book_case(rng).file, RESCUED_BOOK)
    }

    fn library(drawn: &Self::Case) -> Outcome {
        of_file(drawn, molsadriu::rescue_book)
    }

    fn reference(drawn: &Self::Case) -> Outcome {
        let FileCase { file, room } = &drawn.case;
        expected_of_file(drawn, book::rescue_book(file, *room))
    }

    fn reply(outcome: &Outcome) -> Reply {
        verdict_reply(outcome)
    }
}

impl Operation for DroppedBook {
    type Case = Drawn<FileCase>;
    const NAME: &'static str = "dropped book";

    fn draw(rng: &mut Rng) -> Self::Case {
        draw_file(rng, |rng| spoiled_book_case(rng).file, DROPPED_LISTING)
    }

    fn library(drawn: &Self::Case) -> Outcome {
        of_file(drawn, molsadriu::dropped_book)
    }

    fn reference(drawn: &Self::Case) -> Outcome {
        let FileCase { file, room } = &drawn.case;
        expected_of_file(drawn, book::dropped_book(file, *room))
    }

    fn reply(outcome: &Outcome) -> Reply {
        verdict_reply(outcome)
    }
}
