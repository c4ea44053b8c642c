//! The rescue of spoiled sightings: each reason alone and in chains, what is kept, every
//! refusal, both sides of every limit, and lists and books alike.

use super::book::{fullest, lines, well_formed, FIGURE_9};
use super::*;
use reference::book::{self, dropped_book, rescue_book, station_book};
use reference::generate::{rescue_case, spoiled_book_case, RescueCase, Rng};
use reference::rescue::{self, ANSWERS};

/// The kept sightings, and ordinal and reason of each dropped one.
type Rescued = (Vec<[i64; 4]>, Vec<[u64; 2]>);

/// The rescue of sightings. Their book must have the same reply.
fn rescue(sightings: &[[i64; 4]]) -> Result<Rescued, Refusal> {
    let reply = rescue_lists(sightings, [sightings.len(); ANSWERS]);
    let file = lines(sightings).replace(' ', "\t").into_bytes();
    let (kept, dropped) = match &reply {
        Ok((kept, dropped)) => {
            let dropped = dropped
                .iter()
                .map(|[ordinal, reason]| format!("X {ordinal} {reason}\n"));
            (lines(kept), dropped.collect::<String>())
        }
        Err(Refusal { number, place }) => {
            let refused = format!("REFUSED {number} {place}\n");
            (refused.clone(), refused)
        }
    };
    let tabs = |text: String| text.replace(' ', "\t").into_bytes();
    assert_eq!(book::rescued_listing(&file), tabs(kept));
    assert_eq!(book::dropped_listing(&file), tabs(dropped));
    reply
}

/// The same of the lists alone, by a caller who lends answer lists of these lengths.
fn rescue_lists(sightings: &[[i64; 4]], lengths: [usize; ANSWERS]) -> Result<Rescued, Refusal> {
    let field = |index: usize| -> Vec<i64> { sightings.iter().map(|s| s[index]).collect() };
    let rescued = rescue::rescue(&field(0), &field(1), &field(2), &field(3), lengths)?;
    let kept = (0..rescued.position.len())
        .map(|n| {
            [
                rescued.position[n],
                rescued.object[n],
                rescued.face[n],
                rescued.reading[n],
            ]
        })
        .collect();
    let dropped = rescued.ordinals.iter().zip(&rescued.reasons);
    Ok((kept, dropped.map(|(&n, &reason)| [n, reason]).collect()))
}

/// The sightings of pairs, each as position, object, left reading and s.
fn pairs(pairs: &[[i64; 4]]) -> Vec<[i64; 4]> {
    pairs
        .iter()
        .flat_map(|&[position, object, left, s]| pair(position, object, left, s))
        .collect()
}

/// The reason of each sighting, 0 where it is kept.
fn reasons(sightings: &[[i64; 4]]) -> Vec<u64> {
    let (kept, dropped) = rescue(sightings).unwrap();
    let mut reasons = vec![0; sightings.len()];
    for [ordinal, reason] in &dropped {
        reasons[*ordinal as usize - 1] = *reason;
    }
    // Kept and dropped together are the list, each once, both in its order.
    assert_eq!(kept.len() + dropped.len(), sightings.len());
    assert!(dropped.windows(2).all(|two| two[0][0] < two[1][0]));
    let stay = sightings.iter().zip(&reasons);
    assert!(stay
        .filter(|(_, reason)| **reason == 0)
        .map(|(sighting, _)| sighting)
        .eq(&kept));
    reasons
}

/// Position 1 with objects 1 and 2, sound.
fn sound() -> Vec<[i64; 4]> {
    pairs(&[[1, 1, 0, 0], [1, 2, 5_000, 7]])
}

#[test]
fn reason_1_faces_missing_or_doubled() {
    for more in [
        &[[1, 3, 0, 9]][..],
        &[[1, 3, 1, 9]],
        &[[1, 3, 0, 9], [1, 3, 0, 9]],
        &[[1, 3, 1, 9], [1, 3, 1, 8]],
        &[[1, 3, 0, 9], [1, 3, 1, 648_000_009], [1, 3, 0, 9]],
        &[[1, 3, 1, 648_000_009], [1, 3, 0, 9], [1, 3, 1, 648_000_009]],
        &[[1, 3, 0, 9], [1, 3, 0, 9], [1, 3, 0, 9]],
        &pairs(&[[1, 3, 9, 0], [1, 3, 9, 0]]),
    ] {
        let behind = [&sound(), more].concat();
        let expected = [vec![0; 4], vec![1; more.len()]].concat();
        assert_eq!(reasons(&behind), expected, "{more:?}");
        let before = [more, &sound()].concat();
        let expected = [vec![1; more.len()], vec![0; 4]].concat();
        assert_eq!(reasons(&before), expected, "{more:?}");
    }
    // The key that was doubled may have been that of a sound pair.
    let doubled = [sound(), vec![[1, 2, 1, 5]]].concat();
    assert_eq!(reasons(&doubled), [0, 0, 1, 1, 1]);
}

#[test]
fn faces_of_two_positions_or_objects_are_no_pair() {
    let apart = [[2, 1, 0, 0], [3, 1, 1, 648_000_000]];
    assert_eq!(
        reasons(&[&sound()[..], &apart].concat()),
        [0, 0, 0, 0, 1, 1]
    );
    let other = [[1, 3, 0, 0], [1, 4, 1, 648_000_000]];
    assert_eq!(
        reasons(&[&sound()[..], &other].concat()),
        [0, 0, 0, 0, 1, 1]
    );
}

#[test]
fn reason_2_positions_without_the_initial() {
    let other = pairs(&[[2, 2, 0, 0], [2, 3, 0, 0]]);
    let list = [sound(), other].concat();
    assert_eq!(reasons(&list), [0, 0, 0, 0, 2, 2, 2, 2]);
    // Object 1 in another position does not help, whatever its number.
    let list = pairs(&[[16, 16, 0, 0], [15, 1, 0, 0], [1, 16, 0, 0]]);
    assert_eq!(reasons(&list), [2, 2, 0, 0, 2, 2]);
}

#[test]
fn reason_3_faces_apart() {
    for s in [60_000, -60_000, 59_999, -59_999] {
        assert_eq!(
            reasons(&pairs(&[[1, 1, 0, 0], [1, 2, 7, s]])),
            [0, 0, 0, 0],
            "{s}"
        );
        assert_eq!(reasons(&pairs(&[[1, 1, 0, s]])), [0, 0], "{s}");
    }
    for s in [
        60_001,
        -60_001,
        CIRCLE / 2,
        CIRCLE / 2 - 1,
        1 - CIRCLE / 2,
        CIRCLE / 4,
    ] {
        assert_eq!(
            reasons(&pairs(&[[1, 1, 0, 0], [1, 2, 7, s]])),
            [0, 0, 3, 3],
            "{s}"
        );
        let list = pairs(&[[4, 1, 0, s], [1, 1, 0, 0]]);
        assert_eq!(reasons(&list), [3, 3, 0, 0], "{s}");
    }
}

#[test]
fn reason_3_across_the_zero_of_the_circle() {
    // Wherever the left reading stands, so that the right one or both pass zero.
    for left in [0, 1, 647_940_000, 647_999_999, 648_000_000, 648_060_001] {
        for left in [left, CIRCLE - 1 - left] {
            for (s, reason) in [(60_000, 0), (60_001, 3), (-60_000, 0), (-60_001, 3)] {
                let list = pairs(&[[1, 1, 0, 0], [1, 2, left, s]]);
                assert_eq!(reasons(&list), [0, 0, reason, reason], "{left} {s}");
            }
        }
    }
    let over = |right: i64| {
        let pair = [[1, 2, 0, 648_000_000], [1, 2, 1, right]];
        reasons(&[&pairs(&[[1, 1, 0, 0]])[..], &pair].concat())[2]
    };
    assert_eq!([over(60_000), over(60_001)], [0, 3]);
    assert_eq!([over(CIRCLE - 60_000), over(CIRCLE - 60_001)], [0, 3]);
}

#[test]
fn a_spoiled_initial_takes_its_position() {
    // A doubled or a lone key of object 1: reason 1 for it, and 2 for the rest.
    let doubled = [sound(), vec![[1, 1, 0, 0]], pairs(&[[9, 1, 0, 0]])].concat();
    assert_eq!(reasons(&doubled), [1, 1, 2, 2, 1, 0, 0]);
    let lone = [sound()[1..].to_vec(), pairs(&[[9, 1, 0, 0]])].concat();
    assert_eq!(reasons(&lone), [1, 2, 2, 0, 0]);
    // Faces of object 1 apart: reason 3 for it, and 4 for the rest.
    let apart = pairs(&[
        [1, 2, 0, 0],
        [1, 1, 0, 60_001],
        [9, 1, 0, 0],
        [1, 3, 0, -60_000],
    ]);
    assert_eq!(reasons(&apart), [4, 4, 3, 3, 0, 0, 4, 4]);
}

#[test]
fn what_two_steps_could_drop_has_the_first_reason() {
    let kept = pairs(&[[9, 1, 0, 0]]);
    let reasons = |list: &[[i64; 4]]| reasons(&[list, &kept].concat())[..list.len()].to_vec();
    // A lone face in a position without object 1: 1 and not 2.
    assert_eq!(reasons(&[[1, 2, 0, 0]]), [1]);
    // A doubled face whose readings are apart: 1 and not 3.
    let doubled = [&pair(1, 1, 0, 60_001)[..], &[[1, 1, 0, 5]]].concat();
    assert_eq!(reasons(&doubled), [1, 1, 1]);
    // Faces apart in a position without object 1: 2 and not 3.
    assert_eq!(reasons(&pairs(&[[1, 2, 0, 60_001]])), [2, 2]);
    // Faces apart where object 1 was dropped by the first step: 2 and not 3.
    let spoiled = [vec![[1, 1, 0, 0]], pairs(&[[1, 2, 0, 60_001]])].concat();
    assert_eq!(reasons(&spoiled), [1, 2, 2]);
    // Faces apart beside an initial with faces apart: 3 and not 4.
    let both = pairs(&[[1, 1, 0, 60_001], [1, 2, 0, 60_001], [1, 3, 0, 0]]);
    assert_eq!(reasons(&both), [3, 3, 3, 3, 4, 4]);
}

#[test]
fn all_four_reasons_in_one_list() {
    let list = [
        pairs(&[[4, 2, 0, 0], [4, 1, 0, -60_001], [1, 1, 0, 0]]),
        vec![[2, 1, 0, 0], [1, 3, 1, 7]],
        pairs(&[[2, 2, 0, 0], [1, 2, 100, 60_001], [3, 5, 0, 99_999]]),
    ]
    .concat();
    assert_eq!(reasons(&list), [4, 4, 3, 3, 0, 0, 1, 1, 2, 2, 3, 3, 2, 2]);
}

#[test]
fn one_spoiled_position_of_several() {
    let sightings = |position: i64| {
        let left = 70_000_000 * position;
        pairs(&[
            [position, 1, left, 9],
            [position, 2, left + 4_000, 0],
            [position, 3, left + 9_000, -9],
        ])
    };
    for spoiled in 1..=3 {
        let mut list: Vec<[i64; 4]> = (1..=3).flat_map(sightings).collect();
        // The initial's left face becomes a second right one.
        let first = 6 * (spoiled - 1);
        list[first][2] = 1;
        let mut expected = vec![0; 18];
        expected[first..first + 2].fill(1);
        expected[first + 2..first + 6].fill(2);
        assert_eq!(reasons(&list), expected);
        // Another object's: it alone goes.
        list[first][2] = 0;
        list[first + 3][2] = 0;
        let mut expected = vec![0; 18];
        expected[first + 2..first + 4].fill(1);
        assert_eq!(reasons(&list), expected);
    }
}

#[test]
fn a_sound_list_is_kept_whole() {
    assert_eq!(reasons(&sound()), [0; 4]);
    assert_eq!(reasons(&pairs(&[[16, 1, 0, 0]])), [0, 0]);
    let file = fullest().replace(' ', "\t").into_bytes();
    assert_eq!(book::rescued_listing(&file), file);
    assert_eq!(book::dropped_listing(&file), b"");
    // Also where 26 refuses it.
    let apart = pairs(&[[1, 1, 0, 0], [1, 2, 0, 0], [2, 1, 0, 0], [2, 2, 60_001, 0]]);
    assert_eq!(means(&apart), refused(26, 202));
    assert_eq!(reasons(&apart), [0; 8]);
}

#[test]
fn what_is_kept_may_be_refused_with_26() {
    let mut list = pairs(&[[1, 1, 0, 0], [1, 2, 0, 0], [2, 1, 0, 0], [2, 2, 60_001, 0]]);
    list.push([2, 3, 0, 0]);
    let (kept, dropped) = rescue(&list).unwrap();
    assert_eq!(dropped, [[9, 1]]);
    assert_eq!(means(&list), refused(23, 203));
    assert_eq!(means(&kept), refused(26, 202));
}

#[test]
fn a_rescue_may_move_the_base_of_an_object() {
    // Position 1 is the lowest until it is dropped: then 2 is the base, and 26 comes of 3.
    let list = [
        vec![[1, 1, 0, 0]],
        pairs(&[[1, 2, 0, 0], [2, 1, 0, 0], [2, 2, 30_000, 0]]),
        pairs(&[[3, 1, 0, 0], [3, 2, -30_001, 0]]),
    ]
    .concat();
    let (kept, _) = rescue(&list).unwrap();
    assert_eq!(means(&kept), refused(26, 302));
}

#[test]
fn refusal_32_nothing_left() {
    for list in [
        // By each of the four steps.
        vec![[1, 1, 0, 0]],
        pairs(&[[1, 2, 0, 0]]),
        pairs(&[[1, 1, 0, 60_001]]),
        pairs(&[[1, 1, 0, -60_001], [1, 2, 0, 0]]),
        // By the first two, and by the first three.
        [vec![[1, 1, 0, 0]], pairs(&[[1, 2, 0, 0]])].concat(),
        [
            vec![[1, 1, 0, 0]],
            pairs(&[[1, 2, 0, 0], [2, 1, 0, 60_001], [2, 2, 0, 0]]),
        ]
        .concat(),
        vec![[16, 16, 1, CIRCLE - 1]; 512],
    ] {
        assert_eq!(rescue(&list), refused(32, 0), "{list:?}");
        // One pair of an initial elsewhere is enough.
        let last = list.len().min(510);
        let with = [&list[..last], &pair(9, 1, 0, 0)].concat();
        assert_eq!(rescue(&with).unwrap().0, pair(9, 1, 0, 0));
    }
}

#[test]
fn refusal_21_counts_and_lengths() {
    let fitting = |count: usize| [count; ANSWERS];
    assert_eq!(rescue(&[]), refused(21, 0));
    let many = |count: usize| [pairs(&[[1, 1, 0, 0]]), vec![[2, 1, 0, 0]; count - 2]].concat();
    assert_eq!(rescue(&many(512)).unwrap().1.len(), 510);
    assert_eq!(rescue(&many(513)), refused(21, 0));
    assert_eq!(rescue(&[[1, 1, 0, 0]]), refused(32, 0));
    // Each answer list one short, one long, empty, and of a length that no list has.
    for list in 0..ANSWERS {
        for wrong in [0, 3, 5, 512, usize::MAX] {
            let mut lengths = fitting(4);
            lengths[list] = wrong;
            assert_eq!(rescue_lists(&sound(), lengths), refused(21, 0));
            // Before 22 and 32.
            let bad = vec![[0, 1, 0, 0]; 4];
            assert_eq!(rescue_lists(&bad, lengths), refused(21, 0));
            let nothing = vec![[1, 1, 0, 0]; 4];
            assert_eq!(rescue_lists(&nothing, lengths), refused(21, 0));
        }
    }
    assert!(rescue_lists(&sound(), fitting(4)).is_ok());
    // No sightings and over 512, with lists that agree.
    assert_eq!(rescue_lists(&[], fitting(0)), refused(21, 0));
    assert_eq!(rescue_lists(&many(513), fitting(513)), refused(21, 0));
    // Each field list one short and one long.
    let [p, o, f, r] = [[1, 1], [1, 1], [0, 1], [0, 648_000_000]];
    let of = |lists: [&[i64]; 4]| {
        rescue::rescue(lists[0], lists[1], lists[2], lists[3], fitting(2)).map(|_| ())
    };
    assert_eq!(of([&p, &o, &f, &r]), Ok(()));
    for list in 0..4 {
        for wrong in [&[][..], &[1], &[1, 1, 1]] {
            let mut lists: [&[i64]; 4] = [&p, &o, &f, &r];
            lists[list] = wrong;
            assert_eq!(of(lists), refused(21, 0));
        }
    }
}

#[test]
fn refusal_22_ranges() {
    for (field, low, high) in [(0, 1, 16), (1, 1, 16), (2, 0, 1), (3, 0, CIRCLE - 1)] {
        for (value, within) in [
            (low, true),
            (high, true),
            (low - 1, false),
            (high + 1, false),
        ] {
            for index in 0..4 {
                let mut list = sound();
                list[index][field] = value;
                let refused = rescue(&list).err().filter(|refusal| refusal.number == 22);
                let expected = (!within).then(|| Refusal::new(22, index as i64 + 1));
                assert_eq!(refused, expected, "{value} in field {field}");
            }
        }
        for value in [i64::MIN, i64::MAX, (1 << 32) + 1] {
            let mut list = sound();
            list[2][field] = value;
            list[3][field] = value;
            assert_eq!(rescue_lists(&list, [4; ANSWERS]), refused(22, 3));
        }
    }
    // Before 32; the lower ordinal first.
    assert_eq!(rescue(&[[1, 1, 0, 0], [1, 1, 2, 0]]), refused(22, 2));
    assert_eq!(rescue(&[[1, 1, 0, -1], [0, 1, 2, 0]]), refused(22, 1));
}

/// Both operations on a book written with spaces for tabs refuse it alike.
fn both_refuse(book: &str, number: i64, place: i64) {
    let file = book.replace(' ', "\t").into_bytes();
    let [rescued, dropped] = [book::RESCUED_ROOM, book::DROPPED_ROOM];
    assert_eq!(rescue_book(&file, rescued), refused(number, place));
    assert_eq!(dropped_book(&file, dropped), refused(number, place));
    // Too little room comes first.
    assert_eq!(rescue_book(&file, rescued - 1), refused(21, 0));
    assert_eq!(dropped_book(&file, dropped - 1), refused(21, 0));
}

#[test]
fn refusals_of_a_book_in_their_order() {
    both_refuse("", 21, 0);
    both_refuse("X\n", 1, 1);
    both_refuse("\n", 1, 1);
    both_refuse("S 1 1 0 0", 1, 1);
    both_refuse(&format!("{FIGURE_9}S 1 1 0 0"), 1, 5);
    both_refuse(&format!("{FIGURE_9}S 1 1 0 00\n"), 1, 5);
    both_refuse("X 1 1\n", 1, 1);
    // Length before form, form before count, count before ranges, ranges before 32.
    both_refuse(&"x".repeat(65_536), 2, 0);
    both_refuse(&"x".repeat(65_535), 1, 1);
    both_refuse(&well_formed(65_536), 2, 0);
    both_refuse(&well_formed(65_535), 21, 0);
    let many = "S 99 1 0 0\n".repeat(513);
    both_refuse(&many, 21, 0);
    both_refuse(&format!("{many}X\n"), 1, 514);
    both_refuse(&"S 99 1 0 0\n".repeat(512), 22, 1);
    let last = format!("{}S 1 1 2 0\n", "S 1 1 0 0\n".repeat(511));
    both_refuse(&last, 22, 512);
    both_refuse(&"S 1 1 0 0\n".repeat(512), 32, 0);
    both_refuse("S 1 1 0 0\nS 17 1 0 0\n", 22, 2);
    both_refuse("S 1 1 0 0\n", 32, 0);
}

#[test]
fn rooms_for_the_lines_of_a_book() {
    assert_eq!([book::RESCUED_ROOM, book::DROPPED_ROOM], [10_752, 4_096]);
    let file = format!("{FIGURE_9}S 1 2 0 0\n").replace(' ', "\t");
    let file = file.as_bytes();
    let kept = b"S\t1\t1\t0\t0\nS\t1\t1\t1\t648004000\n";
    let dropped = b"X\t3\t1\nX\t4\t1\nX\t5\t1\n";
    for room in [0, 1, 10_751] {
        assert_eq!(rescue_book(file, room), refused(21, 0));
    }
    for room in [10_752, 10_753, usize::MAX] {
        assert_eq!(rescue_book(file, room), Ok(kept.to_vec()));
    }
    for room in [0, 1, 4_095] {
        assert_eq!(dropped_book(file, room), refused(21, 0));
    }
    for room in [4_096, 4_097, 10_752] {
        assert_eq!(dropped_book(file, room), Ok(dropped.to_vec()));
    }
    // A sound book is kept whole, and its list of dropped sightings has no bytes.
    let file = FIGURE_9.replace(' ', "\t").into_bytes();
    assert_eq!(rescue_book(&file, 10_752), Ok(file.clone()));
    assert_eq!(dropped_book(&file, 4_096), Ok(Vec::new()));
}

#[test]
fn the_longest_answers_fit_their_rooms() {
    let longest = format!("S\t16\t16\t1\t{}\n", CIRCLE - 1);
    assert_eq!(512 * longest.len(), book::RESCUED_ROOM);
    assert_eq!(512 * "X\t512\t4\n".len(), book::DROPPED_ROOM);
    // The most that can be dropped beside what is kept: all but one pair.
    let first = pair(9, 1, 0, 0);
    let list = [&first[..], &vec![[1, 1, 0, 0]; 510]].concat();
    let (kept, dropped) = rescue(&list).unwrap();
    assert_eq!(kept, first);
    assert!(dropped.iter().copied().eq((3..=512).map(|n| [n, 1])));
}

#[test]
fn rearranged_sightings_keep_their_reasons() {
    let list = [
        pairs(&[[4, 2, 0, 0], [4, 1, 0, -60_001], [1, 1, 0, 0]]),
        vec![[2, 1, 0, 0], [1, 3, 1, 7], [1, 3, 1, 8]],
        pairs(&[[2, 2, 0, 0], [1, 2, 100, 60_001], [3, 5, 0, 99_999]]),
    ]
    .concat();
    let mut numbered: Vec<([i64; 4], u64)> = list.iter().copied().zip(reasons(&list)).collect();
    let mut rng = Rng::new(207);
    for _ in 0..100 {
        rng.shuffle(&mut numbered);
        let (list, expected): (Vec<_>, Vec<_>) = numbered.iter().copied().unzip();
        assert_eq!(reasons(&list), expected);
    }
}

/// The sightings of a drawn case.
fn drawn(rng: &mut Rng) -> Option<Vec<[i64; 4]>> {
    let RescueCase {
        position,
        object,
        face,
        reading,
        lengths,
    } = rescue_case(rng);
    let count = position.len();
    let agree = lengths == [count; ANSWERS]
        && [&object, &face, &reading]
            .iter()
            .all(|list| list.len() == count);
    agree.then(|| {
        (0..count)
            .map(|n| [position[n], object[n], face[n], reading[n]])
            .collect()
    })
}

#[test]
fn drawn_lists_keep_what_the_request_says() {
    let mut rng = Rng::new(32);
    let (mut accepted, mut nothing, mut whole, mut apart) = (0, 0, 0, 0);
    for _ in 0..1_000 {
        let Some(list) = drawn(&mut rng) else {
            continue;
        };
        let own = means(&list);
        let is_sound = !matches!(own, Err(Refusal { number, .. }) if number != 26);
        // A book cannot say all the numbers that are drawn: the lists alone.
        match rescue_lists(&list, [list.len(); ANSWERS]) {
            Ok((kept, dropped)) => {
                accepted += 1;
                let reasons = reasons(&list);
                // Sound under 22 to 25, and kept whole just where it was so before.
                assert_eq!(is_sound, dropped.is_empty());
                whole += usize::from(is_sound);
                match means(&kept) {
                    Ok(_) => {}
                    Err(Refusal { number, .. }) => {
                        assert_eq!(number, 26);
                        apart += 1;
                    }
                }
                // A second rescue has nothing to do.
                assert_eq!(rescue(&kept), Ok((kept, Vec::new())));
                let mut numbered: Vec<_> = list.into_iter().zip(reasons).collect();
                rng.shuffle(&mut numbered);
                let (list, reasons): (Vec<_>, Vec<u64>) = numbered.into_iter().unzip();
                assert_eq!(self::reasons(&list), reasons);
            }
            Err(Refusal {
                number: 32,
                place: 0,
            }) => {
                nothing += 1;
                assert!(!is_sound);
            }
            // 21 and 22 as for the means.
            Err(refusal) => assert_eq!(own, Err(refusal)),
        }
    }
    assert!(accepted > 450 && nothing > 100 && whole > 50 && apart > 10);
}

#[test]
fn drawn_books_refuse_as_their_means_do() {
    let mut rng = Rng::new(33);
    for _ in 0..2_000 {
        let file = spoiled_book_case(&mut rng).file;
        let own = station_book(&file, book::LISTING_ROOM);
        let kept = rescue_book(&file, book::RESCUED_ROOM);
        let dropped = dropped_book(&file, book::DROPPED_ROOM);
        assert_eq!(kept.is_ok(), dropped.is_ok());
        if let (Ok(kept), Ok(dropped)) = (&kept, &dropped) {
            let lines = |bytes: &[u8]| bytes.split_inclusive(|&byte| byte == b'\n').count();
            assert_eq!(lines(kept) + lines(dropped), lines(&file));
        }
        match (own, kept) {
            // 1, 2, 21 and 22 are those of the means; they come before all that is rescued.
            (Err(own), kept) if own.number < 23 => assert_eq!(kept, Err(own)),
            (_, Err(refusal)) => assert_eq!(refusal, Refusal::new(32, 0)),
            (Ok(_), Ok(kept)) => assert_eq!(kept, file),
            (Err(_), Ok(_)) => {}
        }
    }
}
