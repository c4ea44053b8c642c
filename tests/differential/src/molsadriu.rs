//! The functions of `include/molsadriu.h`, under its names. All that is unsafe is here.

use crate::lent::Lent;

/// The header's MOLSADRIU_LISTING: bytes that hold the listing of any network file.
pub const LISTING: usize = 6_560;

/// Bytes that hold the listing of any network file with its E line.
pub const PROBABLE_LISTING: usize = 6_606;

/// The header's MOLSADRIU_STATION_LISTING: bytes that hold the listing of any sighting book.
pub const STATION_LISTING: usize = 1_136;

/// The header's MOLSADRIU_RESCUED_BOOK: bytes that hold the kept lines of any sighting book.
pub const RESCUED_BOOK: usize = 10_752;

/// The header's MOLSADRIU_DROPPED_LISTING: bytes that hold the list of the dropped sightings
/// of any sighting book.
pub const DROPPED_LISTING: usize = 4_096;

/// The header's MOLSADRIU_REFUSED_LINE: bytes that hold any REFUSED line.
pub const REFUSED_LINE: usize = 52;

#[repr(C)]
#[derive(Clone, Copy, Debug, PartialEq, Eq)]
pub struct Verdict {
    pub number: u64,
    pub place: u64,
}

#[link(name = "office", kind = "static")]
extern "C" {
    fn molsadriu_station_means(
        position: *const i64,
        position_length: usize,
        object: *const i64,
        object_length: usize,
        face: *const i64,
        face_length: usize,
        reading: *const i64,
        reading_length: usize,
        direction: *mut i64,
        direction_room: usize,
        pairs: *mut i64,
        pairs_room: usize,
    ) -> Verdict;

    fn molsadriu_coefficients(
        directions: *const i64,
        directions_length: usize,
        q: *const i64,
        q_length: usize,
        letter: u8,
        target: i64,
        kind: *const i64,
        kind_length: usize,
        value: *const i64,
        value_length: usize,
        d: *const i64,
        d_length: usize,
        i: *const i64,
        i_length: usize,
        k: *const i64,
        k_length: usize,
        a: *mut i64,
        a_room: usize,
    ) -> Verdict;

    fn molsadriu_misclosure(
        directions: *const i64,
        directions_length: usize,
        q: *const i64,
        q_length: usize,
        letter: u8,
        target: i64,
        kind: *const i64,
        kind_length: usize,
        value: *const i64,
        value_length: usize,
        d: *const i64,
        d_length: usize,
        i: *const i64,
        i_length: usize,
        k: *const i64,
        k_length: usize,
        w: *mut i64,
    ) -> Verdict;

    fn molsadriu_adjust_table(
        directions: *const i64,
        directions_length: usize,
        q: *const i64,
        q_length: usize,
        a: *const i64,
        a_length: usize,
        w: *const i64,
        w_length: usize,
        corrections: *mut i64,
        corrections_room: usize,
        printed: *mut i64,
        printed_room: usize,
        adjusted: *mut i64,
        adjusted_room: usize,
        correlates: *mut i64,
        correlates_room: usize,
        remainders: *mut i64,
        remainders_room: usize,
        misses: *mut i64,
        misses_room: usize,
    ) -> Verdict;

    fn molsadriu_adjust_file(
        file: *const u8,
        file_length: usize,
        out: *mut u8,
        out_room: usize,
        length: *mut usize,
    ) -> Verdict;

    fn molsadriu_probable_error(
        u: *const i64,
        u_length: usize,
        q: *const i64,
        q_length: usize,
        n: usize,
        mean: *mut i64,
        probable: *mut i64,
    ) -> Verdict;

    fn molsadriu_probable_file(
        file: *const u8,
        file_length: usize,
        out: *mut u8,
        out_room: usize,
        length: *mut usize,
    ) -> Verdict;

    fn molsadriu_station_book(
        file: *const u8,
        file_length: usize,
        out: *mut u8,
        out_room: usize,
        length: *mut usize,
    ) -> Verdict;

    fn molsadriu_rescue_sightings(
        position: *const i64,
        position_length: usize,
        object: *const i64,
        object_length: usize,
        face: *const i64,
        face_length: usize,
        reading: *const i64,
        reading_length: usize,
        kept_position: *mut i64,
        kept_position_room: usize,
        kept_object: *mut i64,
        kept_object_room: usize,
        kept_face: *mut i64,
        kept_face_room: usize,
        kept_reading: *mut i64,
        kept_reading_room: usize,
        ordinals: *mut u64,
        ordinals_room: usize,
        reasons: *mut u64,
        reasons_room: usize,
        kept: *mut usize,
        dropped: *mut usize,
    ) -> Verdict;

    fn molsadriu_rescue_book(
        file: *const u8,
        file_length: usize,
        out: *mut u8,
        out_room: usize,
        length: *mut usize,
    ) -> Verdict;

    fn molsadriu_dropped_book(
        file: *const u8,
        file_length: usize,
        out: *mut u8,
        out_room: usize,
        length: *mut usize,
    ) -> Verdict;

    fn molsadriu_report(
        archive: *const u8,
        archive_length: usize,
        totals: *mut u64,
        totals_room: usize,
    ) -> Verdict;

    fn molsadriu_season_begin(
        held: *const u8,
        held_length: usize,
        totals: *mut u64,
        totals_room: usize,
        place: *mut u64,
        place_room: usize,
    ) -> Verdict;

    fn molsadriu_season_next(
        bytes: *const u8,
        bytes_length: usize,
        held: *mut u8,
        held_room: usize,
        totals: *mut u64,
        totals_room: usize,
        place: *mut u64,
        place_room: usize,
    ) -> Verdict;

    fn molsadriu_season_end(
        held: *const u8,
        held_length: usize,
        totals: *mut u64,
        totals_room: usize,
        place: *mut u64,
        place_room: usize,
    ) -> Verdict;

    fn molsadriu_add_reports(
        first: *const u64,
        first_length: usize,
        second: *const u64,
        second_length: usize,
        sum: *mut u64,
        sum_room: usize,
    ) -> Verdict;

    fn molsadriu_check_sheet(
        net: *const u8,
        net_length: usize,
        listing: *const u8,
        listing_length: usize,
        line: *mut u64,
    ) -> Verdict;

    fn molsadriu_refused_line(number: u64, place: u64, out: *mut u8, out_room: usize) -> usize;

    fn molsadriu_list_file(
        file: *const u8,
        file_length: usize,
        out: *mut u8,
        out_room: usize,
    ) -> usize;

    fn molsadriu_line(file: *const u8, file_length: usize, start: usize) -> usize;

    fn molsadriu_line_status(file: *const u8, file_length: usize, start: usize) -> u64;
}

// Each call below is sound for one reason: a `Lent` owns its cells, its pointer goes with
// its own length (null only with length 0), and a `&mut` shares no place with another.

pub type Numbers = Lent<i64>;

/// Lists in the header's order: position, object, face, reading; direction, pairs.
pub fn station_means([p, o, f, r, direction, pairs]: &mut [Numbers; 6]) -> Verdict {
    unsafe {
        molsadriu_station_means(
            p.pointer(),
            p.length(),
            o.pointer(),
            o.length(),
            f.pointer(),
            f.length(),
            r.pointer(),
            r.length(),
            direction.pointer(),
            direction.length(),
            pairs.pointer(),
            pairs.length(),
        )
    }
}

/// Lists in the header's order: directions, q, kind, value, d, i, k; a.
pub fn coefficients(
    letter: u8,
    target: i64,
    [directions, q, kind, value, d, i, k, a]: &mut [Numbers; 8],
) -> Verdict {
    unsafe {
        molsadriu_coefficients(
            directions.pointer(),
            directions.length(),
            q.pointer(),
            q.length(),
            letter,
            target,
            kind.pointer(),
            kind.length(),
            value.pointer(),
            value.length(),
            d.pointer(),
            d.length(),
            i.pointer(),
            i.length(),
            k.pointer(),
            k.length(),
            a.pointer(),
            a.length(),
        )
    }
}

/// Lists as for the coefficients; the last one holds w, and has just one place.
pub fn misclosure(
    letter: u8,
    target: i64,
    [directions, q, kind, value, d, i, k, w]: &mut [Numbers; 8],
) -> Verdict {
    assert_eq!(w.length(), 1);
    unsafe {
        molsadriu_misclosure(
            directions.pointer(),
            directions.length(),
            q.pointer(),
            q.length(),
            letter,
            target,
            kind.pointer(),
            kind.length(),
            value.pointer(),
            value.length(),
            d.pointer(),
            d.length(),
            i.pointer(),
            i.length(),
            k.pointer(),
            k.length(),
            w.pointer(),
        )
    }
}

/// Lists in the header's order: directions, q, a, w; then V, u, adjusted, K, R, Q.
pub fn adjust_table(
    [directions, q, a, w, corrections, printed, adjusted, correlates, remainders, misses]: &mut [Numbers;
             10],
) -> Verdict {
    unsafe {
        molsadriu_adjust_table(
            directions.pointer(),
            directions.length(),
            q.pointer(),
            q.length(),
            a.pointer(),
            a.length(),
            w.pointer(),
            w.length(),
            corrections.pointer(),
            corrections.length(),
            printed.pointer(),
            printed.length(),
            adjusted.pointer(),
            adjusted.length(),
            correlates.pointer(),
            correlates.length(),
            remainders.pointer(),
            remainders.length(),
            misses.pointer(),
            misses.length(),
        )
    }
}

/// Lists in the header's order: u, q; then e and the probable error, of just one place each.
pub fn probable_error(n: usize, [u, q, mean, probable]: &mut [Numbers; 4]) -> Verdict {
    assert_eq!([mean.length(), probable.length()], [1, 1]);
    unsafe {
        molsadriu_probable_error(
            u.pointer(),
            u.length(),
            q.pointer(),
            q.length(),
            n,
            mean.pointer(),
            probable.pointer(),
        )
    }
}

pub type Counts = Lent<u64>;

/// Lists in the header's order: position, object, face, reading, the four of the kept
/// sightings; ordinals, reasons; then how many are kept and dropped, of just one place each.
pub fn rescue_sightings(
    [p, o, f, r, kept_p, kept_o, kept_f, kept_r]: &mut [Numbers; 8],
    [ordinals, reasons, kept, dropped]: &mut [Counts; 4],
) -> Verdict {
    assert_eq!([kept.length(), dropped.length()], [1, 1]);
    unsafe {
        molsadriu_rescue_sightings(
            p.pointer(),
            p.length(),
            o.pointer(),
            o.length(),
            f.pointer(),
            f.length(),
            r.pointer(),
            r.length(),
            kept_p.pointer(),
            kept_p.length(),
            kept_o.pointer(),
            kept_o.length(),
            kept_f.pointer(),
            kept_f.length(),
            kept_r.pointer(),
            kept_r.length(),
            ordinals.pointer(),
            ordinals.length(),
            reasons.pointer(),
            reasons.length(),
            kept.pointer().cast(),
            dropped.pointer().cast(),
        )
    }
}

pub fn report(archive: &mut Lent<u8>, totals: &mut Counts) -> Verdict {
    unsafe {
        molsadriu_report(
            archive.pointer(),
            archive.length(),
            totals.pointer(),
            totals.length(),
        )
    }
}

/// Lists in the header's order: totals, place.
pub fn season_begin(held: &mut Lent<u8>, [totals, place]: &mut [Counts; 2]) -> Verdict {
    unsafe {
        molsadriu_season_begin(
            held.pointer(),
            held.length(),
            totals.pointer(),
            totals.length(),
            place.pointer(),
            place.length(),
        )
    }
}

/// Lists as for the beginning.
pub fn season_next(
    bytes: &mut Lent<u8>,
    held: &mut Lent<u8>,
    [totals, place]: &mut [Counts; 2],
) -> Verdict {
    unsafe {
        molsadriu_season_next(
            bytes.pointer(),
            bytes.length(),
            held.pointer(),
            held.length(),
            totals.pointer(),
            totals.length(),
            place.pointer(),
            place.length(),
        )
    }
}

/// Lists as for the beginning.
pub fn season_end(held: &mut Lent<u8>, [totals, place]: &mut [Counts; 2]) -> Verdict {
    unsafe {
        molsadriu_season_end(
            held.pointer(),
            held.length(),
            totals.pointer(),
            totals.length(),
            place.pointer(),
            place.length(),
        )
    }
}

/// Lists in the header's order: first, second; sum.
pub fn add_reports([first, second, sum]: &mut [Counts; 3]) -> Verdict {
    unsafe {
        molsadriu_add_reports(
            first.pointer(),
            first.length(),
            second.pointer(),
            second.length(),
            sum.pointer(),
            sum.length(),
        )
    }
}

/// Lists in the header's order: net, listing; then the line, a list of just one place.
pub fn check_sheet([net, listing]: &mut [Lent<u8>; 2], line: &mut Counts) -> Verdict {
    assert_eq!(line.length(), 1);
    unsafe {
        molsadriu_check_sheet(
            net.pointer(),
            net.length(),
            listing.pointer(),
            listing.length(),
            line.pointer(),
        )
    }
}

/// An operation on a file: the file, the buffer for its listing, and the listing's length,
/// a list of just one place, of 64 bits as a `usize` has.
pub type OnFile = fn(&mut Lent<u8>, &mut Lent<u8>, &mut Numbers) -> Verdict;

pub fn adjust_file(file: &mut Lent<u8>, out: &mut Lent<u8>, length: &mut Numbers) -> Verdict {
    assert_eq!(length.length(), 1);
    unsafe {
        molsadriu_adjust_file(
            file.pointer(),
            file.length(),
            out.pointer(),
            out.length(),
            length.pointer().cast(),
        )
    }
}

pub fn probable_file(file: &mut Lent<u8>, out: &mut Lent<u8>, length: &mut Numbers) -> Verdict {
    assert_eq!(length.length(), 1);
    unsafe {
        molsadriu_probable_file(
            file.pointer(),
            file.length(),
            out.pointer(),
            out.length(),
            length.pointer().cast(),
        )
    }
}

pub fn station_book(file: &mut Lent<u8>, out: &mut Lent<u8>, length: &mut Numbers) -> Verdict {
    assert_eq!(length.length(), 1);
    unsafe {
        molsadriu_station_book(
            file.pointer(),
            file.length(),
            out.pointer(),
            out.length(),
            length.pointer().cast(),
        )
    }
}

pub fn rescue_book(file: &mut Lent<u8>, out: &mut Lent<u8>, length: &mut Numbers) -> Verdict {
    assert_eq!(length.length(), 1);
    unsafe {
        molsadriu_rescue_book(
            file.pointer(),
            file.length(),
            out.pointer(),
            out.length(),
            length.pointer().cast(),
        )
    }
}

pub fn dropped_book(file: &mut Lent<u8>, out: &mut Lent<u8>, length: &mut Numbers) -> Verdict {
    assert_eq!(length.length(), 1);
    unsafe {
        molsadriu_dropped_book(
            file.pointer(),
            file.length(),
            out.pointer(),
            out.length(),
            length.pointer().cast(),
        )
    }
}

pub fn refused_line(number: u64, place: u64, out: &mut Lent<u8>) -> usize {
    unsafe { molsadriu_refused_line(number, place, out.pointer(), out.length()) }
}

pub fn list_file(file: &mut Lent<u8>, out: &mut Lent<u8>) -> usize {
    unsafe { molsadriu_list_file(file.pointer(), file.length(), out.pointer(), out.length()) }
}

pub fn line(file: &mut Lent<u8>, start: usize) -> usize {
    unsafe { molsadriu_line(file.pointer(), file.length(), start) }
}

pub fn line_status(file: &mut Lent<u8>, start: usize) -> u64 {
    unsafe { molsadriu_line_status(file.pointer(), file.length(), start) }
}
