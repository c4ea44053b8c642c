/* Molsadriu: adjustment of observed directions by the method of conditions, for programs in C (C99) and C++.
 *
 * Link with the archive of the crate office_c: `tools/native` makes target/native/liboffice.a for this computer. Of the C library it asks
 * memcpy, memmove and memset at most.
 *
 * LISTS. A list is lent as two arguments, a pointer to its first number and how many numbers it has. An empty list may be a null
 * pointer and 0. Every list has its own length. A length is refused, before any list is read, where it disagrees with the length of
 * another list of the same call, with the counts that the rules allow, or with the room that the answer needs.
 *
 * WHO OWNS WHAT. Everything stays the caller's. Nothing is kept after the call, nothing is allocated, and there is no state between
 * calls, so that calls from several threads at once are sound as long as nothing lent for an answer is shared. What comes in through
 * a pointer to const is only read. A list lent for an answer is written whole where the input is accepted, a buffer in its first bytes,
 * the lists of a rescue in their first places, and the lists of a season report in parts as far as its state changes; where the verdict
 * refuses, all that was lent stays as it was. One refusal alone comes with an answer: 30, from molsadriu_report and molsadriu_season_end.
 * docs/COSTS.md says how much stack a call takes.
 *
 * WHAT CANNOT BE SEEN, and is up to the caller: that a list has as many numbers as its length says, where that length agrees with the
 * others (a null pointer with a length above 0 has not), that a pointer to one number, `w`, `length`, `mean`, `probable`, `line`, `kept` or
 * `dropped`, is not null, that each pointer is aligned for its type, and that what is lent for an answer shares no place with anything else
 * lent in the same call. Lists that are only read may overlap.
 *
 * UNITS. Directions, readings, printed corrections u, mean error and probable error are in 0.001 second, coefficients a in hundredths,
 * misclosures w in thousandths of the condition's unit, correlates K in millionths, corrections V in 10^-8 second, remainders R and Q in
 * 10^-10 of the condition's unit.
 *
 * That each function does this for every input is proved, from its pointers and lengths inward; see docs/PROMISES.md. */
#ifndef MOLSADRIU_H
#define MOLSADRIU_H

#include <stddef.h>
#include <stdint.h>

#ifdef __cplusplus
extern "C" {
#endif

/* The version of this header. Each request that changes a number of the table of refusals, a limit, a unit or a function's parameters, or
 * adds a function, raises it by one. The archive holds no version: header and archive go together, from one state of the project. */
#define MOLSADRIU_VERSION 7

/* The archive is made for computers whose lengths have 64 bits; a compiler for another one stops here. */
typedef char molsadriu_lengths_have_64_bits[sizeof(size_t) == 8 ? 1 : -1];

#define MOLSADRIU_CIRCLE 1296000000     /* C: the circle, in 0.001 second */
#define MOLSADRIU_SIGHTINGS 512         /* most sightings at a station */
#define MOLSADRIU_OBJECTS 16            /* objects of a station: the length of its two answer lists */
#define MOLSADRIU_DIRECTIONS 64         /* most directions, m */
#define MOLSADRIU_CONDITIONS 24         /* most conditions, n; also not above m */
#define MOLSADRIU_TERMS 12              /* most terms of a condition */
#define MOLSADRIU_FILE 65535            /* most bytes of a file, network file or sighting book */
#define MOLSADRIU_LISTING 6560          /* bytes that hold the listing of any network file, without an E line */
#define MOLSADRIU_PROBABLE_LISTING 6606 /* bytes that hold the listing of any network file with its E line */
#define MOLSADRIU_STATION_LISTING 1136  /* bytes that hold the listing of any sighting book */
#define MOLSADRIU_RESCUED_BOOK 10752    /* bytes that hold the kept lines of any sighting book */
#define MOLSADRIU_DROPPED_LISTING 4096  /* bytes that hold the list of the dropped sightings of any sighting book */
#define MOLSADRIU_REFUSED_LINE 52       /* bytes that hold any REFUSED line */
#define MOLSADRIU_NETS 100000           /* most nets of a season report */
#define MOLSADRIU_TOTALS 16             /* totals of a season report: the length of its list */
#define MOLSADRIU_HELD 65536            /* bytes that a season report in parts holds of the open net: the length of that list */
#define MOLSADRIU_PLACES 3              /* numbers of its place in the archive: the length of that list */
#define MOLSADRIU_MOST_TOTAL 999999999999999999 /* most that a total may be, where it is lent */

/* What a caller is told: number 0 and place 0 where the input is accepted, else the number and the place of the refusal.
 *
 *  No.  When                                                                Place
 *   1   line malformed, unknown, or under the wrong heading;                line,
 *       a term's kind doesn't fit its condition;                            or the term's ordinal,
 *       a condition's letter is neither A nor S                             or 0
 *   2   counts of directions, conditions or terms; lengths that disagree;   line,
 *       a D line out of turn; file too long                                 or 0
 *   3   number out of range, or i = k where that is not allowed;            line, direction number or term's ordinal, or 0;
 *       a total, or a number of a season report's state                     its ordinal
 *   4   coefficient beyond 2,000                                            condition
 *   5   misclosure beyond 1,000,000                                         condition
 *   6   weak row j: D(j,j) is below 1, or 1,000*D(j,j) is below N(j,j);     row
 *       some |D| is above 2,560,000,000, |L| above 4,000,000,000 or
 *       some |M| above 10^9 (the normals N, the reduced row D, L, M)
 *   7   correlate too large                                                 row
 *   8   remainder R too large                                               condition
 *   9   printed correction u above 60,000 in size: past one minute          lowest such direction number
 *  21   no sightings, over 512, or lists of unequal length;                 0
 *       a wrong room for their means or their rescue
 *  22   sighting field out of range                                         its ordinal, in a sighting book its line
 *  23   a face missing or given more than once                              100 * position + object
 *  24   position without object 1                                           100 * position + 1
 *  25   faces over 60,000 apart                                             as 23
 *  26   a position's direction over 120,000 (doubled) from the lowest's     as 23
 *  30   a net past 100,000 in a season report; the one refusal that comes   100001
 *       with an answer, the totals of the nets before it, but where two
 *       reports are added
 *  31   a line of another office's listing that is not the one due          line
 *  32   nothing is left of the sightings that were to be rescued            0
 *
 * Lines, ordinals, directions, rows, conditions and nets count from 1. The first refusal in the rules' order of checks is told, and no
 * other. */
typedef struct molsadriu_verdict {
    uint64_t number;
    uint64_t place;
} molsadriu_verdict;

/* THE LISTING of a file that is accepted is lines of text, in this order. Tabs part the fields, and each line is ended by LF.
 * Of a network file:
 *   ADJ  m  n                  one line: how many directions, how many conditions
 *   V    number  u  adjusted   for each direction, 1 to m: its number, its printed correction u and its adjusted direction (0 to C - 1),
 *                              both in 0.001 second
 *   K    condition  K  R  Q    for each condition, 1 to n: its number, its correlate K in millionths, and what is left of it, by the
 *                              unrounded corrections (R) and by the printed ones (Q), both in 10^-10 of the condition's unit: of a
 *                              second under A, of the sixth decimal of a logarithm under S
 *   E    mean  probable        one line, by molsadriu_probable_file alone: mean error and probable error of a direction, in 0.001 second
 * Of a sighting book:
 *   STA  sightings  objects    one line: how many sightings, how many objects were seen
 *   O    object  direction  P  for each object that was seen, in their order: its number, its direction from the initial (0 to C - 1), in
 *                              0.001 second, and the number of pairs that this comes from
 * Of a spoiled sighting book, by molsadriu_rescue_book, what is kept, which is a sighting book again:
 *   S    position  object  face  reading      for each sighting that is kept, in their order: its line as it stands in the book
 * and by molsadriu_dropped_book what is dropped; there may be no line at all:
 *   X    ordinal  reason       for each sighting that is dropped, in their order: its ordinal, which is its line in the book, and the
 *                              reason, 1 to 4, as THE RESCUE has them
 * The listing of a file that is refused is one line:
 *   REFUSED  number  place     as in the verdict
 * Numbers are decimal, with no plus and no leading zero, and a minus in front where they are below 0. */

/* Station means. In: one list for each field of the sightings, all of one length, 1 to 512, in any order of arrival: position (1 to
 * 16), object (1 to 16; 1 is the initial), face (0 left, 1 right) and reading (0 to C - 1). Out, in two lists of exactly 16: the
 * direction of each object from the initial, and the number of pairs it comes from; 0 and 0 for an object never seen.
 * Comes back: the verdict, 21 to 26 where it refuses; an answer list of another length than 16 is 21 at 0. */
molsadriu_verdict molsadriu_station_means(
    const int64_t *position, size_t position_length,
    const int64_t *object, size_t object_length,
    const int64_t *face, size_t face_length,
    const int64_t *reading, size_t reading_length,
    int64_t *direction, size_t direction_room,
    int64_t *pairs, size_t pairs_room);

/* Station means of a sighting book. In: the bytes of the book, a line for each sighting: S, position, object, face and reading, parted by
 * tabs and ended by LF. Out, where it is accepted: its listing in the first bytes of `out`, of which those after it stay as they were, and
 * how many bytes it has, in the one number at `length`, which must not be null.
 * Comes back: the verdict, 1, 2 or 21 to 26 where it refuses, and then `out` and the number at `length` stay as they were. A room below
 * MOLSADRIU_STATION_LISTING is 21 at 0 before all else. A book of more than 65,535 bytes is 2 at 0, and is not read. A line that is no
 * sighting is 1, wherever it stands, before all that the sightings themselves are refused for; no lines at all, or over 512, is 21 at 0. */
molsadriu_verdict molsadriu_station_book(
    const uint8_t *file, size_t file_length,
    uint8_t *out, size_t out_room,
    size_t *length);

/* THE RESCUE of a spoiled list of sightings drops some of them in four steps, each from what the one before it has left:
 *   1  all sightings of a position and object of which a face is missing or given more than once
 *   2  all sightings of a position without object 1
 *   3  both sightings of a position and object whose faces are over 60,000 apart
 *   4  all sightings of a position that is now without object 1
 * The step that drops a sighting is its reason. These are the faults of 23, 24, 25 and 24 again: sightings that molsadriu_station_means
 * accepts, or refuses with 26, are all kept, and what is kept it accepts, or refuses with 26. Which are kept does not depend on the order
 * of arrival.
 *
 * The rescue of lent sightings. In: one list for each of their fields, as of molsadriu_station_means. Out, in lists of exactly as many
 * places as there are sightings: in the first places of four, the kept sightings in their old order, a list for each field; in the first
 * places of two more, for each dropped sighting, in their old order too, its ordinal in the list given and its reason. The places behind
 * them stay as they were. How many are kept and how many dropped, which together are all that were lent, in the numbers at `kept` and
 * `dropped`; neither may be null.
 * Comes back: the verdict, 21, 22 or 32 where it refuses, and then the six lists and both numbers stay as they were. 21 at 0 is for counts
 * and lengths, those of the answer lists too; then 22 goes by ordinal; 32 at 0 is where nothing is left. */
molsadriu_verdict molsadriu_rescue_sightings(
    const int64_t *position, size_t position_length,
    const int64_t *object, size_t object_length,
    const int64_t *face, size_t face_length,
    const int64_t *reading, size_t reading_length,
    int64_t *kept_position, size_t kept_position_room,
    int64_t *kept_object, size_t kept_object_room,
    int64_t *kept_face, size_t kept_face_room,
    int64_t *kept_reading, size_t kept_reading_room,
    uint64_t *ordinals, size_t ordinals_room,
    uint64_t *reasons, size_t reasons_room,
    size_t *kept, size_t *dropped);

/* The rescue of a sighting book: what is kept. In: the bytes of the book, as of molsadriu_station_book. Out, where it is accepted: the kept
 * lines in the first bytes of `out`, of which those after them stay as they were, and how many bytes they have, in the one number at
 * `length`, which must not be null.
 * Comes back: the verdict, 1, 2, 21, 22 or 32 where it refuses, and then `out` and the number at `length` stay as they were. A room below
 * MOLSADRIU_RESCUED_BOOK is 21 at 0 before all else. Then all is as of molsadriu_station_book down to 22, and 32 at 0 is where nothing is
 * left. */
molsadriu_verdict molsadriu_rescue_book(
    const uint8_t *file, size_t file_length,
    uint8_t *out, size_t out_room,
    size_t *length);

/* The rescue of a sighting book: what is dropped. In, out and comes back: all as of molsadriu_rescue_book, and the same verdict, but that
 * the X lines of the dropped sightings are written, and the room must be at least MOLSADRIU_DROPPED_LISTING: a smaller one is 21 at 0
 * before all else. Of a book that is kept whole nothing is written, and the number at `length` is 0. */
molsadriu_verdict molsadriu_dropped_book(
    const uint8_t *file, size_t file_length,
    uint8_t *out, size_t out_room,
    size_t *length);

/* One condition's coefficients. In: the directions 1 to m (m from 1 to 64; each 0 to C - 1), their inverse weights q (1 to 10; m of
 * them), the letter of the condition, 'A' for angles or 'S' for sides, the target of an angle condition (0 to 12 C; not read under S),
 * and one list for each field of the terms, all of one length, 1 to 12:
 *   kind    'P' an angle from i to k, 'F' a fixed angle (both under A), 'L' or 'R' a side term on the left or on the right (under S)
 *   value   the fixed angle of F (0 to C - 1), the logarithm of L and R (0 to 200,000,000, in 10^-7); not read of P
 *   d       the difference per second of L and R (-2,000 to 2,000); not read of P and F
 *   i, k    direction numbers, 0 to m; 0 is the fixed initial; not read of F
 * i and k differ, but for a fixed length, an L or R with i = k = 0 and d = 0.
 * Out: the coefficients of directions 1 to m, in a list of exactly m.
 * Comes back: the verdict, 1 to 4 where it refuses; a letter other than A and S is 1 at 0 before all else, an answer list of another
 * length than m is 2 at 0, 4 has place 1. */
molsadriu_verdict molsadriu_coefficients(
    const int64_t *directions, size_t directions_length,
    const int64_t *q, size_t q_length,
    uint8_t letter, int64_t target,
    const int64_t *kind, size_t kind_length,
    const int64_t *value, size_t value_length,
    const int64_t *d, size_t d_length,
    const int64_t *i, size_t i_length,
    const int64_t *k, size_t k_length,
    int64_t *a, size_t a_room);

/* The misclosure of the same condition. In: as above. Out: w, in the one number at w, which must not be null; it has no length that
 * could be wrong. Comes back: the verdict, 1, 2, 3 or 5 (at 1) where it refuses. */
molsadriu_verdict molsadriu_misclosure(
    const int64_t *directions, size_t directions_length,
    const int64_t *q, size_t q_length,
    uint8_t letter, int64_t target,
    const int64_t *kind, size_t kind_length,
    const int64_t *value, size_t value_length,
    const int64_t *d, size_t d_length,
    const int64_t *i, size_t i_length,
    const int64_t *k, size_t k_length,
    int64_t *w);

/* Adjusts a condition table. In: the directions 1 to m and their q as above; a, the coefficients (-2,000 to 2,000), n rows of m,
 * row after row; w, the n misclosures (-1,000,000 to 1,000,000); n from 1 to 24 and not above m.
 * Out, in three lists of exactly m: the corrections V, the printed corrections u, and the adjusted directions; and in three lists of
 * exactly n: the correlates K, the remainders R, and the printed remainders Q.
 * Comes back: the verdict, 2 to 9 where it refuses; an answer list of another length is 2 at 0. */
molsadriu_verdict molsadriu_adjust_table(
    const int64_t *directions, size_t directions_length,
    const int64_t *q, size_t q_length,
    const int64_t *a, size_t a_length,
    const int64_t *w, size_t w_length,
    int64_t *corrections, size_t corrections_room,
    int64_t *printed, size_t printed_room,
    int64_t *adjusted, size_t adjusted_room,
    int64_t *correlates, size_t correlates_room,
    int64_t *remainders, size_t remainders_room,
    int64_t *misses, size_t misses_room);

/* Adjusts a network file. In: the bytes of the file. Out, where it is accepted: its listing in the first bytes of `out`, of which those
 * after it stay as they were, and how many bytes it has, in the one number at `length`, which must not be null.
 * Comes back: the verdict, 1 to 9 where it refuses, and then `out` and the number at `length` stay as they were. A room below
 * MOLSADRIU_LISTING is 2 at 0 before all else. A file of more than 65,535 bytes is 2 at 0, and is not read. */
molsadriu_verdict molsadriu_adjust_file(
    const uint8_t *file, size_t file_length,
    uint8_t *out, size_t out_room,
    size_t *length);

/* Mean error and probable error of a direction, from the corrections of an adjustment. In: the printed corrections u of directions 1 to m
 * (m from 1 to 64; each -60,000 to 60,000), their inverse weights q (1 to 10; m of them), and n, how many conditions were adjusted (1 to
 * 24, and not above m). With S, the sum of 2,520*u*u/q, the mean error is the largest whole e with e*e*2,520*n not above S, and the
 * probable error is the nearest whole number to 6,745*e / 10,000, halves away from zero.
 * Out: e in the one number at `mean`, the probable error in the one at `probable`; neither may be null.
 * Comes back: the verdict, 2 or 3 where it refuses, and then both numbers stay as they were. 2 at 0 is for counts and lengths;
 * then 3 goes by direction number, u and q together, also for a u past one minute, which is 9 only in an adjustment. */
molsadriu_verdict molsadriu_probable_error(
    const int64_t *u, size_t u_length,
    const int64_t *q, size_t q_length,
    size_t n,
    int64_t *mean, int64_t *probable);

/* Adjusts a network file, with the E line at the end of its listing. In, out and comes back: all as of molsadriu_adjust_file, and the same
 * verdict, but that the room must be at least MOLSADRIU_PROBABLE_LISTING: a smaller one is 2 at 0 before all else. A file that is refused
 * has no E line. */
molsadriu_verdict molsadriu_probable_file(
    const uint8_t *file, size_t file_length,
    uint8_t *out, size_t out_room,
    size_t *length);

/* The REFUSED line of a verdict. In: its number and place; any two numbers are written. Out: the line, in the first bytes of `out`; those
 * after it stay as they were. Comes back: how many bytes it has; 0 where the room is below MOLSADRIU_REFUSED_LINE, and then `out` stays
 * as it was. */
size_t molsadriu_refused_line(uint64_t number, uint64_t place, uint8_t *out, size_t out_room);

/* molsadriu_adjust_file and the REFUSED line in one, for programs that only pass the listing on. In: the bytes of a network file. Out: its
 * listing, or its REFUSED line, in the first bytes of `out`; those after it stay as they were. Comes back: how many bytes it has; 0 where
 * the room is below MOLSADRIU_LISTING, and then `out` stays as it was. */
size_t molsadriu_list_file(const uint8_t *file, size_t file_length, uint8_t *out, size_t out_room);

/* The line reader. The line at `start` is the caller's own bytes: it begins at file + start, and what comes back is its length, without
 * its LF. Any start is allowed; a start within a line gives the rest of it. The length is 0 where molsadriu_line_status does not say
 * MOLSADRIU_LINE, and also at an empty line. Where it says MOLSADRIU_LINE, and only there, the next line starts at start + length + 1. */
size_t molsadriu_line(const uint8_t *file, size_t file_length, size_t start);

/* What stands at `start`, one of these three: */
#define MOLSADRIU_LINE 0       /* a line with its LF */
#define MOLSADRIU_NONE_LEFT 1  /* nothing: the start is at or past the end */
#define MOLSADRIU_LF_MISSING 2 /* bytes, and no LF after them */
uint64_t molsadriu_line_status(const uint8_t *file, size_t file_length, size_t start);

/* THE SEASON REPORT is sixteen totals over the nets of an archive. An archive is network files one after another, each closed by a line
 * with a single full stop, "." and LF, which belongs to no net. Each net counts under the number that molsadriu_adjust_file has for it,
 * with room enough: a net of more than 65,535 bytes, or of none, under 2. Bytes left after the last full stop line are one net counted
 * under 1, however many. The totals, by their place from 0:
 *    0        how many nets, 0 to 100,000
 *    1        how many were accepted
 *    2 to 10  how many were refused under the numbers 1 to 9: place 1 + number
 *   11, 12    over the angle conditions of the accepted nets: the sum of the sizes of their misclosures, and the largest, 0 of none
 *   13, 14    the same over their side conditions
 *   15        accepted nets with two conditions that share three or more directions, with coefficients other than zero in both
 * Sizes are in thousandths of the condition's unit. */

/* The report of an archive. In: the bytes of the archive, as many as there are. Out: its totals, in a list of exactly 16, whatever it
 * held. Comes back: the verdict, 2 at 0 for a list of another length, which stays as it was; 30 at 100001 where the archive has more than
 * 100,000 nets, and then the totals are those of the first 100,000. */
molsadriu_verdict molsadriu_report(
    const uint8_t *archive, size_t archive_length,
    uint64_t *totals, size_t totals_room);

/* The same report of an archive that comes in parts: begun, given the next bytes any number of times, and ended. Whatever the parts, also
 * where they end within a line, totals and verdict at the end are those of molsadriu_report for all of them joined. What is to be
 * remembered between the calls stands in three lists of the caller's, one set for each archive that is read:
 *   held    exactly 65,536 bytes: those of the open net so far
 *   totals  exactly 16: the report of the nets that have been closed
 *   place   exactly 3: how many bytes the open net has, counted to 65,537 and no further; where in its line the archive stands, 0 at the
 *           start, 1 after a full stop at the start, 2 elsewhere; and 1 once a net past 100,000 has come, else 0
 * A list of another length is 2 at 0. Then next and end refuse a state that no such calls have left, by the ordinal in totals and place
 * together: 3 at 1 where there are more than 100,000 nets, at 2 to 16 for another total above MOLSADRIU_MOST_TOTAL, at 17 for more than
 * 65,537 bytes, at 18 for a place in the line above 2, or 1 where the open net has no bytes, at 19 for a last number above 1. Any other
 * state is taken as it stands: that the lists hold what the call before left in them is up to the caller.
 *
 * Begins. In: `held`, whose bytes may be any, and are not read. Out: totals and place, all 0. Comes back: the verdict, 0 or 2. */
molsadriu_verdict molsadriu_season_begin(
    const uint8_t *held, size_t held_length,
    uint64_t *totals, size_t totals_room,
    uint64_t *place, size_t place_room);

/* The next bytes of the archive, however many, none too. In and out: the three lists. Comes back: the verdict, 0, 2 or 3; a net past
 * 100,000 is told at the end, and bytes after it change nothing. A refusal leaves all three lists as they were. */
molsadriu_verdict molsadriu_season_next(
    const uint8_t *bytes, size_t bytes_length,
    uint8_t *held, size_t held_room,
    uint64_t *totals, size_t totals_room,
    uint64_t *place, size_t place_room);

/* Ends: bytes of a net that is still open are counted under 1. In: the three lists. Out: the report in `totals`; the first two numbers of
 * `place` are 0. Comes back: the verdict, 0, 2, 3, or 30 at 100001 where a net past 100,000 has come. 2 and 3 leave the lists as they
 * were; 30 comes with the totals of the first 100,000 nets. */
molsadriu_verdict molsadriu_season_end(
    const uint8_t *held, size_t held_length,
    uint64_t *totals, size_t totals_room,
    uint64_t *place, size_t place_room);

/* The sum of two reports: the larger of the two at places 12 and 14, the sum elsewhere. In: two lists of 16; they may be the same. Out:
 * their sum, in a third list of exactly 16. Comes back: the verdict, 2 at 0 for another length; 3 at the ordinal, 1 to 16, of the first
 * place where a number of either, or what the two make, is above MOLSADRIU_MOST_TOTAL; 30 at 100001 where both hold more than 100,000
 * nets together. Here every refusal, 30 too, leaves the sum as it was. */
molsadriu_verdict molsadriu_add_reports(
    const uint64_t *first, size_t first_length,
    const uint64_t *second, size_t second_length,
    uint64_t *sum, size_t sum_room);

/* Checks another office's sheet: whether a listing, whoever made it, agrees with a net. In: the bytes of a network file, and those of the
 * listing, an ADJ line, V lines and K lines as above, with nothing behind them and with numbers of at most 18 digits. It agrees where its
 * counts are the net's, no K is above 10^8 in size, u, adjusted direction, R and Q on each line are what the net and those K give, no R is
 * above 50,000,000 in size and no u above 60,000. The listing that molsadriu_adjust_file has for an accepted net agrees with it.
 * Out, in the one number at `line`, which must not be null: 0 where it agrees; else the line of the first test that fails, of the counts
 * (line 1), then of the sizes of the K, then of all lines in order.
 * Comes back: the verdict, which is 0 also where it does not agree. 1 to 5 refuse the net, as in molsadriu_adjust_file, and 6 to 9 are not
 * asked. Then 31 refuses the listing at its first line that is not the one due: the ADJ line counts 1 to 64 directions and 1 to 24
 * conditions, and by these counts V and K lines are due, each numbered from 1. A line that is missing or lacks its LF is told where it was
 * due, and a line more where it stands. A refusal leaves the number at `line` as it was. A listing may have any length. */
molsadriu_verdict molsadriu_check_sheet(
    const uint8_t *net, size_t net_length,
    const uint8_t *listing, size_t listing_length,
    uint64_t *line);

#ifdef __cplusplus
}
#endif

#endif
