/* The functions of include/molsadriu.h, called with what a careless program might lend: lists of every wrong length, numbers at the ends of
 * their type, letters of no meaning. Each list is a block of its own with nothing behind it, so that valgrind sees a read or a write past it. */
#include <inttypes.h>
#include <stdio.h>
#include <stdlib.h>
#include <string.h>

#include "molsadriu.h"

static unsigned checks, failures;

static void check(int right, const char *what, int line)
{
    checks++;
    if (!right) {
        failures++;
        printf("refusals.c:%d: %s\n", line, what);
    }
}
#define CHECK(fact) check((fact) != 0, #fact, __LINE__)

static int is(molsadriu_verdict v, uint64_t number, uint64_t place)
{
    if (v.number == number && v.place == place) return 1;
    printf("  %" PRIu64 " at %" PRIu64 ", and not %" PRIu64 " at %" PRIu64 "\n", v.number, v.place, number, place);
    return 0;
}

/* A list in a block of exactly its length; what it held when it was lent. */
typedef struct {
    int64_t *at;
    size_t length;
    int64_t before[MOLSADRIU_OBJECTS];
} list;

static list lend(const int64_t *numbers, size_t length)
{
    list l;
    l.at = malloc(length * sizeof *l.at);
    if (l.at == NULL) exit(2);
    l.length = length;
    memcpy(l.at, numbers, length * sizeof *l.at);
    memcpy(l.before, numbers, length * sizeof *l.at);
    return l;
}

static uint64_t *counts(const list *l)
{
    return (uint64_t *)l->at;
}

static int unchanged(const list *lists, size_t first, size_t count, const size_t *lengths)
{
    for (size_t j = first; j < count; j++)
        if (memcmp(lists[j].at, lists[j].before, lengths[j] * sizeof(int64_t)) != 0) return 0;
    return 1;
}

static void give_back(list *lists, size_t count)
{
    for (size_t j = 0; j < count; j++) free(lists[j].at);
}

/* Numbers that no field takes. */
static const int64_t ends[2] = {INT64_MIN, INT64_MAX};

/* Calls an operation with each of its lists at each wrong length, one at a time: always this refusal, and the answer lists stay. */
static void wrong_lengths(molsadriu_verdict (*call)(const list *), list *lists, size_t count, size_t answers, uint64_t number)
{
    size_t right[10];
    for (size_t j = 0; j < count; j++) right[j] = lists[j].length;
    for (size_t j = 0; j < count; j++) {
        const size_t wrong[6] = {0, right[j] - 1, right[j] + 1, 1000, SIZE_MAX / 8 + 1, SIZE_MAX};
        for (size_t n = 0; n < 6; n++) {
            lists[j].length = wrong[n];
            CHECK(is(call(lists), number, 0));
            CHECK(unchanged(lists, answers, count, right));
        }
        /* an empty list may have no place */
        int64_t *at = lists[j].at;
        lists[j].at = NULL;
        lists[j].length = 0;
        CHECK(is(call(lists), number, 0));
        lists[j].at = at;
        lists[j].length = right[j];
    }
}

/* ---- station: figure 9 */
static molsadriu_verdict means(const list *l)
{
    return molsadriu_station_means(l[0].at, l[0].length, l[1].at, l[1].length, l[2].at, l[2].length, l[3].at, l[3].length,
                                   l[4].at, l[4].length, l[5].at, l[5].length);
}

static void station(void)
{
    const int64_t position[4] = {1, 1, 1, 1}, object[4] = {1, 1, 2, 2}, face[4] = {0, 1, 0, 1};
    const int64_t reading[4] = {0, 648004000, 144010000, 792016000};
    const int64_t held[MOLSADRIU_OBJECTS] = {-7, -7, -7, -7, -7, -7, -7, -7, -7, -7, -7, -7, -7, -7, -7, -7};
    list l[6] = {lend(position, 4), lend(object, 4), lend(face, 4), lend(reading, 4), lend(held, 16), lend(held, 16)};
    const size_t right[6] = {4, 4, 4, 4, 16, 16};
    wrong_lengths(means, l, 6, 4, 21);
    for (size_t j = 0; j < 4; j++)
        for (size_t n = 0; n < 4; n++)
            for (size_t e = 0; e < 2; e++) {
                l[j].at[n] = ends[e];
                CHECK(is(means(l), 22, n + 1));
                CHECK(unchanged(l, 4, 6, right));
                l[j].at[n] = l[j].before[n];
            }
    l[2].at[3] = 0;
    CHECK(is(means(l), 23, 102));
    l[2].at[3] = 1;
    CHECK(is(means(l), 0, 0));
    CHECK(l[4].at[0] == 0 && l[4].at[1] == 144011000 && l[4].at[2] == 0 && l[4].at[15] == 0);
    CHECK(l[5].at[0] == 1 && l[5].at[1] == 1 && l[5].at[2] == 0 && l[5].at[15] == 0);
    give_back(l, 6);
}

/* ---- rescue of sightings: one position with a lone face, one whose initial has its faces apart, one without an initial */
static size_t kept, dropped;

static molsadriu_verdict rescue(const list *l)
{
    return molsadriu_rescue_sightings(l[0].at, l[0].length, l[1].at, l[1].length, l[2].at, l[2].length, l[3].at, l[3].length,
                                      l[4].at, l[4].length, l[5].at, l[5].length, l[6].at, l[6].length, l[7].at, l[7].length,
                                      counts(&l[8]), l[8].length, counts(&l[9]), l[9].length, &kept, &dropped);
}

/* A refusal leaves the answer lists and the two numbers as they were. */
static void rescue_refuses(const list *l, uint64_t number, uint64_t place)
{
    size_t lengths[10];
    for (size_t j = 0; j < 10; j++) lengths[j] = l[j].length;
    kept = 4711;
    dropped = 1147;
    CHECK(is(rescue(l), number, place));
    CHECK(unchanged(l, 4, 10, lengths) && kept == 4711 && dropped == 1147);
}

/* The sightings dropped, by the ordinal and the reason of each, and all others kept; the places behind them stay as they were. */
static int rescues(list *l, const uint64_t (*expected)[2], size_t count)
{
    const size_t length = l[0].length;
    int right = 1;
    for (size_t j = 4; j < 10; j++) memcpy(l[j].at, l[j].before, length * sizeof(int64_t));
    kept = dropped = 4711;
    if (!is(rescue(l), 0, 0)) return 0;
    for (size_t n = 0, gone = 0; n < length; n++) {
        if (gone < count && expected[gone][0] == n + 1) {
            gone++;
            continue;
        }
        for (size_t j = 0; j < 4; j++) right &= l[4 + j].at[n - gone] == l[j].at[n];
    }
    for (size_t n = 0; n < count; n++) right &= counts(&l[8])[n] == expected[n][0] && counts(&l[9])[n] == expected[n][1];
    for (size_t j = 4; j < 8; j++)
        for (size_t n = length - count; n < length; n++) right &= l[j].at[n] == l[j].before[n];
    for (size_t j = 8; j < 10; j++)
        for (size_t n = count; n < length; n++) right &= l[j].at[n] == l[j].before[n];
    return right && kept == length - count && dropped == count;
}

/* One pair, which is kept, and the same lone face over and over, which is dropped; so many sightings in all. */
static void lone_faces(size_t count, uint64_t number)
{
    list l[10];
    for (size_t j = 0; j < 10; j++) {
        l[j].at = malloc(count * sizeof(int64_t));
        l[j].length = count;
        if (l[j].at == NULL) exit(2);
        for (size_t n = 0; n < count; n++) l[j].at[n] = j < 2 ? 16 : -7;
    }
    for (size_t n = 0; n < count; n++) {
        l[2].at[n] = n == 1;
        l[3].at[n] = n == 1 ? 648060000 : 0;
        if (n < 2) l[1].at[n] = 1;
    }
    kept = dropped = 4711;
    CHECK(is(rescue(l), number, 0));
    int right = number == 0 ? kept == 2 && dropped == count - 2 : kept == 4711 && dropped == 4711;
    for (size_t n = 0; n < count; n++) {
        int gone = number == 0 && n < count - 2, stays = number == 0 && n < 2;
        right &= counts(&l[8])[n] == (gone ? n + 3 : (uint64_t)-7) && counts(&l[9])[n] == (gone ? 1 : (uint64_t)-7);
        for (size_t j = 4; j < 8; j++) right &= l[j].at[n] == (stays ? l[j - 4].at[n] : -7);
    }
    CHECK(right);
    give_back(l, 10);
}

static void rescue_of_lists(void)
{
    const int64_t position[11] = {1, 2, 3, 1, 1, 1, 2, 2, 3, 1, 2}, object[11] = {1, 1, 2, 2, 3, 1, 2, 1, 2, 2, 2};
    const int64_t face[11] = {0, 0, 0, 0, 0, 1, 1, 1, 1, 1, 0};
    const int64_t reading[11] = {0, 0, 0, 144010000, 5, 648004000, 648000000, 648060001, 648000000, 792016000, 0};
    const int64_t other[11] = {-7, -7, -7, -7, -7, -7, -7, -7, -7, -7, -7};
    const uint64_t all_four[7][2] = {{2, 3}, {3, 2}, {5, 1}, {7, 4}, {8, 3}, {9, 2}, {11, 4}}, agreeing[3][2] = {{3, 2}, {5, 1}, {9, 2}};
    const uint64_t doubled[7][2] = {{1, 1}, {3, 2}, {4, 2}, {5, 1}, {6, 1}, {9, 2}, {10, 2}};
    const int64_t limits[2][2] = {{648060000, 648060001}, {647940000, 647939999}};
    list l[10] = {lend(position, 11), lend(object, 11), lend(face, 11), lend(reading, 11), lend(other, 11),
                  lend(other, 11),    lend(other, 11),  lend(other, 11), lend(other, 11),  lend(other, 11)};
    const size_t right[10] = {11, 11, 11, 11, 11, 11, 11, 11, 11, 11};
    kept = dropped = 4711;
    wrong_lengths(rescue, l, 10, 4, 21);
    CHECK(kept == 4711 && dropped == 4711);
    CHECK(is(molsadriu_rescue_sightings(NULL, 0, NULL, 0, NULL, 0, NULL, 0, NULL, 0, NULL, 0, NULL, 0, NULL, 0, NULL, 0, NULL, 0,
                                        &kept, &dropped), 21, 0));
    CHECK(kept == 4711 && dropped == 4711);
    for (size_t j = 0; j < 4; j++)
        for (size_t n = 0; n < 11; n++)
            for (size_t e = 0; e < 2; e++) {
                l[j].at[n] = ends[e];
                rescue_refuses(l, 22, n + 1);
                /* a length before a field */
                l[9].length = 10;
                rescue_refuses(l, 21, 0);
                l[9].length = 11;
                l[j].at[n] = l[j].before[n];
            }
    /* all four reasons; and both sides of 60,000, by the right face of the initial in position 2 */
    CHECK(rescues(l, all_four, 7));
    for (size_t sign = 0; sign < 2; sign++) {
        l[3].at[7] = limits[sign][0];
        CHECK(rescues(l, agreeing, 3));
        l[3].at[7] = limits[sign][1];
        CHECK(rescues(l, all_four, 7));
    }
    /* what is doubled in position 1 takes the whole of it: nothing is left, or position 2 alone */
    for (size_t j = 4; j < 10; j++) memcpy(l[j].at, other, sizeof other);
    l[2].at[5] = 0;
    l[3].at[7] = 648060001;
    rescue_refuses(l, 32, 0);
    l[2].at[4] = 2;
    rescue_refuses(l, 22, 5);
    l[2].at[4] = 0;
    l[3].at[7] = 648060000;
    CHECK(rescues(l, doubled, 7));
    l[2].at[5] = 1;
    l[3].at[7] = reading[7];
    CHECK(unchanged(l, 0, 4, right));
    give_back(l, 10);
    /* lists that are only read may be the same: one pair, position and object alike, kept whole */
    const int64_t ones[2] = {1, 1}, both[2] = {0, 1}, readings[2] = {0, 648000000};
    list same[10] = {lend(ones, 2),  lend(ones, 2),  lend(both, 2),  lend(readings, 2), lend(other, 2),
                     lend(other, 2), lend(other, 2), lend(other, 2), lend(other, 2),    lend(other, 2)};
    int64_t *own = same[1].at;
    same[1].at = same[0].at;
    CHECK(rescues(same, NULL, 0));
    same[1].at = own;
    give_back(same, 10);
    /* one sighting is a list, of which nothing is left; 512 are the most */
    list one[10];
    for (size_t j = 0; j < 10; j++) one[j] = lend(j < 2 ? ones : j < 4 ? both : other, 1);
    rescue_refuses(one, 32, 0);
    give_back(one, 10);
    lone_faces(MOLSADRIU_SIGHTINGS, 0);
    lone_faces(MOLSADRIU_SIGHTINGS + 1, 21);
}

/* ---- one condition's terms: the first condition of figure 3, and a side condition */
static uint8_t letter;
static int64_t target, w;

static molsadriu_verdict coefficients(const list *l)
{
    return molsadriu_coefficients(l[0].at, l[0].length, l[1].at, l[1].length, letter, target, l[2].at, l[2].length, l[3].at, l[3].length,
                                  l[4].at, l[4].length, l[5].at, l[5].length, l[6].at, l[6].length, l[7].at, l[7].length);
}

static molsadriu_verdict misclosure(const list *l)
{
    return molsadriu_misclosure(l[0].at, l[0].length, l[1].at, l[1].length, letter, target, l[2].at, l[2].length, l[3].at, l[3].length,
                                l[4].at, l[4].length, l[5].at, l[5].length, l[6].at, l[6].length, &w);
}

/* Both operations refuse alike, and leave what they were lent. */
static void both_refuse(const list *l, uint64_t number, uint64_t place)
{
    const size_t right[8] = {3, 3, 3, 3, 3, 3, 3, 3};
    w = 4711;
    CHECK(is(coefficients(l), number, place));
    CHECK(is(misclosure(l), number, place));
    CHECK(unchanged(l, 7, 8, right));
    CHECK(w == 4711);
}

static void terms(void)
{
    const int64_t directions[3] = {216000000, 216003000, 215997000}, q[3] = {1, 1, 1};
    const int64_t kind[3] = {'P', 'P', 'F'}, value[3] = {INT64_MIN, INT64_MAX, 216000000}, d[3] = {INT64_MIN, INT64_MAX, INT64_MIN};
    const int64_t i[3] = {0, 0, INT64_MIN}, k[3] = {1, 2, INT64_MAX}, held[3] = {-7, -7, -7};
    list l[8] = {lend(directions, 3), lend(q, 3), lend(kind, 3), lend(value, 3), lend(d, 3), lend(i, 3), lend(k, 3), lend(held, 3)};
    letter = 'A';
    target = 648000000;
    wrong_lengths(coefficients, l, 8, 7, 2);
    w = 4711;
    wrong_lengths(misclosure, l, 7, 7, 2);
    CHECK(w == 4711);
    for (size_t e = 0; e < 2; e++) {
        for (size_t j = 0; j < 7; j++)
            for (size_t n = 0; n < 3; n++) {
                /* what is read of a P (terms 1 and 2) is i and k, of an F (term 3) its value; d is not read here */
                int read = j < 3 || (j == 3 && n == 2) || ((j == 5 || j == 6) && n < 2);
                if (!read) continue;
                l[j].at[n] = ends[e];
                both_refuse(l, j == 2 ? 1 : 3, n + 1);
                l[j].at[n] = l[j].before[n];
            }
        target = ends[e];
        both_refuse(l, 3, 0);
        target = 648000000;
    }
    /* any other letter is 1 at 0, before all else: here before a length and a direction that are wrong */
    for (int c = 0; c < 256; c++) {
        if (c == 'A' || c == 'S') continue;
        letter = (uint8_t)c;
        both_refuse(l, 1, 0);
        l[1].length = 2;
        l[0].at[0] = -1;
        both_refuse(l, 1, 0);
        l[1].length = 3;
        l[0].at[0] = directions[0];
    }
    letter = 'S';
    both_refuse(l, 1, 1);
    letter = 'A';
    CHECK(is(coefficients(l), 0, 0) && l[7].at[0] == 100 && l[7].at[1] == 100 && l[7].at[2] == 0);
    CHECK(is(misclosure(l), 0, 0) && w == 3000);
    /* a side condition: its target is not read */
    const int64_t sides[3] = {'L', 'R', 'R'}, logarithms[3] = {98000000, 97999000, 0}, differences[3] = {250, -40, 0};
    const int64_t from[3] = {1, 0, 0}, to[3] = {2, 3, 0};
    for (size_t n = 0; n < 3; n++) {
        l[2].at[n] = sides[n];
        l[3].at[n] = logarithms[n];
        l[4].at[n] = differences[n];
        l[5].at[n] = from[n];
        l[6].at[n] = to[n];
    }
    letter = 'S';
    target = INT64_MIN;
    CHECK(is(coefficients(l), 0, 0) && l[7].at[0] == -250 && l[7].at[1] == 250 && l[7].at[2] == 40);
    CHECK(is(misclosure(l), 0, 0) && w == 100000);
    give_back(l, 8);
}

/* ---- a condition table: figure 1 */
static molsadriu_verdict adjust(const list *l)
{
    return molsadriu_adjust_table(l[0].at, l[0].length, l[1].at, l[1].length, l[2].at, l[2].length, l[3].at, l[3].length,
                                  l[4].at, l[4].length, l[5].at, l[5].length, l[6].at, l[6].length,
                                  l[7].at, l[7].length, l[8].at, l[8].length, l[9].at, l[9].length);
}

static void table(void)
{
    const int64_t directions[3] = {0, 1000, MOLSADRIU_CIRCLE - 1}, q[3] = {1, 1, 1}, a[3] = {-306, 694, -1058}, misclosures[1] = {-79200};
    const int64_t held[3] = {-7, -7, -7};
    list l[10] = {lend(directions, 3), lend(q, 3), lend(a, 3), lend(misclosures, 1), lend(held, 3), lend(held, 3), lend(held, 3),
                  lend(held, 1), lend(held, 1), lend(held, 1)};
    const size_t right[10] = {3, 3, 3, 1, 3, 3, 3, 1, 1, 1};
    wrong_lengths(adjust, l, 10, 4, 2);
    for (size_t j = 0; j < 4; j++)
        for (size_t n = 0; n < right[j]; n++)
            for (size_t e = 0; e < 2; e++) {
                l[j].at[n] = ends[e];
                CHECK(j < 2 ? is(adjust(l), 3, n + 1) : is(adjust(l), j + 2, 1));
                CHECK(unchanged(l, 4, 10, right));
                l[j].at[n] = l[j].before[n];
            }
    /* both sides of one minute, by the misclosure: direction 3 is the first to pass it */
    for (int64_t sign = -1; sign <= 1; sign += 2) {
        l[3].at[0] = sign * 961050;
        for (size_t j = 4; j < 10; j++) memcpy(l[j].at, held, right[j] * sizeof *held);
        CHECK(is(adjust(l), 9, 3));
        CHECK(unchanged(l, 4, 10, right));
        l[3].at[0] = sign * 961049;
        CHECK(is(adjust(l), 0, 0));
        CHECK(l[5].at[0] == sign * 17354 && l[5].at[1] == sign * -39358 && l[5].at[2] == sign * 60000);
    }
    l[3].at[0] = misclosures[0];
    CHECK(is(adjust(l), 0, 0));
    CHECK(l[5].at[0] == -1430 && l[5].at[1] == 3243 && l[5].at[2] == -4945);
    CHECK(l[6].at[0] == MOLSADRIU_CIRCLE - 1430 && l[6].at[1] == 4243 && l[6].at[2] == MOLSADRIU_CIRCLE - 4946);
    CHECK(l[7].at[0] == 467357 && l[8].at[0] == -2948 && l[9].at[0] == 3200000);
    CHECK(l[4].at[0] == -306 * INT64_C(467357));
    give_back(l, 10);
}

/* ---- mean error and probable error of lent lists: figure 3's corrections */
static size_t conditions;
static int64_t mean, probable;

static molsadriu_verdict errors(const list *l)
{
    return molsadriu_probable_error(l[0].at, l[0].length, l[1].at, l[1].length, conditions, &mean, &probable);
}

/* A refusal leaves the two numbers as they were. */
static void errors_refuse(const list *l, uint64_t number, uint64_t place)
{
    mean = 4711;
    probable = -4711;
    CHECK(is(errors(l), number, place));
    CHECK(mean == 4711 && probable == -4711);
}

static void errors_are(const list *l, int64_t e, int64_t p)
{
    mean = probable = -1;
    CHECK(is(errors(l), 0, 0));
    CHECK(mean == e && probable == p);
}

/* So many directions of correction u and q = 1, with n conditions: this refusal, or these errors. */
static void directions_alike(size_t m, size_t n, int64_t u, uint64_t number, int64_t e, int64_t p)
{
    list l[2] = {{malloc(m * sizeof(int64_t)), m, {0}}, {malloc(m * sizeof(int64_t)), m, {0}}};
    for (size_t j = 0; j < m; j++) {
        if (l[0].at == NULL || l[1].at == NULL) exit(2);
        l[0].at[j] = u;
        l[1].at[j] = 1;
    }
    conditions = n;
    if (number != 0)
        errors_refuse(l, number, 0);
    else
        errors_are(l, e, p);
    give_back(l, 2);
}

static void precision(void)
{
    const int64_t u[3] = {-2000, -1000, 1000}, q[3] = {1, 1, 1};
    const int64_t beyond[2][6] = {{60001, -60001, 60000 + (INT64_C(1) << 32), -(INT64_C(1) << 32), INT64_MIN, INT64_MAX},
                                  {0, 11, -1, 1 + (INT64_C(1) << 32), INT64_MIN, INT64_MAX}};
    const int64_t within[2][2] = {{60000, -60000}, {1, 10}};
    list l[2] = {lend(u, 3), lend(q, 3)};
    const size_t right[2] = {3, 3};
    conditions = 2;
    mean = 4711;
    probable = -4711;
    wrong_lengths(errors, l, 2, 0, 2);
    CHECK(mean == 4711 && probable == -4711);
    /* n from 1 to m */
    const size_t counts[6] = {0, 4, 25, (size_t)1 << 32, ((size_t)1 << 32) + 1, SIZE_MAX};
    for (size_t j = 0; j < 6; j++) {
        conditions = counts[j];
        errors_refuse(l, 2, 0);
    }
    conditions = 2;
    /* u and q at each direction, both sides of their limits */
    for (size_t j = 0; j < 2; j++)
        for (size_t n = 0; n < 3; n++) {
            for (size_t b = 0; b < 6; b++) {
                l[j].at[n] = beyond[j][b];
                errors_refuse(l, 3, n + 1);
            }
            for (size_t b = 0; b < 2; b++) {
                l[j].at[n] = within[j][b];
                CHECK(is(errors(l), 0, 0));
            }
            l[j].at[n] = l[j].before[n];
        }
    /* 2 before 3; the lower direction before the higher, whether u or q is at fault there */
    l[0].at[1] = 60001;
    l[1].at[0] = 11;
    errors_refuse(l, 3, 1);
    conditions = 4;
    errors_refuse(l, 2, 0);
    conditions = 2;
    l[1].at[0] = 1;
    l[1].at[2] = 0;
    errors_refuse(l, 3, 2);
    l[0].at[1] = u[1];
    l[1].at[2] = 1;
    errors_are(l, 1732, 1168);
    CHECK(unchanged(l, 0, 2, right));
    /* u and q may be the same list: they are only read */
    l[1].at[0] = 7;
    l[1].at[1] = 8;
    l[1].at[2] = 9;
    const list same[2] = {l[1], l[1]};
    conditions = 1;
    errors_are(same, 4, 3);
    give_back(l, 2);
    /* the adopted v of Special Publication 138, page 127: 24 angles, 12 conditions, "1.8" seconds (examples/README.md) */
    static int64_t v[24] = {-100, 800, 1600, -400, 1800, 1300, -1100, 700, 300, -900, 100, -200,
                            -3000, -300, -2100, -2400, 300, -800, -2400, 2500, 0, -6400, 1800, 1300};
    static int64_t ones[24];
    for (size_t j = 0; j < 24; j++) ones[j] = 1;
    const list angles[2] = {{v, 24, {0}}, {ones, 24, {0}}};
    conditions = 12;
    errors_are(angles, 2720, 1835);
    /* the counts of directions and of conditions; the largest errors */
    directions_alike(0, 1, 0, 2, 0, 0);
    directions_alike(1, 1, 0, 0, 0, 0);
    directions_alike(MOLSADRIU_DIRECTIONS, 1, 60000, 0, 480000, 323760);
    directions_alike(MOLSADRIU_DIRECTIONS, MOLSADRIU_CONDITIONS, -60000, 0, 97979, 66087);
    directions_alike(MOLSADRIU_DIRECTIONS, MOLSADRIU_CONDITIONS + 1, 0, 2, 0, 0);
    directions_alike(MOLSADRIU_DIRECTIONS + 1, 1, 0, 2, 0, 0);
    /* a half goes away from zero */
    directions_alike(1, 1, -1000, 0, 1000, 675);
}

/* ---- the line reader */
static void lines(void)
{
    static const char text[] = "D\t1\n\nlast";
    const size_t length = sizeof text - 1;
    uint8_t *file = malloc(length);
    if (file == NULL) exit(2);
    memcpy(file, text, length);
    CHECK(molsadriu_line_status(file, length, 0) == MOLSADRIU_LINE && molsadriu_line(file, length, 0) == 3);
    CHECK(molsadriu_line_status(file, length, 2) == MOLSADRIU_LINE && molsadriu_line(file, length, 2) == 1);
    CHECK(molsadriu_line_status(file, length, 3) == MOLSADRIU_LINE && molsadriu_line(file, length, 3) == 0);
    CHECK(molsadriu_line_status(file, length, 4) == MOLSADRIU_LINE && molsadriu_line(file, length, 4) == 0);
    CHECK(molsadriu_line_status(file, length, 5) == MOLSADRIU_LF_MISSING && molsadriu_line(file, length, 5) == 0);
    const size_t past[3] = {length, length + 1, SIZE_MAX};
    for (size_t n = 0; n < 3; n++) {
        CHECK(molsadriu_line_status(file, length, past[n]) == MOLSADRIU_NONE_LEFT && molsadriu_line(file, length, past[n]) == 0);
        CHECK(molsadriu_line_status(NULL, 0, past[n]) == MOLSADRIU_NONE_LEFT && molsadriu_line(NULL, 0, past[n]) == 0);
    }
    free(file);
}

/* ---- buffers and lines */
/* A buffer in a block of exactly its room, or of one byte where it has none; full of a byte that no listing has. */
static uint8_t *buffer(size_t room)
{
    uint8_t *out = malloc(room != 0 ? room : 1);
    if (out == NULL) exit(2);
    memset(out, '#', room);
    return out;
}

/* Whether a buffer begins with these bytes, and has nothing else changed. */
static int holds(const uint8_t *out, size_t room, const char *expected, size_t length)
{
    if (length > room || memcmp(out, expected, length) != 0) return 0;
    for (size_t j = length; j < room; j++)
        if (out[j] != '#') return 0;
    return 1;
}

/* The REFUSED line of two numbers, as C itself writes it. */
static size_t refusal(char line[64], uint64_t number, uint64_t place)
{
    return (size_t)snprintf(line, 64, "REFUSED\t%" PRIu64 "\t%" PRIu64 "\n", number, place);
}

static int writes(uint64_t number, uint64_t place, size_t room)
{
    char line[64];
    size_t length = room < MOLSADRIU_REFUSED_LINE ? 0 : refusal(line, number, place);
    uint8_t *out = buffer(room);
    size_t n = molsadriu_refused_line(number, place, out, room);
    int right = n == length && holds(out, room, line, length);
    free(out);
    return right;
}

static void refused_lines(void)
{
    const uint64_t numbers[8] = {0, 1, 9, 10, 26, 1616, INT64_MAX, UINT64_MAX};
    for (size_t j = 0; j < 8; j++)
        for (size_t k = 0; k < 8; k++) {
            CHECK(writes(numbers[j], numbers[k], MOLSADRIU_REFUSED_LINE));
            CHECK(writes(numbers[j], numbers[k], MOLSADRIU_LISTING));
        }
    for (size_t room = 0; room < MOLSADRIU_REFUSED_LINE; room++) CHECK(writes(2, 0, room));
    CHECK(molsadriu_refused_line(2, 0, NULL, 0) == 0);
}

/* ---- whole files, network files and sighting books alike */
typedef struct {
    molsadriu_verdict (*call)(const uint8_t *, size_t, uint8_t *, size_t, size_t *);
    size_t room;       /* that a listing may need */
    uint64_t disagree; /* the number for a smaller room, and for an empty file */
} operation;

static const operation adjusting = {molsadriu_adjust_file, MOLSADRIU_LISTING, 2},
                       estimating = {molsadriu_probable_file, MOLSADRIU_PROBABLE_LISTING, 2},
                       averaging = {molsadriu_station_book, MOLSADRIU_STATION_LISTING, 21},
                       rescuing = {molsadriu_rescue_book, MOLSADRIU_RESCUED_BOOK, 21},
                       dropping = {molsadriu_dropped_book, MOLSADRIU_DROPPED_LISTING, 21};

/* A file in a block of exactly its length. */
static uint8_t *copy(const char *text)
{
    uint8_t *file = buffer(strlen(text));
    memcpy(file, text, strlen(text));
    return file;
}

/* An accepted file leaves its listing and the listing's length, and nothing else is changed. */
static int accepts(const operation *o, const uint8_t *file, size_t length, size_t room, const char *expected)
{
    uint8_t *out = buffer(room);
    size_t n = 4711;
    int right = is(o->call(file, length, out, room, &n), 0, 0) && n == strlen(expected) && holds(out, room, expected, n);
    free(out);
    return right;
}

/* A refused one leaves the buffer and the length as they were. */
static int refuses(const operation *o, const uint8_t *file, size_t length, size_t room, uint64_t number, uint64_t place)
{
    uint8_t *out = buffer(room);
    size_t n = 4711;
    int right = is(o->call(file, length, out, room, &n), number, place) && n == 4711 && holds(out, room, "", 0);
    free(out);
    return right;
}

/* An accepted file, with rooms that are too small, just enough and larger, and with lengths that the rules do not allow. */
static void accepted_file(const operation *o, const char *text, const char *expected)
{
    const size_t length = strlen(text), small[4] = {0, 1, 100, o->room - 1}, too_long[2] = {MOLSADRIU_FILE + 1, SIZE_MAX};
    uint8_t *file = copy(text);
    for (size_t j = 0; j < 4; j++) CHECK(refuses(o, file, length, small[j], o->disagree, 0));
    size_t n = 4711;
    CHECK(is(o->call(file, length, NULL, 0, &n), o->disagree, 0) && n == 4711);
    CHECK(accepts(o, file, length, o->room, expected));
    CHECK(accepts(o, file, length, 4 * o->room, expected));
    CHECK(refuses(o, NULL, 0, o->room, o->disagree, 0));
    /* too long is seen before the file is read, and a small room before that */
    for (size_t j = 0; j < 2; j++) {
        CHECK(refuses(o, file, too_long[j], o->room, 2, 0));
        CHECK(refuses(o, file, too_long[j], o->room - 1, o->disagree, 0));
    }
    free(file);
}

static void refused_file(const operation *o, const char *text, uint64_t number, uint64_t place)
{
    uint8_t *file = copy(text);
    CHECK(refuses(o, file, strlen(text), o->room, number, place));
    CHECK(refuses(o, file, strlen(text), o->room - 1, o->disagree, 0));
    free(file);
}

/* ---- a network file: figure 3 */
static const char net[] = "D\t1\t216000000\t1\nD\t2\t216003000\t1\nD\t3\t215997000\t1\nC\tA\t648000000\nP\t0\t1\nP\t0\t2\nF\t216000000\n"
                          "C\tA\t648000000\nP\t0\t2\nP\t0\t3\nF\t216000000\n";
static const char listing[] = "ADJ\t3\t2\nV\t1\t-2000\t215998000\nV\t2\t-1000\t216002000\nV\t3\t1000\t215998000\n"
                              "K\t1\t-2000000\t0\t0\nK\t2\t1000000\t0\t0\n";

/* The listing of an accepted file and of a refused one, and nothing else is changed. */
static int lists(const uint8_t *file, size_t length, size_t room, const char *expected)
{
    uint8_t *out = buffer(room);
    size_t n = molsadriu_list_file(file, length, out, room);
    int right = n == strlen(expected) && holds(out, room, expected, n);
    free(out);
    return right;
}

/* An accepted network file, without its E line and with it. */
static void accepted_net(const char *text, const char *expected, const char *e_line)
{
    char whole[512];
    accepted_file(&adjusting, text, expected);
    CHECK((size_t)snprintf(whole, sizeof whole, "%s%s", expected, e_line) < sizeof whole);
    accepted_file(&estimating, text, whole);
}

/* A refused network file, by all three operations. */
static void refused_net(const char *text, uint64_t number, uint64_t place)
{
    char line[64];
    uint8_t *file = copy(text);
    refusal(line, number, place);
    refused_file(&adjusting, text, number, place);
    refused_file(&estimating, text, number, place);
    CHECK(lists(file, strlen(text), MOLSADRIU_LISTING, line));
    CHECK(lists(file, strlen(text), MOLSADRIU_LISTING - 1, ""));
    free(file);
}

static void network(void)
{
    static const char too_long[] = "REFUSED\t2\t0\n";
    const size_t length = strlen(net);
    uint8_t *file = copy(net);
    accepted_net(net, listing, "E\t1732\t1168\n");
    /* the room of a listing without an E line is not enough for one with it */
    CHECK(refuses(&estimating, file, length, MOLSADRIU_LISTING, 2, 0));
    const size_t small[4] = {0, 1, 100, MOLSADRIU_LISTING - 1};
    for (size_t j = 0; j < 4; j++) CHECK(lists(file, length, small[j], ""));
    CHECK(molsadriu_list_file(file, length, NULL, 0) == 0);
    CHECK(lists(file, length, MOLSADRIU_LISTING, listing));
    CHECK(lists(file, length, 4 * MOLSADRIU_LISTING, listing));
    CHECK(lists(NULL, 0, MOLSADRIU_LISTING, too_long));
    CHECK(lists(file, MOLSADRIU_FILE + 1, MOLSADRIU_LISTING, too_long));
    CHECK(lists(file, SIZE_MAX, MOLSADRIU_LISTING, too_long));
    free(file);
    /* every number of the table that a network file can have */
    refused_net("D\t1\t0\t1\nX\n", 1, 2);
    refused_net("D\t1\t0\t1\nD\t3\t0\t1\n", 2, 2);
    refused_net("D\t1\t0\t1\n", 2, 0);
    refused_net("D\t1\t0\t1\nD\t2\t0\t11\n", 3, 2);
    refused_net("D\t1\t0\t1\nC\tS\nL\t0\t2000\t0\t1\nL\t0\t1\t0\t1\n", 4, 1);
    refused_net("D\t1\t0\t1\nC\tA\t1000001\nP\t1\t0\n", 5, 1);
    refused_net("D\t1\t0\t1\nC\tS\nL\t0\t0\t0\t0\n", 6, 1);
    refused_net("D\t1\t0\t1\nC\tS\nL\t11\t10\t0\t1\n", 7, 1);
    refused_net("D\t1\t0\t10\nD\t2\t0\t10\nD\t3\t0\t10\nD\t4\t0\t10\nC\tS\n"
                "L\t2\t2000\t0\t1\nL\t0\t2000\t0\t2\nL\t0\t2000\t0\t3\nL\t0\t2000\t0\t4\n", 8, 1);
    refused_net("D\t1\t1000\t1\nD\t2\t60001\t1\nC\tA\t0\nP\t0\t1\nC\tA\t0\nP\t0\t2\n", 9, 2);
    /* a light condition is no weak row; the largest misclosures, over pivots of 1 */
    accepted_net("D\t1\t0\t1\nC\tS\nL\t0\t9\t0\t1\n", "ADJ\t1\t1\nV\t1\t0\t0\nK\t1\t0\t0\t0\n", "E\t0\t0\n");
    refused_net("D\t1\t0\t1\nD\t2\t0\t1\nC\tS\nL\t0\t1\t0\t1\nR\t10000\t0\t0\t0\nC\tS\nL\t10000\t1\t0\t1\nL\t0\t1\t0\t2\n", 7, 2);
    /* one minute itself is no blunder */
    accepted_net("D\t1\t1000\t1\nD\t2\t60000\t1\nC\tA\t0\nP\t0\t1\nC\tA\t0\nP\t0\t2\n",
                 "ADJ\t2\t2\nV\t1\t-1000\t0\nV\t2\t-60000\t0\nK\t1\t-1000000\t0\t0\nK\t2\t-60000000\t0\t0\n", "E\t42432\t28620\n");
}

/* ---- another office's sheet: figure 3's, and some that no adjustment of ours would make */
/* Nets of one direction and one condition, for their limits. */
static const char heavy[] = "D\t1\t0\t10\nC\tA\t0\nP\t0\t1\n", minute[] = "D\t1\t60000\t1\nC\tA\t0\nP\t0\t1\n",
                  past[] = "D\t1\t60001\t1\nC\tA\t0\nP\t0\t1\n", light[] = "D\t1\t0\t1\nC\tS\nL\t0\t10\t0\t1\nR\t10\t0\t0\t0\n";

/* A check gives this verdict. One that refuses leaves the number for the line as it was. */
static int checks_sheet(const char *text, const char *sheet, uint64_t number, uint64_t place, uint64_t line)
{
    uint8_t *file = copy(text), *listed = copy(sheet);
    uint64_t left = 4711;
    int right = is(molsadriu_check_sheet(file, strlen(text), listed, strlen(sheet), &left), number, place) && left == line;
    if (left != line) printf("  line %" PRIu64 ", and not %" PRIu64 "\n", left, line);
    free(file);
    free(listed);
    return right;
}

static int agrees(const char *text, const char *sheet)
{
    return checks_sheet(text, sheet, 0, 0, 0);
}

static int disagrees(const char *text, const char *sheet, uint64_t line)
{
    return checks_sheet(text, sheet, 0, 0, line);
}

/* A sheet of figure 3 that is malformed at this line; a net that is refused comes first. */
static int malformed(const char *sheet, uint64_t line)
{
    return checks_sheet(net, sheet, 31, line, 4711) && checks_sheet("X\n", sheet, 1, 1, 4711);
}

/* A net that is refused so, with a sheet that is well formed, with one that is not and with none. */
static int unchecked(const char *text, uint64_t number, uint64_t place)
{
    return checks_sheet(text, listing, number, place, 4711) && checks_sheet(text, "ADJ\n", number, place, 4711) &&
           checks_sheet(text, "", number, place, 4711);
}

/* Figure 3's listing with one text in the place of another. */
static const char *with(const char *old, const char *new)
{
    static char sheet[2 * sizeof listing];
    const char *at = strstr(listing, old);
    if (at == NULL || strlen(new) > sizeof listing) exit(2);
    snprintf(sheet, sizeof sheet, "%.*s%s%s", (int)(at - listing), listing, new, at + strlen(old));
    return sheet;
}

static void sheet_agreement(void)
{
    CHECK(agrees(net, listing));
    /* each number but those of the lines themselves */
    CHECK(disagrees(net, with("-2000\t", "-2001\t"), 2));
    CHECK(disagrees(net, with("-2000\t", "2000\t"), 2));
    CHECK(disagrees(net, with("215998000\nV\t2", "215998001\nV\t2"), 2));
    CHECK(disagrees(net, with("-1000", "-100000000000000000"), 3));
    CHECK(disagrees(net, with("216002000", "999999999999999999"), 3));
    CHECK(disagrees(net, with("1000\t215998000\nK", "1000\t-215998000\nK"), 4));
    CHECK(disagrees(net, with("-2000000\t0\t0", "-2000001\t0\t0"), 5));
    CHECK(disagrees(net, with("-2000000\t0\t0", "-2000000\t1\t0"), 5));
    CHECK(disagrees(net, with("-2000000\t0\t0", "-2000000\t0\t-1"), 5));
    CHECK(disagrees(net, with("1000000\t0\t0\n", "1000000\t0\t999999999999999999\n"), 6));
    CHECK(disagrees(net, with("K\t2\t1000000\t0\t0", "K\t2\t1000000\t0\t1"), 6));
    /* other counts before all else, also more conditions than directions */
    CHECK(disagrees(net, "ADJ\t1\t1\nV\t1\t0\t0\nK\t1\t100000001\t0\t0\n", 1));
    CHECK(disagrees(net, "ADJ\t3\t1\nV\t1\t0\t0\nV\t2\t0\t0\nV\t3\t0\t0\nK\t1\t0\t0\t0\n", 1));
    CHECK(disagrees(heavy, "ADJ\t1\t2\nV\t1\t0\t0\nK\t1\t0\t0\t0\nK\t2\t0\t0\t0\n", 1));
    /* a K too large before any line that is amiss; of two, the first */
    CHECK(disagrees(net, with("K\t2\t1000000", "K\t2\t100000001"), 6));
    CHECK(disagrees(net, with("K\t2\t1000000", "K\t2\t-100000001"), 6));
    CHECK(disagrees(net, with("K\t2\t1000000", "K\t2\t999999999999999999"), 6));
    CHECK(disagrees(net, with("-2000000\t0\t0\nK\t2\t1000000", "100000001\t0\t0\nK\t2\t100000001"), 5));
    CHECK(disagrees(net, with("K\t2\t1000000", "K\t2\t100000000"), 3));
    /* both sides of the limits, of K, R and u */
    CHECK(agrees(light, "ADJ\t1\t1\nV\t1\t10000\t10000\nK\t1\t100000000\t0\t0\n"));
    CHECK(disagrees(light, "ADJ\t1\t1\nV\t1\t10000\t10000\nK\t1\t100000001\t100\t0\n", 3));
    CHECK(agrees(heavy, "ADJ\t1\t1\nV\t1\t0\t0\nK\t1\t0\t0\t0\n"));
    CHECK(agrees(heavy, "ADJ\t1\t1\nV\t1\t5\t5\nK\t1\t500\t50000000\t50000000\n"));
    CHECK(disagrees(heavy, "ADJ\t1\t1\nV\t1\t5\t5\nK\t1\t501\t50100000\t50000000\n", 3));
    CHECK(agrees(minute, "ADJ\t1\t1\nV\t1\t-60000\t0\nK\t1\t-60000000\t0\t0\n"));
    CHECK(disagrees(past, "ADJ\t1\t1\nV\t1\t-60001\t0\nK\t1\t-60001000\t0\t0\n", 2));
    /* a net that an adjustment refuses with 6 may have a sheet that agrees, and one with 8 has its R against it */
    CHECK(agrees("D\t1\t0\t1\nC\tS\nL\t0\t0\t0\t0\n", "ADJ\t1\t1\nV\t1\t0\t0\nK\t1\t7\t0\t0\n"));
    CHECK(disagrees("D\t1\t0\t10\nD\t2\t0\t10\nD\t3\t0\t10\nD\t4\t0\t10\nC\tS\n"
                    "L\t2\t2000\t0\t1\nL\t0\t2000\t0\t2\nL\t0\t2000\t0\t3\nL\t0\t2000\t0\t4\n",
                    "ADJ\t4\t1\nV\t1\t-3\t1295999997\nV\t2\t-3\t1295999997\nV\t3\t-3\t1295999997\nV\t4\t-3\t1295999997\n"
                    "K\t1\t-13\t-80000000\t-400000000\n", 6));
}

static void sheet_form(void)
{
    static const char *const headings[12] = {"", "ADJ\t3\t2", "ADJ\t0\t1\n", "ADJ\t65\t1\n", "ADJ\t1\t0\n", "ADJ\t1\t25\n", "ADJ\t3\n",
                                             "ADJ\t3\t2\t\n", "adj\t3\t2\n", "ADJ 3 2\n", "ADJ\t-3\t2\n", "REFUSED\t6\t1\n"};
    char more[2 * sizeof listing];
    for (size_t n = 0; n < 12; n++) CHECK(malformed(headings[n], 1));
    CHECK(malformed("ADJ\t64\t24\n", 2));
    CHECK(malformed("\n", 1));
    /* each line left out, and the last without its LF */
    for (size_t n = 1, at = 0; at < strlen(listing); n++) {
        size_t length = strcspn(listing + at, "\n");
        snprintf(more, sizeof more, "%.*s%s", (int)at, listing, listing + at + length + 1);
        CHECK(malformed(more, n));
        snprintf(more, sizeof more, "%.*s", (int)(at + length), listing);
        CHECK(malformed(more, n));
        at += length + 1;
    }
    /* a line more, whatever it is */
    static const char *const lines[4] = {"E\t1732\t1168\n", "K\t3\t0\t0\t0\n", "\n", "K"};
    for (size_t n = 0; n < 4; n++) {
        snprintf(more, sizeof more, "%s%s", listing, lines[n]);
        CHECK(malformed(more, 7));
    }
    /* numbers: 18 digits at most, and none that is written in two ways */
    CHECK(malformed(with("-2000\t", "1000000000000000000\t"), 2));
    CHECK(malformed(with("-1000", "-01000"), 3));
    CHECK(malformed(with("\t1000\t", "\t+1000\t"), 4));
    CHECK(malformed(with("-2000000\t0\t0", "-2000000\t-0\t0"), 5));
    CHECK(malformed(with("K\t2\t1000000\t0", "K\t2\t1000000\t"), 6));
    CHECK(malformed(with("V\t2", "V\t1"), 3));
    CHECK(malformed(with("V\t3", "K\t3"), 4));
    CHECK(malformed(with("K\t1", "K\t2"), 5));
}

static void sheets(void)
{
    const size_t too_long[2] = {MOLSADRIU_FILE + 1, SIZE_MAX};
    uint8_t *file = copy(net), *listed = copy(listing);
    uint64_t line = 4711;
    sheet_agreement();
    sheet_form();
    CHECK(unchecked("D\t1\t0\t1\nX\n", 1, 2));
    CHECK(unchecked("D\t1\t0\t1\nD\t3\t0\t1\n", 2, 2));
    CHECK(unchecked("D\t1\t0\t1\n", 2, 0));
    CHECK(unchecked("D\t1\t0\t1\nD\t2\t0\t11\n", 3, 2));
    CHECK(unchecked("D\t1\t0\t1\nC\tS\nL\t0\t2000\t0\t1\nL\t0\t1\t0\t1\n", 4, 1));
    CHECK(unchecked("D\t1\t0\t1\nC\tA\t1000001\nP\t1\t0\n", 5, 1));
    /* too long is seen before the net is read; an empty file may have no place; what is only read may overlap */
    for (size_t n = 0; n < 2; n++) CHECK(is(molsadriu_check_sheet(file, too_long[n], listed, strlen(listing), &line), 2, 0) && line == 4711);
    CHECK(is(molsadriu_check_sheet(NULL, 0, listed, strlen(listing), &line), 2, 0) && line == 4711);
    CHECK(is(molsadriu_check_sheet(NULL, 0, NULL, 0, &line), 2, 0) && line == 4711);
    CHECK(is(molsadriu_check_sheet(file, strlen(net), NULL, 0, &line), 31, 1) && line == 4711);
    CHECK(is(molsadriu_check_sheet(file, strlen(net), file, strlen(net), &line), 31, 1) && line == 4711);
    CHECK(is(molsadriu_check_sheet(file, strlen(net), listed, strlen(listing), &line), 0, 0) && line == 0);
    CHECK(memcmp(file, net, strlen(net)) == 0 && memcmp(listed, listing, strlen(listing)) == 0);
    free(file);
    free(listed);
}

/* ---- a sighting book: figure 9 */
static void book(void)
{
    static const char sighting[] = "S\t1\t1\t0\t0\n";
    static char many[(MOLSADRIU_SIGHTINGS + 1) * (sizeof sighting - 1) + 3];
    accepted_file(&averaging, "S\t1\t1\t0\t0\nS\t1\t1\t1\t648004000\nS\t1\t2\t0\t144010000\nS\t1\t2\t1\t792016000\n",
                  "STA\t4\t2\nO\t1\t0\t1\nO\t2\t144011000\t1\n");
    /* every number of the table that a book can have */
    refused_file(&averaging, "S\t1\t1\t0\t0\nX\n", 1, 2);
    refused_file(&averaging, "S\t1\t1\t0\t0\n\n", 1, 2);
    refused_file(&averaging, "S\t17\t1\t0\t0\nS\t1\t1\t0\t0", 1, 2);
    refused_file(&averaging, "S\t1\t1\t0\t0\nS\t1\t1\t1\t1296000000\n", 22, 2);
    refused_file(&averaging, "S\t1\t1\t0\t0\n", 23, 101);
    refused_file(&averaging, "S\t1\t2\t0\t0\nS\t1\t2\t1\t648000000\n", 24, 101);
    refused_file(&averaging, "S\t1\t1\t0\t0\nS\t1\t1\t1\t648060001\n", 25, 101);
    refused_file(&averaging, "S\t1\t1\t0\t0\nS\t1\t1\t1\t648000000\nS\t1\t2\t0\t0\nS\t1\t2\t1\t648000000\n"
                           "S\t2\t1\t0\t0\nS\t2\t1\t1\t648000000\nS\t2\t2\t0\t60001\nS\t2\t2\t1\t648060001\n", 26, 202);
    /* one sighting 512 times, and once more; a line behind these that is none */
    for (size_t n = 0; n <= MOLSADRIU_SIGHTINGS; n++) {
        if (n == MOLSADRIU_SIGHTINGS) refused_file(&averaging, many, 23, 101);
        strcat(many, sighting);
    }
    refused_file(&averaging, many, 21, 0);
    strcat(many, "X\n");
    refused_file(&averaging, many, 1, MOLSADRIU_SIGHTINGS + 2);
}

/* ---- a sighting book that is rescued */
/* A book with its kept lines, and the list of those that are dropped. */
static void rescued_book(const char *text, const char *lines_kept, const char *list_of_dropped)
{
    accepted_file(&rescuing, text, lines_kept);
    accepted_file(&dropping, text, list_of_dropped);
}

/* A book that both operations refuse alike. */
static void lost_book(const char *text, uint64_t number, uint64_t place)
{
    refused_file(&rescuing, text, number, place);
    refused_file(&dropping, text, number, place);
}

static void rescue_of_books(void)
{
    static const char sound[] = "S\t1\t1\t0\t0\nS\t1\t1\t1\t648004000\nS\t1\t2\t0\t144010000\nS\t1\t2\t1\t792016000\n";
    static const char pair[] = "S\t16\t1\t1\t1295999999\nS\t16\t1\t0\t648059999\n", lone[] = "S\t16\t16\t1\t1295999999\n";
    static char many[sizeof pair + MOLSADRIU_SIGHTINGS * (sizeof lone - 1) + 2], lines_dropped[MOLSADRIU_DROPPED_LISTING + 1];
    size_t length;
    rescued_book(sound, sound, "");
    /* all four reasons, in lines of any order */
    rescued_book("S\t1\t1\t0\t0\nS\t2\t1\t0\t0\nS\t3\t2\t0\t0\nS\t1\t2\t0\t144010000\nS\t1\t3\t0\t5\nS\t1\t1\t1\t648004000\n"
                 "S\t2\t2\t1\t648000000\nS\t2\t1\t1\t648060001\nS\t3\t2\t1\t648000000\nS\t1\t2\t1\t792016000\nS\t2\t2\t0\t0\n",
                 "S\t1\t1\t0\t0\nS\t1\t2\t0\t144010000\nS\t1\t1\t1\t648004000\nS\t1\t2\t1\t792016000\n",
                 "X\t2\t3\nX\t3\t2\nX\t5\t1\nX\t7\t4\nX\t8\t3\nX\t9\t2\nX\t11\t4\n");
    /* the room of one is not that of the other, nor that of the means */
    uint8_t *file = copy(sound);
    CHECK(refuses(&rescuing, file, strlen(sound), MOLSADRIU_DROPPED_LISTING, 21, 0));
    CHECK(refuses(&dropping, file, strlen(sound), MOLSADRIU_STATION_LISTING, 21, 0));
    free(file);
    /* every number of the table that a rescue can have */
    lost_book("S\t1\t1\t0\t0\nX\n", 1, 2);
    lost_book("S\t1\t1\t0\t0\n\n", 1, 2);
    lost_book("S\t17\t1\t0\t0\nS\t1\t1\t0\t0", 1, 2);
    lost_book("X\t1\t1\n", 1, 1);
    lost_book("S\t1\t1\t0\t0\nS\t1\t1\t1\t1296000000\n", 22, 2);
    lost_book("S\t1\t1\t0\t0\n", 32, 0);
    lost_book("S\t1\t2\t0\t0\nS\t1\t2\t1\t648000000\n", 32, 0);
    lost_book("S\t1\t1\t0\t0\nS\t1\t1\t1\t648060001\n", 32, 0);
    lost_book("S\t1\t1\t0\t0\nS\t1\t1\t1\t648060001\nS\t1\t2\t0\t0\nS\t1\t2\t1\t648000000\n", 32, 0);
    /* one pair and 510 lone faces, the longest lines that there are; one more; and a line behind these that is none */
    strcpy(many, pair);
    length = 0;
    for (size_t n = 3; n <= MOLSADRIU_SIGHTINGS; n++) {
        strcat(many, lone);
        length += (size_t)snprintf(lines_dropped + length, sizeof lines_dropped - length, "X\t%zu\t1\n", n);
    }
    rescued_book(many, pair, lines_dropped);
    strcat(many, lone);
    lost_book(many, 21, 0);
    strcat(many, "X\n");
    lost_book(many, 1, MOLSADRIU_SIGHTINGS + 2);
    lost_book(many + strlen(pair), 1, MOLSADRIU_SIGHTINGS);
}

/* ---- a season's archive: the state of a stream in three lists, the bytes held beside totals and place */
static uint8_t *held, held_before[MOLSADRIU_HELD];
static size_t held_length;
static const uint8_t *part;
static size_t part_length;

static molsadriu_verdict begin(const list *l)
{
    return molsadriu_season_begin(held, held_length, counts(&l[0]), l[0].length, counts(&l[1]), l[1].length);
}

static molsadriu_verdict next(const list *l)
{
    return molsadriu_season_next(part, part_length, held, held_length, counts(&l[0]), l[0].length, counts(&l[1]), l[1].length);
}

static molsadriu_verdict end(const list *l)
{
    return molsadriu_season_end(held, held_length, counts(&l[0]), l[0].length, counts(&l[1]), l[1].length);
}

static molsadriu_verdict report(const list *l)
{
    return molsadriu_report(part, part_length, counts(&l[0]), l[0].length);
}

static molsadriu_verdict add(const list *l)
{
    return molsadriu_add_reports(counts(&l[0]), l[0].length, counts(&l[1]), l[1].length, counts(&l[2]), l[2].length);
}

typedef molsadriu_verdict operation_on_lists(const list *);

static const size_t state_lengths[2] = {MOLSADRIU_TOTALS, MOLSADRIU_PLACES};

static void next_is(const char *bytes, size_t length)
{
    part = (const uint8_t *)bytes;
    part_length = length;
}

/* A state whose totals are all one number. */
static void state_is(list *l, int64_t total, int64_t bytes, int64_t line, int64_t past)
{
    const int64_t place[MOLSADRIU_PLACES] = {bytes, line, past};
    for (size_t n = 0; n < MOLSADRIU_TOTALS; n++) l[0].at[n] = l[0].before[n] = total;
    memcpy(l[1].at, place, sizeof place);
    memcpy(l[1].before, place, sizeof place);
    memcpy(held, held_before, MOLSADRIU_HELD);
}

static int state_stays(const list *l)
{
    return unchanged(l, 0, 2, state_lengths) && memcmp(held, held_before, MOLSADRIU_HELD) == 0;
}

static int place_is(const list *l, int64_t bytes, int64_t line, int64_t past)
{
    return l[1].at[0] == bytes && l[1].at[1] == line && l[1].at[2] == past;
}

/* Next and end alike refuse a state that has this number at this ordinal, and leave it. */
static void state_refused(list *l, size_t ordinal, uint64_t number)
{
    int64_t *at = ordinal <= MOLSADRIU_TOTALS ? &l[0].at[ordinal - 1] : &l[1].at[ordinal - MOLSADRIU_TOTALS - 1];
    int64_t *before = ordinal <= MOLSADRIU_TOTALS ? &l[0].before[ordinal - 1] : &l[1].before[ordinal - MOLSADRIU_TOTALS - 1];
    int64_t kept = *at;
    *at = *before = (int64_t)number;
    CHECK(is(next(l), 3, ordinal) && state_stays(l));
    CHECK(is(end(l), 3, ordinal) && state_stays(l));
    *at = *before = kept;
}

/* And take it where it is within its limit: no bytes change nothing. */
static void state_taken(list *l, size_t ordinal, uint64_t number)
{
    int64_t *at = ordinal <= MOLSADRIU_TOTALS ? &l[0].at[ordinal - 1] : &l[1].at[ordinal - MOLSADRIU_TOTALS - 1];
    int64_t *before = ordinal <= MOLSADRIU_TOTALS ? &l[0].before[ordinal - 1] : &l[1].before[ordinal - MOLSADRIU_TOTALS - 1];
    int64_t kept = *at;
    *at = *before = (int64_t)number;
    next_is(NULL, 0);
    CHECK(is(next(l), 0, 0) && state_stays(l));
    next_is("D", 1);
    *at = *before = kept;
}

static void stream_lengths(list *l, operation_on_lists *call)
{
    const size_t wrong[6] = {0, MOLSADRIU_HELD - 1, MOLSADRIU_HELD + 1, 1000, SIZE_MAX / 8 + 1, SIZE_MAX};
    wrong_lengths(call, l, 2, 0, 2);
    for (size_t n = 0; n < 6; n++) {
        held_length = wrong[n];
        CHECK(is(call(l), 2, 0) && state_stays(l));
    }
    uint8_t *at = held;
    held = NULL;
    held_length = 0;
    CHECK(is(call(l), 2, 0));
    held = at;
    held_length = MOLSADRIU_HELD;
    CHECK(state_stays(l));
    /* a length before a number that no stream has */
    l[0].at[0] = l[0].before[0] = -1;
    l[1].length = 2;
    CHECK(is(call(l), 2, 0) && state_stays(l));
    l[1].length = 3;
    l[0].at[0] = l[0].before[0] = 0;
}

static void stream_states(list *l)
{
    const uint64_t above[3] = {MOLSADRIU_MOST_TOTAL + UINT64_C(1), UINT64_C(1) << 63, UINT64_MAX};
    next_is("D", 1);
    state_is(l, 0, 0, 0, 0);
    stream_lengths(l, begin);
    stream_lengths(l, next);
    stream_lengths(l, end);
    /* each number of a state, both sides of its limit */
    state_taken(l, 1, MOLSADRIU_NETS);
    state_refused(l, 1, MOLSADRIU_NETS + 1);
    state_taken(l, 17, 65537);
    state_refused(l, 17, 65538);
    state_taken(l, 18, 2);
    state_refused(l, 18, 3);
    state_taken(l, 19, 1);
    state_refused(l, 19, 2);
    for (size_t n = 2; n <= MOLSADRIU_TOTALS; n++) state_taken(l, n, MOLSADRIU_MOST_TOTAL);
    for (size_t n = 1; n <= MOLSADRIU_TOTALS + MOLSADRIU_PLACES; n++)
        for (size_t e = 0; e < 3; e++) state_refused(l, n, above[e]);
    /* a full stop at the start of a line is a byte of the open net */
    state_refused(l, 18, 1);
    state_is(l, 0, 1, 0, 0);
    state_taken(l, 18, 1);
    /* the lower ordinal first */
    state_is(l, 0, 65538, 3, 2);
    CHECK(is(next(l), 3, 17) && is(end(l), 3, 17) && state_stays(l));
    l[0].at[15] = l[0].before[15] = -1;
    CHECK(is(next(l), 3, 16) && is(end(l), 3, 16) && state_stays(l));
    /* begin takes any numbers */
    CHECK(is(begin(l), 0, 0) && place_is(l, 0, 0, 0));
    for (size_t n = 0; n < MOLSADRIU_TOTALS; n++) CHECK(l[0].at[n] == 0);
    CHECK(memcmp(held, held_before, MOLSADRIU_HELD) == 0);
    /* totals at their limit take one net more, and are then refused */
    state_is(l, 0, 0, 0, 0);
    l[0].at[3] = MOLSADRIU_MOST_TOTAL;
    next_is(".\n", 2);
    CHECK(is(next(l), 0, 0) && l[0].at[0] == 1 && l[0].at[3] == MOLSADRIU_MOST_TOTAL + INT64_C(1));
    CHECK(is(next(l), 3, 4) && is(end(l), 3, 4));
}

/* Around 100,000 nets: the last that fits, closed or left open, and one more. */
static void nets_past(list *l)
{
    for (int64_t nets = MOLSADRIU_NETS - 1; nets <= MOLSADRIU_NETS; nets++)
        for (int closed = 0; closed < 2; closed++) {
            int64_t past = nets == MOLSADRIU_NETS;
            state_is(l, 0, 0, 0, 0);
            l[0].at[0] = l[0].before[0] = nets;
            next_is(".\n", closed ? 2 : 1);
            CHECK(is(next(l), 0, 0));
            CHECK(closed ? place_is(l, 0, 0, past) : place_is(l, 1, 1, 0));
            /* what comes after a net past 100,000 changes nothing */
            if (closed && past) {
                uint8_t *seen = buffer(MOLSADRIU_HELD);
                memcpy(seen, held, MOLSADRIU_HELD);
                next_is("D\t1\n.\n", 6);
                CHECK(is(next(l), 0, 0) && place_is(l, 0, 0, 1) && memcmp(seen, held, MOLSADRIU_HELD) == 0);
                free(seen);
            }
            CHECK(past ? is(end(l), 30, MOLSADRIU_NETS + 1) : is(end(l), 0, 0));
            CHECK(place_is(l, 0, 0, past));
            CHECK(l[0].at[0] == MOLSADRIU_NETS && l[0].at[2] == (!past && !closed) && l[0].at[3] == (!past && closed));
            for (size_t n = 4; n < MOLSADRIU_TOTALS; n++) CHECK(l[0].at[n] == 0);
        }
}

/* An archive in parts of so many bytes, the first of them of another length: verdict and totals of the whole. */
static int in_parts(list *l, const char *archive, size_t length, size_t first, size_t size, molsadriu_verdict whole, const list *totals)
{
    state_is(l, -1, -1, -1, -1);
    if (!is(begin(l), 0, 0)) return 0;
    for (size_t at = 0; at < length;) {
        size_t some = at == 0 && first != 0 ? first : size;
        if (some > length - at) some = length - at;
        uint8_t *bytes = buffer(some);
        memcpy(bytes, archive + at, some);
        next_is((const char *)bytes, some);
        int taken = is(next(l), 0, 0);
        free(bytes);
        if (!taken) return 0;
        at += some;
    }
    return is(end(l), whole.number, whole.place) && memcmp(l[0].at, totals->at, MOLSADRIU_TOTALS * sizeof(int64_t)) == 0;
}

/* The report of an archive, which must be this one, and the same in parts. */
static void reported(list *l, const char *archive, size_t length, uint64_t number, const int64_t expected[MOLSADRIU_TOTALS], size_t step)
{
    const int64_t other[MOLSADRIU_TOTALS] = {-7, -7, -7, -7, -7, -7, -7, -7, -7, -7, -7, -7, -7, -7, -7, -7};
    list totals = lend(other, MOLSADRIU_TOTALS);
    uint8_t *bytes = buffer(length);
    memcpy(bytes, archive, length);
    next_is((const char *)bytes, length);
    wrong_lengths(report, &totals, 1, 0, 2);
    next_is((const char *)bytes, length);
    molsadriu_verdict whole = report(&totals);
    CHECK(is(whole, number, number == 30 ? MOLSADRIU_NETS + 1 : 0));
    CHECK(memcmp(totals.at, expected, sizeof other) == 0);
    free(bytes);
    for (size_t first = 0; first <= length; first += step) CHECK(in_parts(l, archive, length, first, length, whole, &totals));
    if (step == 1) CHECK(in_parts(l, archive, length, 1, 1, whole, &totals));
    CHECK(in_parts(l, archive, length, 7, 65537, whole, &totals));
    give_back(&totals, 1);
}

static void archives(list *l)
{
    /* figure 3, a side condition, two conditions that share three directions, one net under each number, an empty net, and a line left over */
    static const char season[] =
        "D\t1\t216000000\t1\nD\t2\t216003000\t1\nD\t3\t215997000\t1\nC\tA\t648000000\nP\t0\t1\nP\t0\t2\nF\t216000000\n"
        "C\tA\t648000000\nP\t0\t2\nP\t0\t3\nF\t216000000\n.\n"
        "D\t1\t0\t1\nC\tS\nR\t1\t1000\t0\t1\n.\n"
        "D\t1\t100\t1\nD\t2\t200\t1\nD\t3\t300\t1\nC\tA\t0\nP\t0\t1\nP\t0\t2\nP\t0\t3\nC\tA\t400\nP\t1\t2\nP\t0\t3\n.\n"
        "D\t1\t0\t1\nX\n.\n"
        "D\t1\t0\t1\n.\n"
        "D\t1\t0\t1\nD\t2\t0\t11\n.\n"
        "D\t1\t0\t1\nC\tS\nL\t0\t2000\t0\t1\nL\t0\t1\t0\t1\n.\n"
        "D\t1\t0\t1\nC\tA\t1000001\nP\t1\t0\n.\n"
        "D\t1\t0\t1\nC\tS\nL\t0\t0\t0\t0\n.\n"
        "D\t1\t0\t1\nC\tS\nL\t11\t10\t0\t1\n.\n"
        "D\t1\t0\t10\nD\t2\t0\t10\nD\t3\t0\t10\nD\t4\t0\t10\nC\tS\n"
        "L\t2\t2000\t0\t1\nL\t0\t2000\t0\t2\nL\t0\t2000\t0\t3\nL\t0\t2000\t0\t4\n.\n"
        "D\t1\t1000\t1\nD\t2\t60001\t1\nC\tA\t0\nP\t0\t1\nC\tA\t0\nP\t0\t2\n.\n"
        ".\n"
        " .\n..\n";
    const int64_t of_season[MOLSADRIU_TOTALS] = {14, 3, 2, 2, 1, 1, 1, 1, 1, 1, 1, 3600, 3000, 100, 100, 1};
    const int64_t none[MOLSADRIU_TOTALS] = {0}, left[MOLSADRIU_TOTALS] = {1, 0, 1};
    const int64_t longest[MOLSADRIU_TOTALS] = {2, 0, 1, 1};
    int64_t full[MOLSADRIU_TOTALS] = {MOLSADRIU_NETS, 0, 0, MOLSADRIU_NETS};
    reported(l, season, sizeof season - 1, 0, of_season, 1);
    reported(l, "", 0, 0, none, 1);
    reported(l, ".", 1, 0, left, 1);
    /* a net of 65,535 bytes is read, and one byte more is 2 */
    static char text[2 * MOLSADRIU_NETS + 2];
    size_t length = 0;
    for (size_t net = MOLSADRIU_FILE; net <= MOLSADRIU_FILE + 1; net++) {
        memset(text + length, 'X', net - 1);
        memcpy(text + length + net - 1, "\n.\n", 3);
        length += net + 2;
    }
    reported(l, text, length, 0, longest, 32749);
    /* 100,000 empty nets, and then a byte, and a full stop line */
    for (size_t n = 0; n <= MOLSADRIU_NETS; n++) memcpy(text + 2 * n, ".\n", 2);
    reported(l, text, 2 * MOLSADRIU_NETS, 0, full, 2 * MOLSADRIU_NETS - 1);
    reported(l, text, 2 * MOLSADRIU_NETS + 1, 30, full, 2 * MOLSADRIU_NETS);
    reported(l, text, 2 * MOLSADRIU_NETS + 2, 30, full, 2 * MOLSADRIU_NETS);
    /* the last that fits is one left open */
    full[2] = 1;
    full[3]--;
    reported(l, text, 2 * MOLSADRIU_NETS - 1, 0, full, 2 * MOLSADRIU_NETS);
}

static void sums(void)
{
    const int64_t one[MOLSADRIU_TOTALS] = {3, 1, 2, 0, 0, 0, 0, 0, 0, 0, 0, 50, 40, 30, 5, 1};
    const int64_t other[MOLSADRIU_TOTALS] = {2, 2, 0, 0, 0, 0, 0, 0, 0, 0, 0, 7, 7, 60, 20, 0};
    const int64_t both[MOLSADRIU_TOTALS] = {5, 3, 2, 0, 0, 0, 0, 0, 0, 0, 0, 57, 40, 90, 20, 1};
    const int64_t other_numbers[MOLSADRIU_TOTALS] = {-7, -7, -7, -7, -7, -7, -7, -7, -7, -7, -7, -7, -7, -7, -7, -7};
    const int64_t most = MOLSADRIU_MOST_TOTAL, above[3] = {most + 1, INT64_MIN, -1};
    const size_t right[3] = {16, 16, 16};
    list l[3] = {lend(one, 16), lend(other, 16), lend(other_numbers, 16)};
    wrong_lengths(add, l, 3, 0, 2);
    for (size_t n = 0; n < MOLSADRIU_TOTALS; n++) {
        int largest = n == 12 || n == 14;
        /* either number, and what both make; an ordinal before the number of nets together */
        for (size_t j = 0; j < 2; j++) {
            for (size_t e = 0; e < 3; e++) {
                l[j].at[n] = l[j].before[n] = above[e];
                CHECK(is(add(l), 3, n + 1) && unchanged(l, 0, 3, right));
            }
            l[j].at[n] = l[j].before[n] = most;
            l[1 - j].at[n] = l[1 - j].before[n] = 1;
            if (!largest) CHECK(is(add(l), 3, n + 1) && unchanged(l, 0, 3, right));
            l[1 - j].at[n] = l[1 - j].before[n] = largest ? most : 0;
            if (n == 0) {
                CHECK(is(add(l), 30, MOLSADRIU_NETS + 1) && unchanged(l, 0, 3, right));
            } else {
                CHECK(is(add(l), 0, 0) && l[2].at[n] == most && l[2].at[0] == 5 && unchanged(l, 0, 2, right));
                memcpy(l[2].at, other_numbers, sizeof other_numbers);
            }
            l[0].at[n] = l[0].before[n] = one[n];
            l[1].at[n] = l[1].before[n] = other[n];
        }
    }
    /* the lower ordinal first */
    l[0].at[9] = l[0].before[9] = -1;
    l[1].at[4] = l[1].before[4] = -1;
    CHECK(is(add(l), 3, 5) && unchanged(l, 0, 3, right));
    l[0].at[9] = l[0].before[9] = 0;
    l[1].at[4] = l[1].before[4] = 0;
    /* both sides of 100,000 nets */
    l[0].at[0] = l[0].before[0] = MOLSADRIU_NETS - 1;
    CHECK(is(add(l), 30, MOLSADRIU_NETS + 1) && unchanged(l, 0, 3, right));
    l[1].at[0] = l[1].before[0] = 1;
    CHECK(is(add(l), 0, 0) && l[2].at[0] == MOLSADRIU_NETS && unchanged(l, 0, 2, right));
    l[0].at[0] = l[0].before[0] = one[0];
    l[1].at[0] = l[1].before[0] = other[0];
    CHECK(is(add(l), 0, 0) && memcmp(l[2].at, both, sizeof both) == 0 && unchanged(l, 0, 2, right));
    /* the two may be the same list: they are only read */
    const list same[3] = {l[0], l[0], l[2]};
    CHECK(is(add(same), 0, 0) && l[2].at[0] == 6 && l[2].at[11] == 100 && l[2].at[12] == 40 && unchanged(l, 0, 2, right));
    give_back(l, 3);
}

static void seasons(void)
{
    const int64_t zeros[MOLSADRIU_TOTALS] = {0};
    list l[2] = {lend(zeros, MOLSADRIU_TOTALS), lend(zeros, MOLSADRIU_PLACES)};
    memset(held_before, '#', sizeof held_before);
    held = buffer(MOLSADRIU_HELD);
    held_length = MOLSADRIU_HELD;
    stream_states(l);
    nets_past(l);
    archives(l);
    sums();
    free(held);
    give_back(l, 2);
}

int main(void)
{
    station();
    rescue_of_lists();
    terms();
    table();
    precision();
    lines();
    refused_lines();
    network();
    sheets();
    book();
    rescue_of_books();
    seasons();
    printf("%u checks, %u failed\n", checks, failures);
    return failures != 0;
}
