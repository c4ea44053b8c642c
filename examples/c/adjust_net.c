/* Adjusts a network file and prints its listing; then adjusts one small condition table that is lent as lists, and prints its corrections
 * and the errors of a direction. Status 1 where one of them is refused. */
#include <inttypes.h>
#include <stdio.h>

#include "molsadriu.h"

/* One byte more than a file may have, so that one that is too long is seen, and refused, as such. */
static uint8_t file[MOLSADRIU_FILE + 1];
static uint8_t listing[MOLSADRIU_LISTING];

static int adjust_file(const char *name)
{
    FILE *in = fopen(name, "rb");
    if (in == NULL) {
        perror(name);
        return 1;
    }
    size_t length = fread(file, 1, sizeof file, in);
    int unread = ferror(in);
    fclose(in);
    if (unread) {
        fprintf(stderr, "%s: not read\n", name);
        return 1;
    }
    size_t listed;
    molsadriu_verdict verdict = molsadriu_adjust_file(file, length, listing, sizeof listing, &listed);
    if (verdict.number != 0) {
        /* a refusal has left `listing` and `listed` as they were */
        listed = molsadriu_refused_line(verdict.number, verdict.place, listing, sizeof listing);
    }
    fwrite(listing, 1, listed, stdout);
    return verdict.number != 0;
}

/* Three directions and one condition between them. */
static int adjust_table(void)
{
    const int64_t directions[3] = {0, 0, 0};
    const int64_t q[3] = {1, 1, 1};
    const int64_t a[3] = {-306, 694, -1058};
    const int64_t w[1] = {-79200};
    int64_t v[3], u[3], adjusted[3], correlates[1], remainders[1], misses[1], mean, probable;
    molsadriu_verdict verdict = molsadriu_adjust_table(
        directions, 3, q, 3, a, 3, w, 1,
        v, 3, u, 3, adjusted, 3, correlates, 1, remainders, 1, misses, 1);
    if (verdict.number == 0) verdict = molsadriu_probable_error(u, 3, q, 3, 1, &mean, &probable);
    if (verdict.number != 0) {
        printf("refused: %" PRIu64 " at %" PRIu64 "\n", verdict.number, verdict.place);
        return 1;
    }
    printf("u = %" PRId64 ", %" PRId64 ", %" PRId64 "\n", u[0], u[1], u[2]);
    printf("mean error %" PRId64 ", probable error %" PRId64 "\n", mean, probable);
    return 0;
}

int main(int count, char **words)
{
    if (count != 2) {
        fprintf(stderr, "usage: %s FILE.net\n", words[0]);
        return 2;
    }
    return adjust_file(words[1]) || adjust_table();
}
