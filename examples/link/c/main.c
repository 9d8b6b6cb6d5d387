/* A project's earned value, forecast and budget, asked of the library. Usage: main BOOK */
#include <inttypes.h>
#include <stdio.h>
#include <string.h>

#include "surukeva.h"

enum { STATUS_DATE = 19724 }; /* 2 January 2024 */

static uint8_t book[60001];    /* a byte more than a book may have: a longer one is refused */
static uint64_t out[501 * 10]; /* room for every line of a budget */
static uint64_t at;            /* the count of rows, or the place of the refusal */

static int refused(uint64_t number) {
    if (number != 0) printf("refused %" PRIu64 " %" PRIu64 "\n", number, at);
    return number != 0;
}

static void figure(const char *name, uint64_t bits) { printf("%s %" PRId64 "\n", name, (int64_t)bits); }

/* A share that is absent is 0 and 0, else it is 1 and hundredths of a percent. */
static void share(const char *name, const uint64_t *pair) {
    if (pair[0] == 0) printf("%s none\n", name);
    else printf("%s %" PRId64 "\n", name, (int64_t)pair[1]);
}

/* An index that is absent is 0 and 0, else it is 1 and the bits of a double. */
static void performance_index(const char *name, const uint64_t *pair) {
    double value;
    memcpy(&value, &pair[1], sizeof value);
    if (pair[0] == 0) printf("%s none\n", name);
    else printf("%s %.4f\n", name, value);
}

int main(int count, char **arguments) {
    FILE *file = count == 2 ? fopen(arguments[1], "rb") : NULL;
    if (file == NULL) return fputs("usage: main BOOK\n", stderr), 2;
    size_t length = fread(book, 1, sizeof book, file);
    fclose(file);

    if (refused(surukeva_project_earned(book, length, STATUS_DATE, out, SURUKEVA_PROJECT_EARNED_WIDTH, &at))) return 1;
    figure("budget", out[0]);
    figure("planned value", out[1]);
    figure("earned value", out[2]);
    figure("actual cost", out[3]);
    share("spent of the budget", &out[5]);

    if (refused(surukeva_project_indices(book, length, STATUS_DATE, out, 9, &at))) return 1;
    figure("estimate at completion", out[1]);
    figure("variance at completion", out[2]);
    performance_index("cost performance index", &out[3]);
    performance_index("schedule performance index", &out[5]);
    performance_index("to-complete performance index", &out[7]);

    if (refused(surukeva_budget(book, length, out, sizeof out / sizeof *out, &at))) return 1;
    for (uint64_t *line = out; line < out + 10 * at; line += 10) {
        if (line[0] == 0) printf("budget of the project:");
        else printf("budget of activity %" PRIu64 ":", line[1]);
        printf(" depth %" PRIu64 ", current %" PRId64 ", scheduled %" PRId64 "\n", line[2], (int64_t)line[4], (int64_t)line[9]);
    }
    return 0;
}
