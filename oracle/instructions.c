/* One call on a book, to count its instructions: scripts/instructions runs it under callgrind, which counts inside `counted` alone. The status
   date is the book's data date, or the last date where it has none; the activity is the first.

       build/instructions CALL < BOOK */
#include <stdio.h>
#include <stdlib.h>
#include <string.h>

#include "surukeva.h"

enum { LONGEST = 1 << 16, FIRST_DAY = 10957, LAST_DAY = 47481, ACTIVITY = 0 };

static uint8_t book[LONGEST];
static size_t length;
static uint64_t out[73050], at;
static const size_t lent = sizeof out / sizeof *out;

#define CALL(name, ...) \
    static uint64_t name(uint64_t date) { (void)date; return surukeva_##name(book, length, __VA_ARGS__); }
CALL(verdict, &at)
CALL(costs, out, lent, &at)
CALL(project_cost, out, lent, &at)
CALL(actual_by_kind, out, lent, &at)
CALL(spending, FIRST_DAY, LAST_DAY, out, lent, &at)
CALL(spending_by_month, out, lent, &at)
CALL(twelve_months, out, lent, &at)
CALL(earned_value, date, out, lent, &at)
CALL(project_earned, date, out, lent, &at)
CALL(planned_curve, FIRST_DAY, LAST_DAY, out, lent, &at)
CALL(performance, ACTIVITY, out, lent, &at)
CALL(indices, ACTIVITY, date, out, lent, &at)
CALL(project_indices, date, out, lent, &at)
CALL(period_points, out, lent, &at)
CALL(variances, out, lent, &at)
CALL(budget, out, lent, &at)
CALL(funding, out, lent, &at)
CALL(outline, date, out, lent, &at)

#define NAMED(name) {#name, name}
static const struct { const char *name; uint64_t (*call)(uint64_t); } calls[] = {
    NAMED(verdict), NAMED(costs), NAMED(project_cost), NAMED(actual_by_kind), NAMED(spending), NAMED(spending_by_month),
    NAMED(twelve_months), NAMED(earned_value), NAMED(project_earned), NAMED(planned_curve), NAMED(performance), NAMED(indices),
    NAMED(project_indices), NAMED(period_points), NAMED(variances), NAMED(budget), NAMED(funding), NAMED(outline),
};

__attribute__((noinline)) uint64_t counted(uint64_t (*call)(uint64_t), uint64_t date) { return call(date); }

/* The data date: behind the edition, which is one byte, its mark and three bytes. */
static uint64_t data_date(void) {
    if (length < 5 || book[1] == 0) return LAST_DAY;
    return (book[2] & 127u) | (book[3] & 127u) << 7 | (uint64_t)book[4] << 14;
}

int main(int count, char **words) {
    length = fread(book, 1, LONGEST, stdin);
    for (size_t i = 0; count == 2 && i < sizeof calls / sizeof *calls; i++)
        if (strcmp(words[1], calls[i].name) == 0) {
            uint64_t answer = counted(calls[i].call, data_date());
            printf("%s %llu %llu\n", words[1], (unsigned long long)answer, (unsigned long long)at);
            return 0;
        }
    return 1;
}
