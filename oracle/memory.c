/* Every call on a book, with memory of exactly the size that it is told of, and with none. Run it under valgrind: a byte read or a
   number written outside that memory is an error. Usage: memory BOOK */
#include <inttypes.h>
#include <stdio.h>
#include <stdlib.h>
#include <string.h>

#include "surukeva.h"

enum { FIRST = 10957, LAST = 47481 };

static const char *const text[] = SURUKEVA_REFUSAL_TEXTS;

/* One call of each name, asked for activity 0 and for all dates. */
static uint64_t call(int k, const uint8_t *book, size_t len, uint64_t *out, size_t out_len, uint64_t *at) {
    switch (k) {
    case 0: return surukeva_costs(book, len, out, out_len, at);
    case 1: return surukeva_project_cost(book, len, out, out_len, at);
    case 2: return surukeva_actual_by_kind(book, len, out, out_len, at);
    case 3: return surukeva_spending(book, len, FIRST, LAST, out, out_len, at);
    case 4: return surukeva_spending_by_month(book, len, out, out_len, at);
    case 5: return surukeva_twelve_months(book, len, out, out_len, at);
    case 6: return surukeva_earned_value(book, len, LAST, out, out_len, at);
    case 7: return surukeva_project_earned(book, len, LAST, out, out_len, at);
    case 8: return surukeva_planned_curve(book, len, FIRST, LAST, out, out_len, at);
    case 9: return surukeva_performance(book, len, 0, out, out_len, at);
    case 10: return surukeva_indices(book, len, 0, LAST, out, out_len, at);
    case 11: return surukeva_project_indices(book, len, LAST, out, out_len, at);
    case 12: return surukeva_period_points(book, len, out, out_len, at);
    case 13: return surukeva_variances(book, len, out, out_len, at);
    case 14: return surukeva_budget(book, len, out, out_len, at);
    case 15: return surukeva_funding(book, len, out, out_len, at);
    default: return surukeva_outline(book, len, LAST, out, out_len, at);
    }
}

static const struct { const char *name; size_t width, most; } calls[] = {
    {"costs", SURUKEVA_COSTS_WIDTH, SURUKEVA_COSTS_MOST},
    {"project_cost", SURUKEVA_PROJECT_COST_WIDTH, SURUKEVA_PROJECT_COST_MOST},
    {"actual_by_kind", SURUKEVA_ACTUAL_BY_KIND_WIDTH, SURUKEVA_ACTUAL_BY_KIND_MOST},
    {"spending", SURUKEVA_SPENDING_WIDTH, SURUKEVA_SPENDING_MOST},
    {"spending_by_month", SURUKEVA_SPENDING_BY_MONTH_WIDTH, SURUKEVA_SPENDING_BY_MONTH_MOST},
    {"twelve_months", SURUKEVA_TWELVE_MONTHS_WIDTH, SURUKEVA_TWELVE_MONTHS_MOST},
    {"earned_value", SURUKEVA_EARNED_VALUE_WIDTH, SURUKEVA_EARNED_VALUE_MOST},
    {"project_earned", SURUKEVA_PROJECT_EARNED_WIDTH, SURUKEVA_PROJECT_EARNED_MOST},
    {"planned_curve", SURUKEVA_PLANNED_CURVE_WIDTH, SURUKEVA_PLANNED_CURVE_MOST},
    {"performance", SURUKEVA_PERFORMANCE_WIDTH, SURUKEVA_PERFORMANCE_MOST},
    {"indices", SURUKEVA_INDICES_WIDTH, SURUKEVA_INDICES_MOST},
    {"project_indices", SURUKEVA_PROJECT_INDICES_WIDTH, SURUKEVA_PROJECT_INDICES_MOST},
    {"period_points", SURUKEVA_PERIOD_POINTS_WIDTH, SURUKEVA_PERIOD_POINTS_MOST},
    {"variances", SURUKEVA_VARIANCES_WIDTH, SURUKEVA_VARIANCES_MOST},
    {"budget", SURUKEVA_BUDGET_WIDTH, SURUKEVA_BUDGET_MOST},
    {"funding", SURUKEVA_FUNDING_WIDTH, SURUKEVA_FUNDING_MOST},
    {"outline", SURUKEVA_OUTLINE_WIDTH, SURUKEVA_OUTLINE_MOST},
};

static void say(const char *name, size_t lent, uint64_t number, uint64_t at) {
    printf("%s, %zu lent: %s, %" PRIu64 "\n", name, lent, text[number], at);
}

int main(int count, char **arguments) {
    static uint8_t read[60001];
    FILE *file = count == 2 ? fopen(arguments[1], "rb") : NULL;
    if (file == NULL) return fputs("usage: memory BOOK\n", stderr), 2;
    size_t len = fread(read, 1, sizeof read, file);
    fclose(file);
    uint8_t *book = malloc(len);
    if (book == NULL) return 2;
    memcpy(book, read, len);

    for (int k = 0; k < (int)(sizeof calls / sizeof *calls); k++) {
        uint64_t at = 0, rows = 0, number;
        size_t most = calls[k].width * calls[k].most;
        uint64_t *out = calloc(most, sizeof *out);
        if (out == NULL) return 2;
        number = call(k, book, len, out, most, &rows); /* as much as any book needs */
        free(out);
        if (number != SURUKEVA_ACCEPTED || rows > calls[k].most) return say(calls[k].name, most, number, rows), 1;

        size_t just = calls[k].width * rows;
        out = just == 0 ? NULL : calloc(just, sizeof *out);
        say(calls[k].name, just, call(k, book, len, out, just, &at), at); /* just as much as this one needs */
        free(out);
        if (just > 0) say(calls[k].name, 0, call(k, book, len, NULL, 0, &at), at); /* nothing lent */
        number = call(k, NULL, 0, NULL, 0, &at);                                   /* no book */
        if (number != SURUKEVA_ENDS_EARLY || at != 0) return say(calls[k].name, 0, number, at), 1;
    }
    free(book);
    return 0;
}
