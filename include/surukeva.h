/* The C interface of Surukeva. A book is a run of bytes; every function may be called with any bytes.

   Each call returns 0 and sets *at to its count of rows, or returns the number of its refusal, from 1 to 11, and sets *at to the
   place, in bytes from the book's first. Rows go to the front of the `out_len` numbers at `out`, signed numbers in two's complement; the rest
   keeps its numbers, and a refused call leaves all of them as they are. Dates count days from 1 January 1970; an activity is its index.
   What a day's units cost, what is spent of a budget, and every sum but those of surukeva_twelve_months stay within signed 64 bits: the
   largest number of these stands for all above it, the smallest for all below.

   Memory. `book` has `len` bytes, `out` has `out_len` numbers, and `at` one; where a length is 0 its pointer may be NULL, and nothing
   is read or written through it. `out` and `at` must not overlap each other or the book. A call keeps nothing: it takes no memory but
   stack, at most SURUKEVA_STACK bytes, and calls from several threads do not meet. */
#ifndef SURUKEVA_H
#define SURUKEVA_H

#include <stddef.h>
#include <stdint.h>

#ifdef __cplusplus
extern "C" {
#endif

#define SURUKEVA_VERSION_MAJOR 2
#define SURUKEVA_VERSION_MINOR 3

/* Stack that is enough for every call on every book, as measured with the largest tables (docs/BENCHMARKS.md).
   surukeva_outline goes down the tree by recursion, at most 500 levels: 72,144 bytes, when its larger tables are no longer held. */
#define SURUKEVA_STACK 2097152

/* What a call returns. */
enum surukeva_refusal {
    SURUKEVA_ACCEPTED = 0,
    SURUKEVA_BOOK_TOO_LONG = 1,      /* the book is over 60,000 bytes; at 0 */
    SURUKEVA_ENDS_EARLY = 2,         /* it ends where a byte is still due; at its length */
    SURUKEVA_NOT_SHORTEST = 3,       /* a number is not in its shortest form, or is too large; at the number */
    SURUKEVA_OUT_OF_RANGE = 4,       /* a value or an index is out of range; at the field */
    SURUKEVA_COUNT_OUT_OF_RANGE = 5, /* a count is; at the count */
    SURUKEVA_OUT_OF_ORDER = 6,       /* dates do not rise, or a budget is named twice; at the field */
    SURUKEVA_BYTES_LEFT = 7,         /* there are bytes after the last section; at the first of them */
    SURUKEVA_UNKNOWN_ACTIVITY = 8,   /* the asked activity is not in the book; at 0 */
    SURUKEVA_DATE_OUT_OF_RANGE = 9,  /* an asked date is outside the years 2000 to 2099; at 0 */
    SURUKEVA_TOO_SHORT = 10,         /* `out` is shorter than the rows need; at 0 */
    SURUKEVA_SUM_OUT_OF_RANGE = 11   /* a twelve-month sum is outside signed 64 bits; at 0, before 10 */
};

/* The same in words, by number: const char *const text[] = SURUKEVA_REFUSAL_TEXTS; */
#define SURUKEVA_REFUSAL_TEXTS \
    { \
        "accepted", \
        "the book is over 60,000 bytes", \
        "the book ends where a byte is still due", \
        "a number is not in its shortest form, or is too large", \
        "a value or an index is out of range", \
        "a count is out of range", \
        "dates do not rise, or a budget is named twice", \
        "there are bytes after the last section", \
        "the asked activity is not in the book", \
        "an asked date is outside the years 2000 to 2099", \
        "the lent numbers are fewer than the rows need", \
        "a twelve-month sum is outside signed 64 bits" \
    }

/* The numbers of a row of each call, and the most rows that it has: WIDTH * MOST numbers are enough for every book. */
#define SURUKEVA_COSTS_WIDTH 3
#define SURUKEVA_COSTS_MOST 500
#define SURUKEVA_PROJECT_COST_WIDTH 3
#define SURUKEVA_PROJECT_COST_MOST 1
#define SURUKEVA_ACTUAL_BY_KIND_WIDTH 6
#define SURUKEVA_ACTUAL_BY_KIND_MOST 500
#define SURUKEVA_SPENDING_WIDTH 2
#define SURUKEVA_SPENDING_MOST 36525
#define SURUKEVA_SPENDING_BY_MONTH_WIDTH 2
#define SURUKEVA_SPENDING_BY_MONTH_MOST 1200
#define SURUKEVA_TWELVE_MONTHS_WIDTH 3
#define SURUKEVA_TWELVE_MONTHS_MOST 1200
#define SURUKEVA_EARNED_VALUE_WIDTH 7
#define SURUKEVA_EARNED_VALUE_MOST 500
#define SURUKEVA_PROJECT_EARNED_WIDTH SURUKEVA_EARNED_VALUE_WIDTH
#define SURUKEVA_PROJECT_EARNED_MOST 1
#define SURUKEVA_OUTLINE_WIDTH (2 + SURUKEVA_EARNED_VALUE_WIDTH)
#define SURUKEVA_OUTLINE_MOST 500
#define SURUKEVA_PLANNED_CURVE_WIDTH 2
#define SURUKEVA_PLANNED_CURVE_MOST 36525
#define SURUKEVA_PERFORMANCE_WIDTH 1
#define SURUKEVA_PERFORMANCE_MOST 1
#define SURUKEVA_INDICES_WIDTH 9
#define SURUKEVA_INDICES_MOST 1
#define SURUKEVA_PROJECT_INDICES_WIDTH 9
#define SURUKEVA_PROJECT_INDICES_MOST 1
#define SURUKEVA_PERIOD_POINTS_WIDTH 7
#define SURUKEVA_PERIOD_POINTS_MOST 240
#define SURUKEVA_VARIANCES_WIDTH 5
#define SURUKEVA_VARIANCES_MOST 500
#define SURUKEVA_BUDGET_WIDTH 10
#define SURUKEVA_BUDGET_MOST 501
#define SURUKEVA_FUNDING_WIDTH 2
#define SURUKEVA_FUNDING_MOST 1

/* Whether a book is accepted: returns 0 and sets *at to 0, or returns the number of its refusal, from 1 to 7, and sets *at to the
   place. */
uint64_t surukeva_verdict(const uint8_t *book, size_t len, uint64_t *at);

/* Three numbers for each activity: its budget, actual and remaining cost. */
uint64_t surukeva_costs(const uint8_t *book, size_t len, uint64_t *out, size_t out_len, uint64_t *at);

/* Three numbers: the costs of the leaves, added up. */
uint64_t surukeva_project_cost(const uint8_t *book, size_t len, uint64_t *out, size_t out_len, uint64_t *at);

/* Six numbers for each activity, of its own actual cost: labor, nonlabor, material, expenses; then its units of labor and nonlabor. */
uint64_t surukeva_actual_by_kind(const uint8_t *book, size_t len, uint64_t *out, size_t out_len, uint64_t *at);

/* Two numbers for each date from `from` to `to` that something is charged on: the date and the amount. */
uint64_t surukeva_spending(const uint8_t *book, size_t len, uint64_t from, uint64_t to, uint64_t *out, size_t out_len, uint64_t *at);

/* Two numbers for each month that something is charged in: its first date and the amount. */
uint64_t surukeva_spending_by_month(const uint8_t *book, size_t len, uint64_t *out, size_t out_len, uint64_t *at);

/* Three numbers for each month from the first that something is charged in to the last: its first date; the amounts of it and of the
   eleven months before it, added up exactly, a month that nothing is charged in counting 0; and a mark, 1 at the largest sum, the
   earliest where several are equal, else 0. The amounts are those of surukeva_spending over all dates. 11 where a sum is outside signed
   64 bits. */
uint64_t surukeva_twelve_months(const uint8_t *book, size_t len, uint64_t *out, size_t out_len, uint64_t *at);

/* Seven numbers for each activity at the status date `date`: its budget, planned value, earned value, actual and remaining cost; then
   what is spent of the budget: 0 and 0 where the budget is 0, else 1 and the share in hundredths of a percent. */
uint64_t surukeva_earned_value(const uint8_t *book, size_t len, uint64_t date, uint64_t *out, size_t out_len, uint64_t *at);

/* The same seven numbers of the leaves, added up; what is spent is of the sums. */
uint64_t surukeva_project_earned(const uint8_t *book, size_t len, uint64_t date, uint64_t *out, size_t out_len, uint64_t *at);

/* Nine numbers for each line of the outline at the status date `date`: its level, 1 for a top (no parent); its activity's index; then
   that activity's seven numbers of surukeva_earned_value. Tops stand in index order, each child under its parent in index order, its
   whole branch before the next one's. Activities on a circle, or that hang on one, are not listed, and 10 does not count them: `out`
   needs nine numbers for each activity that is listed, 4,500 at most. */
uint64_t surukeva_outline(const uint8_t *book, size_t len, uint64_t date, uint64_t *out, size_t out_len, uint64_t *at);

/* Two numbers for each date from `from` to `to` that a leaf lists: the date and the planned value up to it. */
uint64_t surukeva_planned_curve(const uint8_t *book, size_t len, uint64_t from, uint64_t to, uint64_t *out, size_t out_len, uint64_t *at);

/* One number: how much of the activity is done, from 0 to 1, by the book's technique, as the bits of a double. */
uint64_t surukeva_performance(const uint8_t *book, size_t len, uint64_t activity, uint64_t *out, size_t out_len, uint64_t *at);

/* Nine numbers for the activity at the status date `date`, by the book's forecast: its estimate to complete, its estimate at
   completion and its variance at completion; then its cost, schedule and to-complete performance indices, each as 0 and 0 where
   it is absent, else as 1 and the bits of a double. */
uint64_t surukeva_indices(const uint8_t *book, size_t len, uint64_t activity, uint64_t date, uint64_t *out, size_t out_len, uint64_t *at);

/* The same nine numbers of the project. */
uint64_t surukeva_project_indices(const uint8_t *book, size_t len, uint64_t date, uint64_t *out, size_t out_len, uint64_t *at);

/* Seven numbers for each financial period: its index, its finish, the project's planned value up to then; then the earned value and
   the actual cost recorded up to then, each as 0 and 0 where the period has no record of a leaf, else as 1 and the figure. */
uint64_t surukeva_period_points(const uint8_t *book, size_t len, uint64_t *out, size_t out_len, uint64_t *at);

/* Five numbers for each activity: all 0 where the baseline does not name it; else 1, then the baseline less the schedule: the start and
   the finish in working days, the duration in minutes, the cost at completion. */
uint64_t surukeva_variances(const uint8_t *book, size_t len, uint64_t *out, size_t out_len, uint64_t *at);

/* Ten numbers for each line of the budget: 0 and 0 for the project, whose line comes first, or 1 and the activity's index; its depth;
   its original, current, proposed, distributed and planned budget; then 1 and what the scheduled work is budgeted to cost. */
uint64_t surukeva_budget(const uint8_t *book, size_t len, uint64_t *out, size_t out_len, uint64_t *at);

/* Two numbers: what the funds give the project, and what of its current budget they do not cover. */
uint64_t surukeva_funding(const uint8_t *book, size_t len, uint64_t *out, size_t out_len, uint64_t *at);

#ifdef __cplusplus
}
#endif

#endif
