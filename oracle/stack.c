/* How much stack a call needs. Each call is made on a stack that was painted before, and what paint is left is counted; a call of
   nothing is taken off.

       gcc -O2 -Iinclude oracle/stack.c crates/surukeva/out/libsurukeva.a -lpthread -o build/stack && build/stack < BOOK */
#include <pthread.h>
#include <stdio.h>
#include <stdlib.h>
#include <string.h>

#include "surukeva.h"

enum { STACK = 8 << 20, PAINT = 0xa5, LONGEST = 1 << 20, FIRST_DAY = 10957, LAST_DAY = 47481, ACTIVITY = 0 };

static uint8_t book[LONGEST];
static size_t length;
static uint64_t at;

static void *nothing(void *unused) { return unused; }

static uint64_t out[73050];
static const size_t lent = sizeof out / sizeof *out;

/* A thread that makes a call, by how many values the call is asked. */
#define THREAD(call, ...)                           \
    static void *call(void *unused) {               \
        surukeva_##call(book, length, __VA_ARGS__); \
        return unused;                              \
    }
#define PLAIN(call) THREAD(call, out, lent, &at)
#define ONE(call, value) THREAD(call, value, out, lent, &at)
#define TWO(call, first, second) THREAD(call, first, second, out, lent, &at)

THREAD(verdict, &at)
PLAIN(costs)
PLAIN(project_cost)
PLAIN(actual_by_kind)
TWO(spending, FIRST_DAY, LAST_DAY)
PLAIN(spending_by_month)
PLAIN(twelve_months)
ONE(earned_value, LAST_DAY)
ONE(project_earned, LAST_DAY)
TWO(planned_curve, FIRST_DAY, LAST_DAY)
ONE(performance, ACTIVITY)
TWO(indices, ACTIVITY, LAST_DAY)
ONE(project_indices, LAST_DAY)
PLAIN(period_points)
PLAIN(variances)
PLAIN(budget)
PLAIN(funding)
ONE(outline, LAST_DAY)

/* The bytes of its stack that a thread wrote to. */
static size_t used(void *(*call)(void *)) {
    uint8_t *stack = aligned_alloc(4096, STACK);
    pthread_attr_t attributes;
    pthread_t thread;
    size_t left = 0;
    memset(stack, PAINT, STACK);
    pthread_attr_init(&attributes);
    pthread_attr_setstack(&attributes, stack, STACK);
    if (pthread_create(&thread, &attributes, call, NULL) != 0) exit(1);
    pthread_join(thread, NULL);
    while (left < STACK && stack[left] == PAINT) left++;
    free(stack);
    return STACK - left;
}

static void report(const char *name, void *(*call)(void *)) {
    printf("%s: %zu bytes of stack\n", name, used(call) - used(nothing));
}

#define REPORT(call) report(#call, call)

int main(void) {
    length = fread(book, 1, LONGEST, stdin);
    REPORT(verdict);
    REPORT(costs);
    REPORT(project_cost);
    REPORT(actual_by_kind);
    REPORT(spending);
    REPORT(spending_by_month);
    REPORT(twelve_months);
    REPORT(earned_value);
    REPORT(project_earned);
    REPORT(planned_curve);
    REPORT(performance);
    REPORT(indices);
    REPORT(project_indices);
    REPORT(period_points);
    REPORT(variances);
    REPORT(budget);
    REPORT(funding);
    REPORT(outline);
    return 0;
}
