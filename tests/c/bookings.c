/*
 * Bookings of a press by two chains of a schedule through the header, held to worked examples and refusals. tests/c/run builds and runs it.
 */
#include "meshorchard.h"

#include "expect.h"

#include <string.h>

/* What the numbers lent to a call hold before it. */
#define RUBBISH 77u

#define CODE(number, place) ((number) + 256u * (place))

/* Schedules of three tasks and the chains 1 2 and 3; the lists just hold them. Entries 2 to 11 are no part of the first chain. */
static const uint64_t chains[13] = { 1, 2, 9, 9, 9, 9, 9, 9, 9, 9, 9, UINT64_MAX, 3 };
static const uint64_t places[2] = { 2, 1 };

/* (4, 4, 0), (6, 6, 0) and (10, 3, 5). */
static const uint64_t tasks_s[12] = { 1, 4, 4, 0, 2, 6, 6, 0, 3, 10, 3, 5 };

/* (10, 2, 0), (10, 1, 95) and (4, 4, 0): the first chain warms up late. */
static const uint64_t tasks_late[12] = { 1, 10, 2, 0, 2, 10, 1, 95, 3, 4, 4, 0 };

/* Periods 768, 78,125 and 7: each chain is accepted, their common hyperperiod is above the limit. With 769 the first chain's own is. */
static const uint64_t tasks_long[12] = { 1, 768, 1, 0, 2, 78125, 1, 0, 3, 7, 1, 0 };
static const uint64_t tasks_too_long[12] = { 1, 769, 1, 0, 2, 78125, 1, 0, 3, 7, 1, 0 };

/* Periods 768 and 78,125 in two chains: the common hyperperiod is just the limit. With 151 and 397,351 it is one more. Task 2 fills no place. */
static const uint64_t tasks_limit[12] = { 1, 768, 1, 0, 2, 999983, 1, 0, 3, 78125, 1, 0 };
static const uint64_t tasks_above[12] = { 1, 151, 1, 0, 2, 999983, 1, 0, 3, 397351, 1, 0 };
static const uint64_t chains_limit[13] = { [0] = 1, [12] = 3 };
static const uint64_t places_limit[2] = { 1, 1 };

static uint64_t figures[4];

static uint64_t pair_with(const uint64_t *tasks, uint64_t gap, size_t first, size_t second, uint64_t t)
{
    for (size_t i = 0; i < 4; i++)
        figures[i] = RUBBISH;
    return mo_bookings(tasks, 12, 3, chains, 13, places, 2, 2, gap, first, second, t, figures);
}

static uint64_t pair(const uint64_t *tasks, size_t first, size_t second, uint64_t t)
{
    return pair_with(tasks, 0, first, second, t);
}

static void expect_figures(uint64_t later, uint64_t earlier, uint64_t difference, uint64_t greatest)
{
    expect("  later", figures[0], later);
    expect("  earlier", figures[1], earlier);
    expect("  difference", figures[2], difference);
    expect("  greatest", figures[3], greatest);
}

/* A press at t, and the two numbers in either order. */
static void booked_with(const char *what, const uint64_t *tasks, uint64_t gap, uint64_t t, uint64_t later, uint64_t earlier, uint64_t greatest)
{
    expect(what, pair_with(tasks, gap, 1, 2, t), 0);
    expect_figures(later, earlier, later - earlier, greatest);
    expect("  the numbers changed about", pair_with(tasks, gap, 2, 1, t), 0);
    expect_figures(later, earlier, later - earlier, greatest);
}

static void booked(const char *what, const uint64_t *tasks, uint64_t t, uint64_t later, uint64_t earlier, uint64_t greatest)
{
    booked_with(what, tasks, 0, t, later, earlier, greatest);
}

static void refused(const char *what, uint64_t code, uint64_t wanted)
{
    expect(what, code, wanted);
    expect_figures(0, 0, 0, 0);
}

static void check_bookings(void)
{
    uint64_t most = 0, at = 0, changes = 0, before[2] = { 0, 0 };

    booked("at the later warm-up, 5", tasks_s, 5, 18, 18, 14);
    booked("at 7", tasks_s, 7, 18, 18, 14);
    booked("at 8", tasks_s, 8, 24, 18, 14);
    booked("at 12", tasks_s, 12, 30, 18, 14);
    booked("at 24, where they lie furthest apart", tasks_s, 24, 42, 28, 14);
    booked("at 64", tasks_s, 64, 78, 68, 14);
    booked("at 65, one common hyperperiod on", tasks_s, 65, 78, 78, 14);
    booked("at the upper tick", tasks_s, MO_UPPER_TICK, 1000000000014u, 1000000000008u, 14);
    /* Every press of one common hyperperiod: the greatest difference is reached at 24 alone, and the bookings change 16 times. */
    for (uint64_t t = 5; t < 65; t++) {
        pair(tasks_s, 1, 2, t);
        if (figures[2] > most) {
            most = figures[2];
            at = t;
        }
        changes += figures[0] != before[0] || figures[1] != before[1];
        memcpy(before, figures, sizeof before);
    }
    expect("the greatest of every press", most, 14);
    expect("  at", at, 24);
    expect("  changes", changes, 16);
    booked("after a late warm-up, at 90", tasks_late, 90, 106, 96, 10);
    booked("after a late warm-up, at 99", tasks_late, 99, 106, 104, 10);
    booked("after a late warm-up, at 100", tasks_late, 100, 116, 108, 10);
}

/* The first chain has a link, the second none: a gap moves the bookings of the first alone. */
static void check_gaps(void)
{
    uint64_t most = 0, at = 0;

    booked_with("gap 1, at 5", tasks_s, 1, 5, 24, 18, 16);
    booked_with("gap 1, at 12", tasks_s, 1, 12, 30, 18, 16);
    booked_with("gap 1, at 15", tasks_s, 1, 15, 30, 28, 16);
    booked_with("gap 1, at 64, where they lie furthest apart", tasks_s, 1, 64, 84, 68, 16);
    booked_with("gap 1, at the upper tick", tasks_s, 1, MO_UPPER_TICK, 1000000000020u, 1000000000008u, 16);
    booked_with("gap 3, at 5", tasks_s, 3, 5, 24, 18, 18);
    booked_with("gap 3, at 8", tasks_s, 3, 8, 30, 18, 18);
    booked_with("gap 1,000, at 8", tasks_s, 1000, 8, 1026, 18, 1014);
    for (uint64_t t = 5; t < 65; t++) {
        pair_with(tasks_s, 3, 1, 2, t);
        if (figures[2] > most) {
            most = figures[2];
            at = t;
        }
    }
    expect("the greatest of every press with gap 3", most, 18);
    expect("  at", at, 44);
    /* With gap 4 the first chain warms up 10 ticks earlier. */
    booked_with("gap 3 after a late warm-up, at 90", tasks_late, 3, 90, 106, 96, 10);
    refused("gap 3, at 89", pair_with(tasks_late, 3, 1, 2, 89), MO_TICK_TOO_EARLY);
    booked_with("gap 4, at 80", tasks_late, 4, 80, 106, 88, 20);
    booked_with("gap 4, at 90", tasks_late, 4, 90, 116, 96, 20);
    refused("gap 4, at 79", pair_with(tasks_late, 4, 1, 2, 79), MO_TICK_TOO_EARLY);
    expect("the chain without a link, twice, with gap 1,000", pair_with(tasks_s, 1000, 2, 2, 5), 0);
    expect_figures(18, 18, 0, 0);
}

static void check_one_chain(void)
{
    expect("chain 1 twice", pair(tasks_s, 1, 1, 0), 0);
    expect_figures(18, 18, 0, 0);
    expect("chain 2 twice", pair(tasks_s, 2, 2, 5), 0);
    expect_figures(18, 18, 0, 0);
    refused("chain 2 twice at 4, before its warm-up", pair(tasks_s, 2, 2, 4), MO_TICK_TOO_EARLY);
}

static void check_refusals(void)
{
    refused("at 4, before the second's warm-up", pair(tasks_s, 1, 2, 4), MO_TICK_TOO_EARLY);
    refused("at 4, before the first's warm-up", pair(tasks_s, 2, 1, 4), MO_TICK_TOO_EARLY);
    refused("at 89, before the first's warm-up", pair(tasks_late, 1, 2, 89), MO_TICK_TOO_EARLY);
    refused("past the upper tick", pair(tasks_s, 1, 2, MO_UPPER_TICK + 1), MO_TICK_TOO_LATE);
    refused("the largest tick", pair(tasks_s, 2, 1, UINT64_MAX), MO_TICK_TOO_LATE);
    refused("chains 1 and 3", pair(tasks_s, 1, 3, 5), MO_CHAIN_UNKNOWN);
    refused("chains 3 and 1", pair(tasks_s, 3, 1, 5), MO_CHAIN_UNKNOWN);
    refused("chains 0 and 1", pair(tasks_s, 0, 1, 5), MO_CHAIN_UNKNOWN);
    refused("chains 1 and 0, at 4", pair(tasks_s, 1, 0, 4), MO_CHAIN_UNKNOWN);
    refused("a number of no chain, past the upper tick", pair(tasks_s, 1, SIZE_MAX, UINT64_MAX), MO_CHAIN_UNKNOWN);
    refused("a common hyperperiod above the limit", pair(tasks_long, 1, 2, 100), MO_HYPERPERIOD_TOO_LONG);
    refused("the same the other way about, past the upper tick", pair(tasks_long, 2, 1, UINT64_MAX), MO_HYPERPERIOD_TOO_LONG);
    expect("its first chain twice", pair(tasks_long, 1, 1, 1000000), 0);
    expect("its second chain twice", pair(tasks_long, 2, 2, 1000000), 0);
    refused("a first chain above the limit", pair(tasks_too_long, 1, 2, 0), MO_HYPERPERIOD_TOO_LONG);
    refused("a second chain above the limit", pair(tasks_too_long, 2, 1, UINT64_MAX), MO_HYPERPERIOD_TOO_LONG);
    refused("a chain above the limit, and no chain 3", pair(tasks_too_long, 1, 3, 0), MO_CHAIN_UNKNOWN);
    expect("its other chain twice", pair(tasks_too_long, 2, 2, 0), 0);
    expect("a common hyperperiod at the limit", mo_bookings(tasks_limit, 12, 3, chains_limit, 13, places_limit, 2, 2, 0, 1, 2, 0, figures), 0);
    expect_figures(78126, 769, 77357, 78124);
    refused("a common hyperperiod of 60,000,001", mo_bookings(tasks_above, 12, 3, chains_limit, 13, places_limit, 2, 2, 0, 1, 2, 0, figures),
            MO_HYPERPERIOD_TOO_LONG);
}

/* A fault of the schedule comes before every other, whatever the two numbers and the tick. */
static void check_schedules(void)
{
    static const size_t numbers[4] = { 0, 1, 2, 9 };
    static const uint64_t fault[12] = { 1, 4, 4, 0, 2, 6, 6, 0, 3, 10, 0, 5 };
    /* The chains 1; 1 9; 1 of the first task alone. */
    static const uint64_t unknown[25] = { [0] = 1, [12] = 1, [13] = 9, [24] = 1 };
    static const uint64_t places_unknown[3] = { 1, 2, 1 };
    static const uint64_t ones[5] = { 1, 1, 1, 1, 1 };
    static const uint64_t many[61] = { [0] = 1, [12] = 1, [24] = 1, [36] = 1, [48] = 1 };

    for (size_t i = 0; i < 4; i++) {
        size_t first = numbers[i], second = numbers[3 - i];
        uint64_t t = i % 2 ? UINT64_MAX : 0;

        memset(figures, 0xff, sizeof figures);
        refused("no chain", mo_bookings(tasks_s, 12, 3, chains, 13, places, 2, 0, 0, first, second, t, figures), MO_PLACES_OUTSIDE_LIMITS);
        memset(figures, 0xff, sizeof figures);
        refused("five chains", mo_bookings(tasks_s, 12, 3, many, 61, ones, 5, 5, 0, first, second, t, figures), MO_PLACES_OUTSIDE_LIMITS);
        memset(figures, 0xff, sizeof figures);
        refused("lists too short", mo_bookings(tasks_s, 12, 3, chains, 12, places, 2, 2, 0, first, second, t, figures), MO_PLACES_OUTSIDE_LIMITS);
        refused("a duration of 0", pair(fault, first, second, t), CODE(MO_TASK_OUTSIDE_LIMITS, 3));
        refused("a duration of 0, before gap 1,001", pair_with(fault, 1001, first, second, t), CODE(MO_TASK_OUTSIDE_LIMITS, 3));
        refused("gap 1,001", pair_with(tasks_s, 1001, first, second, t), CODE(MO_TASK_OUTSIDE_LIMITS, 0));
        refused("the largest gap, before a chain above the limit", pair_with(tasks_too_long, UINT64_MAX, first, second, t),
                CODE(MO_TASK_OUTSIDE_LIMITS, 0));
        memset(figures, 0xff, sizeof figures);
        refused("gap 1,001, before an unknown task",
                mo_bookings(tasks_s, 12, 1, unknown, 25, places_unknown, 3, 3, 1001, first, second, t, figures), CODE(MO_TASK_OUTSIDE_LIMITS, 0));
        memset(figures, 0xff, sizeof figures);
        refused("no chain, before gap 1,001", mo_bookings(tasks_s, 12, 3, chains, 13, places, 2, 0, 1001, first, second, t, figures),
                MO_PLACES_OUTSIDE_LIMITS);
        memset(figures, 0xff, sizeof figures);
        refused("an unknown task in the second of three chains",
                mo_bookings(tasks_s, 12, 1, unknown, 25, places_unknown, 3, 3, 0, first, second, t, figures), CODE(MO_TASK_UNKNOWN, 2));
    }
}

int main(void)
{
    check_bookings();
    check_gaps();
    check_one_chain();
    check_refusals();
    check_schedules();
    return counted();
}
