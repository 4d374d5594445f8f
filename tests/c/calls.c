/*
 * The calls on figures and on chains through the header, held to document 01's survey examples and refusals and to worked examples of order 5 in
 * document 02, the gap. tests/c/run builds and runs it.
 */
#include "meshorchard.h"

#include "expect.h"

#include <string.h>

/* Rubbish that every number lent to a call holds before it. */
#define RUBBISH 77u

/* Chain A's table. The third entry is no part of it. */
static const uint64_t starts[3] = { 0, 8, 3 };
static const uint64_t latencies[3] = { 18, 16, 0 };

/* Chain A: (4, 4, 0), (6, 6, 0). The last three numbers are no part of it. */
static const uint64_t chain_a[9] = { 4, 4, 0, 6, 6, 0, 0, 9, 9 };

static void check_figures(void)
{
    uint64_t a = RUBBISH, b = RUBBISH;

    expect("A's greatest, code", mo_greatest(starts, 3, latencies, 3, 2, 12, &a), 0);
    expect("A's greatest", a, 18);
    expect("A's low, code", mo_low(starts, 3, latencies, 3, 2, 12, &a), 0);
    expect("A's low", a, 10);
    expect("A's mean, code", mo_mean(starts, 3, latencies, 3, 2, 12, &a, &b), 0);
    expect("A's mean, doubled area", a, 336);
    expect("A's mean, doubled ticks", b, 24);
    expect("A's throughput, code", mo_throughput(starts, 3, latencies, 3, 2, 12, &a, &b), 0);
    expect("A's throughput, anchors", a, 2);
    expect("A's throughput, ticks", b, 12);
}

/* The shortest table there is, one with the greatest hyperperiod, and one with the greatest latency too. */
static void check_means(void)
{
    static const uint64_t one_start[1] = { 0 }, one_latency[1] = { 2 };
    static const uint64_t two_starts[2] = { 7, 9 }, two_latencies[2] = { 60000000, 60000000 };
    static const uint64_t last_start[1] = { 1000000000 }, longest[1] = { 60011000 };
    uint64_t a = RUBBISH, b = RUBBISH;

    expect("mean of one tick, code", mo_mean(one_start, 1, one_latency, 1, 1, 1, &a, &b), 0);
    expect("mean of one tick, doubled area", a, 3);
    expect("mean of one tick, doubled ticks", b, 2);
    a = b = RUBBISH;
    expect("mean at the limits, code", mo_mean(two_starts, 2, two_latencies, 2, 2, 60000000, &a, &b), 0);
    expect("mean at the limits, doubled area", a, 3600000239999992u);
    expect("mean at the limits, doubled ticks", b, 120000000);
    a = b = RUBBISH;
    expect("mean of the longest latency, code", mo_mean(last_start, 1, longest, 1, 1, 60000000, &a, &b), 0);
    expect("mean of the longest latency, doubled area", a, 3601320000000000u);
    expect("mean of the longest latency, doubled ticks", b, 120000000);
    expect("the longest latency, code", mo_greatest(last_start, 1, longest, 1, 1, 60000000, &a), 0);
    expect("the longest latency", a, 60011000);
    expect("its low, code", mo_low(last_start, 1, longest, 1, 1, 60000000, &a), 0);
    expect("its low", a, 11000);
    expect("its exceedance of 11,001, code", mo_exceedance(last_start, 1, longest, 1, 1, 60000000, 11001, &a, &b), 0);
    expect("its exceedance of 11,001", a, 59999999);
}

/* One exceedance of chain A's table. */
static void exceedance(const char *what, uint64_t bound, uint64_t run, uint64_t endless)
{
    uint64_t a = RUBBISH, b = RUBBISH;

    expect(what, mo_exceedance(starts, 3, latencies, 3, 2, 12, bound, &a, &b), 0);
    expect("  its run", a, run);
    expect("  its endless", b, endless);
}

static void check_exceedances(void)
{
    exceedance("A's exceedance of 18", 18, 0, 0);
    exceedance("A's exceedance of 14", 14, 4, 0);
    exceedance("A's exceedance of 11, which crosses into the next hyperperiod", 11, 11, 0);
    exceedance("A's exceedance of 10", 10, 0, 1);
    exceedance("A's exceedance of 0", 0, 0, 1);
    exceedance("A's exceedance of the largest number", UINT64_MAX, 0, 0);
}

/* Chain A's table with H 24, as long as the last latency: every figure refuses, and every number lent is 0. */
static void check_refused_figures(void)
{
    uint64_t a = RUBBISH, b = RUBBISH;

    expect("greatest of no table", mo_greatest(starts, 3, latencies, 3, 2, 24, &a), MO_TABLE_NOT_WELL_FORMED);
    expect("  its latency", a, 0);
    a = RUBBISH;
    expect("low of no table", mo_low(starts, 3, latencies, 3, 2, 24, &a), MO_TABLE_NOT_WELL_FORMED);
    expect("  its low", a, 0);
    a = RUBBISH;
    expect("mean of no table", mo_mean(starts, 3, latencies, 3, 2, 24, &a, &b), MO_TABLE_NOT_WELL_FORMED);
    expect("  its numbers", a + b, 0);
    a = b = RUBBISH;
    expect("throughput of no table", mo_throughput(starts, 3, latencies, 3, 2, 24, &a, &b), MO_TABLE_NOT_WELL_FORMED);
    expect("  its numbers", a + b, 0);
    a = b = RUBBISH;
    expect("exceedance of no table", mo_exceedance(starts, 3, latencies, 3, 2, 24, 0, &a, &b), MO_TABLE_NOT_WELL_FORMED);
    expect("  its numbers", a + b, 0);
    expect("unequal lists", mo_low(starts, 3, latencies, 2, 2, 12, &a), MO_TABLE_NOT_WELL_FORMED);
    expect("g the largest number", mo_greatest(starts, 3, latencies, 3, UINT64_MAX, 12, &a), MO_TABLE_NOT_WELL_FORMED);
}

static void check_chains(void)
{
    static const uint64_t no_jobs[12];
    uint64_t jobs[12], tick = RUBBISH, hyperperiod = RUBBISH, a = RUBBISH;

    expect("A's checks", mo_check(chain_a, 9, 2, 0, &hyperperiod), 0);
    expect("A's hyperperiod", hyperperiod, 12);
    memset(jobs, 0xff, sizeof jobs);
    expect("A's warm-up, code", mo_warm_up(chain_a, 9, 2, 0, jobs, &tick, &hyperperiod), 0);
    expect("A's W1", jobs[0], 0);
    expect("A's W2", jobs[1], 1);
    expect("A's jobs past the places", memcmp(jobs + 2, no_jobs, 10 * sizeof *jobs) != 0, 0);
    expect("A's warm-up tick", tick, 0);
    expect("A's delay at 7, code", mo_delay(chain_a, 9, 2, 0, 7, &a), 0);
    expect("A's delay at 7", a, 11);
    expect("A's age at 17, code", mo_age(chain_a, 9, 2, 0, 17, &a), 0);
    expect("A's age at 17", a, 17);
}

static void check_refused_chains(void)
{
    uint64_t a = RUBBISH, code;

    expect("no places", mo_check(chain_a, 9, 0, 0, &a), MO_PLACES_OUTSIDE_LIMITS);
    expect("  its hyperperiod", a, 0);
    expect("more places than tasks", mo_check(chain_a, 9, 4, 0, &a), MO_PLACES_OUTSIDE_LIMITS);
    expect("a list of no whole tasks", mo_check(chain_a, 8, 2, 0, &a), MO_PLACES_OUTSIDE_LIMITS);
    code = mo_delay(chain_a, 9, 3, 0, 7, &a);
    expect("period 0 at place 3, its number", MO_NUMBER(code), MO_TASK_OUTSIDE_LIMITS);
    expect("period 0 at place 3, its place", MO_PLACE(code), 3);
    expect("A's age at 11", mo_age(chain_a, 9, 2, 0, 11, &a), MO_TICK_TOO_EARLY);
    expect("A's delay past the upper tick", mo_delay(chain_a, 9, 2, 0, MO_UPPER_TICK + 1, &a), MO_TICK_TOO_LATE);
    expect("  its delay", a, 0);
}

/* Chains B, C and D, and one of three places, with 28, 12 and 21 jobs in a hyperperiod of 84. */
static const uint64_t chain_b[3] = { 10, 3, 5 };
static const uint64_t chain_c[6] = { 5, 5, 0, 5, 5, 0 };
static const uint64_t chain_d[6] = { 10, 2, 0, 10, 1, 95 };
static const uint64_t chain_x[9] = { 3, 2, 1, 7, 5, 2, 4, 4, 0 };

/* The warm-up of a chain with a gap: its first and last job and its tick, and the delay and the age at their first ticks. */
static void warm_up(const char *what, const uint64_t *tasks, size_t places, uint64_t gap, uint64_t first, uint64_t last, uint64_t tick,
                    uint64_t delay)
{
    uint64_t jobs[12], found = RUBBISH, hyperperiod = RUBBISH, a = RUBBISH, z;

    expect(what, mo_warm_up(tasks, 3 * places, places, gap, jobs, &found, &hyperperiod), 0);
    expect("  W1", jobs[0], first);
    expect("  Wn", jobs[places - 1], last);
    expect("  warm-up tick", found, tick);
    expect("  delay there, code", mo_delay(tasks, 3 * places, places, gap, tick, &a), 0);
    expect("  delay there", a, delay);
    if (tick > 0)
        expect("  a tick before", mo_delay(tasks, 3 * places, places, gap, tick - 1, &a), MO_TICK_TOO_EARLY);
    /* The last write has no gap. */
    z = tasks[3 * places - 1] + last * tasks[3 * places - 3] + tasks[3 * places - 2];
    expect("  age at the write of Wn, code", mo_age(tasks, 3 * places, places, gap, z, &a), 0);
    expect("  age at the write of Wn", a, z - tick);
    expect("  a tick before", mo_age(tasks, 3 * places, places, gap, z - 1, &a), MO_TICK_TOO_EARLY);
    expect("  its age", a, 0);
}

static void check_gaps(void)
{
    static const uint64_t ticks[5] = { 4, 7, 8, 15, 16 }, delays[5] = { 20, 17, 22, 15, 20 };
    static const uint64_t times[4] = { 18, 23, 24, 29 }, ages[4] = { 14, 19, 16, 21 };
    uint64_t twelve[36], a = RUBBISH;

    warm_up("C without a gap", chain_c, 2, 0, 0, 1, 0, 15);
    warm_up("C with gap 1", chain_c, 2, 1, 0, 2, 0, 20);
    warm_up("C with gap 5, with which a value is readable just in time", chain_c, 2, 5, 0, 2, 0, 20);
    warm_up("C with gap 6", chain_c, 2, 6, 0, 3, 0, 25);
    warm_up("C with gap 1,000", chain_c, 2, 1000, 0, 201, 0, 1015);
    warm_up("A with gap 2", chain_a, 2, 2, 0, 1, 0, 18);
    warm_up("A with gap 3", chain_a, 2, 3, 1, 2, 4, 20);
    warm_up("A with gap 1,000", chain_a, 2, 1000, 1, 168, 4, 1016);
    warm_up("D with gap 3", chain_d, 2, 3, 9, 0, 90, 16);
    warm_up("D with gap 4", chain_d, 2, 4, 8, 0, 80, 26);
    warm_up("D with gap 1,000", chain_d, 2, 1000, 0, 91, 0, 1016);
    warm_up("B without a gap", chain_b, 1, 0, 0, 0, 5, 13);
    warm_up("B with gap 1,000", chain_b, 1, 1000, 0, 0, 5, 13);
    warm_up("three places with gap 4", chain_x, 3, 4, 0, 5, 1, 31);
    for (size_t i = 0; i < 5; i++) {
        expect("A's delay with gap 3, code", mo_delay(chain_a, 9, 2, 3, ticks[i], &a), 0);
        expect("A's delay with gap 3", a, delays[i]);
    }
    for (size_t i = 0; i < 4; i++) {
        expect("A's age with gap 3, code", mo_age(chain_a, 9, 2, 3, times[i], &a), 0);
        expect("A's age with gap 3", a, ages[i]);
    }
    expect("C's age at 15 with gap 1, code", mo_age(chain_c, 6, 2, 1, 15, &a), 0);
    expect("C's age at 15 with gap 1", a, 15);
    /* Each place reads a tick before a value becomes readable: the longest delay that there is. */
    for (size_t i = 0; i < 12; i++) {
        twelve[3 * i] = 1000000;
        twelve[3 * i + 1] = 4000000;
        twelve[3 * i + 2] = 999 * i;
    }
    warm_up("twelve places with gap 1,000", twelve, 12, 1000, 0, 55, 0, 60010989);
    expect("their age, code", mo_age(twelve, 36, 12, 1000, 60010988, &a), 0);
    expect("their age", a, 60010988);
}

/* A gap that is refused, and what comes before it and after. */
static void check_refused_gaps(void)
{
    static const uint64_t faulty[3] = { 0, 1, 0 };
    static const uint64_t too_long[6] = { 769, 1, 0, 78125, 1, 0 };
    static const uint64_t gaps[4] = { 1001, 65536, 4294967296u + 1, UINT64_MAX };
    static const uint64_t no_jobs[12];
    uint64_t jobs[12], a, b;

    for (size_t i = 0; i < 4; i++) {
        a = b = RUBBISH;
        expect("the checks with a gap above 1,000", mo_check(chain_a, 9, 2, gaps[i], &a), MO_TASK_OUTSIDE_LIMITS);
        expect("  its place", MO_PLACE(mo_check(chain_a, 9, 2, gaps[i], &b)), 0);
        expect("  its hyperperiod", a, 0);
        expect("of one place", mo_check(chain_b, 3, 1, gaps[i], &a), MO_TASK_OUTSIDE_LIMITS);
        memset(jobs, 0xff, sizeof jobs);
        a = b = RUBBISH;
        expect("the warm-up", mo_warm_up(chain_a, 9, 2, gaps[i], jobs, &a, &b), MO_TASK_OUTSIDE_LIMITS);
        expect("  its numbers", a + b, 0);
        expect("  its jobs", memcmp(jobs, no_jobs, sizeof jobs) != 0, 0);
        a = b = RUBBISH;
        expect("the delay, before the tick", mo_delay(chain_a, 9, 2, gaps[i], UINT64_MAX, &a), MO_TASK_OUTSIDE_LIMITS);
        expect("the age, before the tick", mo_age(chain_a, 9, 2, gaps[i], 0, &b), MO_TASK_OUTSIDE_LIMITS);
        expect("  their numbers", a + b, 0);
        expect("after the tasks", mo_check(faulty, 3, 1, gaps[i], &a), MO_TASK_OUTSIDE_LIMITS + 256u);
        expect("after the places", mo_check(chain_a, 9, 0, gaps[i], &a), MO_PLACES_OUTSIDE_LIMITS);
        expect("before the hyperperiod", mo_check(too_long, 6, 2, gaps[i], &a), MO_TASK_OUTSIDE_LIMITS);
    }
    expect("the hyperperiod with gap 1,000", mo_check(too_long, 6, 2, 1000, &a), MO_HYPERPERIOD_TOO_LONG);
    expect("A with gap 1,000", mo_check(chain_a, 9, 2, 1000, &a), 0);
    expect("  its hyperperiod", a, 12);
}

int main(void)
{
    check_figures();
    check_means();
    check_exceedances();
    check_refused_figures();
    check_chains();
    check_refused_chains();
    check_gaps();
    check_refused_gaps();
    return counted();
}
