/*
 * Windows of jobs through the header, held to document 01's survey examples and refusals, to order 2's own example in document 02 and to
 * worked examples of order 5 there, the gap.
 * tests/c/run builds and runs it.
 */
#include "meshorchard.h"

#include "expect.h"

/* What the numbers lent to a call hold before it. */
#define RUBBISH 77u

/* Chain A: (4, 4, 0), (6, 6, 0). The last three numbers are no part of it. */
static const uint64_t chain_a[9] = { 4, 4, 0, 6, 6, 0, 0, 9, 9 };

/* Chain D: (10, 2, 0), (10, 1, 95). W1 is 9, so the one first job is 10. From its read to its forward end it takes 6 ticks, as every later
 * job does; job 8 takes 16. */
static const uint64_t chain_d[6] = { 10, 2, 0, 10, 1, 95 };

/* W1 is 2 and there are 28 first jobs. */
static const uint64_t chain_x[9] = { 3, 2, 1, 7, 5, 2, 4, 4, 0 };

/* W1 is 1 and there are 503 first jobs. Of all jobs in their windows only 503 misses 1405. */
static const uint64_t chain_late[6] = { 401, 401, 0, 503, 503, 400 };

static uint64_t misses, first;

static uint64_t windows_with(const uint64_t *tasks, size_t length, size_t places, uint64_t gap, uint64_t b, uint64_t k)
{
    misses = first = RUBBISH;
    return mo_windows(tasks, length, places, gap, b, k, &misses, &first);
}

static uint64_t windows(const uint64_t *tasks, size_t length, size_t places, uint64_t b, uint64_t k)
{
    return windows_with(tasks, length, places, 0, b, k);
}

/* The largest number of misses and the earliest first job that has it. */
static void check_window(const char *what, const uint64_t *tasks, size_t length, size_t places, uint64_t b, uint64_t k, uint64_t most, uint64_t job)
{
    expect(what, windows(tasks, length, places, b, k), 0);
    expect("  misses", misses, most);
    expect("  first job", first, job);
}

static void check_windows(void)
{
    check_window("A8, B 11, k 2, crossing into the next hyperperiod", chain_a, 9, 2, 11, 2, 2, 3);
    check_window("A8, B 14, k 3: jobs 1 to 3 have no miss", chain_a, 9, 2, 14, 3, 0, 1);
    check_window("order 2, B 11, k 3: jobs 1 to 3 have as many", chain_a, 9, 2, 11, 3, 2, 1);
    check_window("every job misses", chain_a, 9, 2, 0, 100, 100, 1);
    check_window("the largest bound", chain_a, 9, 2, UINT64_MAX, 1, 0, 1);
    check_window("D, B 6, k 2", chain_d, 6, 2, 6, 2, 0, 10);
    check_window("D, B 5, k 2", chain_d, 6, 2, 5, 2, 2, 10);
    check_window("X, B 14, k 3: jobs 3, 12, 19 and 20 have as many", chain_x, 9, 3, 14, 3, 3, 3);
    check_window("the one miss comes late", chain_late, 6, 2, 1405, 10, 1, 494);
}

/* Chain A with a gap. */
static void check_gap(const char *what, uint64_t gap, uint64_t b, uint64_t k, uint64_t most, uint64_t job)
{
    expect(what, windows_with(chain_a, 9, 2, gap, b, k), 0);
    expect("  misses", misses, most);
    expect("  first job", first, job);
}

/* With gap 1 jobs 1, 2 and 3 need 14, 16 and 12 ticks, and so on; with gap 3 W1 is 1, and jobs 2, 3 and 4 need 16, 18 and 14. */
static void check_gaps(void)
{
    check_gap("gap 1, B 11, k 2: every job misses", 1, 11, 2, 2, 1);
    check_gap("gap 1, B 14, k 1", 1, 14, 1, 1, 2);
    check_gap("gap 1, B 13, k 3", 1, 13, 3, 2, 1);
    check_gap("gap 1, B 16, k 3", 1, 16, 3, 0, 1);
    check_gap("gap 3, B 16, k 1", 3, 16, 1, 1, 3);
    check_gap("gap 3, B 15, k 2", 3, 15, 2, 2, 2);
    check_gap("gap 3, B 18, k 100", 3, 18, 100, 0, 2);
    expect("D with gap 4, B 16, k 2", windows_with(chain_d, 6, 2, 4, 16, 2), 0);
    expect("  misses", misses, 0);
    expect("  first job", first, 9);
    expect("D with gap 4, B 15, k 2", windows_with(chain_d, 6, 2, 4, 15, 2), 0);
    expect("  misses", misses, 2);
    expect("  first job", first, 9);
}

static void check_refused(const char *what, uint64_t code, uint64_t wanted)
{
    expect(what, code, wanted);
    expect("  misses", misses, 0);
    expect("  first job", first, 0);
}

static void check_refusals(void)
{
    check_refused("no places", windows(chain_a, 9, 0, 11, 2), MO_PLACES_OUTSIDE_LIMITS);
    check_refused("a list of no whole tasks", windows(chain_a, 8, 2, 11, 2), MO_PLACES_OUTSIDE_LIMITS);
    check_refused("period 0 at place 3, before k 0", windows(chain_a, 9, 3, 11, 0), MO_TASK_OUTSIDE_LIMITS + 256u * 3u);
    check_refused("k 0", windows(chain_a, 9, 2, 11, 0), MO_WINDOW_OUTSIDE_LIMITS);
    check_refused("k 101", windows(chain_a, 9, 2, 11, 101), MO_WINDOW_OUTSIDE_LIMITS);
    check_refused("k the largest number", windows(chain_a, 9, 2, 11, UINT64_MAX), MO_WINDOW_OUTSIDE_LIMITS);
    check_refused("gap 1,001, before k 0", windows_with(chain_a, 9, 2, 1001, 11, 0), MO_TASK_OUTSIDE_LIMITS);
    check_refused("the largest gap of one place", windows_with(chain_a, 9, 1, UINT64_MAX, 11, 2), MO_TASK_OUTSIDE_LIMITS);
    check_refused("period 0 at place 3, before gap 1,001", windows_with(chain_a, 9, 3, 1001, 11, 2), MO_TASK_OUTSIDE_LIMITS + 256u * 3u);
    check_refused("gap 1,000, and k 0", windows_with(chain_a, 9, 2, 1000, 11, 0), MO_WINDOW_OUTSIDE_LIMITS);
}

int main(void)
{
    check_windows();
    check_gaps();
    check_refusals();
    return counted();
}
