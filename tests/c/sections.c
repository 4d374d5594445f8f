/*
 * Sections through the header, held to order 6's own example in document 02, chain A cut in the middle, and to worked examples and refusals.
 * tests/c/run builds and runs it.
 */
#include "meshorchard.h"

#include "expect.h"

/* What the numbers lent to a call hold before it. */
#define RUBBISH 77u

/* Chain A: (4, 4, 0), (6, 6, 0). The last three numbers are no part of it. */
static const uint64_t chain_a[9] = { 4, 4, 0, 6, 6, 0, 0, 9, 9 };

/* Chain D: (10, 2, 0), (10, 1, 95). Its second section alone is warm at once. */
static const uint64_t chain_d[6] = { 10, 2, 0, 10, 1, 95 };

static const uint64_t four[12] = { 5, 2, 0, 7, 3, 1, 10, 4, 3, 4, 1, 2 };

/* 769 and 78,125 have a hyperperiod that is too long, though each alone has not. */
static const uint64_t too_long[6] = { 769, 1, 0, 78125, 1, 0 };

static uint64_t latencies[12], count, sum;

static uint64_t sections(const uint64_t *tasks, size_t length, size_t places, uint64_t gap, const uint64_t *cuts, size_t cuts_length)
{
    for (size_t i = 0; i < 12; i++)
        latencies[i] = RUBBISH;
    count = sum = RUBBISH;
    return mo_sections(tasks, length, places, gap, cuts, cuts_length, latencies, &count, &sum);
}

/* So many sections, with these latencies and 0 past them. */
static void check_cut(const char *what, uint64_t code, size_t wanted_count, const uint64_t *wanted, uint64_t wanted_sum)
{
    uint64_t as_wanted = 1;

    for (size_t i = 0; i < 12; i++)
        as_wanted = as_wanted && latencies[i] == (i < wanted_count ? wanted[i] : 0);
    expect(what, code, 0);
    expect("  sections", count, wanted_count);
    expect("  latencies and zeros", as_wanted, 1);
    expect("  sum", sum, wanted_sum);
}

static void check_cuts(void)
{
    static const uint64_t one[1] = { 1 }, two[1] = { 2 }, all[3] = { 1, 2, 3 }, ends[2] = { 1, 3 }, two_and_more[3] = { 2, 0, 9 };
    static const uint64_t whole_a[1] = { 18 }, cut_a[2] = { 8, 12 }, gapped_a[1] = { 26 };
    static const uint64_t whole_d[1] = { 16 }, cut_d[2] = { 12, 11 };
    static const uint64_t whole_four[1] = { 31 }, halves[2] = { 16, 18 }, quarters[4] = { 7, 10, 14, 5 }, middle[3] = { 7, 23, 5 };
    static const uint64_t far_halves[2] = { 1016, 1018 };

    check_cut("A in one piece", sections(chain_a, 9, 2, 0, one, 0), 1, whole_a, 18);
    check_cut("order 6: A cut in the middle, 8 + 12 against 18", sections(chain_a, 9, 2, 0, one, 1), 2, cut_a, 20);
    check_cut("A with gap 7 in one piece", sections(chain_a, 9, 2, 7, one, 0), 1, gapped_a, 26);
    check_cut("A with gap 7, cut in the middle", sections(chain_a, 9, 2, 7, one, 1), 2, cut_a, 27);
    check_cut("D in one piece", sections(chain_d, 6, 2, 0, one, 0), 1, whole_d, 16);
    check_cut("D cut in the middle", sections(chain_d, 6, 2, 0, one, 1), 2, cut_d, 23);
    check_cut("four places in one piece", sections(four, 12, 4, 0, two, 0), 1, whole_four, 31);
    check_cut("four places in halves", sections(four, 12, 4, 0, two, 1), 2, halves, 34);
    check_cut("four places in quarters", sections(four, 12, 4, 0, all, 3), 4, quarters, 36);
    check_cut("four places without their ends", sections(four, 12, 4, 0, ends, 2), 3, middle, 35);
    check_cut("the first of three cuts alone", sections(four, 12, 4, 0, two_and_more, 1), 2, halves, 34);
    check_cut("four places in halves, gap 1,000", sections(four, 12, 4, 1000, two, 1), 2, far_halves, 3034);
}

static void check_refused(const char *what, uint64_t code, uint64_t wanted)
{
    uint64_t any = count | sum;

    for (size_t i = 0; i < 12; i++)
        any |= latencies[i];
    expect(what, code, wanted);
    expect("  all else 0", any, 0);
}

/* Twelve places of the longest tasks at the greatest gap, each phase 999 ticks after the one before: the longest latency that a chain has, and
 * in sections exactly 1 more for each of the eleven cuts. */
static void check_twelve(void)
{
    static const uint64_t cuts[12] = { 1, 2, 3, 4, 5, 6, 7, 8, 9, 10, 11, 12 };
    uint64_t tasks[36], wanted[12];

    for (size_t i = 0; i < 12; i++) {
        tasks[3 * i] = 1000000;
        tasks[3 * i + 1] = 4000000;
        tasks[3 * i + 2] = 999 * i;
        wanted[i] = 5000000;
    }
    check_cut("twelve places, all cut", sections(tasks, 36, 12, 1000, cuts, 11), 12, wanted, 60011000);
    check_refused("twelve places, cut after the last too", sections(tasks, 36, 12, 1000, cuts, 12), MO_CUTS_NOT_RISING);
    wanted[0] = 60010989;
    check_cut("twelve places in one piece", sections(tasks, 36, 12, 1000, cuts, 0), 1, wanted, 60010989);
}

static void check_refusals(void)
{
    static const uint64_t none[1] = { 0 }, one[1] = { 1 }, two[1] = { 2 }, twice[2] = { 1, 1 }, falling[2] = { 2, 1 }, large[2] = { 1, UINT64_MAX };
    static const uint64_t many[13] = { 1, 2, 3, 4, 5, 6, 7, 8, 9, 10, 11, 12, 13 };

    check_refused("cut 0", sections(chain_a, 9, 2, 0, none, 1), MO_CUTS_NOT_RISING);
    check_refused("a cut after the last place", sections(chain_a, 9, 2, 0, two, 1), MO_CUTS_NOT_RISING);
    check_refused("equal cuts", sections(four, 12, 4, 0, twice, 2), MO_CUTS_NOT_RISING);
    check_refused("cuts that fall", sections(four, 12, 4, 0, falling, 2), MO_CUTS_NOT_RISING);
    check_refused("the largest number", sections(four, 12, 4, 0, large, 2), MO_CUTS_NOT_RISING);
    check_refused("one place, cut", sections(chain_a, 9, 1, 0, one, 1), MO_CUTS_NOT_RISING);
    check_refused("twelve cuts of four places", sections(four, 12, 4, 0, many, 12), MO_CUTS_NOT_RISING);
    check_refused("thirteen cuts", sections(four, 12, 4, 0, many, 13), MO_CUTS_NOT_RISING);
    check_refused("no places, before cut 0", sections(chain_a, 9, 0, 0, none, 1), MO_PLACES_OUTSIDE_LIMITS);
    check_refused("a list of no whole tasks, before cut 0", sections(chain_a, 8, 2, 0, none, 1), MO_PLACES_OUTSIDE_LIMITS);
    check_refused("more places than the list holds", sections(chain_a, 9, 4, 0, one, 1), MO_PLACES_OUTSIDE_LIMITS);
    check_refused("places beyond 32 bits", sections(chain_a, 9, ((size_t)1 << 32) + 2, 0, one, 1), MO_PLACES_OUTSIDE_LIMITS);
    check_refused("period 0 at place 3, before cut 0", sections(chain_a, 9, 3, 1001, none, 1), MO_TASK_OUTSIDE_LIMITS + 256u * 3u);
    check_refused("gap 1,001, before cut 0", sections(chain_a, 9, 2, 1001, none, 1), MO_TASK_OUTSIDE_LIMITS);
    check_refused("a hyperperiod that is too long, before cut 0", sections(too_long, 6, 2, 0, none, 1), MO_HYPERPERIOD_TOO_LONG);
    check_refused("a hyperperiod that is too long, though no section's is", sections(too_long, 6, 2, 0, one, 1), MO_HYPERPERIOD_TOO_LONG);
}

int main(void)
{
    check_cuts();
    check_twelve();
    check_refusals();
    return counted();
}
