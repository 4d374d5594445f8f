/*
 * Making a table through the header, held to document 01's survey examples and refusals, and the made table read at ticks against the walk;
 * then the mean by area of the made tables of several chains, chains that are stepped through at every cut, and chains with a gap.
 * tests/c/run builds and runs it.
 */
#include "meshorchard.h"

#include "expect.h"

/* What the lists and the figures hold before a making. */
#define RUBBISH 77u

/* Chain A: (4, 4, 0), (6, 6, 0). */
static const uint64_t chain_a[6] = { 4, 4, 0, 6, 6, 0 };

static uint64_t starts[4], latencies[4], figures[4];

/* Makes chain A's table with a gap, cut at p, in the first `length` entries of the lists. */
static uint64_t make_with(uint64_t gap, size_t p, size_t length)
{
    for (size_t i = 0; i < 4; i++)
        starts[i] = latencies[i] = figures[i] = RUBBISH;
    return mo_make_table(chain_a, 6, 2, gap, p, starts, length, latencies, length, figures);
}

static uint64_t make(size_t p, size_t length)
{
    return make_with(0, p, length);
}

static void expect_figures(uint64_t g, uint64_t tick, uint64_t h, uint64_t walked)
{
    expect("  anchors", figures[0], g);
    expect("  warm-up tick", figures[1], tick);
    expect("  hyperperiod", figures[2], h);
    expect("  walked", figures[3], walked);
}

static void expect_anchor(size_t i, uint64_t start, uint64_t latency)
{
    expect("  start", starts[i], start);
    expect("  latency", latencies[i], latency);
}

static void check_making(void)
{
    expect("A cut at 1", make(1, 3), 0);
    expect_figures(2, 0, 12, 3);
    expect_anchor(0, 0, 18);
    expect_anchor(1, 8, 16);
    expect_anchor(2, RUBBISH, RUBBISH);
    expect("A cut at 2", make(2, 2), 0);
    expect_figures(2, 0, 12, 2);
    expect_anchor(0, 0, 18);
    expect_anchor(1, 8, 16);
}

static void check_refusals(void)
{
    expect("lists too short", make(2, 1), MO_LISTS_TOO_SHORT);
    expect_figures(2, 0, 12, 2);
    expect_anchor(0, 0, 18);
    expect_anchor(1, RUBBISH, RUBBISH);
    expect("empty lists", make(1, 0), MO_LISTS_TOO_SHORT);
    expect_figures(2, 0, 12, 3);
    expect("place 0", make(0, 3), MO_CUT_OUTSIDE_PLACES);
    expect_figures(0, 0, 0, 0);
    expect_anchor(0, RUBBISH, RUBBISH);
    expect("place 3", make(3, 3), MO_CUT_OUTSIDE_PLACES);
    expect("unequal lists", mo_make_table(chain_a, 6, 2, 0, 1, starts, 3, latencies, 2, figures), MO_LISTS_UNEQUAL);
    expect("no places", mo_make_table(chain_a, 6, 0, 0, 1, starts, 3, latencies, 3, figures), MO_PLACES_OUTSIDE_LIMITS);
    expect("five numbers", mo_make_table(chain_a, 5, 1, 0, 1, starts, 3, latencies, 3, figures), MO_PLACES_OUTSIDE_LIMITS);
}

/* The table and the walk agree, with and without a gap. */
static void check_agreement(void)
{
    static const uint64_t later[6] = { 0, 3, 7, 8, 11, 12 };
    static const uint64_t gaps[6] = { 0, 1, 2, 3, 4, 1000 };

    for (size_t g = 0; g < 6; g++) {
        make_with(gaps[g], 1, 4);
        for (size_t i = 0; i < 7; i++) {
            /* from the warm-up tick on, and the upper tick */
            uint64_t t = i < 6 ? figures[1] + later[i] : MO_UPPER_TICK, delay = RUBBISH;

            expect("walking", mo_delay(chain_a, 6, 2, gaps[g], t, &delay), 0);
            expect("  and reading", mo_read_table(starts, 4, latencies, 4, figures[0], figures[2], t), delay);
        }
    }
}

/* A table of one or two anchors of a chain with a gap, the same at every cut. */
static void with_gap(const char *what, const uint64_t *tasks, size_t places, uint64_t gap, uint64_t tick, uint64_t h, uint64_t g,
                     const uint64_t *anchors)
{
    for (size_t p = 1; p <= places; p++) {
        for (size_t i = 0; i < 4; i++)
            starts[i] = latencies[i] = figures[i] = RUBBISH;
        expect(what, mo_make_table(tasks, 3 * places, places, gap, p, starts, 4, latencies, 4, figures), 0);
        expect_figures(g, tick, h, h / tasks[3 * (p - 1)]);
        for (size_t i = 0; i < g; i++)
            expect_anchor(i, anchors[2 * i], anchors[2 * i + 1]);
        expect_anchor(g, RUBBISH, RUBBISH);
    }
}

static void check_gaps(void)
{
    static const uint64_t chain_b[3] = { 10, 3, 5 };
    static const uint64_t chain_c[6] = { 5, 5, 0, 5, 5, 0 };
    static const uint64_t chain_d[6] = { 10, 2, 0, 10, 1, 95 };
    static const uint64_t gaps[3] = { 1, 2, 4 };
    uint64_t twelve[36];

    with_gap("C without a gap", chain_c, 2, 0, 0, 5, 1, (const uint64_t[]){ 0, 15 });
    for (size_t i = 0; i < 3; i++)
        with_gap("C with gap 1, 2 and 4", chain_c, 2, gaps[i], 0, 5, 1, (const uint64_t[]){ 0, 20 });
    with_gap("C with gap 1,000", chain_c, 2, 1000, 0, 5, 1, (const uint64_t[]){ 0, 1015 });
    with_gap("A with gap 1", chain_a, 2, 1, 0, 12, 2, (const uint64_t[]){ 0, 18, 4, 20 });
    with_gap("A with gap 2", chain_a, 2, 2, 0, 12, 2, (const uint64_t[]){ 0, 18, 4, 20 });
    with_gap("A with gap 3", chain_a, 2, 3, 4, 12, 2, (const uint64_t[]){ 4, 20, 8, 22 });
    with_gap("A with gap 4", chain_a, 2, 4, 4, 12, 2, (const uint64_t[]){ 4, 20, 8, 22 });
    with_gap("A with gap 1,000", chain_a, 2, 1000, 4, 12, 2, (const uint64_t[]){ 4, 1016, 8, 1018 });
    with_gap("D with gap 2", chain_d, 2, 2, 90, 10, 1, (const uint64_t[]){ 90, 16 });
    with_gap("D with gap 4", chain_d, 2, 4, 80, 10, 1, (const uint64_t[]){ 80, 26 });
    with_gap("D with gap 1,000", chain_d, 2, 1000, 0, 10, 1, (const uint64_t[]){ 0, 1016 });
    with_gap("B with gap 1", chain_b, 1, 1, 5, 10, 1, (const uint64_t[]){ 5, 13 });
    with_gap("B with gap 1,000", chain_b, 1, 1000, 5, 10, 1, (const uint64_t[]){ 5, 13 });
    /* Each place reads a tick before a value becomes readable: the longest latency that there is. */
    for (size_t i = 0; i < 12; i++) {
        twelve[3 * i] = 1000000;
        twelve[3 * i + 1] = 4000000;
        twelve[3 * i + 2] = 999 * i;
    }
    with_gap("twelve places with gap 1,000", twelve, 12, 1000, 0, 1000000, 1, (const uint64_t[]){ 0, 60010989 });
    expect("  read at the last tick", mo_read_table(starts, 4, latencies, 4, figures[0], figures[2], 999999), 59010990);
    /* The same longest waits without a gap. */
    for (size_t i = 0; i < 12; i++)
        twelve[3 * i + 2] = 999999 * i % 1000000;
    expect("twelve places without a gap", mo_make_table(twelve, 36, 12, 0, 12, starts, 4, latencies, 4, figures), 0);
    expect("  anchors", figures[0], 1);
    expect("  latency", latencies[0], 59999989);
    /* A gap above its limit is refused before the cut and the lists, also where there is no link. */
    expect("gap 1,001", make_with(1001, 0, 3), MO_TASK_OUTSIDE_LIMITS);
    expect_figures(0, 0, 0, 0);
    expect_anchor(0, RUBBISH, RUBBISH);
    expect("the largest gap", make_with(UINT64_MAX, 1, 0), MO_TASK_OUTSIDE_LIMITS);
    expect_figures(0, 0, 0, 0);
    expect("one place", mo_make_table(chain_b, 3, 1, 1001, 1, starts, 4, latencies, 4, figures), MO_TASK_OUTSIDE_LIMITS);
    expect_figures(0, 0, 0, 0);
    expect("gap 1,000, and place 0", make_with(1000, 0, 3), MO_CUT_OUTSIDE_PLACES);
    expect("gap 3, lists too short", make_with(3, 2, 1), MO_LISTS_TOO_SHORT);
    expect_figures(2, 4, 12, 2);
    expect_anchor(0, 4, 20);
    expect_anchor(1, RUBBISH, RUBBISH);
}

/* The mean of a chain's table, cut at its first place, which has at most 28 jobs in a hyperperiod. */
static void mean(const char *what, const uint64_t *tasks, size_t places, uint64_t gap, uint64_t area, uint64_t ticks)
{
    static uint64_t many_starts[28], many_latencies[28];
    uint64_t a = RUBBISH, b = RUBBISH;

    expect(what, mo_make_table(tasks, 3 * places, places, gap, 1, many_starts, 28, many_latencies, 28, figures), 0);
    expect("  its mean, code", mo_mean(many_starts, 28, many_latencies, 28, figures[0], figures[2], &a, &b), 0);
    expect("  its mean, doubled area", a, area);
    expect("  its mean, doubled ticks", b, ticks);
}

/* Examples A, B, C and D, and a chain whose table has twelve anchors. */
static void check_means(void)
{
    static const uint64_t chain_b[3] = { 10, 3, 5 };
    static const uint64_t chain_c[6] = { 5, 5, 0, 5, 5, 0 };
    static const uint64_t chain_d[6] = { 10, 2, 0, 10, 1, 95 };
    static const uint64_t twelve_anchors[9] = { 3, 2, 1, 7, 5, 2, 4, 4, 0 };

    mean("A's table", chain_a, 2, 0, 336, 24);
    mean("A's table with gap 1", chain_a, 2, 1, 384, 24);
    mean("B's table", chain_b, 1, 0, 160, 20);
    mean("C's table", chain_c, 2, 0, 125, 10);
    mean("C's table with gap 1", chain_c, 2, 1, 175, 10);
    mean("D's table", chain_d, 2, 0, 220, 20);
    mean("a table of twelve anchors", twelve_anchors, 3, 0, 2856, 168);
    expect("  its anchors", figures[0], 12);
    mean("the same chain with gap 4", twelve_anchors, 3, 4, 4200, 168);
    expect("  its anchors", figures[0], 12);
}

/* One table at every cut of a chain; the figure that differs is the number of partitions walked, h by the period at the cut. */
static void every_cut(const char *what, const uint64_t *tasks, size_t places, uint64_t gap, uint64_t g, uint64_t tick, uint64_t h)
{
    static uint64_t first_starts[999], first_latencies[999], cut_starts[999], cut_latencies[999];

    expect(what, mo_make_table(tasks, 3 * places, places, gap, 1, first_starts, 999, first_latencies, 999, figures), 0);
    for (size_t p = 1; p <= places; p++) {
        size_t differ = 0;

        expect("  code at a cut", mo_make_table(tasks, 3 * places, places, gap, p, cut_starts, 999, cut_latencies, 999, figures), 0);
        expect_figures(g, tick, h, h / tasks[3 * (p - 1)]);
        for (size_t i = 0; i < g; i++)
            differ += cut_starts[i] != first_starts[i] || cut_latencies[i] != first_latencies[i];
        expect("  anchors that differ from those of the first cut", differ, 0);
    }
}

/* Steps before and after the cut: twelve anchors; durations above the periods; short periods beside long ones, where a job of one place is many
 * of its neighbour. */
static void check_steps(void)
{
    static const uint64_t twelve_anchors[9] = { 3, 2, 1, 7, 5, 2, 4, 4, 0 };
    static const uint64_t long_durations[9] = { 10, 25, 0, 4, 9, 3, 6, 30, 1 };
    static const uint64_t far_apart[12] = { 5, 1, 0, 2, 1, 1, 1000, 3, 7, 999, 2, 0 };

    every_cut("twelve anchors at every cut", twelve_anchors, 3, 0, 12, 7, 84);
    every_cut("durations above the periods at every cut", long_durations, 3, 0, 6, 0, 60);
    every_cut("periods far apart at every cut", far_apart, 4, 0, 999, 0, 999000);
    every_cut("gap 4 at every cut", twelve_anchors, 3, 4, 12, 1, 84);
    every_cut("durations above the periods and gap 7 at every cut", long_durations, 3, 7, 6, 0, 60);
    every_cut("periods far apart and gap 1,000 at every cut", far_apart, 4, 1000, 999, 0, 999000);
}

int main(void)
{
    check_making();
    check_refusals();
    check_agreement();
    check_gaps();
    check_means();
    check_steps();
    return counted();
}
