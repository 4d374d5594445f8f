/*
 * How often each delay occurs, through the header, order 7 of document 02: worked examples, refusals, and tables of every length up to 1,024 anchors with lists of up to
 * 4,096 entries, held to a count tick by tick. tests/c/run builds and runs it.
 */
#include "meshorchard.h"

#include "expect.h"

#include <string.h>

/* What the lists and numbers lent to a call hold before it. */
#define RUBBISH 77u
#define MOST_ANCHORS 1024u
#define MOST_ENTRIES 4096u

static uint64_t counts[MOST_ENTRIES + 1], rest;
static uint64_t starts[MOST_ANCHORS + 1], latencies[MOST_ANCHORS + 1];

static uint64_t histogram(size_t n, uint64_t g, uint64_t h, uint64_t width, size_t entries)
{
    for (size_t i = 0; i <= MOST_ENTRIES; i++)
        counts[i] = RUBBISH;
    rest = RUBBISH;
    return mo_histogram(starts, n, latencies, n, g, h, width, counts, entries, &rest);
}

/* So many entries, the first of them these and the others 0, and the entry after them untouched. */
static void check_counts(const char *what, uint64_t code, size_t entries, const uint64_t *wanted, size_t known, uint64_t wanted_rest)
{
    uint64_t as_wanted = 1;

    for (size_t i = 0; i < entries; i++)
        as_wanted = as_wanted && counts[i] == (i < known ? wanted[i] : 0);
    expect(what, code, 0);
    expect("  counts", as_wanted, 1);
    expect("  rest", rest, wanted_rest);
    expect("  the entry after the list", counts[entries], RUBBISH);
}

static void give(size_t n, const uint64_t *s, const uint64_t *v)
{
    memcpy(starts, s, n * sizeof *s);
    memcpy(latencies, v, n * sizeof *v);
}

/* Chain A: anchors (0, 18) and (8, 16), H 12; the entries after them are no part of the table. */
static void chain_a(void)
{
    static const uint64_t s[4] = { 0, 8, 3, 0 }, v[4] = { 18, 16, 0, 99 };

    give(4, s, v);
}

static void check_chain_a(void)
{
    static const uint64_t fives[4] = { 0, 0, 6, 6 }, ones[19] = { 0, 0, 0, 0, 0, 0, 0, 0, 0, 0, 0, 1, 1, 2, 2, 2, 2, 1, 1 };
    static const uint64_t seventeens[2] = { 10, 2 }, eighteens[2] = { 11, 1 }, all[1] = { 12 };
    static const uint64_t wide[5] = { 19, 20, 60011001, 1ull << 63, UINT64_MAX };

    chain_a();
    check_counts("A in fives", histogram(4, 2, 12, 5, 4), 4, fives, 4, 0);
    check_counts("A in fives, a longer list", histogram(4, 2, 12, 5, 40), 40, fives, 4, 0);
    check_counts("A in fives, a list that ends before the last", histogram(4, 2, 12, 5, 3), 3, fives, 3, 6);
    check_counts("A in fives, a list that ends before any", histogram(4, 2, 12, 5, 2), 2, fives, 2, 12);
    check_counts("A in fives, an empty list", histogram(4, 2, 12, 5, 0), 0, fives, 0, 12);
    check_counts("A, each delay by itself", histogram(4, 2, 12, 1, 20), 20, ones, 19, 0);
    check_counts("A, each delay by itself, the list ends at 18", histogram(4, 2, 12, 1, 19), 19, ones, 19, 0);
    check_counts("A, each delay by itself, the list ends at 17", histogram(4, 2, 12, 1, 18), 18, ones, 18, 1);
    check_counts("A in seventeens", histogram(4, 2, 12, 17, 2), 2, seventeens, 2, 0);
    check_counts("A in seventeens, one entry", histogram(4, 2, 12, 17, 1), 1, seventeens, 1, 2);
    check_counts("A in eighteens", histogram(4, 2, 12, 18, 2), 2, eighteens, 2, 0);
    for (size_t i = 0; i < sizeof wide / sizeof *wide; i++)
        check_counts("A in one entry", histogram(4, 2, 12, wide[i], 3), 3, all, 1, 0);
    check_counts("A, the widest entries, an empty list", histogram(4, 2, 12, UINT64_MAX, 0), 0, all, 0, 12);
}

/* Example B: anchor (5, 13), H 10; and the greatest latency that a table may have. */
static void check_one_anchor(void)
{
    static const uint64_t five[1] = { 5 }, thirteen[1] = { 13 }, fours[4] = { 0, 4, 4, 2 };
    static const uint64_t last[1] = { 1000000000 }, top[1] = { 60011000 }, none[1] = { 0 }, most[1] = { 60000000 };

    give(1, five, thirteen);
    check_counts("B in fours", histogram(1, 1, 10, 4, 4), 4, fours, 4, 0);
    give(1, last, top);
    check_counts("the greatest latency, an entry that ends below it", histogram(1, 1, 60000000, 60011000, 1), 1, (const uint64_t[]){ 59999999 }, 1, 1);
    check_counts("the greatest latency, an entry that has it", histogram(1, 1, 60000000, 60011001, 1), 1, most, 1, 0);
    check_counts("the lowest delays, 11,001 and more", histogram(1, 1, 60000000, 11001, 1), 1, none, 1, 60000000);
    check_counts("the lowest delays, 11,001 among them", histogram(1, 1, 60000000, 11002, 1), 1, (const uint64_t[]){ 1 }, 1, 59999999);
}

/* A refusal: its number at place 0, every entry as it was, and 0 in the rest. */
static void check_refused(const char *what, uint64_t code, uint64_t number)
{
    uint64_t kept = 1;

    for (size_t i = 0; i <= MOST_ENTRIES; i++)
        kept = kept && counts[i] == RUBBISH;
    expect(what, code, number);
    expect("  the list is as it was", kept, 1);
    expect("  rest", rest, 0);
}

static void check_refusals(void)
{
    chain_a();
    check_refused("width 0", histogram(4, 2, 12, 0, 4), MO_WIDTH_ZERO);
    check_refused("width 0, an empty list", histogram(4, 2, 12, 0, 0), MO_WIDTH_ZERO);
    check_refused("no anchors", histogram(4, 0, 12, 5, 4), MO_TABLE_NOT_WELL_FORMED);
    check_refused("more anchors than entries", histogram(4, 5, 12, 5, 4), MO_TABLE_NOT_WELL_FORMED);
    check_refused("the anchor after the last is none", histogram(4, 3, 12, 5, 4), MO_TABLE_NOT_WELL_FORMED);
    check_refused("H 0", histogram(4, 2, 0, 5, 4), MO_TABLE_NOT_WELL_FORMED);
    check_refused("H that the last start reaches", histogram(4, 2, 8, 5, 4), MO_TABLE_NOT_WELL_FORMED);
    check_refused("14 before 18", histogram(4, 2, 8, 0, 4), MO_TABLE_NOT_WELL_FORMED);
    latencies[1] = 4;
    check_refused("a latency of its distance", histogram(4, 2, 12, 5, 4), MO_TABLE_NOT_WELL_FORMED);
    latencies[1] = 60011001;
    check_refused("a latency above its limit", histogram(4, 2, 12, 5, 4), MO_TABLE_NOT_WELL_FORMED);
    chain_a();
    for (size_t i = 0; i <= MOST_ENTRIES; i++)
        counts[i] = RUBBISH;
    rest = RUBBISH;
    check_refused("lists of different lengths", mo_histogram(starts, 4, latencies, 3, 2, 12, 5, counts, 4, &rest), MO_TABLE_NOT_WELL_FORMED);
}

/* Numbers that look random and are the same in every run. */
static uint64_t drawn = 1;

static uint64_t draw(uint64_t below)
{
    drawn = drawn * 6364136223846793005u + 1442695040888963407u;
    return (drawn >> 33) % below;
}

/* A table of g anchors, each of 1 to 9 ticks, with latencies up to 4,999 above the distance. Answers H. */
static uint64_t any_table(size_t g)
{
    uint64_t at = draw(1000), first = at;

    for (size_t i = 0; i < g; i++) {
        uint64_t d = 1 + draw(9);

        starts[i] = at;
        latencies[i] = d + 1 + draw(draw(2) ? 5000 : 20);
        at += d;
    }
    return at - first;
}

/* The same counts, tick by tick: the anchors' delays fall by one from tick to tick. */
static uint64_t by_ticks[MOST_ENTRIES + 1], rest_by_ticks;

static void count_ticks(size_t g, uint64_t h, uint64_t width, size_t entries)
{
    memset(by_ticks, 0, sizeof by_ticks);
    rest_by_ticks = 0;
    for (size_t i = 0; i < g; i++) {
        uint64_t next = i + 1 < g ? starts[i + 1] : starts[0] + h;

        for (uint64_t t = starts[i]; t < next; t++) {
            uint64_t entry = (latencies[i] - (t - starts[i])) / width;

            if (entry < entries)
                by_ticks[entry]++;
            else
                rest_by_ticks++;
        }
    }
}

/* Every number of anchors from 1 to 1,024, each with several widths and lengths, 0 and 4,096 among them. */
static void check_every_length(void)
{
    static const size_t lengths[7] = { 0, 1, 3, 64, 1000, 4095, 4096 };
    uint64_t same = 0, tried = 0, listed = 0, beyond = 0;

    for (size_t g = 1; g <= MOST_ANCHORS; g++) {
        uint64_t h = any_table(g);

        for (size_t k = 0; k < 7; k++) {
            uint64_t width = 1 + (k % 2 ? draw(9) : draw(700)), sum = 0;
            uint64_t code = histogram(g, g, h, width, lengths[k]);

            count_ticks(g, h, width, lengths[k]);
            for (size_t i = 0; i < lengths[k]; i++)
                sum += counts[i];
            tried++;
            same += code == 0 && rest == rest_by_ticks && sum + rest == h && memcmp(counts, by_ticks, lengths[k] * sizeof *counts) == 0 && counts[lengths[k]] == RUBBISH;
            listed += sum > 0;
            beyond += rest > 0;
        }
    }
    expect("tables of 1 to 1,024 anchors, seven lists each", tried, 7168);
    expect("  as counted tick by tick", same, tried);
    expect("  many with delays in the list", listed > 4000, 1);
    expect("  many with delays beyond it", beyond > 2000, 1);
}

int main(void)
{
    check_chain_a();
    check_one_anchor();
    check_refusals();
    check_every_length();
    return counted();
}
