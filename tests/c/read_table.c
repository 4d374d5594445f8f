/*
 * Reads tables through the header that the firmware includes, and holds each answer to document 01. tests/c/run builds and runs it.
 */
#include "meshorchard.h"

#include "expect.h"

/* Chain A's table. The third entry is no part of it. */
static const uint64_t starts[3] = { 0, 8, 3 };
static const uint64_t latencies[3] = { 18, 16, 0 };

static uint64_t read_a(uint64_t t)
{
    return mo_read_table(starts, 3, latencies, 3, 2, 12, t);
}

/* Chain A's table with one thing changed: the lengths, g or h. */
static uint64_t read_as(size_t n, size_t m, uint64_t g, uint64_t h)
{
    return mo_read_table(starts, n, latencies, m, g, h, 0);
}

/* A table of two anchors at its first start. */
static uint64_t read_two(uint64_t s0, uint64_t v0, uint64_t s1, uint64_t v1, uint64_t h)
{
    const uint64_t s[2] = { s0, s1 };
    const uint64_t v[2] = { v0, v1 };

    return mo_read_table(s, 2, v, 2, 2, h, s0);
}

/* A table of one anchor. */
static uint64_t read_one(uint64_t s0, uint64_t v0, uint64_t h, uint64_t t)
{
    return mo_read_table(&s0, 1, &v0, 1, 1, h, t);
}

/* What document 01 says of chain A's table, tick by tick. */
static uint64_t delay_a(uint64_t t)
{
    uint64_t r = t % 12;

    return r < 8 ? 18 - r : 16 - (r - 8);
}

static void check_delays(void)
{
    uint64_t t;
    uint64_t wrong = 0;

    expect("A at 0", read_a(0), 18);
    expect("A at 7", read_a(7), 11);
    expect("A at 8", read_a(8), 16);
    expect("A at 11", read_a(11), 13);
    expect("A at 12", read_a(12), 18);
    expect("A at the upper tick", read_a(MO_UPPER_TICK), 14);
    expect("A one tick before", read_a(MO_UPPER_TICK - 1), 15);
    for (t = 0; t < 100000; t++)
        wrong += read_a(t) != delay_a(t);
    for (t = MO_UPPER_TICK - 100000; t <= MO_UPPER_TICK; t++)
        wrong += read_a(t) != delay_a(t);
    expect("A at 200,001 ticks, wrong ones", wrong, 0);
    expect("the least delay", read_one(5, 11, 10, 14), 2);
    expect("the first start at its limit", read_one(1000000000, 13, 12, 1000000000), 13);
    expect("latency and H near 60,000,000", read_one(0, 60000000, 59999999, 59999998), 2);
    expect("latency and H at their limits", read_one(0, 60011000, 60000000, 0), 60011000);
    expect("latency and H at their limits, the last tick", read_one(0, 60011000, 60000000, 59999999), 11001);
}

static void check_refused_tables(void)
{
    const uint64_t not_well_formed = MO_REFUSED + MO_TABLE_NOT_WELL_FORMED;

    expect("lists of equal length", read_as(3, 3, 2, 12), 18);
    expect("lists of unequal length", read_as(3, 2, 2, 12), not_well_formed);
    expect("lists of unequal length, the other way", read_as(2, 3, 2, 12), not_well_formed);
    expect("g 0", read_as(3, 3, 0, 12), not_well_formed);
    expect("g 0 of empty lists", read_as(0, 0, 0, 12), not_well_formed);
    expect("g above the lengths", read_as(3, 3, 4, 12), not_well_formed);
    expect("g the largest number", read_as(3, 3, UINT64_MAX, 12), not_well_formed);
    expect("H 0", read_as(3, 3, 2, 0), not_well_formed);
    expect("H at the last start", read_as(3, 3, 2, 8), not_well_formed);
    expect("H just above the last start", read_as(3, 3, 2, 9), 18);
    expect("H as long as the last latency", read_as(3, 3, 2, 24), not_well_formed);
    expect("H above its limit", read_one(0, 60000000, 60000001, 0), not_well_formed);
    expect("H above its limit, the latency above it", read_one(0, 60011000, 60000001, 0), not_well_formed);
    expect("H the largest number", read_as(3, 3, 2, UINT64_MAX), not_well_formed);
    expect("equal starts", read_two(4, 9, 4, 9, 6), not_well_formed);
    expect("a third start below the second", read_as(3, 3, 3, 12), not_well_formed);
    expect("a latency of the distance", read_two(4, 3, 7, 9, 6), not_well_formed);
    expect("a latency above the distance", read_two(4, 4, 7, 9, 6), 4);
    expect("the last latency of its distance", read_two(4, 4, 7, 3, 6), not_well_formed);
    expect("a latency above its limit", read_one(0, 60011001, 12, 0), not_well_formed);
    expect("a latency above its limit, H at its own", read_one(0, 60011001, 60000000, 0), not_well_formed);
    expect("a latency at its limit", read_one(0, 60011000, 12, 0), 60011000);
    expect("a latency of 60,000,001", read_one(0, 60000001, 12, 0), 60000001);
    expect("the first start above its limit", read_one(1000000001, 13, 12, 1000000001), not_well_formed);
    expect("the largest numbers", read_two(UINT64_MAX - 1, UINT64_MAX, UINT64_MAX, UINT64_MAX, UINT64_MAX), not_well_formed);
}

static void check_refused_ticks(void)
{
    expect("one tick above the upper tick", read_a(MO_UPPER_TICK + 1), MO_REFUSED + MO_TICK_TOO_LATE);
    expect("the largest tick", read_a(UINT64_MAX), MO_REFUSED + MO_TICK_TOO_LATE);
    expect("one tick before the first start", read_one(5, 13, 10, 4), MO_REFUSED + MO_TICK_TOO_EARLY);
    expect("at the first start", read_one(5, 13, 10, 5), 13);
    expect("not well-formed comes before the tick", read_one(5, 13, 13, 4), MO_REFUSED + MO_TABLE_NOT_WELL_FORMED);
}

int main(void)
{
    check_delays();
    check_refused_tables();
    check_refused_ticks();
    return counted();
}
