/*
 * A test load through the header, order 8 of document 02: worked examples, refusals, and the loads of many seeds with every number of places, held to the order's words, to the chain
 * checks, to a table in lists of one entry and to the file of their schedule. tests/c/run builds and runs it.
 */
#include "meshorchard.h"

#include "expect.h"

#include <string.h>

/* What the numbers lent to a call hold before it. No period, duration or phase is as large. */
#define RUBBISH 7777777u
#define MOST 12u
#define STEP 0x9E3779B97F4A7C15u

/* One entry more than the call has, which it must leave. */
static uint64_t tasks[3 * MOST + 1];

static uint64_t load(uint64_t seed, size_t places)
{
    for (size_t i = 0; i <= 3 * MOST; i++)
        tasks[i] = RUBBISH;
    return mo_load(seed, places, tasks);
}

/* So many places, of which the period, also the duration, and the phase of the first ones are known; 0 past the places. */
static void check_load(const char *what, uint64_t code, size_t places, const uint64_t *wanted, size_t known)
{
    uint64_t past = 0;

    expect(what, code, 0);
    for (size_t i = 0; i < known; i++) {
        expect("  T", tasks[3 * i], wanted[2 * i]);
        expect("  D", tasks[3 * i + 1], wanted[2 * i]);
        expect("  F", tasks[3 * i + 2], wanted[2 * i + 1]);
    }
    for (size_t i = 3 * places; i < 3 * MOST; i++)
        past |= tasks[i];
    expect("  past the places", past, 0);
    expect("  the entry after the last", tasks[3 * MOST], RUBBISH);
}

static void check_worked(void)
{
    uint64_t h = RUBBISH, start = RUBBISH, latency = RUBBISH, figures[4], top = RUBBISH;

    check_load("seed 0, three places", load(0, 3), 3, (const uint64_t[]){ 10000, 8591, 10000, 7183, 40000, 26767 }, 3);
    check_load("seed 1, two places", load(1, 2), 2, (const uint64_t[]){ 10000, 8590, 20000, 17182 }, 2);
    check_load("seed DEADBEEF, four places", load(0xDEADBEEF, 4), 4, (const uint64_t[]){ 10000, 8782, 20000, 46, 80000, 34910, 20000, 7822 }, 4);
    check_load("the seed whose first draw is 0", load(0x61C8864680B583EB, 1), 1, (const uint64_t[]){ 2500, 307 }, 1);
    check_load("the greatest seed, twelve places", load(UINT64_MAX, 12), 12, (const uint64_t[]){ 10000, 8588, 10000, 7176, 40000, 26764, 40000, 34352 }, 4);
    expect("  the checks", mo_check(tasks, 36, 12, 0, &h), 0);
    expect("  hyperperiod", h, 40000);
    expect("  a table in lists of one entry", mo_make_table(tasks, 36, 12, 0, 3, &start, 1, &latency, 1, figures), 0);
    expect("  anchors", figures[0], 1);
    expect("  greatest latency", mo_greatest(&start, 1, &latency, 1, figures[0], figures[2], &top), 0);
    expect("  in ticks", top, 426052);
}

static void check_refusals(void)
{
    /* Some would be a number of places to a call that kept fewer bits. */
    static const size_t none[9] = { 0, 13, 14, 256 + 1, 65536 + 12, ((size_t)1 << 32) + 1, ((size_t)1 << 32) + 12, ((size_t)1 << 63) + 1, SIZE_MAX };
    static const uint64_t seeds[3] = { 0, 0xDEADBEEF, UINT64_MAX };

    for (size_t i = 0; i < sizeof none / sizeof *none; i++)
        for (size_t j = 0; j < 3; j++) {
            uint64_t code = load(seeds[j], none[i]), any = 0;

            for (size_t k = 0; k < 3 * MOST; k++)
                any |= tasks[k];
            expect("places that are none", code, MO_PLACES_OUTSIDE_LIMITS);
            expect("  all 36 entries 0", any, 0);
            expect("  the entry after the last", tasks[3 * MOST], RUBBISH);
        }
}

/* ---- The same load in another form: each draw by itself, and the periods by their weights */

/* Draw n of a seed, counted from 1. Sums of 64 bits are modulo 2^64. */
static uint64_t draw(uint64_t seed, uint64_t n)
{
    uint64_t s = seed + n * STEP;

    return s ^ (s >> 31);
}

/* The seed with that draw n: the upper 31 bits are the state's own, and undo the rest from above. */
static uint64_t seed_of(uint64_t n, uint64_t drawn)
{
    return (drawn ^ (drawn >> 31) ^ (drawn >> 62)) - n * STEP;
}

/* Table III of source document 003, without its row of 33.3 ms: how many of the 97 numbers pick the first period, the next and so on, each twice the one before. */
static uint64_t period_of(uint64_t number)
{
    static const uint64_t weights[6] = { 1, 10, 33, 15, 23, 15 };
    uint64_t period = 2500;

    for (size_t i = 0; number >= weights[i]; i++) {
        number -= weights[i];
        period *= 2;
    }
    return period;
}

/* How often each number was the first draw of a place, and each period the longest of a chain. */
static uint64_t numbers[97], longest_of[6];
static uint64_t wanted[3 * MOST], longest;
static size_t cut;

/* The load that is wanted, its longest period and the first place that has it. */
static void want(uint64_t seed, size_t places)
{
    longest = 0;
    memset(wanted, 0, sizeof wanted);
    for (size_t i = 0; i < places; i++) {
        uint64_t number = draw(seed, 2 * i + 1) % 97, period = period_of(number);

        numbers[number]++;
        wanted[3 * i] = wanted[3 * i + 1] = period;
        wanted[3 * i + 2] = draw(seed, 2 * i + 2) % period;
        if (period > longest) {
            longest = period;
            cut = i + 1;
        }
    }
    for (size_t i = 0; i < 6; i++)
        longest_of[i] += longest == 2500u << i;
}

/* Whether the load of this seed is the one that is wanted, with nothing written past it. */
static uint64_t as_wanted(uint64_t code)
{
    return code == 0 && memcmp(tasks, wanted, sizeof wanted) == 0 && tasks[3 * MOST] == RUBBISH;
}

/* Whether the load passes the checks, with its longest period as the hyperperiod, a divisor of 80,000. */
static uint64_t passes(size_t places)
{
    uint64_t h = RUBBISH;

    return mo_check(tasks, 3 * MOST, places, 0, &h) == 0 && h == longest && 80000 % h == 0;
}

/* Whether lists of one entry hold its table, made by one partition, and the table's one latency is the walk's delay. */
static uint64_t has_a_table(size_t places)
{
    uint64_t start = RUBBISH, latency = RUBBISH, delay = RUBBISH, figures[4] = { RUBBISH, RUBBISH, RUBBISH, RUBBISH };

    return mo_make_table(tasks, 3 * MOST, places, 0, cut, &start, 1, &latency, 1, figures) == 0 && figures[0] == 1 && figures[1] == start
        && figures[2] == longest && figures[3] == 1 && mo_delay(tasks, 3 * MOST, places, 0, start, &delay) == 0 && delay == latency;
}

/* Whether the schedule file, tasks 1 on and one chain of them, gives the chain back. It has no record of a gap. */
static uint64_t comes_back(size_t places)
{
    uint64_t numbered[128] = { 0 }, chain[48] = { 0 }, lengths[4] = { places }, counts[3] = { RUBBISH }, flat[36], n = RUBBISH, length = 0;
    uint8_t file[698];

    for (size_t i = 0; i < places; i++) {
        numbered[4 * i] = chain[i] = i + 1;
        memcpy(numbered + 4 * i + 1, tasks + 3 * i, 3 * sizeof *tasks);
    }
    if (mo_write_file(numbered, 4 * places, places, chain, places, lengths, 1, 1, 0, file, sizeof file, &length) != 0 || length != 18 * places + 4 + 2 * places + 4)
        return 0;
    memset(numbered, RUBBISH % 256, sizeof numbered);
    memset(chain, RUBBISH % 256, sizeof chain);
    memset(flat, RUBBISH % 256, sizeof flat);
    return mo_read_file(file, length, numbered, chain, lengths, counts) == 0 && counts[0] == places && counts[1] == 1 && counts[2] == 0
        && mo_chain_of_schedule(numbered, 128, counts[0], chain, 48, lengths, 4, counts[1], counts[2], 1, flat, &n) == 0 && n == places
        && memcmp(flat, wanted, sizeof wanted) == 0;
}

static uint64_t tried, same, passed_checks, tables, files, fronts;

/* One seed with every number of places. */
static void check_seed(uint64_t seed)
{
    uint64_t twelve[3 * MOST];

    load(seed, MOST);
    memcpy(twelve, tasks, sizeof twelve);
    for (size_t places = 1; places <= MOST; places++) {
        tried++;
        want(seed, places);
        same += as_wanted(load(seed, places));
        fronts += memcmp(tasks, twelve, 3 * places * sizeof *tasks) == 0;
        passed_checks += passes(places);
        tables += has_a_table(places);
        files += comes_back(places);
    }
}

/* Numbers that look random and are the same in every run, by another rule than the loads'. */
static uint64_t random_state = 1;

static uint64_t random_number(void)
{
    uint64_t high;

    random_state = random_state * 6364136223846793005u + 1442695040888963407u;
    high = random_state >> 32;
    random_state = random_state * 6364136223846793005u + 1442695040888963407u;
    return (high << 32) | (random_state >> 32);
}

static void check_seeds(void)
{
    /* States at the ends of 64 bits, of the shift and of its carry. */
    static const uint64_t states[8] = { 0, 1, UINT64_MAX, (1ull << 31) - 1, 1ull << 31, 1ull << 32, 1ull << 62, 1ull << 63 };
    uint64_t all = 1;

    for (uint64_t i = 0; i < 300; i++) {
        check_seed(i);
        check_seed(UINT64_MAX - i);
    }
    for (uint64_t n = 1; n <= 2 * MOST; n++)
        for (size_t i = 0; i < 8; i++)
            check_seed(states[i] - n * STEP);
    for (size_t i = 0; i < 64; i++)
        check_seed(1ull << i);
    for (size_t i = 0; i < 3000; i++)
        check_seed(random_number());
    expect("seeds, twelve numbers of places each", tried, 12 * (600 + 192 + 64 + 3000));
    expect("  as the order says", same, tried);
    expect("  with the twelve places' front", fronts, tried);
    expect("  that pass the checks, the longest period being the hyperperiod", passed_checks, tried);
    expect("  with a table of one anchor, made by one partition", tables, tried);
    expect("  given back by their file", files, tried);
    for (size_t i = 0; i < 97; i++)
        all = all && numbers[i] > 0;
    for (size_t i = 0; i < 6; i++)
        all = all && longest_of[i] > 0;
    expect("  with each of the 97 numbers, and each period as the longest", all, 1);
}

/* The numbers at which a period begins or ends, and at each place the least phases and the greatest of each period: seeds that are gone back to. */
static void check_limits(void)
{
    static const uint64_t limits[11][2] = {
        { 0, 2500 }, { 1, 5000 }, { 10, 5000 }, { 11, 10000 }, { 43, 10000 }, { 44, 20000 }, { 58, 20000 }, { 59, 40000 }, { 81, 40000 }, { 82, 80000 }, { 96, 80000 },
    };
    uint64_t at_limits = 0, periods = 0, phases = 0, at_phases = 0;

    for (size_t place = 1; place <= MOST; place++) {
        for (size_t i = 0; i < 11; i++) {
            uint64_t first = random_number() / 128 * 97 + limits[i][0];

            at_limits++;
            periods += load(seed_of(2 * place - 1, first), place) == 0 && tasks[3 * place - 3] == limits[i][1] && tasks[3 * place - 2] == limits[i][1];
        }
        for (uint64_t period = 2500; period <= 80000; period *= 2) {
            const uint64_t ends[4] = { 0, 1, period - 2, period - 1 };

            for (size_t i = 0; i < 4; i++) {
                uint64_t seed;

                /* One of some second draws with this phase has the period before it. */
                do
                    seed = seed_of(2 * place, random_number() / 131072 * period + ends[i]);
                while (period_of(draw(seed, 2 * place - 1) % 97) != period);
                phases++;
                at_phases += load(seed, place) == 0 && tasks[3 * place - 3] == period && tasks[3 * place - 1] == ends[i];
            }
        }
    }
    expect("numbers at the ends of the periods, at each place", at_limits, 132);
    expect("  with their period", periods, at_limits);
    expect("phases at the ends of their range, of each period at each place", phases, 288);
    expect("  with period and phase", at_phases, phases);
}

int main(void)
{
    check_worked();
    check_refusals();
    check_seeds();
    check_limits();
    return counted();
}
