/*
 * A phase that keeps a bound, through the header, order 9 of document 02: worked examples, refusals and their order, and some thousands of schedules whose answers are held to the greatest latency
 * that the chain's table has with each phase of the task. tests/c/run builds and runs it.
 */
#include "meshorchard.h"

#include "expect.h"

#include <string.h>

/* What the two numbers lent to a call hold before it, and what lies beside them. No phase is as large. */
#define RUBBISH 7777777u

#define CODE(number, place) ((number) + 256u * (place))
#define LIST(...) (const uint64_t[]){ __VA_ARGS__ }
#define TWO_32 4294967296u

/* More tasks and chains than a schedule may have. */
#define TASKS 36u
#define CHAINS 6u
#define ROW 12u

/* A schedule as it is lent to the calls. */
struct schedule {
    uint64_t tasks[4 * TASKS], chains[ROW * CHAINS], places[CHAINS];
    size_t tasks_length, count, chains_length, places_length, chain_count;
    uint64_t gap;
};

/* Numbers that look random and are the same in every run. */
static uint64_t drawn = 1;

static uint64_t draw(uint64_t below)
{
    drawn = drawn * 6364136223846793005u + 1442695040888963407u;
    return (drawn >> 33) % below;
}

/* ---- Asking */

/* The two numbers, with others beside them. */
static struct {
    uint64_t before, phase, between, none, after;
} given;
static uint64_t asked, astray;

/* What is lent for reading must stay as it was, past the lists too, and so must what lies beside the two numbers. */
static uint64_t ask(const struct schedule *s, size_t chain, uint64_t number, uint64_t bound)
{
    static struct schedule lent;
    uint64_t code;

    lent = *s;
    given.before = given.phase = given.between = given.none = given.after = RUBBISH;
    code = mo_smallest_phase(lent.tasks, lent.tasks_length, lent.count, lent.chains, lent.chains_length, lent.places, lent.places_length, lent.chain_count, lent.gap, chain, number, bound,
                             &given.phase, &given.none);
    asked++;
    astray += memcmp(&lent, s, sizeof lent) != 0 || given.before != RUBBISH || given.between != RUBBISH || given.after != RUBBISH;
    return code;
}

static void found(const char *what, const struct schedule *s, size_t chain, uint64_t number, uint64_t bound, uint64_t phase)
{
    expect(what, ask(s, chain, number, bound), 0);
    expect("  phase", given.phase, phase);
    expect("  none", given.none, 0);
}

static void nothing(const char *what, const struct schedule *s, size_t chain, uint64_t number, uint64_t bound)
{
    expect(what, ask(s, chain, number, bound), 0);
    expect("  phase", given.phase, 0);
    expect("  none", given.none, 1);
}

static void refused(const char *what, const struct schedule *s, size_t chain, uint64_t number, uint64_t bound, uint64_t wanted)
{
    expect(what, ask(s, chain, number, bound), wanted);
    expect("  phase", given.phase, 0);
    expect("  none", given.none, 0);
}

/* ---- Schedules */

/* A number that stands past a count: often that of a task, of a chain or of places. */
static uint64_t odd(void)
{
    static const uint64_t some[4] = { 0, 65535, TWO_32, UINT64_MAX };

    return draw(4) ? draw(14) : some[draw(4)];
}

static void add_chain(struct schedule *s, size_t places, const uint64_t *chain)
{
    memcpy(s->chains + ROW * s->chain_count, chain, places * sizeof *chain);
    s->places[s->chain_count++] = places;
}

/* Tasks, number, T, D and F each, and one chain. Odd numbers fill the lists past them. */
static struct schedule one_chain(size_t count, const uint64_t *tasks, size_t places, const uint64_t *chain, uint64_t gap)
{
    static struct schedule s;

    for (size_t i = 0; i < 4 * TASKS; i++)
        s.tasks[i] = odd();
    for (size_t i = 0; i < ROW * CHAINS; i++)
        s.chains[i] = odd();
    for (size_t i = 0; i < CHAINS; i++)
        s.places[i] = odd();
    memcpy(s.tasks, tasks, 4 * count * sizeof *tasks);
    s.tasks_length = 4 * TASKS;
    s.count = count;
    s.chains_length = ROW * CHAINS;
    s.places_length = CHAINS;
    s.chain_count = 0;
    s.gap = gap;
    add_chain(&s, places, chain);
    return s;
}

/* The same in lists that just hold it. */
static struct schedule just_held(const struct schedule *s)
{
    struct schedule held = *s;

    held.tasks_length = 4 * s->count;
    held.places_length = s->chain_count;
    held.chains_length = ROW * (s->chain_count - 1) + s->places[s->chain_count - 1];
    return held;
}

/* ---- Worked examples */

static void check_worked(void)
{
    struct schedule s = one_chain(2, LIST(1, 4, 4, 0, 2, 6, 6, 0), 2, LIST(1, 2), 0);

    nothing("A, task 2, bound 17", &s, 1, 2, 17);
    found("A, task 2, bound 18", &s, 1, 2, 18, 0);
    nothing("A, bound 0", &s, 1, 2, 0);
    found("A, the largest bound", &s, 1, 2, UINT64_MAX, 0);
    found("A, a bound of which 32 bits are too few", &s, 1, 2, TWO_32 + 17, 0);
    found("A, a bound of which 63 bits are too few", &s, 1, 2, ((uint64_t)1 << 63) + 17, 0);
    /* Before and behind task 9 the same task: at phases 5, 6 and 7 the two waits are 2 ticks together, else 12. */
    s = one_chain(2, LIST(3, 10, 3, 7, 9, 20, 5, 0), 3, LIST(3, 9, 3), 0);
    nothing("3 9 3, task 3, bound 32", &s, 1, 3, 32);
    found("3 9 3, task 3, bound 33", &s, 1, 3, 33, 5);
    found("3 9 3, task 3, bound 42", &s, 1, 3, 42, 5);
    found("3 9 3, task 3, bound 43", &s, 1, 3, 43, 0);
    nothing("3 9 3, task 3, bound 0", &s, 1, 3, 0);
    found("3 9 3, task 3, the largest bound", &s, 1, 3, UINT64_MAX, 0);
    nothing("3 9 3, task 9, bound 32", &s, 1, 9, 32);
    found("3 9 3, task 9, bound 33", &s, 1, 9, 33, 0);
    s = one_chain(2, LIST(1, 5, 1, 0, 2, 10, 2, 0), 2, LIST(1, 2), 0);
    add_chain(&s, 2, LIST(2, 1));
    nothing("1 2, task 1, bound 12", &s, 1, 1, 12);
    found("1 2, task 1, bound 13", &s, 1, 1, 13, 4);
    found("1 2, task 1, bound 14", &s, 1, 1, 14, 3);
    found("1 2, task 1, bound 15", &s, 1, 1, 15, 2);
    nothing("2 1, task 1, bound 12", &s, 2, 1, 12);
    found("2 1, task 1, bound 13", &s, 2, 1, 13, 2);
    found("2 1, task 1, bound 15", &s, 2, 1, 15, 2);
    found("2 1, task 1, bound 16", &s, 2, 1, 16, 0);
    s = one_chain(2, LIST(1, 4, 4, 9, 2, 6, 6, 0), 2, LIST(1, 2), 5);
    nothing("gap 5, today's phase 9 of the other task, bound 22", &s, 1, 2, 22);
    found("gap 5, today's phase 9 of the other task, bound 23", &s, 1, 2, 23, 0);
    s = one_chain(1, LIST(1, 10000, 4, 0), 1, LIST(1), 0);
    nothing("one place, period 10,000, bound 10,003", &s, 1, 1, 10003);
    found("one place, period 10,000, bound 10,004", &s, 1, 1, 10004, 0);
}

/* Equal periods: a value waits for the next place as long as the phases say. Every phase is the answer to some bound. */
static void check_equal_periods(void)
{
    struct schedule s = one_chain(2, LIST(1, 5, 5, 0, 2, 5, 5, 4), 2, LIST(1, 2), 0);
    struct schedule limit = one_chain(2, LIST(7, 10000, 1, 1000000, 65535, 10000, 1, 0), 2, LIST(7, 65535), 0);

    nothing("equal periods, bound 14", &s, 1, 1, 14);
    for (uint64_t phase = 0; phase < 5; phase++)
        found("equal periods, bounds 19 down to 15", &s, 1, 1, 19 - phase, phase);
    found("equal periods, bound 20", &s, 1, 1, 20, 0);
    s.tasks[7] = 999999;
    found("phase 999,999 of the other task", &s, 1, 1, 15, 4);
    /* The last phase of the longest period that is searched. */
    nothing("period 10,000, bound 10,001", &limit, 1, 7, 10001);
    found("period 10,000, bound 10,002", &limit, 1, 7, 10002, 9999);
    found("period 10,000, bound 10,003", &limit, 1, 7, 10003, 9998);
    found("period 10,000, bound 20,000", &limit, 1, 7, 20000, 1);
    found("period 10,000, bound 20,001", &limit, 1, 7, 20001, 0);
    found("period 10,000, the other task", &limit, 1, 65535, 10002, 1);
    limit.gap = 1000;
    found("period 10,000, gap 1,000", &limit, 1, 7, 11002, 8999);
    /* A task that is alike and has another number stays where it is. */
    s = one_chain(3, LIST(1, 5, 5, 0, 2, 5, 5, 0, 3, 5, 5, 3), 3, LIST(1, 2, 3), 0);
    found("two tasks that are alike, the first", &s, 1, 1, 23, 0);
    nothing("two tasks that are alike, the first, bound 22", &s, 1, 1, 22);
    found("two tasks that are alike, the second", &s, 1, 2, 23, 0);
    found("two tasks that are alike, the third", &s, 1, 3, 20, 0);
    s.chains[1] = 1;
    found("one task at both places", &s, 1, 1, 20, 3);
}

/* Four chains with one task in each. */
static void check_chains(void)
{
    struct schedule s = one_chain(3, LIST(1, 4, 1, 0, 2, 6, 2, 0, 3, 6, 3, 1), 2, LIST(1, 2), 0);

    add_chain(&s, 1, LIST(2));
    add_chain(&s, 2, LIST(2, 3));
    add_chain(&s, 2, LIST(2, 2));
    nothing("chain 1, bound 10", &s, 1, 2, 10);
    found("chain 1, bound 11", &s, 1, 2, 11, 1);
    found("chain 1, bound 12", &s, 1, 2, 12, 0);
    nothing("chain 2, bound 7", &s, 2, 2, 7);
    found("chain 2, bound 8", &s, 2, 2, 8, 0);
    nothing("chain 3, bound 10", &s, 3, 2, 10);
    for (uint64_t phase = 0; phase < 6; phase++)
        found("chain 3, bounds 16 down to 11", &s, 3, 2, 16 - phase, phase);
    nothing("chain 4, bound 13", &s, 4, 2, 13);
    found("chain 4, bound 14", &s, 4, 2, 14, 0);
    refused("chain 4, task 1", &s, 4, 1, 14, MO_TASK_NOT_IN_CHAIN);
    refused("chain 5", &s, 5, 2, 14, MO_CHAIN_UNKNOWN);
}

/* Twelve places. */
static void check_twelve(void)
{
    static const uint64_t all[12] = { 9, 9, 9, 9, 9, 9, 9, 9, 9, 9, 9, 9 };
    struct schedule s = one_chain(2, LIST(9, 10000, 4000000, 1000000, 20, 5, 5, 0), 12, all, 1000);

    /* From each write a gap and 9,000 ticks to the next read, whatever the phase is. */
    nothing("twelve places of one task, bound 48,119,999", &s, 1, 9, 48119999);
    found("twelve places of one task, bound 48,120,000", &s, 1, 9, 48120000, 0);
    /* Periods and durations of 5: 65 where no value waits. */
    s = one_chain(2, LIST(20, 5, 5, 0, 30, 5, 5, 3), 12, LIST(20, 20, 20, 20, 20, 20, 30, 20, 20, 20, 20, 20), 0);
    nothing("eleven places of twelve, bound 64", &s, 1, 20, 64);
    found("eleven places of twelve, bound 65", &s, 1, 20, 65, 3);
    found("eleven places of twelve, bound 69", &s, 1, 20, 69, 3);
    found("eleven places of twelve, bound 70", &s, 1, 20, 70, 0);
    found("one place of twelve, bound 65", &s, 1, 30, 65, 0);
    s.chains[11] = 30;
    found("ten places of twelve, bound 65", &s, 1, 20, 65, 3);
    nothing("ten places of twelve, bound 64", &s, 1, 20, 64);
}

/* ---- Refusals */

/* Chains 1 3 4 and 2 2; task 9 fills no place. */
static struct schedule sound(void)
{
    struct schedule s = one_chain(5, LIST(1, 5, 5, 0, 2, 5, 5, 0, 3, 7, 1, 0, 4, 11, 1, 0, 9, 6, 6, 0), 3, LIST(1, 3, 4), 3);

    add_chain(&s, 2, LIST(2, 2));
    return s;
}

/* The same with other periods at the places of chain 1. */
static struct schedule with_periods(uint64_t one, uint64_t two, uint64_t three)
{
    struct schedule s = sound();

    s.tasks[1] = one;
    s.tasks[9] = two;
    s.tasks[13] = three;
    return s;
}

static void check_numbers(void)
{
    static const uint64_t absent[12] = { 0, 2, 5, 6, 9, 10, 65535, 65536, 65536 + 1, TWO_32 + 1, ((uint64_t)1 << 63) + 1, UINT64_MAX };
    static const size_t chains[9] = { 0, 3, 4, 5, 256 + 1, 65536 + 1, (size_t)TWO_32 + 1, ((size_t)1 << 63) + 1, SIZE_MAX };
    struct schedule s = sound(), longer = with_periods(10001, 7, 11);

    expect("chain 1 3 4, task 1", ask(&s, 1, 1, 1000), 0);
    expect("chain 2 2, task 2", ask(&s, 2, 2, 1000), 0);
    for (size_t i = 0; i < 12; i++) {
        refused("a number that is not in the chain", &s, 1, absent[i], 1000, MO_TASK_NOT_IN_CHAIN);
        s.chains[3] = s.tasks[20] = absent[i];
        refused("a number that is not in the chain, but past its places and past the tasks", &s, 1, absent[i], 0, MO_TASK_NOT_IN_CHAIN);
    }
    refused("a task of the other chain", &s, 2, 1, 1000, MO_TASK_NOT_IN_CHAIN);
    for (size_t i = 0; i < 9; i++) {
        refused("no such chain", &s, chains[i], 1, 1000, MO_CHAIN_UNKNOWN);
        refused("no such chain, before a number of no task", &s, chains[i], 0, 1000, MO_CHAIN_UNKNOWN);
        refused("no such chain, before a period that is too long", &longer, chains[i], 1, 1000, MO_CHAIN_UNKNOWN);
    }
}

static void check_periods(void)
{
    struct schedule s = with_periods(10000, 7, 11);

    found("period 10,000", &s, 1, 1, UINT64_MAX, 0);
    s = with_periods(10001, 7, 11);
    refused("period 10,001", &s, 1, 1, UINT64_MAX, MO_PERIOD_TOO_LONG);
    found("period 10,001 of another task", &s, 1, 3, UINT64_MAX, 0);
    s = with_periods(1000000, 50, 1);
    refused("period 1,000,000", &s, 1, 1, 0, MO_PERIOD_TOO_LONG);
    nothing("period 1,000,000 of another task", &s, 1, 3, 0);
    refused("a task that is not in the chain, before its period", &s, 2, 1, 0, MO_TASK_NOT_IN_CHAIN);
    s.chains[ROW] = s.chains[ROW + 1] = 1;
    refused("period 1,000,000, both places of the other chain", &s, 2, 1, 0, MO_PERIOD_TOO_LONG);
    /* Hyperperiods of 60,000,000 and of 60,000,001. */
    s = with_periods(768, 78125, 1);
    found("a hyperperiod at the limit", &s, 1, 1, UINT64_MAX, 0);
    refused("a hyperperiod at the limit, a longer period", &s, 1, 3, UINT64_MAX, MO_PERIOD_TOO_LONG);
    s = with_periods(151, 397351, 1);
    refused("a hyperperiod of 60,000,001", &s, 1, 1, UINT64_MAX, MO_HYPERPERIOD_TOO_LONG);
    refused("a hyperperiod of 60,000,001, before a period that is too long", &s, 1, 3, UINT64_MAX, MO_HYPERPERIOD_TOO_LONG);
    refused("a hyperperiod of 60,000,001, before a task that is not in the chain", &s, 1, 2, UINT64_MAX, MO_HYPERPERIOD_TOO_LONG);
    refused("a hyperperiod of 60,000,001, before a number of no task", &s, 1, 0, UINT64_MAX, MO_HYPERPERIOD_TOO_LONG);
    found("a hyperperiod of 60,000,001, of the other chain", &s, 2, 2, UINT64_MAX, 0);
    /* The phase that would be replaced is judged too. */
    s = sound();
    s.tasks[3] = 1000000;
    expect("today's phase at its limit", ask(&s, 1, 1, UINT64_MAX), 0);
    s.tasks[3] = 1000001;
    refused("today's phase above its limit", &s, 1, 1, UINT64_MAX, CODE(MO_TASK_OUTSIDE_LIMITS, 1));
    refused("today's phase above its limit, the other chain", &s, 2, 2, UINT64_MAX, CODE(MO_TASK_OUTSIDE_LIMITS, 1));
}

/* The faults of a call, in the order in which they are told, and how many kinds there are of each. */
enum { COUNTS, TASK, GAP, UNKNOWN, CHAIN, HYPERPERIOD, ABSENT, PERIOD, FAULTS };
static const size_t kinds[FAULTS] = { 20, 14, 5, 8, 6, 2, 8, 2 };

/* Gives a count or a length that the lists, which hold the schedule, do not have. */
static void miscount(struct schedule *s, size_t kind)
{
    switch (kind) {
    case 0: s->count = 0; break;
    case 1: s->count = 33; break;
    case 2: s->count += (size_t)TWO_32; break;
    case 3: s->count = SIZE_MAX; break;
    case 4: s->chain_count = 0; break;
    case 5: s->chain_count = 5; break;
    case 6: s->chain_count += (size_t)TWO_32; break;
    case 7: s->chain_count = SIZE_MAX; break;
    case 8: s->places[0] = 0; break;
    case 9: s->places[0] = 13; break;
    case 10: s->places[1] = 0; break;
    case 11: s->places[1] = 13; break;
    case 12: s->places[1] += TWO_32; break;
    case 13: s->tasks_length = 0; break;
    case 14: s->tasks_length = 4 * s->count - 4; break;
    case 15: s->tasks_length = 4 * s->count - 1; break;
    case 16: s->tasks_length = 4 * s->count + 1; break;
    case 17: s->chains_length = ROW + s->places[1] - 1; break;
    case 18: s->chains_length = 2; break;
    default: s->places_length = 1; break;
    }
}

/* Changes a value of the first task, of the second or of the last, which fills no place. Answers the position. */
static uint64_t mistask(struct schedule *s, size_t kind)
{
    static const struct {
        size_t position, value;
        uint64_t becomes;
    } changes[14] = {
        { 1, 0, 0 }, { 2, 0, 1 }, { 5, 0, 4 }, { 5, 0, 65536 }, { 5, 0, TWO_32 + 9 }, { 5, 1, 0 }, { 1, 1, 1000001 },
        { 1, 1, TWO_32 + 5 }, { 5, 2, 0 }, { 2, 2, 4000001 }, { 1, 3, 1000001 }, { 5, 3, 1000001 }, { 2, 3, UINT64_MAX }, { 1, 3, TWO_32 },
    };

    s->tasks[4 * (changes[kind].position - 1) + changes[kind].value] = changes[kind].becomes;
    return changes[kind].position;
}

/* Changes a number of the second chain, or of both. Answers the place in the first that has one. */
static uint64_t misname(struct schedule *s, size_t kind)
{
    static const uint64_t strange[4] = { 0, 10, 65536 + 3, TWO_32 + 3 };

    if (kind < 4) {
        s->chains[2] = strange[kind];
        s->chains[ROW] = 0;
        return 3;
    }
    s->chains[ROW + 1] = strange[kind - 4];
    return 2;
}

/* Every selection of these faults in one call, with each kind of each: the first is told, whatever follows. */
static void check_order(void)
{
    static const uint64_t gaps[5] = { 1001, 1002, 65536, TWO_32, UINT64_MAX };
    static const size_t numbers[6] = { 0, 3, 5, (size_t)TWO_32 + 1, ((size_t)1 << 63) + 1, SIZE_MAX };
    static const uint64_t absent[8] = { 2, 9, 0, 5, 65535, 65536 + 1, TWO_32 + 1, UINT64_MAX };
    static const uint64_t told[FAULTS] = { 8, 5, 5, 6, 16, 7, 19, 20 };
    uint64_t tried = 0, right = 0, accepted = 0, met[FAULTS] = { 0 };

    for (unsigned faults = 0; faults < 1u << FAULTS; faults++)
        for (size_t turn = 0; turn < 40; turn++) {
            struct schedule s = sound();
            size_t chain = 1, first = 0, kind[FAULTS];
            uint64_t number = 1, place[FAULTS] = { 0 }, code;

            for (size_t i = 0; i < FAULTS; i++)
                kind[i] = draw(kinds[i]);
            while (first < FAULTS && !(faults >> first & 1))
                first++;
            if (first < FAULTS)
                kind[first] = turn % kinds[first];
            if (faults >> PERIOD & 1)
                s.tasks[1] = s.tasks[5] = kind[PERIOD] ? 770000 : 10001;
            if (faults >> HYPERPERIOD & 1) {
                s.tasks[9] = kind[HYPERPERIOD] ? 999983 : 9973;
                s.tasks[13] = kind[HYPERPERIOD] ? 999979 : 9967;
            }
            if (faults >> ABSENT & 1)
                number = absent[kind[ABSENT]];
            if (faults >> CHAIN & 1)
                chain = numbers[kind[CHAIN]];
            if (faults >> UNKNOWN & 1)
                place[UNKNOWN] = misname(&s, kind[UNKNOWN]);
            if (faults >> GAP & 1)
                s.gap = gaps[kind[GAP]];
            if (faults >> TASK & 1)
                place[TASK] = mistask(&s, kind[TASK]);
            if (faults >> COUNTS & 1)
                miscount(&s, kind[COUNTS]);
            code = ask(&s, chain, number, draw(2) ? draw(100) : UINT64_MAX - draw(2));
            tried++;
            if (first == FAULTS) {
                accepted += code == 0;
                right += code == 0;
            } else {
                met[first]++;
                right += code == CODE(told[first], place[first]) && given.phase == 0 && given.none == 0;
            }
        }
    expect("selections of eight faults, forty of each", tried, 40 * 256);
    expect("  with the first of them told at its place, and 0 in phase and none", right, tried);
    expect("  without a fault", accepted, 40);
    for (size_t i = 0; i < FAULTS; i++)
        expect("  with each fault as the first", met[i], 40u << (FAULTS - 1 - i));
}

/* Lists that just hold the schedule, and each one too short by one entry: what lies in memory past it does not count. */
static void check_lists(void)
{
    struct schedule s = sound(), held = just_held(&s), shorter;
    uint64_t bound = 50;

    expect("a schedule in long lists", ask(&s, 1, 1, bound), 0);
    expect("  in lists that just hold it", ask(&held, 1, 1, bound), 0);
    shorter = held;
    shorter.tasks_length -= 4;
    refused("a task too few", &shorter, 1, 1, bound, MO_PLACES_OUTSIDE_LIMITS);
    shorter.tasks_length += 3;
    refused("no whole tasks", &shorter, 1, 1, bound, MO_PLACES_OUTSIDE_LIMITS);
    shorter.tasks_length += 2;
    refused("a number more than whole tasks", &shorter, 1, 1, bound, MO_PLACES_OUTSIDE_LIMITS);
    shorter = held;
    shorter.chains_length--;
    refused("a place of the second chain too few, the first chain asked for", &shorter, 1, 1, bound, MO_PLACES_OUTSIDE_LIMITS);
    shorter.chains_length = 0;
    refused("an empty list of chains", &shorter, 1, 1, bound, MO_PLACES_OUTSIDE_LIMITS);
    shorter = held;
    shorter.places_length--;
    refused("a number of places too few", &shorter, 1, 1, bound, MO_PLACES_OUTSIDE_LIMITS);
    shorter = held;
    shorter.tasks_length = shorter.chains_length = shorter.places_length = 0;
    refused("empty lists", &shorter, 1, 1, bound, MO_PLACES_OUTSIDE_LIMITS);
    shorter = held;
    shorter.chain_count = 1;
    shorter.places_length = 1;
    shorter.chains_length = 3;
    expect("one chain, in lists that just hold it", ask(&shorter, 1, 1, bound), 0);
    shorter.chains_length = 2;
    refused("one chain, a place too few", &shorter, 1, 1, bound, MO_PLACES_OUTSIDE_LIMITS);
}

/* ---- Every phase by the other calls */

#define MOST_PERIOD 10000u
#define SLOTS 8192u

static uint64_t made, broken;

/* The greatest latency of a chain by its table, cut at its longest period, with this phase written into the entry of the task at that position. */
static uint64_t latency_with(const struct schedule *s, size_t chain, size_t position, uint64_t phase)
{
    static struct schedule moved;
    static uint64_t starts[SLOTS], latencies[SLOTS];
    uint64_t flat[36], places, figures[4], latency = 0;
    size_t cut = 1;

    moved = *s;
    moved.tasks[4 * position + 3] = phase;
    made++;
    if (mo_chain_of_schedule(moved.tasks, moved.tasks_length, moved.count, moved.chains, moved.chains_length, moved.places, moved.places_length, moved.chain_count, moved.gap,
                             chain, flat, &places) != 0) {
        broken++;
        return 0;
    }
    for (size_t i = 1; i < places; i++)
        if (flat[3 * i] > flat[3 * (cut - 1)])
            cut = i + 1;
    broken += mo_make_table(flat, 36, places, moved.gap, cut, starts, SLOTS, latencies, SLOTS, figures) != 0
        || mo_greatest(starts, SLOTS, latencies, SLOTS, figures[0], figures[2], &latency) != 0;
    return latency;
}

static uint64_t schedules, answers, same, remainders, as_remainder, at_0, later, last, none, several, others;
/* The greatest latency with each phase of a task. */
static uint64_t latency_at[MOST_PERIOD];

/* Whether the answer to a bound is the first phase with a latency of at most the bound. */
static void hold(const struct schedule *s, size_t chain, uint64_t number, uint64_t period, uint64_t bound)
{
    uint64_t phase = 0, code = ask(s, chain, number, bound);

    while (phase < period && latency_at[phase] > bound)
        phase++;
    answers++;
    same += code == 0 && (phase < period ? given.phase == phase && given.none == 0 : given.phase == 0 && given.none == 1);
    at_0 += phase == 0;
    later += 0 < phase && phase < period;
    last += 0 < phase && phase == period - 1;
    none += phase == period;
}

/* One task of one chain: the bounds at which the answer changes, in lists with other numbers past the schedule, with other phases of today, and phases from the period on. */
static void check_task(const struct schedule *s, size_t chain, size_t position)
{
    struct schedule held = just_held(s), today = *s;
    uint64_t number = s->tasks[4 * position], period = s->tasks[4 * position + 1], least = UINT64_MAX, most = 0;

    for (uint64_t phase = 0; phase < period; phase++) {
        uint64_t latency = latency_at[phase] = latency_with(s, chain, position, phase);

        least = latency < least ? latency : least;
        most = latency > most ? latency : most;
    }
    schedules++;
    several += least < most;
    hold(s, chain, number, period, 0);
    hold(s, chain, number, period, UINT64_MAX);
    hold(s, chain, number, period, TWO_32 + least - 1);
    for (uint64_t step = 0; step < 3; step++) {
        hold(s, chain, number, period, least + step - 1);
        hold(&held, chain, number, period, most + step - 1);
    }
    for (size_t i = 0; i < (period < 12 ? period : 12); i++) {
        uint64_t latency = latency_at[period < 12 ? i : draw(period)];

        today.tasks[4 * position + 3] = draw(3) ? draw(1000001) : draw(2) * 1000000;
        for (uint64_t step = 0; step < 3; step++)
            hold(&today, chain, number, period, latency + step - 1);
    }
    for (size_t i = 0; i < 3; i++) {
        uint64_t phase = i == 0 ? period + draw(period) : i == 1 ? 1000000 - draw(period) : period + draw(1000001 - period);

        remainders++;
        as_remainder += latency_with(s, chain, position, phase) == latency_at[phase % period];
    }
}

static uint64_t gcd(uint64_t a, uint64_t b)
{
    return b ? gcd(b, a % b) : a;
}

/* The position of the task with a number. */
static size_t position_of(const struct schedule *s, uint64_t number)
{
    size_t i = 0;

    while (s->tasks[4 * i] != number)
        i++;
    return i;
}

/* Checks each task of a chain whose phases have at most so many partitions to walk; the others, whose period is too long, are refused. */
static void check_chain(const struct schedule *s, size_t chain, uint64_t work)
{
    const uint64_t *numbers = s->chains + ROW * (chain - 1);
    uint64_t h = 1, longest = 0;

    for (size_t i = 0; i < s->places[chain - 1]; i++) {
        uint64_t period = s->tasks[4 * position_of(s, numbers[i]) + 1];

        h = h / gcd(h, period) * period;
        longest = period > longest ? period : longest;
    }
    if (h > 60000000 || h / longest > SLOTS)
        return;
    for (size_t i = 0; i < s->places[chain - 1]; i++) {
        size_t position = position_of(s, numbers[i]), before = 0;
        uint64_t period = s->tasks[4 * position + 1];

        while (numbers[before] != numbers[i])
            before++;
        if (before < i)
            continue;
        if (period > MOST_PERIOD) {
            others++;
            same += ask(s, chain, numbers[i], draw(100)) == MO_PERIOD_TOO_LONG && given.phase == 0 && given.none == 0;
            answers++;
        } else if (period * (h / longest) * s->places[chain - 1] <= work) {
            check_task(s, chain, position);
        }
    }
}

/* What the tasks of a schedule are drawn from. */
struct kind {
    const char *name;
    uint64_t periods[16];
    size_t period_count, most_tasks;
    uint64_t most_duration, most_phase, work;
    size_t count;
};

static uint64_t any_value(uint64_t least, uint64_t period, uint64_t most)
{
    switch (draw(4)) {
    case 0: return least + draw(period);
    case 1: return least + draw(most - least + 1);
    case 2: return draw(2) ? least : most;
    default: return least + draw(most - least + 1 < 20 ? most - least + 1 : 20);
    }
}

/* One to four chains of a few tasks, some of them alike. */
static struct schedule any_schedule(const struct kind *kind)
{
    static const uint64_t gaps[8] = { 0, 0, 0, 1, 1, 2, 999, 1000 };
    uint64_t tasks[4 * 8], chain[ROW], number = draw(3) ? 0 : 65500;
    size_t count = 1 + draw(kind->most_tasks), chains = 1 + draw(4);
    struct schedule s;

    for (size_t i = 0; i < count; i++) {
        uint64_t *task = tasks + 4 * i, period = kind->periods[draw(kind->period_count)];

        number += 1 + draw(3);
        task[0] = number;
        task[1] = period;
        task[2] = any_value(1, period, kind->most_duration);
        task[3] = any_value(0, period, kind->most_phase);
        if (i > 0 && draw(5) == 0)
            memcpy(task + 1, task - 3, 3 * sizeof *task);
    }
    if (draw(6) == 0)
        tasks[4 * (count - 1)] = 65535;
    for (size_t c = 0; c < chains; c++) {
        size_t places = draw(3) ? 1 + draw(4) : 1 + draw(ROW);

        for (size_t i = 0; i < places; i++)
            chain[i] = tasks[4 * draw(count)];
        if (c == 0)
            s = one_chain(count, tasks, places, chain, draw(3) ? gaps[draw(8)] : draw(20));
        else
            add_chain(&s, places, chain);
    }
    return s;
}

static void check_kind(const struct kind *kind)
{
    uint64_t before = schedules, were_several = several;

    for (size_t i = 0; i < kind->count; i++) {
        struct schedule s = any_schedule(kind);

        check_chain(&s, 1 + draw(s.chain_count), kind->work);
    }
    expect(kind->name, schedules - before > kind->count / 4, 1);
    expect("  many whose latency hangs on the phase", several - were_several > kind->count / 20, 1);
}

static void check_kinds(void)
{
    static const struct kind all[] = {
        { "periods up to 12", { 1, 2, 3, 4, 5, 6, 7, 8, 9, 10, 11, 12 }, 12, 4, 15, 20, 400000, 900 },
        { "periods that divide one another", { 1, 2, 4, 8, 16, 32, 64 }, 7, 5, 100, 100, 100000, 700 },
        { "periods without a common divisor", { 2, 3, 5, 7, 11, 13, 17 }, 7, 3, 40, 40, 100000, 700 },
        { "periods with a common divisor", { 4, 6, 9, 10, 12, 14, 15, 18, 20, 21, 24, 30, 36, 42, 45, 60 }, 16, 5, 130, 200, 100000, 900 },
        { "periods with two common divisors", { 6, 10, 15, 30, 42, 70, 105, 35 }, 8, 5, 300, 300, 100000, 500 },
        { "long durations and phases", { 1, 3, 10, 12, 50, 60, 75, 100, 125, 150, 180, 200, 240, 250, 300, 400 }, 16, 6, 4000000, 1000000, 150000, 500 },
        { "periods far apart", { 1, 2, 3, 7, 10, 60, 96, 100, 250, 999983, 500000, 960000, 1000000, 300000, 7500, 700000 }, 16, 4, 4000000, 1000000, 300000, 500 },
        { "hyperperiods up to 60,000,000", { 1000000, 937500, 937500, 468750, 625000, 768, 384, 256, 240, 60, 125, 640, 400, 100, 300, 75 }, 16, 4, 4000000, 1000000, 600000, 500 },
        { "hyperperiods up to 60,000,000, periods up to 10,000", { 937500, 1000000, 750000, 10000, 9600, 9375, 7500, 6400, 6250, 5000, 3200, 3125 }, 12, 4, 4000000, 1000000, 1500000, 60 },
    };

    for (size_t i = 0; i < sizeof all / sizeof *all; i++)
        check_kind(&all[i]);
}

static const uint64_t short_periods[6] = { 1, 8, 50, 64, 125, 400 };

/* Twelve places, or fewer, of three tasks with the longest durations and phases; one to three of the places have the task with a short period. */
static struct schedule long_places(void)
{
    static const uint64_t longer[4] = { 1000000, 1000000, 500000, 250000 };
    uint64_t tasks[12], chain[ROW];

    for (size_t i = 0; i < 3; i++) {
        uint64_t period = i ? longer[draw(4)] : short_periods[draw(6)];

        tasks[4 * i] = i + 1;
        tasks[4 * i + 1] = period;
        tasks[4 * i + 2] = 4000000 - (draw(2) ? draw(period) : 0);
        tasks[4 * i + 3] = 1000000 - (draw(2) ? draw(1000) : 0);
    }
    for (size_t i = 0; i < ROW; i++)
        chain[i] = 2 + (draw(6) == 0);
    chain[draw(ROW)] = 1;
    if (draw(2))
        chain[draw(2) * (ROW - 1)] = 1;
    return one_chain(3, tasks, draw(4) ? ROW : 1 + draw(ROW), chain, draw(2) ? 1000 : 1000 - draw(1001));
}

/* Twelve places of twelve tasks, one of them with a short period. The longest period is the last one's, and most of the places before it read a tick before a value becomes readable, so that the
 * job from which the last place is warm reads as late as it can, at any of the fifteen partitions. After the short period a value is readable in time with some of its phases. */
static struct schedule late_places(void)
{
    uint64_t tasks[4 * ROW], chain[ROW], gap = draw(2) ? 1000 : draw(1001), tick = 1000000 - draw(1000), shorter = short_periods[draw(6)];
    size_t moves = draw(ROW - 1);

    for (size_t i = 0; i < ROW; i++) {
        uint64_t period = i == moves ? shorter : i + 1 < ROW ? 937500 : 1000000;

        if (i > 0)
            tick += 4000000 + gap + (i == moves + 1 ? draw(shorter) : draw(4) ? UINT64_MAX : 0);
        chain[i] = tasks[4 * i] = i + 1;
        tasks[4 * i + 1] = period;
        tasks[4 * i + 2] = 4000000;
        tasks[4 * i + 3] = i == 0 ? tick : i + 1 < ROW ? tick % period : draw(period);
    }
    return one_chain(ROW, tasks, ROW, chain, gap);
}

static void check_late(void)
{
    uint64_t before = several;

    for (size_t i = 0; i < 300; i++) {
        struct schedule s = long_places();

        check_chain(&s, 1, 100000);
        s = late_places();
        check_chain(&s, 1, 100000);
    }
    expect("long places and late ones, many whose latency hangs on the phase", several - before > 100, 1);
}

static void check_phases(void)
{
    check_kinds();
    check_late();
    expect("tasks of which every phase was tried, thousands", schedules > 5000, 1);
    expect("  tables that were not made", broken, 0);
    expect("  answers that are the first phase whose table keeps the bound", same, answers);
    expect("  phases from the period on, as their remainder", as_remainder, remainders);
    expect("  many with another latency at another phase", several > 2000, 1);
    expect("  many answers of phase 0", at_0 > 10000, 1);
    expect("  many of a later phase", later > 5000, 1);
    expect("  many of the last one", last > 200, 1);
    expect("  many of none", none > 10000, 1);
    expect("  many refusals of a period that is too long", others > 100, 1);
}

/* ---- Two places, whose greatest latency is known without a walk */

/* T, D and F of each. A value waits up to a period of the second less the greatest common divisor of the two, and longer by what the phases leave to the next read, by that divisor. */
static uint64_t latency_of_two(const uint64_t *first, const uint64_t *second, uint64_t gap)
{
    uint64_t divisor = gcd(first[0], second[0]);

    return first[0] + first[1] + gap + second[0] - divisor + (second[2] % divisor + divisor - (first[2] + first[1] + gap) % divisor) % divisor + second[1];
}

static uint64_t pairs, partitions, hyperperiod, told, as_told;

/* Tasks 5 and 8 in this order; one of them moves. The phases below the divisor of the two periods come again after it. */
static void check_pair(const struct schedule *s, size_t moves, uint64_t divisor)
{
    uint64_t both[6], least;

    memcpy(both, s->tasks + 1, 3 * sizeof *both);
    memcpy(both + 3, s->tasks + 5, 3 * sizeof *both);
    least = both[0] + both[1] + s->gap + both[3] - divisor + both[4];
    for (size_t i = 0; i < 12; i++) {
        const uint64_t bounds[4] = { least - 1, least, least + draw(divisor), least + divisor - 1 };
        uint64_t bound = i < 4 ? bounds[i] : bounds[2], phase, code = ask(s, 1, moves ? 8 : 5, bound);

        for (phase = 0; phase < divisor; phase++) {
            both[moves ? 5 : 2] = phase;
            if (latency_of_two(both, both + 3, s->gap) <= bound)
                break;
        }
        told++;
        as_told += code == 0 && (phase < divisor ? given.phase == phase && given.none == 0 : given.phase == 0 && given.none == 1);
    }
}

static void check_pairs(void)
{
    while (pairs < 1000) {
        uint64_t part = 1 + draw(draw(2) ? 4 : draw(2) ? 100 : 5000), tasks[8] = { 5, 0, 0, 0, 8, 0, 0, 0 }, divisor, h, longer;
        size_t moves = draw(2);
        struct schedule s;

        for (size_t i = 0; i < 2; i++) {
            uint64_t most = i == moves || draw(2) ? 10000 : 1000000, period = part * (1 + draw(most / part));

            tasks[4 * i + 1] = period;
            tasks[4 * i + 2] = any_value(1, period, 4000000);
            tasks[4 * i + 3] = any_value(0, period, 1000000);
        }
        divisor = gcd(tasks[1], tasks[5]);
        h = tasks[1] / divisor * tasks[5];
        longer = tasks[1] > tasks[5] ? tasks[1] : tasks[5];
        if (h > 60000000)
            continue;
        pairs++;
        hyperperiod = h > hyperperiod ? h : hyperperiod;
        partitions = h / longer > partitions ? h / longer : partitions;
        s = one_chain(2, tasks, 2, LIST(5, 8), draw(2) ? draw(1001) : draw(2));
        check_pair(&s, moves, divisor);
    }
    expect("pairs of periods", pairs, 1000);
    expect("  answers that are as told without a walk", as_told, told);
    expect("  some with thousands of partitions", partitions > 4000, 1);
    expect("  some with a hyperperiod near the limit", hyperperiod > 59000000, 1);
}

int main(void)
{
    check_worked();
    check_equal_periods();
    check_chains();
    check_twelve();
    check_numbers();
    check_periods();
    check_order();
    check_lists();
    check_phases();
    check_pairs();
    expect("calls in all, tens of thousands", asked > 50000, 1);
    expect("  that wrote to what they may only read, or beside the two numbers", astray, 0);
    return counted();
}
