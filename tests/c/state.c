/*
 * The instrument's state through the header, order 10 of document 02: the bytes of the structs, the way from a file to a schedule that runs, worked examples, refusals and their order, each word of a
 * proposal changed by itself, states of any bytes, latencies held to other calls, and lists of asks and commits beside a state that is kept by hand. tests/c/run builds and runs it.
 */
#include "meshorchard.h"

#include "expect.h"

#include <string.h>

/* What the lists lent to a call hold before it. */
#define RUBBISH 77u

#define CODE(number, place) ((number) + 256u * (place))
#define BOUNDS(...) (const uint64_t[4]){ __VA_ARGS__ }
#define LIST(...) (const uint64_t[]){ __VA_ARGS__ }
#define TWO_32 4294967296u
#define TWO_63 ((uint64_t)1 << 63)

/* ---- The bytes */

#define SIZE(type, bytes) _Static_assert(sizeof(type) == (bytes), "the size of " #type)
#define AT(type, field, bytes) _Static_assert(offsetof(type, field) == (bytes), "the offset of " #field " in " #type)

SIZE(size_t, 8);
SIZE(mo_task, 24);
AT(mo_task, period, 0);
AT(mo_task, duration, 8);
AT(mo_task, phase, 16);
SIZE(mo_numbered_task, 32);
AT(mo_numbered_task, number, 0);
AT(mo_numbered_task, task, 8);
SIZE(mo_chain, 104);
AT(mo_chain, tasks, 0);
AT(mo_chain, places, 96);
SIZE(mo_schedule, 1464);
AT(mo_schedule, tasks, 0);
AT(mo_schedule, chains, 1024);
AT(mo_schedule, count, 1440);
AT(mo_schedule, chain_count, 1448);
AT(mo_schedule, gap, 1456);
SIZE(mo_bounded, 1496);
AT(mo_bounded, schedule, 0);
AT(mo_bounded, bounds, 1464);
SIZE(mo_side, 1504);
AT(mo_side, proposal, 0);
AT(mo_side, stands, 1496);
SIZE(mo_state, 3000);
AT(mo_state, running, 0);
AT(mo_state, firmware, 1496);
SIZE(mo_refusal, 16);
AT(mo_refusal, number, 0);
AT(mo_refusal, place, 8);
SIZE(mo_made_state, 3016);
AT(mo_made_state, state, 0);
AT(mo_made_state, refusal, 3000);
SIZE(mo_asked, 3048);
AT(mo_asked, state, 0);
AT(mo_asked, refusal, 3000);
AT(mo_asked, latencies, 3016);
SIZE(mo_committed, 3016);
AT(mo_committed, state, 0);
AT(mo_committed, refusal, 3000);

/* The 8-byte words of a schedule with bounds, and of a state. */
#define WORDS (sizeof(mo_bounded) / 8)
#define STATE_WORDS (sizeof(mo_state) / 8)

/* Numbers that look random and are the same in every run. */
static uint64_t drawn = 1;

static uint64_t draw(uint64_t below)
{
    drawn = drawn * 6364136223846793005u + 1442695040888963407u;
    return (drawn >> 33) % below;
}

/* A number that stands past a count: often that of a task, of a chain or of places. */
static uint64_t odd(void)
{
    static const uint64_t some[4] = { 0, 65535, TWO_32, UINT64_MAX };

    return draw(4) ? draw(14) : some[draw(4)];
}

/* ---- Schedules with bounds */

/* Tasks 1 and 2, (4, 4, 0) and (6, 6, 0), chains 1 2 and 2; G has gap 1. The bounds are the greatest latencies. */
static const mo_bounded ab = {
    { { { 1, { 4, 4, 0 } }, { 2, { 6, 6, 0 } } }, { { { 1, 2 }, 2 }, { { 2 }, 1 } }, 2, 2, 0 }, { 18, 12 }
};
static const mo_bounded g = {
    { { { 1, { 4, 4, 0 } }, { 2, { 6, 6, 0 } } }, { { { 1, 2 }, 2 }, { { 2 }, 1 } }, 2, 2, 1 }, { 20, 12 }
};

/* Whether a word is counted, so that it is part of the schedule with bounds. */
static int counts_in(const mo_bounded *b, size_t word)
{
    const mo_schedule *s = &b->schedule;

    if (word < 128)
        return word / 4 < s->count;
    if (word < 180) {
        size_t chain = (word - 128) / 13, place = (word - 128) % 13;

        return chain < s->chain_count && (place == 12 || place < s->chains[chain].places);
    }
    return word < 183 || word - 183 < s->chain_count;
}

/* The same with 0 in each word that is not counted. */
static mo_bounded cleared(const mo_bounded *b)
{
    mo_bounded clear = *b;

    for (size_t i = 0; i < WORDS; i++)
        if (!counts_in(b, i))
            ((uint64_t *)&clear)[i] = 0;
    return clear;
}

/* The same with an odd number in each word that is not counted. */
static mo_bounded strewn(const mo_bounded *b)
{
    mo_bounded filled = *b;

    for (size_t i = 0; i < WORDS; i++)
        if (!counts_in(b, i))
            ((uint64_t *)&filled)[i] = odd();
    return filled;
}

/* Whether a schedule with bounds differs from another in what is counted. */
static int differs(const mo_bounded *b, const mo_bounded *other)
{
    for (size_t i = 0; i < WORDS; i++)
        if (counts_in(b, i) && ((const uint64_t *)b)[i] != ((const uint64_t *)other)[i])
            return 1;
    return 0;
}

static mo_bounded with_bounds(const mo_bounded *b, const uint64_t bounds[4])
{
    mo_bounded bounded = *b;

    memcpy(bounded.bounds, bounds, sizeof bounded.bounds);
    return bounded;
}

static void add_chain(mo_bounded *b, size_t places, const uint64_t *chain)
{
    mo_chain *route = &b->schedule.chains[b->schedule.chain_count++];

    memcpy(route->tasks, chain, places * sizeof *chain);
    route->places = places;
}

/* Tasks, number, T, D and F each, and one chain; as bounds the largest number. 0 fills what is past them. */
static mo_bounded one_chain(size_t count, const uint64_t *tasks, size_t places, const uint64_t *chain, uint64_t gap)
{
    mo_bounded b;

    memset(&b, 0, sizeof b);
    memcpy(b.schedule.tasks, tasks, 4 * count * sizeof *tasks);
    b.schedule.count = count;
    b.schedule.gap = gap;
    add_chain(&b, places, chain);
    for (size_t i = 0; i < 4; i++)
        b.bounds[i] = UINT64_MAX;
    return b;
}

/* Thirty-two tasks and four chains of twelve places, which name each of them; every word counts. */
static mo_bounded full(void)
{
    uint64_t tasks[128], chain[12];
    mo_bounded b;

    for (size_t i = 0; i < 32; i++) {
        tasks[4 * i] = 65535 - 3 * (31 - i);
        tasks[4 * i + 1] = i % 3 ? 10 + 10 * (i % 2) : 15;
        tasks[4 * i + 2] = 1 + i;
        tasks[4 * i + 3] = 7 * i;
    }
    b = one_chain(32, tasks, 1, tasks, 5);
    b.schedule.chain_count = 0;
    for (size_t c = 0; c < 4; c++) {
        for (size_t i = 0; i < 12; i++)
            chain[i] = tasks[4 * ((8 * c + 5 * i) % 32)];
        add_chain(&b, 12, chain);
    }
    return b;
}

/* ---- The calls */

static uint64_t calls, astray;

/* Leaves other bytes than the last time where the frame of a call is going to be. */
static void soil(void)
{
    static int turn;
    unsigned char below[24576];
    volatile unsigned char *last = below;

    memset(below, turn += 37, sizeof below);
    (void)*last;
}

/* What is handed to a call stays as it was. */
static void handed(const void *what, const void *was, size_t size)
{
    astray += memcmp(what, was, size) != 0;
}

static mo_made_state make(const mo_bounded *b)
{
    mo_bounded named = *b;
    mo_made_state made;

    soil();
    made = mo_make_state(named);
    calls++;
    handed(&named, b, sizeof named);
    return made;
}

static mo_asked ask(const mo_state *s, const mo_bounded *b)
{
    mo_state state = *s;
    mo_bounded named = *b;
    mo_asked asked;

    soil();
    asked = mo_ask(state, named);
    calls++;
    handed(&state, s, sizeof state);
    handed(&named, b, sizeof named);
    return asked;
}

static mo_committed commit(const mo_state *s, const mo_bounded *b)
{
    mo_state state = *s;
    mo_bounded named = *b;
    mo_committed committed;

    soil();
    committed = mo_commit(state, named);
    calls++;
    handed(&state, s, sizeof state);
    handed(&named, b, sizeof named);
    return committed;
}

/* ---- The answers, by hand */

static mo_state state_of(const mo_bounded *running)
{
    mo_state s;

    memset(&s, 0, sizeof s);
    s.running = *running;
    return s;
}

/* A proposal that a call leaves stands with 1: two states that are the same are the same bytes. */
static mo_state with_proposal(const mo_state *s, const mo_bounded *proposal)
{
    mo_state state = *s;

    state.firmware.proposal = *proposal;
    state.firmware.stands = 1;
    return state;
}

/* The answers of the three calls where the refusal is this one; 0 is none. */
static mo_made_state wanted_made(const mo_bounded *b, uint64_t number, size_t place)
{
    mo_bounded clear = cleared(b);
    mo_made_state wanted;

    memset(&wanted, 0, sizeof wanted);
    if (number == 0)
        wanted.state = state_of(&clear);
    wanted.refusal.number = number;
    wanted.refusal.place = place;
    return wanted;
}

static mo_asked wanted_asked(const mo_state *s, const mo_bounded *b, uint64_t number, size_t place, const uint64_t latencies[4])
{
    mo_bounded clear = cleared(b);
    mo_asked wanted;

    memset(&wanted, 0, sizeof wanted);
    wanted.state = number == 0 ? with_proposal(s, &clear) : *s;
    wanted.refusal.number = number;
    wanted.refusal.place = place;
    if (number == 0)
        memcpy(wanted.latencies, latencies, sizeof wanted.latencies);
    return wanted;
}

static mo_committed wanted_committed(const mo_state *s, const mo_bounded *b, uint64_t number)
{
    mo_bounded clear = cleared(b);
    mo_committed wanted;

    memset(&wanted, 0, sizeof wanted);
    wanted.state = number == 0 ? state_of(&clear) : *s;
    wanted.refusal.number = number;
    return wanted;
}

/* Which refusal a commit has, if any. */
static uint64_t number_of_commit(const mo_state *s, const mo_bounded *b)
{
    return s->firmware.stands == 0 ? MO_NO_PROPOSAL : differs(b, &s->firmware.proposal) ? MO_OTHER_PROPOSAL : 0;
}

/* ---- One call, and its whole answer */

static mo_state makes(const char *what, const mo_bounded *b, uint64_t code)
{
    mo_made_state made = make(b), wanted = wanted_made(b, MO_NUMBER(code), MO_PLACE(code));

    expect(what, CODE(made.refusal.number, made.refusal.place), code);
    expect("  the answer, byte by byte", memcmp(&made, &wanted, sizeof made) == 0, 1);
    return made.state;
}

static mo_state asks(const char *what, const mo_state *s, const mo_bounded *b, uint64_t code, const uint64_t latencies[4])
{
    mo_asked asked = ask(s, b), wanted = wanted_asked(s, b, MO_NUMBER(code), MO_PLACE(code), latencies);

    expect(what, CODE(asked.refusal.number, asked.refusal.place), code);
    expect("  the answer, byte by byte", memcmp(&asked, &wanted, sizeof asked) == 0, 1);
    return asked.state;
}

static mo_state commits(const char *what, const mo_state *s, const mo_bounded *b, uint64_t code)
{
    mo_committed committed = commit(s, b), wanted = wanted_committed(s, b, code);

    expect(what, CODE(committed.refusal.number, committed.refusal.place), code);
    expect("  the answer, byte by byte", memcmp(&committed, &wanted, sizeof committed) == 0, 1);
    return committed.state;
}

/* Whether making a state of b, and asking for it in each of four states, is answered so, to the last byte. Where it is not, says which was not. */
static uint64_t answered(const mo_bounded *b, uint64_t number, size_t place, const uint64_t latencies[4])
{
    mo_made_state made = make(b), wanted = wanted_made(b, number, place);
    mo_state states[4];
    mo_asked asked, wanted_ask;

    memset(states, 0, sizeof states);
    states[1] = state_of(&ab);
    states[2] = with_proposal(&states[1], &g);
    states[3] = state_of(&g);
    states[3] = with_proposal(&states[3], &ab);
    if (memcmp(&made, &wanted, sizeof made) != 0)
        return 1;
    for (size_t i = 0; i < 4; i++) {
        asked = ask(&states[i], b);
        wanted_ask = wanted_asked(&states[i], b, number, place, latencies);
        if (memcmp(&asked, &wanted_ask, sizeof asked) != 0)
            return 2 + i;
    }
    return 0;
}

/* As it is, and with odd numbers past the counts. */
static void refused(const char *what, const mo_bounded *b, uint64_t code)
{
    mo_bounded other = strewn(b);

    expect(what, answered(b, MO_NUMBER(code), MO_PLACE(code), NULL), 0);
    expect("  with other numbers past the counts", answered(&other, MO_NUMBER(code), MO_PLACE(code), NULL), 0);
}

static void accepted(const char *what, const mo_bounded *b, const uint64_t latencies[4])
{
    mo_bounded other = strewn(b);

    expect(what, answered(b, 0, 0, latencies), 0);
    expect("  with other numbers past the counts", answered(&other, 0, 0, latencies), 0);
}

/* ---- As the firmware does */

/* Tasks (4, 4, 0) and (6, 6, 0), chains 1 2 and 2, the end; and the same with gap 1. */
static const uint8_t file_ab[54] = {
    18, 0, 1, 0, 1, 0, 4, 0, 0, 0, 4, 0, 0, 0, 0, 0, 0, 0,
    18, 0, 1, 0, 2, 0, 6, 0, 0, 0, 6, 0, 0, 0, 0, 0, 0, 0,
    8, 0, 2, 0, 1, 0, 2, 0,
    6, 0, 2, 0, 2, 0,
    4, 0, 3, 0,
};
static const uint8_t file_g[60] = {
    18, 0, 1, 0, 1, 0, 4, 0, 0, 0, 4, 0, 0, 0, 0, 0, 0, 0,
    18, 0, 1, 0, 2, 0, 6, 0, 0, 0, 6, 0, 0, 0, 0, 0, 0, 0,
    8, 0, 2, 0, 1, 0, 2, 0,
    6, 0, 2, 0, 2, 0,
    6, 0, 4, 0, 1, 0,
    4, 0, 3, 0,
};

/* What a file is read to. */
static uint64_t tasks[128], chains[48], places[4], counts[3];

static mo_bounded from_file(const char *what, const uint8_t *bytes, size_t n, const uint64_t bounds[4])
{
    uint64_t lent[4];
    mo_bounded b;

    memset(tasks, RUBBISH, sizeof tasks);
    memset(chains, RUBBISH, sizeof chains);
    memset(places, RUBBISH, sizeof places);
    memset(counts, RUBBISH, sizeof counts);
    memcpy(lent, bounds, sizeof lent);
    expect(what, mo_read_file(bytes, n, tasks, chains, places, counts), 0);
    soil();
    b = mo_bounded_schedule(tasks, 128, counts[0], chains, 48, places, 4, counts[1], counts[2], lent);
    calls++;
    handed(lent, bounds, sizeof lent);
    return b;
}

static void check_firmware(void)
{
    static const mo_state nothing;
    mo_bounded first = from_file("the file of AB", file_ab, sizeof file_ab, BOUNDS(18, 12)), second, stored_b;
    mo_made_state made;
    mo_asked asked;
    mo_committed committed;
    mo_state state, wanted;
    uint8_t stored[1 + sizeof(mo_state)];

    expect("  AB with its bounds, byte by byte", memcmp(&first, &ab, sizeof first) == 0, 1);
    second = from_file("the file of G", file_g, sizeof file_g, BOUNDS(20, 12));
    expect("  G with its bounds, byte by byte", memcmp(&second, &g, sizeof second) == 0, 1);
    made = mo_make_state(first);
    expect("the state is made", made.refusal.number, 0);
    expect("  at", made.refusal.place, 0);
    wanted = nothing;
    wanted.running = ab;
    expect("  AB runs and nothing is proposed", memcmp(&made.state, &wanted, sizeof wanted) == 0, 1);
    state = made.state;
    asked = mo_ask(state, second);
    expect("G is asked for", asked.refusal.number, 0);
    expect("  at", asked.refusal.place, 0);
    expect("  the first chain's latency", asked.latencies[0], 20);
    expect("  the second's", asked.latencies[1], 12);
    expect("  past them", asked.latencies[2] | asked.latencies[3], 0);
    wanted.firmware.proposal = g;
    wanted.firmware.stands = 1;
    expect("  AB runs and G is proposed", memcmp(&asked.state, &wanted, sizeof wanted) == 0, 1);
    /* The state is put away as bytes, and G is read again. */
    memcpy(stored + 1, &asked.state, sizeof asked.state);
    memset(&state, RUBBISH, sizeof state);
    memcpy(&state, stored + 1, sizeof state);
    stored_b = from_file("the file of G again", file_g, sizeof file_g, BOUNDS(20, 12));
    committed = mo_commit(state, stored_b);
    expect("G is committed", committed.refusal.number, 0);
    expect("  at", committed.refusal.place, 0);
    wanted = nothing;
    wanted.running = g;
    expect("  G runs and nothing is proposed", memcmp(&committed.state, &wanted, sizeof wanted) == 0, 1);
    calls += 3;
    /* Each answer may take the place of what the call was given. */
    made = mo_make_state(made.state.running);
    asked.state = made.state;
    asked = mo_ask(asked.state, committed.state.running);
    committed.state = asked.state;
    committed = mo_commit(committed.state, committed.state.firmware.proposal);
    expect("the same, with answers in place of what was handed", committed.refusal.number, 0);
    expect("  G runs and nothing is proposed", memcmp(&committed.state, &wanted, sizeof wanted) == 0, 1);
    first = mo_bounded_schedule(tasks, 128, counts[0], chains, 48, places, 4, counts[1], 0, first.bounds);
    expect("  bounds lent from the schedule that is written", memcmp(&first, &ab, sizeof first) == 0, 1);
    calls += 4;
}

/* The lists that mean a schedule, as long as they are, or just long enough, or shorter by an entry. */
static void check_lists(void)
{
    static const uint64_t listed[13] = { 1, 4, 4, 0, 2, 6, 6, 0, 3, 5, 1, 9, 50 }, numbers[14] = { 1, 2, 50, 51, 52, 53, 54, 55, 56, 57, 58, 59, 2, 60 }, held[3] = { 2, 1, 9 };
    mo_bounded b = mo_bounded_schedule(listed, 12, 2, numbers, 14, held, 3, 2, 0, BOUNDS(18, 12, 30, 40)), c;

    expect("AB in longer lists, all that is counted", differs(&ab, &b), 0);
    accepted("  accepted", &b, BOUNDS(18, 12));
    b = mo_bounded_schedule(listed, 8, 2, numbers, 13, held, 2, 2, 0, BOUNDS(18, 12, 30, 40));
    expect("AB in lists that just hold it, all that is counted", differs(&ab, &b), 0);
    accepted("  accepted", &b, BOUNDS(18, 12));
    b = mo_bounded_schedule(listed, 8, 2, numbers, 13, held, 2, 2, UINT64_MAX, BOUNDS(UINT64_MAX, TWO_63 + 1));
    expect("any gap is taken over", b.schedule.gap, UINT64_MAX);
    expect("  and any bound", b.bounds[0] == UINT64_MAX && b.bounds[1] == TWO_63 + 1, 1);
    refused("  the gap is refused then", &b, CODE(MO_TASK_OUTSIDE_LIMITS, 0));
    b = mo_bounded_schedule(listed, 4, 2, numbers, 13, held, 2, 2, 0, BOUNDS(18, 12));
    expect("a task too few in the list, the count", b.schedule.count, 0);
    refused("  refused", &b, MO_PLACES_OUTSIDE_LIMITS);
    b = mo_bounded_schedule(listed, 7, 2, numbers, 13, held, 2, 2, 0, BOUNDS(18, 12));
    expect("no whole tasks, the count", b.schedule.count, 0);
    refused("  refused", &b, MO_PLACES_OUTSIDE_LIMITS);
    b = mo_bounded_schedule(listed, 9, 2, numbers, 13, held, 2, 2, 0, BOUNDS(18, 12));
    expect("a number more than whole tasks, the count", b.schedule.count, 0);
    refused("  refused", &b, MO_PLACES_OUTSIDE_LIMITS);
    b = mo_bounded_schedule(listed, 8, 2, numbers, 12, held, 2, 2, 0, BOUNDS(18, 12));
    expect("a place of the second chain too few, its count", b.schedule.chains[1].places, 0);
    expect("  the first chain's", b.schedule.chains[0].places, 2);
    refused("  refused", &b, MO_PLACES_OUTSIDE_LIMITS);
    b = mo_bounded_schedule(listed, 8, 2, numbers, 13, held, 1, 2, 0, BOUNDS(18, 12));
    expect("a number of places too few, the count of chains", b.schedule.chain_count, 0);
    refused("  refused", &b, MO_PLACES_OUTSIDE_LIMITS);
    b = mo_bounded_schedule(listed, 0, 0, numbers, 0, held, 0, 0, 0, BOUNDS(18, 12));
    refused("empty lists and no counts", &b, MO_PLACES_OUTSIDE_LIMITS);
    b = mo_bounded_schedule(listed, 0, 2, numbers, 0, held, 0, 2, 0, BOUNDS(18, 12));
    refused("empty lists", &b, MO_PLACES_OUTSIDE_LIMITS);
    calls += 9;
    b = full();
    for (size_t i = 0; i < 4; i++)
        memcpy(chains + 12 * i, b.schedule.chains[i].tasks, 12 * sizeof *chains);
    c = mo_bounded_schedule((const uint64_t *)b.schedule.tasks, 128, 32, chains, 48, LIST(12, 12, 12, 12), 4, 4, 5, b.bounds);
    expect("thirty-two tasks and four chains of twelve places, byte by byte", memcmp(&b, &c, sizeof b) == 0, 1);
    c = mo_bounded_schedule((const uint64_t *)b.schedule.tasks, 128, 32, chains, 47, LIST(12, 12, 12, 12), 4, 4, 5, b.bounds);
    expect("  the last place too few, the last chain's count", c.schedule.chains[3].places, 0);
    refused("  refused", &c, MO_PLACES_OUTSIDE_LIMITS);
    calls += 2;
}

/* Lists of any length with any counts: a schedule is refused as each call on a schedule refuses it. */
static void check_any_lists(void)
{
    static const size_t large[4] = { 33, (size_t)TWO_32 + 2, (size_t)TWO_63 + 2, SIZE_MAX };
    static uint64_t any[160], names[72], rows[6], lent[160], lent_names[72], lent_rows[6];
    uint64_t tried = 0, right = 0, apart = 0, wrote = 0, taken = 0, met[9] = { 0 };

    while (tried < 20000) {
        size_t count = draw(9) ? draw(6) : draw(2) ? draw(41) : large[draw(4)], chain_count = draw(9) ? draw(6) : large[draw(4)];
        size_t lengths[3] = { draw(2) ? 160 : draw(6) ? 4 * draw(41) : draw(161), draw(2) ? 72 : draw(73), draw(2) ? 6 : draw(7) };
        uint64_t gap = draw(8) ? draw(1001) : draw(2) ? 1001 : UINT64_MAX, flat[36], n, code;
        mo_bounded b, again;
        mo_made_state made;

        for (size_t i = 0; i < 160; i++)
            any[i] = i % 4 == 0 ? 1 + i / 4 : i % 4 == 3 ? draw(9) : 1 + draw(9);
        for (size_t i = 0; i < 72; i++)
            names[i] = draw(20) ? 1 + draw(count > 40 || count == 0 ? 40 : count) : odd();
        for (size_t i = 0; i < 6; i++)
            rows[i] = draw(12) ? 1 + draw(12) : draw(2) ? draw(15) : odd();
        if (draw(8) == 0)
            any[draw(4 * (count > 40 || count == 0 ? 40 : count))] = draw(2) ? 0 : UINT64_MAX;
        memcpy(lent, any, sizeof any);
        memcpy(lent_names, names, sizeof names);
        memcpy(lent_rows, rows, sizeof rows);
        soil();
        b = mo_bounded_schedule(lent, lengths[0], count, lent_names, lengths[1], lent_rows, lengths[2], chain_count, gap, BOUNDS(UINT64_MAX, UINT64_MAX, UINT64_MAX, UINT64_MAX));
        wrote += memcmp(lent, any, sizeof any) != 0 || memcmp(lent_names, names, sizeof names) != 0 || memcmp(lent_rows, rows, sizeof rows) != 0;
        code = mo_chain_of_schedule(any, lengths[0], count, names, lengths[1], rows, lengths[2], chain_count, gap, 1, flat, &n);
        made = make(&b);
        tried++;
        met[MO_NUMBER(code)]++;
        right += code ? made.refusal.number == MO_NUMBER(code) && made.refusal.place == MO_PLACE(code) : made.refusal.number == 0;
        if (code == 0) {
            mo_bounded wanted = one_chain(count, any, rows[0], names, gap);
            mo_made_state wanted_state;

            for (size_t c = 1; c < chain_count; c++)
                add_chain(&wanted, rows[c], names + 12 * c);
            wanted_state = wanted_made(&wanted, 0, 0);
            taken += memcmp(&made, &wanted_state, sizeof made) == 0;
        }
        /* What lies past the lists does not count. */
        for (size_t i = lengths[0]; i < 160; i++)
            lent[i]++;
        for (size_t i = lengths[1]; i < 72; i++)
            lent_names[i]++;
        for (size_t i = lengths[2]; i < 6; i++)
            lent_rows[i]++;
        soil();
        again = mo_bounded_schedule(lent, lengths[0], count, lent_names, lengths[1], lent_rows, lengths[2], chain_count, gap, BOUNDS(UINT64_MAX, UINT64_MAX, UINT64_MAX, UINT64_MAX));
        apart += memcmp(&b, &again, sizeof b) != 0;
        calls += 2;
    }
    expect("lists of any length with any counts, refused as their first chain is", right, tried);
    expect("  what runs where they are not, byte by byte", taken, met[0]);
    expect("  others where only what lies past the lists is", apart, 0);
    expect("  lists written to", wrote, 0);
    expect("  many accepted", met[0] > 500, 1);
    expect("  many refused with 8", met[8] > 500, 1);
    expect("  many refused with 5", met[5] > 500, 1);
    expect("  many refused with 6", met[6] > 500, 1);
}

/* ---- Worked examples */

static void check_worked(void)
{
    static const mo_state nothing;
    mo_bounded b = with_bounds(&ab, BOUNDS(18, 12, 0, 0)), other, faulty;
    mo_state state = makes("AB with 18, 12", &b, 0), kept;

    b = with_bounds(&ab, BOUNDS(17, 12));
    makes("AB with 17, 12", &b, MO_ABOVE_BOUND);
    b = with_bounds(&ab, BOUNDS(18, 11));
    makes("AB with 18, 11", &b, MO_ABOVE_BOUND);
    b = with_bounds(&ab, BOUNDS(18, 12));
    commits("nothing was asked for: AB with 18, 12", &state, &b, MO_NO_PROPOSAL);
    b = with_bounds(&g, BOUNDS(20, 12, 7, 7));
    state = kept = asks("G with 20, 12, 7, 7", &state, &b, 0, BOUNDS(20, 12));
    expect("  the bounds of the proposal past the chains", state.firmware.proposal.bounds[2] | state.firmware.proposal.bounds[3], 0);
    b = with_bounds(&g, BOUNDS(19, 12));
    state = asks("G with 19, 12", &state, &b, MO_ABOVE_BOUND, NULL);
    b = with_bounds(&g, BOUNDS(20, 11));
    state = asks("G with 20, 11", &state, &b, MO_ABOVE_BOUND, NULL);
    expect("  the proposal's first bound", state.firmware.proposal.bounds[0], 20);
    faulty = g;
    faulty.schedule.chains[0].tasks[1] = 3;
    state = asks("a chain 1 3", &state, &faulty, CODE(MO_TASK_UNKNOWN, 2), NULL);
    faulty = g;
    faulty.schedule.tasks[0].task.period = 0;
    state = asks("task 1 with a period of 0", &state, &faulty, CODE(MO_TASK_OUTSIDE_LIMITS, 1), NULL);
    faulty = g;
    faulty.schedule.gap = 1001;
    state = asks("gap 1,001", &state, &faulty, CODE(MO_TASK_OUTSIDE_LIMITS, 0), NULL);
    faulty = one_chain(2, LIST(1, 7867, 1, 0, 2, 7627, 1, 0), 1, LIST(1), 0);
    add_chain(&faulty, 2, LIST(1, 2));
    state = asks("a hyperperiod of 60,001,609", &state, &faulty, MO_HYPERPERIOD_TOO_LONG, NULL);
    faulty.bounds[0] = 7867;
    state = asks("the same, though the first chain is above its bound", &state, &faulty, MO_HYPERPERIOD_TOO_LONG, NULL);
    faulty.schedule.chain_count = 1;
    state = asks("the first chain alone", &state, &faulty, MO_ABOVE_BOUND, NULL);
    faulty = g;
    faulty.schedule.count = 0;
    state = asks("no tasks", &state, &faulty, MO_PLACES_OUTSIDE_LIMITS, NULL);
    expect("after all that the state as it was, byte by byte", memcmp(&state, &kept, sizeof state) == 0, 1);
    b = with_bounds(&g, BOUNDS(21, 12, 7, 7));
    commits("G with 21, 12, 7, 7", &state, &b, MO_OTHER_PROPOSAL);
    b = with_bounds(&ab, BOUNDS(20, 12));
    commits("AB with 20, 12, the gap being another", &state, &b, MO_OTHER_PROPOSAL);
    b = with_bounds(&g, BOUNDS(20, 12));
    b.schedule.count = 40;
    b.schedule.chains[0].places = 13;
    commits("forty tasks and a chain of thirteen places", &state, &b, MO_OTHER_PROPOSAL);
    b = with_bounds(&g, BOUNDS(20, 12, 1, 2));
    state = commits("G with 20, 12, 1, 2", &state, &b, 0);
    expect("  G runs, and its bounds past the chains are 0", memcmp(&state.running, &g, sizeof g) == 0, 1);
    expect("  no proposal stands, and it is zeros", memcmp(&state.firmware, &nothing.firmware, sizeof state.firmware) == 0, 1);
    commits("the same again", &state, &b, MO_NO_PROPOSAL);
    /* A later proposal takes the place of an earlier one, also of an equal schedule with other bounds. */
    other = with_bounds(&ab, BOUNDS(100, 200));
    state = asks("AB with 100, 200", &state, &other, 0, BOUNDS(18, 12));
    other.bounds[1] = 300;
    state = asks("AB with 100, 300", &state, &other, 0, BOUNDS(18, 12));
    other.bounds[1] = 200;
    state = commits("the earlier one", &state, &other, MO_OTHER_PROPOSAL);
    other.bounds[1] = 300;
    state = asks("the later one again", &state, &other, 0, BOUNDS(18, 12));
    state = commits("the later one", &state, &other, 0);
    state = asks("what runs", &state, &other, 0, BOUNDS(18, 12));
    commits("what runs", &state, &other, 0);
}

/* A state of zeros has no proposal, and one may be asked for all the same. */
static void check_zeros(void)
{
    static const mo_state nothing;
    static const mo_bounded none;
    mo_state state;

    commits("in a state of zeros: AB", &nothing, &ab, MO_NO_PROPOSAL);
    commits("  a schedule of zeros", &nothing, &none, MO_NO_PROPOSAL);
    asks("  a schedule of zeros, asked for", &nothing, &none, MO_PLACES_OUTSIDE_LIMITS, NULL);
    state = asks("  AB, asked for", &nothing, &ab, 0, BOUNDS(18, 12));
    commits("  then a schedule of zeros", &state, &none, MO_OTHER_PROPOSAL);
    state = commits("  then AB", &state, &ab, 0);
    commits("  and again", &state, &ab, MO_NO_PROPOSAL);
}

/* Everything at its limits. */
static void check_limits(void)
{
    static const uint64_t primes[12] = { 999983, 999979, 999961, 999959, 999953, 999931, 999917, 999907, 999883, 999863, 999853, 999809 };
    uint64_t listed[48], all[12];
    mo_bounded b;

    for (size_t i = 0; i < 12; i++) {
        const uint64_t task[4] = { i < 11 ? 1 + i : 65535, 1000000, 4000000, 999 * i };

        memcpy(listed + 4 * i, task, sizeof task);
        all[i] = task[0];
    }
    b = one_chain(12, listed, 12, all, 1000);
    b.bounds[0] = 60010989;
    accepted("twelve places, 60,010,989", &b, BOUNDS(60010989));
    b.bounds[0] = 60010988;
    refused("twelve places, 60,010,988", &b, MO_ABOVE_BOUND);
    b.bounds[0] = UINT64_MAX;
    accepted("twelve places, the largest bound", &b, BOUNDS(60010989));
    b.bounds[0] = TWO_32;
    accepted("twelve places, a bound of which 32 bits are too few", &b, BOUNDS(60010989));
    b.bounds[0] = TWO_63;
    accepted("twelve places, a bound of which 63 bits are too few", &b, BOUNDS(60010989));
    b.schedule.tasks[0].task.phase = 1000000;
    accepted("a phase of 1,000,000", &b, BOUNDS(60010989));
    for (size_t i = 0; i < 12; i++)
        b.schedule.tasks[i].task.period = primes[i];
    refused("twelve long periods without a common divisor", &b, MO_HYPERPERIOD_TOO_LONG);
    b = one_chain(1, LIST(1, 1, 1, 0), 1, LIST(1), 0);
    b.bounds[0] = 2;
    accepted("the least task", &b, BOUNDS(2));
    b.bounds[0] = 1;
    refused("the least task, bound 1", &b, MO_ABOVE_BOUND);
    b.bounds[0] = 0;
    refused("the least task, bound 0", &b, MO_ABOVE_BOUND);
    b = one_chain(3, LIST(3, 768, 1, 0, 5, 78125, 1, 0, 7, 999983, 4, 4), 1, LIST(3), 0);
    add_chain(&b, 1, LIST(5));
    accepted("a task that fills no place, whatever its period is", &b, BOUNDS(769, 78126));
    b.schedule.chains[1].tasks[1] = 3;
    b.schedule.chains[1].places = 2;
    accepted("a hyperperiod of 60,000,000", &b, BOUNDS(769, 78125 + 1 + 767 + 1));
    b.schedule.tasks[0].task.period = 151;
    b.schedule.tasks[1].task.period = 397351;
    refused("a hyperperiod of 60,000,001", &b, MO_HYPERPERIOD_TOO_LONG);
    b.bounds[0] = 0;
    refused("a hyperperiod of 60,000,001, the other chain above its bound", &b, MO_HYPERPERIOD_TOO_LONG);
}

/* Four chains: the latencies in their order, and each bound for its own chain. */
static void check_chains(void)
{
    mo_bounded b = one_chain(4, LIST(2, 4, 4, 0, 3, 6, 6, 0, 10, 10, 3, 5, 11, 5, 5, 0), 1, LIST(10), 0);
    mo_bounded other;

    add_chain(&b, 2, LIST(2, 3));
    add_chain(&b, 2, LIST(11, 11));
    add_chain(&b, 1, LIST(3));
    b = with_bounds(&b, BOUNDS(13, 18, 15, 12));
    accepted("four chains, bounds 13, 18, 15, 12", &b, BOUNDS(13, 18, 15, 12));
    for (size_t i = 0; i < 4; i++) {
        other = b;
        other.bounds[i]--;
        refused("  one of them 1 less", &other, MO_ABOVE_BOUND);
        other.bounds[i] = 0;
        refused("  one of them 0", &other, MO_ABOVE_BOUND);
        other.bounds[i] = b.bounds[i] + 1;
        accepted("  one of them 1 more", &other, BOUNDS(13, 18, 15, 12));
        other = b;
        other.schedule.chain_count = 1 + i;
        accepted("  one chain, two, three and four", &other, BOUNDS(13, i > 0 ? 18 : 0, i > 1 ? 15 : 0, i > 2 ? 12 : 0));
        for (size_t k = 1 + i; k < 4; k++)
            other.bounds[k] = 0;
        accepted("  with bounds of 0 past them", &other, BOUNDS(13, i > 0 ? 18 : 0, i > 1 ? 15 : 0, i > 2 ? 12 : 0));
        for (size_t k = 1 + i; k < 4; k++)
            other.schedule.chains[k].places = SIZE_MAX;
        accepted("  with chains of too many places past them", &other, BOUNDS(13, i > 0 ? 18 : 0, i > 1 ? 15 : 0, i > 2 ? 12 : 0));
    }
    b.schedule.gap = 1;
    b = with_bounds(&b, BOUNDS(13, 20, 20, 12));
    accepted("four chains, gap 1", &b, BOUNDS(13, 20, 20, 12));
    b.bounds[2] = 19;
    refused("four chains, gap 1, bounds 13, 20, 19, 12", &b, MO_ABOVE_BOUND);
}

/* ---- Refusals */

/* Chains 1 3 4, 2 2 and 4 9; task 12 fills no place. */
static mo_bounded sound(const uint64_t bounds[4])
{
    mo_bounded b = one_chain(6, LIST(1, 5, 5, 0, 2, 5, 5, 0, 3, 7, 1, 0, 4, 11, 1, 0, 9, 6, 6, 0, 12, 3, 3, 3), 3, LIST(1, 3, 4), 3);

    add_chain(&b, 2, LIST(2, 2));
    add_chain(&b, 2, LIST(4, 9));
    return with_bounds(&b, bounds);
}

/* Counts that a schedule may not have. */
static void miscount(mo_schedule *s, size_t kind)
{
    static const size_t wrong[8] = { 0, 33, 40, 256 + 2, 65536 + 2, (size_t)TWO_32 + 2, (size_t)TWO_63 + 3, SIZE_MAX };

    if (kind < 8)
        s->count = wrong[kind];
    else if (kind < 16)
        s->chain_count = kind % 8 == 1 ? 5 : wrong[kind % 8];
    else
        s->chains[kind / 8 - 2].places = kind % 8 == 1 ? 13 : wrong[kind % 8];
}

/* Changes a value of the first task, of the second or of the last, which fills no place. Answers the position. */
static size_t mistask(mo_schedule *s, size_t kind)
{
    static const struct {
        size_t position, value;
        uint64_t becomes;
    } changes[18] = {
        { 1, 0, 0 }, { 2, 0, 1 }, { 6, 0, 9 }, { 6, 0, 8 }, { 6, 0, 65536 }, { 6, 0, TWO_32 + 12 }, { 6, 0, UINT64_MAX }, { 6, 1, 0 }, { 1, 1, 1000001 },
        { 1, 1, TWO_32 + 5 }, { 2, 1, UINT64_MAX }, { 6, 2, 0 }, { 2, 2, 4000001 }, { 6, 2, TWO_63 + 3 }, { 1, 3, 1000001 }, { 6, 3, 1000001 }, { 2, 3, UINT64_MAX }, { 1, 3, TWO_32 },
    };
    mo_numbered_task *task = &s->tasks[changes[kind].position - 1];

    *(changes[kind].value == 0 ? &task->number : changes[kind].value == 1 ? &task->task.period : changes[kind].value == 2 ? &task->task.duration : &task->task.phase) = changes[kind].becomes;
    return changes[kind].position;
}

/* Changes a number of the first chain and of the others, of the second and the last, or of the last. Answers the place in the first that has one. */
static size_t misname(mo_schedule *s, size_t kind)
{
    static const uint64_t strange[5] = { 0, 5, 65536 + 4, TWO_32 + 4, UINT64_MAX };

    s->chains[2].tasks[kind < 10 ? 0 : 1] = strange[kind % 5];
    if (kind < 10)
        s->chains[1].tasks[1] = strange[kind % 5];
    if (kind < 5)
        s->chains[0].tasks[2] = strange[kind % 5];
    return kind < 5 ? 3 : 2;
}

/* Periods with which the first chain's hyperperiod is too long, or the last one's. */
static void mistime(mo_schedule *s, size_t kind)
{
    s->tasks[3].task.period = 9973;
    s->tasks[kind ? 4 : 2].task.period = 9967;
}

/* The faults of a call, in the order in which they are told, and how many kinds there are of each. */
enum { COUNTS, TASK, GAP, UNKNOWN, HYPERPERIOD, BOUND, FAULTS };
static const size_t kinds[FAULTS] = { 40, 18, 5, 15, 2, 6 };
static const uint64_t told[FAULTS] = { 8, 5, 5, 6, 7, 21 };
static const uint64_t gaps[5] = { 1001, 1002, 65536, TWO_32, UINT64_MAX };

/* A schedule with such faults, of these kinds; the place of each is told. */
static mo_bounded unsound(const uint64_t latencies[4], unsigned faults, const size_t kind[FAULTS], size_t place[FAULTS])
{
    mo_bounded b = sound(latencies);

    if (faults >> BOUND & 1)
        b.bounds[kind[BOUND] / 2] = kind[BOUND] % 2 ? latencies[kind[BOUND] / 2] - 1 : 0;
    if (faults >> HYPERPERIOD & 1)
        mistime(&b.schedule, kind[HYPERPERIOD]);
    if (faults >> UNKNOWN & 1)
        place[UNKNOWN] = misname(&b.schedule, kind[UNKNOWN]);
    if (faults >> GAP & 1)
        b.schedule.gap = gaps[kind[GAP]];
    if (faults >> TASK & 1)
        place[TASK] = mistask(&b.schedule, kind[TASK]);
    if (faults >> COUNTS & 1)
        miscount(&b.schedule, kind[COUNTS]);
    return b;
}

/* Every selection of these faults in one call, with each kind of each: the first is told, whatever follows. */
static void check_order(void)
{
    /* 1 3 4: 5 + 5, a gap and up to 6 to the next read, 1, a gap and up to 10, 1. 2 2: 5 + 5, a gap and 2 to the next read, 5. 4 9: 11 + 1, a gap and up to 5, 6. */
    static const uint64_t latencies[4] = { 10 + 3 + 6 + 1 + 3 + 10 + 1, 10 + 5 + 5, 12 + 3 + 5 + 6, 0 };
    uint64_t tried = 0, right = 0, met[FAULTS + 1] = { 0 };
    mo_bounded b = sound(latencies);

    accepted("a sound schedule", &b, latencies);
    for (size_t fault = 0; fault < FAULTS; fault++)
        for (size_t i = 0; i < kinds[fault]; i++) {
            size_t place[FAULTS] = { 0 }, kind[FAULTS] = { 0 };

            kind[fault] = i;
            b = unsound(latencies, 1u << fault, kind, place);
            refused(fault == COUNTS ? "a count" : fault == TASK ? "a task" : fault == GAP ? "the gap" : fault == UNKNOWN ? "an unknown task" : fault == HYPERPERIOD ? "a hyperperiod" : "a bound", &b,
                    CODE(told[fault], place[fault]));
        }
    for (unsigned faults = 0; faults < 1u << FAULTS; faults++)
        for (size_t turn = 0; turn < 50; turn++) {
            size_t first = 0, kind[FAULTS], place[FAULTS] = { 0 };

            for (size_t i = 0; i < FAULTS; i++)
                kind[i] = draw(kinds[i]);
            while (first < FAULTS && !(faults >> first & 1))
                first++;
            if (first < FAULTS)
                kind[first] = turn % kinds[first];
            b = unsound(latencies, faults, kind, place);
            if (turn % 2)
                b = strewn(&b);
            tried++;
            met[first]++;
            right += answered(&b, first < FAULTS ? told[first] : 0, first < FAULTS ? place[first] : 0, latencies) == 0;
        }
    expect("selections of six faults, fifty of each", tried, 50 * 64);
    expect("  with the first of them told at its place, and each state byte by byte", right, tried);
    for (size_t i = 0; i < FAULTS; i++)
        expect("  with each fault as the first", met[i], 50u << (FAULTS - 1 - i));
    expect("  without a fault", met[FAULTS], 50);
}

/* Faults of all thirty-two tasks and four chains of twelve places. */
static void check_full(void)
{
    mo_bounded b = full(), other;
    uint64_t right = 0;

    makes("thirty-two tasks, four chains of twelve places", &b, 0);
    for (size_t i = 0; i < 32; i++) {
        other = b;
        other.schedule.tasks[i].task.phase = 1000001;
        other.schedule.tasks[31].task.period = 0;
        right += answered(&other, MO_TASK_OUTSIDE_LIMITS, 1 + i, NULL) == 0;
        other = b;
        other.schedule.tasks[i].number = i ? b.schedule.tasks[i - 1].number : 0;
        right += answered(&other, MO_TASK_OUTSIDE_LIMITS, 1 + i, NULL) == 0;
        /* Its tasks from here on are not counted, and the chains name them. */
        other = b;
        other.schedule.count = i;
        right += answered(&other, i ? MO_TASK_UNKNOWN : MO_PLACES_OUTSIDE_LIMITS, i == 0 ? 0 : i < 6 ? 2 : i < 11 ? 3 : i < 16 ? 4 : i < 21 ? 5 : i < 26 ? 6 : i < 31 ? 7 : 12, NULL) == 0;
    }
    expect("  each task at fault, and each count of tasks", right, 32 * 3);
    right = 0;
    for (size_t c = 0; c < 4; c++)
        for (size_t i = 0; i < 12; i++) {
            other = b;
            other.schedule.chains[c].tasks[i] = 65535 - 1;
            other.schedule.chains[3].tasks[11] = 1;
            right += answered(&other, MO_TASK_UNKNOWN, 1 + i, NULL) == 0;
        }
    expect("  each place at fault", right, 48);
    other = b;
    other.schedule.chains[1].tasks[7] = other.schedule.chains[2].tasks[0] = 1;
    refused("  place 8 of the second chain, before place 1 of the third", &other, CODE(MO_TASK_UNKNOWN, 8));
}

/* ---- Commits of almost the proposal */

/* Another value of a word. */
static uint64_t changed(uint64_t value, size_t turn)
{
    const uint64_t others[9] = { value + 1, value - 1, value ^ TWO_32, value ^ TWO_63, 0, 1, UINT64_MAX, value ^ 65536, 2 * value + 3 };

    return others[turn];
}

/* Each word of the proposal changed by itself: where it is counted the commit is refused and the state stays, else it is accepted. */
static void check_words(const char *what, const mo_bounded *b)
{
    mo_made_state made = make(&ab);
    mo_asked asked = ask(&made.state, b);
    uint64_t counted_words = 0, others = 0, differing = 0, right = 0, tried = 0;

    expect(what, asked.refusal.number, 0);
    for (size_t i = 0; i < WORDS; i++) {
        (*(counts_in(b, i) ? &counted_words : &others))++;
        for (size_t turn = 0; turn < 9; turn++) {
            mo_bounded named = *b;
            mo_committed committed, wanted;
            uint64_t *word = (uint64_t *)&named + i, value = *word;

            *word = changed(value, turn);
            if (*word == value)
                continue;
            committed = commit(&asked.state, &named);
            wanted = wanted_committed(&asked.state, b, counts_in(b, i) ? MO_OTHER_PROPOSAL : 0);
            tried++;
            differing += committed.refusal.number == MO_OTHER_PROPOSAL;
            right += memcmp(&committed, &wanted, sizeof wanted) == 0;
        }
    }
    expect("  words", counted_words + others, WORDS);
    expect("  commits with one of them changed, answered as told, byte by byte", right, tried);
    expect("  each with many values", differing >= 6 * counted_words && tried - differing >= 6 * others, 1);
}

static void check_almost(void)
{
    mo_bounded least = one_chain(1, LIST(9, 3, 2, 1), 1, LIST(9), 0), middle = one_chain(3, LIST(1, 4, 4, 0, 2, 6, 6, 0, 5, 3, 2, 1), 2, LIST(1, 2), 2), all = full();

    least = with_bounds(&least, BOUNDS(50));
    add_chain(&middle, 12, LIST(5, 5, 1, 2, 1, 2, 5, 1, 1, 2, 2, 5));
    add_chain(&middle, 1, LIST(5));
    middle = with_bounds(&middle, BOUNDS(500, 600, 700));
    all = with_bounds(&all, BOUNDS(50000, 50001, 50002, 50003));
    check_words("the least schedule", &least);
    check_words("G", &g);
    check_words("three tasks and three chains", &middle);
    check_words("thirty-two tasks and four chains of twelve places", &all);
}

/* ---- States of any bytes */

static uint64_t asks_so[2], commits_so[24], not_kept[2];

/* Whether each call answers as told in a state of any bytes: with two schedules that are accepted and two that are not, and commits that name the proposal, that name it with other numbers past the
 * counts, that name what runs, and that name what stands in the state, be it sound or not. A proposal with anything past its counts is none that a call leaves: the commit that names it may be
 * accepted, or refused as another one. */
static uint64_t holds(const mo_state *s)
{
    static const uint64_t latencies[2][4] = { { 18, 12 }, { 20, 12 } };
    mo_bounded named[7], clear = cleared(&s->firmware.proposal);
    int left_over = memcmp(&clear, &s->firmware.proposal, sizeof clear) != 0;
    uint64_t right = 1;

    named[0] = ab;
    named[1] = strewn(&g);
    named[2] = g;
    named[2].bounds[0] = 19;
    named[3] = ab;
    named[3].schedule.gap = UINT64_MAX;
    named[4] = g;
    named[5] = s->running;
    named[6] = s->firmware.proposal;
    for (size_t i = 0; i < 4; i++) {
        mo_asked asked = ask(s, &named[i]), wanted = wanted_asked(s, &named[i], i < 2 ? 0 : i == 2 ? MO_ABOVE_BOUND : MO_TASK_OUTSIDE_LIMITS, 0, i < 2 ? latencies[i] : NULL);

        asks_so[i < 2]++;
        not_kept[0] += memcmp(&asked.state.running, &s->running, sizeof s->running) != 0;
        right = right && memcmp(&asked, &wanted, sizeof wanted) == 0;
    }
    for (size_t i = 0; i < 7; i++) {
        uint64_t number = number_of_commit(s, &named[i]);
        mo_committed committed = commit(s, &named[i]), wanted;

        if (number == 0 && left_over && committed.refusal.number != 0)
            number = MO_OTHER_PROPOSAL;
        wanted = wanted_committed(s, &named[i], number);
        commits_so[number]++;
        not_kept[1] += number != 0 && memcmp(&committed.state, s, sizeof *s) != 0;
        right = right && memcmp(&committed, &wanted, sizeof wanted) == 0;
    }
    return right;
}

static void check_any_state(void)
{
    static const uint64_t stands[8] = { 1, 2, 3, 256, 65536, TWO_32, TWO_63, UINT64_MAX };
    mo_made_state made = make(&ab);
    mo_asked asked = ask(&made.state, &g);
    mo_state s;
    uint64_t right = 0;

    for (size_t i = 0; i < sizeof s; i++)
        for (size_t turn = 0; turn < 4; turn++) {
            s = turn < 2 ? asked.state : made.state;
            ((unsigned char *)&s)[i] ^= turn % 2 ? 0xff : 1;
            right += holds(&s);
        }
    expect("a state with a proposal, and one without, each byte changed in two ways", right, 4 * sizeof s);
    right = 0;
    for (size_t i = 0; i < STATE_WORDS; i++)
        for (size_t turn = 0; turn < 2; turn++) {
            s = turn ? made.state : asked.state;
            ((uint64_t *)&s)[i] = UINT64_MAX;
            right += holds(&s);
        }
    expect("  each word the largest number", right, 2 * STATE_WORDS);
    right = 0;
    for (size_t i = 0; i < 8; i++) {
        s = asked.state;
        s.firmware.stands = stands[i];
        right += holds(&s) && commit(&s, &g).refusal.number == 0;
    }
    expect("  any number other than 0 that says that it stands", right, 8);
    s = asked.state;
    s.firmware.stands = 0;
    expect("  0 that says that it does not, though it is there", holds(&s) && commit(&s, &g).refusal.number == MO_NO_PROPOSAL, 1);
    right = 0;
    for (size_t i = 0; i < 400; i++) {
        for (size_t k = 0; k < STATE_WORDS; k++)
            ((uint64_t *)&s)[k] = i % 4 == 0 ? draw(TWO_32) << 32 | draw(TWO_32) : i % 4 == 1 ? draw(40) : i % 4 == 2 ? odd() : UINT64_MAX - draw(2);
        right += holds(&s);
    }
    expect("  every word any number", right, 400);
    /* A commit makes no check of its own, so a faulty proposal, which no ask leaves, runs when it is named. */
    s = made.state;
    s.firmware.proposal = ab;
    s.firmware.proposal.schedule.gap = 5000;
    s.firmware.proposal.schedule.tasks[1].task.period = 0;
    s.firmware.proposal.bounds[0] = 0;
    s.firmware.stands = 1;
    commits("  a proposal that no ask leaves, named", &s, &s.firmware.proposal, 0);
    commits("  a proposal that no ask leaves, another one named", &s, &ab, MO_OTHER_PROPOSAL);
    expect("  asks after which something else runs", not_kept[0], 0);
    expect("  commits that were refused and left another state", not_kept[1], 0);
    expect("  many asks accepted, and as many refused", asks_so[0] == asks_so[1] && asks_so[0] > 10000, 1);
    expect("  many commits accepted", commits_so[0] > 5000, 1);
    expect("  many without a proposal", commits_so[MO_NO_PROPOSAL] > 100, 1);
    expect("  many of another one", commits_so[MO_OTHER_PROPOSAL] > 10000, 1);
}

/* ---- The latencies by other calls */

/* The refusal of a schedule with bounds, and its latencies, by the calls on schedules and chains. */
static uint64_t judged(const mo_bounded *b, uint64_t latencies[4])
{
    const mo_schedule *s = &b->schedule;
    uint64_t all[128], names[48], rows[4], flat[36], n, each[12], sections, above = 0;

    memcpy(all, s->tasks, sizeof all);
    for (size_t c = 0; c < 4; c++) {
        memcpy(names + 12 * c, s->chains[c].tasks, sizeof s->chains[c].tasks);
        rows[c] = s->chains[c].places;
        latencies[c] = 0;
    }
    for (size_t c = 0; c == 0 || c < s->chain_count; c++) {
        uint64_t code = mo_chain_of_schedule(all, 128, s->count, names, 48, rows, 4, s->chain_count, s->gap, 1 + c, flat, &n);

        if (code == 0)
            code = mo_sections(flat, 36, n, s->gap, flat, 0, each, &sections, &latencies[c]);
        if (code != 0)
            return code;
        above |= latencies[c] > b->bounds[c];
    }
    return above ? MO_ABOVE_BOUND : 0;
}

/* One to four chains of a few tasks, some of them alike. Few hyperperiods are too long. */
static mo_bounded any_schedule(void)
{
    static const uint64_t periods[16] = { 1, 2, 3, 4, 5, 6, 8, 9, 10, 12, 15, 20, 30, 60, 7, 11 }, longer[4] = { 78125, 768, 999983, 999979 };
    uint64_t listed[4 * 8], chain[12], number = draw(3) ? 0 : 65500;
    size_t count = 1 + draw(8), last = 1 + draw(4);
    mo_bounded b;

    for (size_t i = 0; i < count; i++) {
        uint64_t *task = listed + 4 * i;

        task[0] = number += 1 + draw(3);
        task[1] = draw(14) ? periods[draw(16)] : longer[draw(4)];
        task[2] = draw(4) ? 1 + draw(2 * task[1]) : draw(2) ? 4000000 : task[1];
        task[3] = draw(4) ? draw(task[1] < 500000 ? 2 * task[1] : 1000001) : draw(2) ? 1000000 : 0;
        if (i > 0 && draw(5) == 0)
            memcpy(task + 1, task - 3, 3 * sizeof *task);
    }
    b = one_chain(count, listed, 1, listed, draw(2) ? draw(20) : draw(2) ? 1000 : 0);
    b.schedule.chain_count = 0;
    while (b.schedule.chain_count < last) {
        size_t n = draw(3) ? 1 + draw(4) : 1 + draw(12);

        for (size_t i = 0; i < n; i++)
            chain[i] = listed[4 * draw(count)];
        add_chain(&b, n, chain);
    }
    return strewn(&b);
}

static void check_latencies(void)
{
    uint64_t schedules = 0, answers = 0, right = 0, chain_counts[5] = { 0 }, lengthy = 0;

    for (size_t i = 0; i < 600; i++) {
        mo_bounded b = any_schedule(), other;
        uint64_t latencies[4], code;

        for (size_t c = 0; c < b.schedule.chain_count; c++)
            b.bounds[c] = UINT64_MAX;
        code = judged(&b, latencies);
        if (code != 0) {
            lengthy += code == MO_HYPERPERIOD_TOO_LONG;
            answers++;
            right += answered(&b, MO_NUMBER(code), MO_PLACE(code), NULL) == 0;
            continue;
        }
        schedules++;
        chain_counts[b.schedule.chain_count]++;
        memcpy(b.bounds, latencies, b.schedule.chain_count * sizeof *latencies);
        answers++;
        right += answered(&b, 0, 0, latencies) == 0;
        for (size_t c = 0; c < 4; c++)
            for (int turn = 0; turn < 4; turn++) {
                other = b;
                other.bounds[c] = turn == 0 ? latencies[c] - 1 : turn == 1 ? 0 : turn == 2 ? latencies[c] + 1 : TWO_32;
                answers++;
                right += answered(&other, turn < 2 && c < b.schedule.chain_count ? MO_ABOVE_BOUND : 0, 0, latencies) == 0;
            }
    }
    expect("schedules whose latencies are told by other calls, hundreds", schedules > 400, 1);
    expect("  refused exactly where a bound is below, and else with these latencies", right, answers);
    for (size_t i = 1; i < 5; i++)
        expect("  many of one chain to four", chain_counts[i] > 50, 1);
    expect("  some with a hyperperiod that is too long", lengthy > 10, 1);
}

/* ---- Lists of asks and commits */

#define POOL 24u

/* Beside each list a state is kept by hand; after each call it is the same, and what runs keeps its own bounds. */
static void check_histories(void)
{
    uint64_t tried = 0, right = 0, keeps = 0, asks_met[24] = { 0 }, commits_answered[24] = { 0 };

    for (size_t turn = 0; turn < 120; turn++) {
        static mo_bounded pool[POOL];
        mo_state state, beside;
        uint64_t latencies[4];

        for (size_t i = 0; i < POOL; i++) {
            do
                pool[i] = any_schedule();
            while (judged(&pool[i], latencies) > MO_ABOVE_BOUND);
            memcpy(pool[i].bounds, latencies, sizeof latencies);
            /* Half of them are the one before with a word changed, which may be past a count. */
            if (i % 2) {
                pool[i] = pool[i - 1];
                ((uint64_t *)&pool[i])[draw(3) ? draw(WORDS) : 180 + draw(WORDS - 180)] += draw(2) ? 1 : UINT64_MAX;
            }
        }
        beside = state_of(&ab);
        state = make(&ab).state;
        for (size_t i = 0; i < 40; i++) {
            /* A commit that names the proposal, often with other numbers past the counts, or any other one. */
            mo_bounded b = draw(2) ? pool[draw(POOL)] : strewn(&state.firmware.proposal);

            tried++;
            if (draw(2)) {
                uint64_t code = judged(&b, latencies);
                mo_asked asked = ask(&state, &b), wanted = wanted_asked(&beside, &b, MO_NUMBER(code), MO_PLACE(code), latencies);

                asks_met[MO_NUMBER(code)]++;
                right += memcmp(&asked, &wanted, sizeof wanted) == 0;
                state = asked.state;
                beside = wanted.state;
            } else {
                uint64_t number = number_of_commit(&beside, &b);
                mo_committed committed = commit(&state, &b), wanted = wanted_committed(&beside, &b, number);

                commits_answered[number]++;
                right += memcmp(&committed, &wanted, sizeof wanted) == 0;
                state = committed.state;
                beside = wanted.state;
            }
            keeps += judged(&state.running, latencies) == 0;
        }
    }
    expect("calls of lists of asks and commits, thousands", tried, 120 * 40);
    expect("  answered as told, byte by byte", right, tried);
    expect("  after which what runs keeps its bounds", keeps, tried);
    expect("  many asks accepted", asks_met[0] > 400, 1);
    expect("  many refused with 8", asks_met[8] > 100, 1);
    expect("  some refused with 7", asks_met[7] > 10, 1);
    expect("  some refused with 21", asks_met[21] > 10, 1);
    expect("  many commits accepted", commits_answered[0] > 200, 1);
    expect("  many without a proposal", commits_answered[MO_NO_PROPOSAL] > 200, 1);
    expect("  many of another one", commits_answered[MO_OTHER_PROPOSAL] > 200, 1);
}

/* ---- From any depth */

#define DEPTHS 40u

static mo_asked asked_at[DEPTHS];
static mo_committed committed_at[DEPTHS];
static mo_made_state made_at[DEPTHS];

/* The same calls from ever deeper frames, whose own bytes stay. */
static void deeper(size_t level, mo_state s, mo_bounded b)
{
    unsigned char around[1 + 8 * (level % 7) + 100 * (level % 3)];
    mo_state state = s;
    mo_bounded named = b;

    memset(around, (int)level, sizeof around);
    made_at[level] = mo_make_state(b);
    asked_at[level] = mo_ask(s, b);
    if (level + 1 < DEPTHS)
        deeper(level + 1, asked_at[level].state, b);
    committed_at[level] = mo_commit(asked_at[level].state, b);
    calls += 3;
    handed(&s, &state, sizeof s);
    handed(&b, &named, sizeof b);
    for (size_t i = 0; i < sizeof around; i++)
        astray += around[i] != level;
}

static void check_depths(void)
{
    mo_state state = state_of(&ab);
    mo_bounded b = strewn(&g);
    mo_made_state made = wanted_made(&g, 0, 0);
    mo_asked asked = wanted_asked(&state, &g, 0, 0, BOUNDS(20, 12));
    mo_committed committed = wanted_committed(&asked.state, &g, 0);
    uint64_t right = 0;

    deeper(0, state, b);
    for (size_t i = 0; i < DEPTHS; i++)
        right += memcmp(&made_at[i], &made, sizeof made) == 0 && memcmp(&asked_at[i], &asked, sizeof asked) == 0 && memcmp(&committed_at[i], &committed, sizeof committed) == 0;
    expect("the same answers from every depth", right, DEPTHS);
}

int main(void)
{
    check_firmware();
    check_lists();
    check_any_lists();
    check_worked();
    check_zeros();
    check_limits();
    check_chains();
    check_order();
    check_full();
    check_almost();
    check_any_state();
    check_latencies();
    check_histories();
    check_depths();
    expect("calls in all, tens of thousands", calls > 50000, 1);
    expect("  that wrote to what they were handed, or beside it", astray, 0);
    return counted();
}
