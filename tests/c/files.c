/*
 * Schedules and their files through the header, held to document 01's file of chain A and its refusals, and to worked examples of several
 * chains and of a gap. tests/c/run builds and runs it.
 */
#include "meshorchard.h"

#include "expect.h"

#include <string.h>

/* What the numbers and the bytes lent to a call hold before it. */
#define RUBBISH 77u

#define CODE(number, place) ((number) + 256u * (place))

/* Chain A's file: tasks 1 and 2, (4, 4, 0) and (6, 6, 0), the chain 1, 2, and the end. */
static const uint8_t file_a[48] = {
    18, 0, 1, 0, 1, 0, 4, 0, 0, 0, 4, 0, 0, 0, 0, 0, 0, 0,
    18, 0, 1, 0, 2, 0, 6, 0, 0, 0, 6, 0, 0, 0, 0, 0, 0, 0,
    8, 0, 2, 0, 1, 0, 2, 0,
    4, 0, 3, 0,
};

/* Two chains, 1 2 and 3, of tasks (4, 4, 0), (6, 6, 0) and (10, 3, 5). */
static const uint8_t file_s[72] = {
    18, 0, 1, 0, 1, 0, 4, 0, 0, 0, 4, 0, 0, 0, 0, 0, 0, 0,
    18, 0, 1, 0, 2, 0, 6, 0, 0, 0, 6, 0, 0, 0, 0, 0, 0, 0,
    18, 0, 1, 0, 3, 0, 10, 0, 0, 0, 3, 0, 0, 0, 5, 0, 0, 0,
    8, 0, 2, 0, 1, 0, 2, 0,
    6, 0, 2, 0, 3, 0,
    4, 0, 3, 0,
};

/* One task, (4, 4, 0), and the chain 1 five times. With four of them the file has 46 bytes. */
static const uint8_t five[52] = {
    18, 0, 1, 0, 1, 0, 4, 0, 0, 0, 4, 0, 0, 0, 0, 0, 0, 0,
    6, 0, 2, 0, 1, 0,
    6, 0, 2, 0, 1, 0,
    6, 0, 2, 0, 1, 0,
    6, 0, 2, 0, 1, 0,
    6, 0, 2, 0, 1, 0,
    4, 0, 3, 0,
};

/* One task, (4, 4, 0), the chain 1 1, and gap 1. */
static const uint8_t file_g[36] = {
    18, 0, 1, 0, 1, 0, 4, 0, 0, 0, 4, 0, 0, 0, 0, 0, 0, 0,
    8, 0, 2, 0, 1, 0, 1, 0,
    6, 0, 4, 0, 1, 0,
    4, 0, 3, 0,
};

static uint64_t tasks[128], chains[48], places[4], counts[3], flat[36], chain_places;
static uint8_t out[96];
static uint64_t length;

static uint64_t read_file(const uint8_t *bytes, size_t n)
{
    for (size_t i = 0; i < 128; i++)
        tasks[i] = RUBBISH;
    for (size_t i = 0; i < 48; i++)
        chains[i] = RUBBISH;
    for (size_t i = 0; i < 4; i++)
        places[i] = RUBBISH;
    counts[0] = counts[1] = counts[2] = RUBBISH;
    return mo_read_file(bytes, n, tasks, chains, places, counts);
}

/* The entries of a list from one on that are not 0. */
static uint64_t other_than_0(const uint64_t *list, size_t from, size_t n)
{
    uint64_t found = 0;

    for (size_t i = from; i < n; i++)
        found += list[i] != 0;
    return found;
}

/* What a refused reading must not leave. */
static uint64_t left_by_reading(void)
{
    return other_than_0(tasks, 0, 128) + other_than_0(chains, 0, 48) + other_than_0(places, 0, 4) + other_than_0(counts, 0, 3);
}

static void check_reading(void)
{
    static const uint64_t wanted[8] = { 1, 4, 4, 0, 2, 6, 6, 0 };

    expect("A's file", read_file(file_a, 48), 0);
    expect("  tasks", counts[0], 2);
    expect("  chains", counts[1], 1);
    expect("  gap", counts[2], 0);
    expect("  places", places[0], 2);
    for (size_t i = 0; i < 8; i++)
        expect("  number, T, D or F", tasks[i], wanted[i]);
    expect("  place 1", chains[0], 1);
    expect("  place 2", chains[1], 2);
    expect("  other than 0 past the tasks", other_than_0(tasks, 8, 128), 0);
    expect("  other than 0 past the chain", other_than_0(chains, 2, 48), 0);
    expect("  other than 0 past its places", other_than_0(places, 1, 4), 0);
}

/* Two chains, and four. */
static void check_reading_chains(void)
{
    expect("the file of two chains", read_file(file_s, 72), 0);
    expect("  tasks", counts[0], 3);
    expect("  chains", counts[1], 2);
    expect("  places of the first", places[0], 2);
    expect("  places of the second", places[1], 1);
    expect("  place 1 of the first", chains[0], 1);
    expect("  place 2 of the first", chains[1], 2);
    expect("  other than 0 between the chains", other_than_0(chains, 2, 12), 0);
    expect("  place 1 of the second", chains[12], 3);
    expect("  other than 0 past the second", other_than_0(chains, 13, 48), 0);
    expect("  other than 0 past the places", other_than_0(places, 2, 4), 0);
    memcpy(out, five, 42);
    memcpy(out + 42, five + 48, 4);
    expect("the file of four chains", read_file(out, 46), 0);
    expect("  tasks", counts[0], 1);
    expect("  chains", counts[1], 4);
    for (size_t i = 0; i < 4; i++) {
        expect("  places", places[i], 1);
        expect("  place 1", chains[12 * i], 1);
        expect("  other than 0 past it", other_than_0(chains, 12 * i + 1, 12 * i + 12), 0);
    }
}

/* Reads `n` bytes of A's file, with one byte changed and five more after the end; they must be refused so. */
static void refused(const char *what, size_t at, uint8_t byte, size_t n, uint64_t wanted)
{
    uint8_t bytes[53], kept[53];

    memcpy(bytes, file_a, 48);
    memcpy(bytes + 48, file_a + 43, 5);
    bytes[at] = byte;
    memcpy(kept, bytes, 53);
    expect(what, read_file(bytes, n), wanted);
    expect("  other than 0", left_by_reading(), 0);
    expect("  bytes written", memcmp(bytes, kept, 53) != 0, 0);
}

/* Reads the first `n` bytes of the file of two chains or of five, with one byte changed; they must be refused so. */
static void refused_chains(const char *what, const uint8_t *file, size_t n, size_t at, uint8_t byte, uint64_t wanted)
{
    memcpy(out, file, n);
    out[at] = byte;
    expect(what, read_file(out, n), wanted);
    expect("  other than 0", left_by_reading(), 0);
}

static void check_refused_reading(void)
{
    refused("no bytes", 0, 18, 0, CODE(MO_FILE_ENDS_EARLY, 0));
    refused("no end", 0, 18, 44, CODE(MO_FILE_ENDS_EARLY, 44));
    refused("three bytes of the end", 0, 18, 47, CODE(MO_FILE_ENDS_EARLY, 44));
    refused("the second task's length 3", 18, 3, 48, CODE(MO_RECORD_LENGTH_WRONG, 18));
    refused("the end's length 5, past the file", 44, 5, 48, CODE(MO_FILE_ENDS_EARLY, 44));
    refused("kind 5", 38, 5, 48, CODE(MO_RECORD_KIND_UNKNOWN, 36));
    refused("kind 4 of another length", 38, 4, 48, CODE(MO_RECORD_LENGTH_WRONG, 36));
    refused("the first task's length 19", 0, 19, 48, CODE(MO_RECORD_LENGTH_WRONG, 0));
    refused("a chain of no place", 36, 4, 48, CODE(MO_RECORD_LENGTH_WRONG, 36));
    refused("a byte after the end", 0, 18, 49, CODE(MO_RECORD_OUT_OF_TURN, 48));
    refused("five bytes after the end", 0, 18, 53, CODE(MO_RECORD_OUT_OF_TURN, 48));
    refused("task number 0", 4, 0, 48, CODE(MO_TASK_OUTSIDE_LIMITS, 0));
    refused("task number 1 twice", 22, 1, 48, CODE(MO_TASK_OUTSIDE_LIMITS, 18));
    refused("a period of 0", 24, 0, 48, CODE(MO_TASK_OUTSIDE_LIMITS, 18));
    refused("a phase above its limit", 35, 1, 48, CODE(MO_TASK_OUTSIDE_LIMITS, 18));
    refused("task 3 in the chain", 42, 3, 48, CODE(MO_TASK_UNKNOWN, 36));
    expect("the chain first", read_file(file_a + 36, 12), CODE(MO_RECORD_OUT_OF_TURN, 0));
    expect("the end first", read_file(file_a + 44, 4), CODE(MO_RECORD_OUT_OF_TURN, 0));
    refused_chains("a fifth chain", five, 52, 0, 18, CODE(MO_RECORD_OUT_OF_TURN, 42));
    refused_chains("a fifth chain with an unknown task", five, 52, 46, 9, CODE(MO_RECORD_OUT_OF_TURN, 42));
    refused_chains("a fifth chain of a wrong length", five, 52, 42, 7, CODE(MO_RECORD_LENGTH_WRONG, 42));
    refused_chains("a fifth chain that runs past the file", five, 48, 42, 8, CODE(MO_FILE_ENDS_EARLY, 42));
    refused_chains("four chains and no end", five, 42, 0, 18, CODE(MO_FILE_ENDS_EARLY, 42));
    refused_chains("an unknown task in the second of two chains", file_s, 72, 66, 4, CODE(MO_TASK_UNKNOWN, 62));
    refused_chains("a second chain of no place", file_s, 72, 62, 4, CODE(MO_RECORD_LENGTH_WRONG, 62));
    refused_chains("a task for the second chain", file_s, 72, 64, 1, CODE(MO_RECORD_LENGTH_WRONG, 62));
    memcpy(out, file_s, 62);
    memcpy(out + 62, file_s + 36, 18);
    expect("a task after a chain", read_file(out, 80), CODE(MO_RECORD_OUT_OF_TURN, 62));
    memcpy(out + 62, file_s + 62, 6);
    memcpy(out + 68, file_s + 36, 18);
    expect("a task after two chains", read_file(out, 86), CODE(MO_RECORD_OUT_OF_TURN, 68));
}

/* Records of a file with a gap, and others that are like one of a gap. */
static const struct {
    const char *name;
    size_t size;
    uint8_t bytes[18];
} kinds[7] = {
    { "task", 18, { 18, 0, 1, 0, 1, 0, 4, 0, 0, 0, 4, 0, 0, 0, 0, 0, 0, 0 } },
    { "chain", 8, { 8, 0, 2, 0, 1, 0, 1, 0 } },
    { "gap", 6, { 6, 0, 4, 0 } },
    { "longer-gap", 8, { 8, 0, 4, 0 } },
    { "shorter-gap", 4, { 4, 0, 4, 0 } },
    { "kind-5", 6, { 6, 0, 5, 0 } },
    { "end", 4, { 4, 0, 3, 0 } },
};

/* Puts the named records into out, one after another, the gaps with that value, and answers their length. */
static size_t assemble(const char *names, unsigned value)
{
    size_t n = 0;

    while (*names) {
        size_t letters = strcspn(names, " ");

        for (size_t i = 0; i < 7; i++) {
            if (strlen(kinds[i].name) != letters || strncmp(kinds[i].name, names, letters) != 0)
                continue;
            memcpy(out + n, kinds[i].bytes, kinds[i].size);
            if (kinds[i].bytes[2] > 3 && kinds[i].size > 4) {
                out[n + 4] = (uint8_t)value;
                out[n + 5] = (uint8_t)(value / 256);
            }
            n += kinds[i].size;
        }
        names += letters + strspn(names + letters, " ");
    }
    return n;
}

static void accepted_gap(const char *names, unsigned value, uint64_t chain_count)
{
    expect(names, read_file(out, assemble(names, value)), 0);
    expect("  tasks", counts[0], 1);
    expect("  chains", counts[1], chain_count);
    expect("  gap", counts[2], value);
    expect("  other than 0 past the task", other_than_0(tasks, 4, 128), 0);
    expect("  other than 0 past the places", other_than_0(places, chain_count, 4), 0);
}

static void refused_gap(const char *names, unsigned value, uint64_t wanted)
{
    expect(names, read_file(out, assemble(names, value)), wanted);
    expect("  other than 0", left_by_reading(), 0);
}

static void check_reading_gaps(void)
{
    static const unsigned accepted[6] = { 1, 2, 255, 256, 999, 1000 }, others[5] = { 0, 1001, 1024, 32768, 65535 };

    expect("the file with gap 1, its length", assemble("task chain gap end", 1), 36);
    expect("  other bytes", memcmp(out, file_g, 36) != 0, 0);
    for (size_t i = 0; i < 6; i++) {
        accepted_gap("task chain gap end", accepted[i], 1);
        accepted_gap("task chain chain chain chain gap end", accepted[i], 4);
    }
    for (size_t i = 0; i < 5; i++) {
        refused_gap("task chain gap end", others[i], CODE(MO_TASK_OUTSIDE_LIMITS, 26));
        refused_gap("task chain chain chain chain gap end", others[i], CODE(MO_TASK_OUTSIDE_LIMITS, 50));
        refused_gap("task gap chain end", others[i], CODE(MO_RECORD_OUT_OF_TURN, 18));
        refused_gap("gap task chain end", others[i], CODE(MO_RECORD_OUT_OF_TURN, 0));
        refused_gap("task chain longer-gap end", others[i], CODE(MO_RECORD_LENGTH_WRONG, 26));
    }
    refused_gap("task chain gap gap end", 1, CODE(MO_RECORD_OUT_OF_TURN, 32));
    refused_gap("task gap chain end", 1, CODE(MO_RECORD_OUT_OF_TURN, 18));
    refused_gap("gap task chain end", 1, CODE(MO_RECORD_OUT_OF_TURN, 0));
    refused_gap("task chain gap chain end", 1, CODE(MO_RECORD_OUT_OF_TURN, 32));
    refused_gap("task chain gap task end", 1, CODE(MO_RECORD_OUT_OF_TURN, 32));
    refused_gap("task chain gap end end", 1, CODE(MO_RECORD_OUT_OF_TURN, 36));
    refused_gap("task chain end gap", 1, CODE(MO_RECORD_OUT_OF_TURN, 30));
    refused_gap("task chain longer-gap end", 1, CODE(MO_RECORD_LENGTH_WRONG, 26));
    refused_gap("task longer-gap chain end", 1, CODE(MO_RECORD_LENGTH_WRONG, 18));
    refused_gap("task chain gap longer-gap end", 1, CODE(MO_RECORD_LENGTH_WRONG, 32));
    refused_gap("task chain shorter-gap end", 1, CODE(MO_RECORD_LENGTH_WRONG, 26));
    refused_gap("task chain kind-5 end", 1, CODE(MO_RECORD_KIND_UNKNOWN, 26));
    refused_gap("task chain gap", 1, CODE(MO_FILE_ENDS_EARLY, 32));
    expect("five bytes of the gap", read_file(file_g, 31), CODE(MO_FILE_ENDS_EARLY, 26));
    expect("  other than 0", left_by_reading(), 0);
}

/* A schedule as it is lent to the calls. */
struct lent {
    const uint64_t *tasks;
    size_t tasks_length, count;
    const uint64_t *chains;
    size_t chains_length;
    const uint64_t *places;
    size_t places_length, chain_count;
    uint64_t gap;
};

/* Chain A's schedule. The last task, the last place and the second number of places are no part of it. */
static const uint64_t tasks_a[12] = { 1, 4, 4, 0, 2, 6, 6, 0, 0, UINT64_MAX, 0, 9 };
static const uint64_t chain_a[3] = { 1, 2, UINT64_MAX };
static const uint64_t places_a[2] = { 2, UINT64_MAX };
static const struct lent a = { tasks_a, 12, 2, chain_a, 3, places_a, 2, 1, 0 };

/* The schedule of two chains. The lists just hold it: the second chain begins at entry 12, and between lies what is no part of it. */
static const uint64_t tasks_s[12] = { 1, 4, 4, 0, 2, 6, 6, 0, 3, 10, 3, 5 };
static const uint64_t chains_s[13] = { 1, 2, 9, 9, 9, 9, 9, 9, 9, 9, 9, UINT64_MAX, 3 };
static const uint64_t places_s[2] = { 2, 1 };
static const struct lent s = { tasks_s, 12, 3, chains_s, 13, places_s, 2, 2, 0 };

/* The schedule of the file with gap 1. */
static const uint64_t tasks_g[4] = { 1, 4, 4, 0 };
static const uint64_t chain_g[2] = { 1, 1 };
static const uint64_t places_g[1] = { 2 };
static const struct lent g = { tasks_g, 4, 1, chain_g, 2, places_g, 1, 1, 1 };

static uint64_t write_file(struct lent l, size_t lent)
{
    memset(out, RUBBISH, sizeof out);
    length = RUBBISH;
    return mo_write_file(l.tasks, l.tasks_length, l.count, l.chains, l.chains_length, l.places, l.places_length, l.chain_count, l.gap, out,
                         lent, &length);
}

static uint64_t chain_of_schedule(struct lent l, size_t number)
{
    memset(flat, 0xff, sizeof flat);
    chain_places = RUBBISH;
    return mo_chain_of_schedule(l.tasks, l.tasks_length, l.count, l.chains, l.chains_length, l.places, l.places_length, l.chain_count, l.gap,
                                number, flat, &chain_places);
}

/* What reading left in the arrays. */
static struct lent read_schedule(void)
{
    return (struct lent){ tasks, 128, counts[0], chains, 48, places, 4, counts[1], counts[2] };
}

/* The bytes of out from one on that are no longer rubbish. */
static uint64_t written_from(size_t from)
{
    uint64_t found = 0;

    for (size_t i = from; i < sizeof out; i++)
        found += out[i] != RUBBISH;
    return found;
}

static void written(const char *what, struct lent l, size_t lent, const uint8_t *file, size_t n)
{
    expect(what, write_file(l, lent), 0);
    expect("  its length", length, n);
    expect("  other bytes than the file's", memcmp(out, file, n) != 0, 0);
    expect("  bytes written past it", written_from(n), 0);
}

static void check_writing(void)
{
    static const uint64_t one[4] = { 1, 4, 4, 0 };
    static const uint64_t ones[37] = { [0] = 1, [12] = 1, [24] = 1, [36] = 1 };
    static const uint64_t places_of_ones[4] = { 1, 1, 1, 1 };
    uint8_t file[46];

    read_file(file_a, 48);
    written("A's file again", read_schedule(), 64, file_a, 48);
    written("A's schedule into just 48 bytes", a, 48, file_a, 48);
    read_file(file_s, 72);
    written("the file of two chains again", read_schedule(), 96, file_s, 72);
    written("two chains from lists that just hold them", s, 72, file_s, 72);
    memcpy(file, five, 42);
    memcpy(file + 42, five + 48, 4);
    written("four chains", (struct lent){ one, 4, 1, ones, 37, places_of_ones, 4, 4, 0 }, 46, file, 46);
    read_file(file_g, 36);
    written("the file with gap 1 again", read_schedule(), 64, file_g, 36);
    written("its schedule into just 36 bytes", g, 36, file_g, 36);
    memcpy(file, file_g, 26);
    memcpy(file + 26, file_g + 32, 4);
    written("without its gap", (struct lent){ tasks_g, 4, 1, chain_g, 2, places_g, 1, 1, 0 }, 30, file, 30);
    memcpy(file, file_g, 36);
    file[30] = 232;
    file[31] = 3;
    written("with gap 1,000", (struct lent){ tasks_g, 4, 1, chain_g, 2, places_g, 1, 1, 1000 }, 36, file, 36);
}

static void not_written(const char *what, uint64_t code, uint64_t wanted)
{
    expect(what, code, wanted);
    expect("  its length", length, 0);
    expect("  bytes written", written_from(0), 0);
}

/* Neither written nor any chain of it chosen. */
static void refused_schedule(const char *what, struct lent l, uint64_t wanted)
{
    static const size_t numbers[5] = { 1, 2, 0, 9, SIZE_MAX };

    not_written(what, write_file(l, 96), wanted);
    for (size_t i = 0; i < 5; i++) {
        expect("  the chain of a number", chain_of_schedule(l, numbers[i]), wanted);
        expect("  its numbers and its places", other_than_0(flat, 0, 36) + chain_places, 0);
    }
}

static void check_refused_schedules(void)
{
    static const uint64_t falling[8] = { 2, 6, 6, 0, 1, 4, 4, 0 };
    static const uint64_t wide[8] = { 1, 4, 4, 0, 65536, 6, 6, 0 };
    static const uint64_t strange[2] = { 1, UINT64_MAX };
    static const uint64_t many[132] = { 0 };
    static const uint64_t thirteen[1] = { 13 };
    static const uint64_t none[1] = { 0 };
    static const uint64_t endless[2] = { 2, UINT64_MAX };
    static const uint64_t chain_nine[2] = { 1, 9 };
    /* The chains 1; 1 9; 1 of the first task alone, and the chains 9 and thirteen times 1. */
    static const uint64_t second[25] = { [0] = 1, [12] = 1, [13] = 9, [24] = 1 };
    static const uint64_t places_second[3] = { 1, 2, 1 };
    static const uint64_t long_second[25] = { [0] = 9, [12] = 1, 1, 1, 1, 1, 1, 1, 1, 1, 1, 1, 1, 1 };
    static const uint64_t places_long[2] = { 1, 13 };
    uint64_t ones[60];

    for (size_t i = 0; i < 60; i++)
        ones[i] = 1;
    refused_schedule("no tasks", (struct lent){ tasks_a, 12, 0, chain_a, 3, places_a, 2, 1, 0 }, MO_PLACES_OUTSIDE_LIMITS);
    refused_schedule("33 tasks", (struct lent){ many, 132, 33, chain_a, 3, places_a, 2, 1, 0 }, MO_PLACES_OUTSIDE_LIMITS);
    refused_schedule("no chain", (struct lent){ tasks_a, 12, 2, chain_a, 3, places_a, 2, 0, 0 }, MO_PLACES_OUTSIDE_LIMITS);
    refused_schedule("five chains", (struct lent){ tasks_a, 12, 2, ones, 60, ones, 60, 5, 0 }, MO_PLACES_OUTSIDE_LIMITS);
    refused_schedule("no places", (struct lent){ tasks_a, 12, 2, chain_a, 3, none, 1, 1, 0 }, MO_PLACES_OUTSIDE_LIMITS);
    refused_schedule("13 places", (struct lent){ tasks_a, 12, 2, ones, 60, thirteen, 1, 1, 0 }, MO_PLACES_OUTSIDE_LIMITS);
    refused_schedule("an unknown task in the first chain, 13 places in the second",
                     (struct lent){ tasks_a, 12, 1, long_second, 25, places_long, 2, 2, 0 }, MO_PLACES_OUTSIDE_LIMITS);
    refused_schedule("more tasks than the list holds", (struct lent){ tasks_a, 8, 3, chain_a, 3, places_a, 2, 1, 0 }, MO_PLACES_OUTSIDE_LIMITS);
    refused_schedule("a list of no whole tasks", (struct lent){ tasks_a, 11, 2, chain_a, 3, places_a, 2, 1, 0 }, MO_PLACES_OUTSIDE_LIMITS);
    refused_schedule("more places than the list holds", (struct lent){ tasks_a, 12, 2, chain_a, 1, places_a, 2, 1, 0 }, MO_PLACES_OUTSIDE_LIMITS);
    refused_schedule("more places of the second chain than the list holds",
                     (struct lent){ tasks_s, 12, 3, chains_s, 12, places_s, 2, 2, 0 }, MO_PLACES_OUTSIDE_LIMITS);
    refused_schedule("a second chain of more places than there are numbers",
                     (struct lent){ tasks_s, 12, 3, chains_s, 13, endless, 2, 2, 0 }, MO_PLACES_OUTSIDE_LIMITS);
    refused_schedule("more chains than the list of places holds",
                     (struct lent){ tasks_s, 12, 3, chains_s, 13, places_s, 1, 2, 0 }, MO_PLACES_OUTSIDE_LIMITS);
    refused_schedule("empty lists", (struct lent){ tasks_s, 0, 3, chains_s, 0, places_s, 0, 2, 0 }, MO_PLACES_OUTSIDE_LIMITS);
    refused_schedule("a third task of number 0", (struct lent){ tasks_a, 12, 3, chain_a, 3, places_a, 2, 1, 0 }, CODE(MO_TASK_OUTSIDE_LIMITS, 3));
    refused_schedule("falling task numbers", (struct lent){ falling, 8, 2, chain_a, 3, places_a, 2, 1, 0 }, CODE(MO_TASK_OUTSIDE_LIMITS, 2));
    refused_schedule("task number 65,536", (struct lent){ wide, 8, 2, chain_a, 3, places_a, 2, 1, 0 }, CODE(MO_TASK_OUTSIDE_LIMITS, 2));
    refused_schedule("a number in the chain that no task has",
                     (struct lent){ tasks_a, 12, 2, strange, 2, places_a, 2, 1, 0 }, CODE(MO_TASK_UNKNOWN, 2));
    refused_schedule("a task that is not counted", (struct lent){ tasks_a, 12, 1, chain_a, 3, places_a, 2, 1, 0 }, CODE(MO_TASK_UNKNOWN, 2));
    refused_schedule("an unknown task in the second of three chains",
                     (struct lent){ tasks_a, 12, 1, second, 25, places_second, 3, 3, 0 }, CODE(MO_TASK_UNKNOWN, 2));
    refused_schedule("gap 1,001", (struct lent){ tasks_a, 12, 2, chain_a, 3, places_a, 2, 1, 1001 }, CODE(MO_TASK_OUTSIDE_LIMITS, 0));
    refused_schedule("a gap that would pass with 16 bits", (struct lent){ tasks_a, 12, 2, chain_a, 3, places_a, 2, 1, 65537 },
                     CODE(MO_TASK_OUTSIDE_LIMITS, 0));
    refused_schedule("the largest gap", (struct lent){ tasks_s, 12, 3, chains_s, 13, places_s, 2, 2, UINT64_MAX }, CODE(MO_TASK_OUTSIDE_LIMITS, 0));
    refused_schedule("gap 1,001 and no tasks", (struct lent){ tasks_a, 12, 0, chain_a, 3, places_a, 2, 1, 1001 }, MO_PLACES_OUTSIDE_LIMITS);
    refused_schedule("gap 1,001 and falling task numbers", (struct lent){ falling, 8, 2, chain_a, 3, places_a, 2, 1, 1001 },
                     CODE(MO_TASK_OUTSIDE_LIMITS, 2));
    refused_schedule("gap 1,001 and an unknown task", (struct lent){ tasks_a, 12, 1, chain_nine, 2, places_g, 1, 1, 1001 },
                     CODE(MO_TASK_OUTSIDE_LIMITS, 0));
    refused_schedule("gap 1,000 and an unknown task", (struct lent){ tasks_a, 12, 1, chain_nine, 2, places_g, 1, 1, 1000 }, CODE(MO_TASK_UNKNOWN, 2));
    not_written("one byte too few", write_file(a, 47), MO_LISTS_TOO_SHORT);
    not_written("one byte too few for a gap", write_file(g, 35), MO_LISTS_TOO_SHORT);
    not_written("the bytes that it has without the gap", write_file(g, 30), MO_LISTS_TOO_SHORT);
    not_written("one byte too few for two chains", write_file(s, 71), MO_LISTS_TOO_SHORT);
    not_written("no bytes lent", write_file(a, 0), MO_LISTS_TOO_SHORT);
}

/* The chain of that number: its T, D, F, and 0 past them. */
static void chosen(const char *what, struct lent l, size_t number, const uint64_t *wanted, size_t n)
{
    expect(what, chain_of_schedule(l, number), 0);
    expect("  its places", chain_places, n);
    for (size_t i = 0; i < 3 * n; i++)
        expect("  T, D or F", flat[i], wanted[i]);
    expect("  other than 0 past them", other_than_0(flat, 3 * n, 36), 0);
}

/* A number that no chain has; what is given then is no chain to any call. */
static void not_chosen(const char *what, struct lent l, size_t number)
{
    uint64_t hyperperiod;

    expect(what, chain_of_schedule(l, number), MO_CHAIN_UNKNOWN);
    expect("  its numbers and its places", other_than_0(flat, 0, 36) + chain_places, 0);
    expect("  its check", mo_check(flat, 36, chain_places, l.gap, &hyperperiod), MO_PLACES_OUTSIDE_LIMITS);
}

static void check_choosing(void)
{
    static const uint64_t first[6] = { 4, 4, 0, 6, 6, 0 };
    static const uint64_t second[3] = { 10, 3, 5 };

    chosen("A's chain", a, 1, first, 2);
    not_chosen("chain 0 of A", a, 0);
    not_chosen("chain 2 of A", a, 2);
    chosen("chain 1 of two", s, 1, first, 2);
    chosen("chain 2 of two", s, 2, second, 1);
    not_chosen("chain 3 of two", s, 3);
    not_chosen("the largest number", s, SIZE_MAX);
    chosen("the chain with a gap", g, 1, (const uint64_t[]){ 4, 4, 0, 4, 4, 0 }, 2);
    not_chosen("chain 2 beside it", g, 2);
    memcpy(out, five, 42);
    memcpy(out + 42, five + 48, 4);
    read_file(out, 46);
    for (size_t number = 1; number <= 4; number++)
        chosen("a chain of four", read_schedule(), number, first, 1);
    not_chosen("chain 0 of four", read_schedule(), 0);
    not_chosen("chain 5 of four", read_schedule(), 5);
}

/* From the file of two chains to the table of each. */
static void check_tables(void)
{
    uint64_t starts[4], latencies[4], figures[4];

    read_file(file_s, 72);
    expect("chain 1", chain_of_schedule(read_schedule(), 1), 0);
    expect("its table", mo_make_table(flat, 36, chain_places, counts[2], 2, starts, 4, latencies, 4, figures), 0);
    expect("  anchors", figures[0], 2);
    expect("  warm-up tick", figures[1], 0);
    expect("  hyperperiod", figures[2], 12);
    expect("  walked", figures[3], 2);
    expect("  start", starts[0], 0);
    expect("  latency", latencies[0], 18);
    expect("  start", starts[1], 8);
    expect("  latency", latencies[1], 16);
    expect("chain 2", chain_of_schedule(read_schedule(), 2), 0);
    expect("its table", mo_make_table(flat, 36, chain_places, counts[2], 1, starts, 4, latencies, 4, figures), 0);
    expect("  anchors", figures[0], 1);
    expect("  warm-up tick", figures[1], 5);
    expect("  hyperperiod", figures[2], 10);
    expect("  walked", figures[3], 1);
    expect("  start", starts[0], 5);
    expect("  latency", latencies[0], 13);
    /* The gap is handed on from the file to the table: a value written at 4 is readable at 5, so it is read at 8 and not at 4. */
    read_file(file_g, 36);
    expect("the chain with a gap", chain_of_schedule(read_schedule(), 1), 0);
    expect("its table", mo_make_table(flat, 36, chain_places, counts[2], 1, starts, 4, latencies, 4, figures), 0);
    expect("  anchors", figures[0], 1);
    expect("  warm-up tick", figures[1], 0);
    expect("  hyperperiod", figures[2], 4);
    expect("  start", starts[0], 0);
    expect("  latency", latencies[0], 16);
}

int main(void)
{
    check_reading();
    check_reading_chains();
    check_refused_reading();
    check_reading_gaps();
    check_writing();
    check_refused_schedules();
    check_choosing();
    check_tables();
    return counted();
}
