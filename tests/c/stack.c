/*
 * The stack that each call needs, held to the MO_STACK_ numbers of the header: each is run on a stack of its own that is painted before,
 * and what lies above the paint that is left was used. tests/c/run builds and runs it; target/tests/c/stack prints the table by itself.
 */
#define _XOPEN_SOURCE 700
#include "meshorchard.h"

#include "expect.h"

#include <string.h>
#include <ucontext.h>

#define SIZE 262144u
#define PAINT 0xa5

static _Alignas(64) unsigned char stack[SIZE];
static ucontext_t here, there;

/* How far below the top of its stack f reached. memcpy and memset are bound by then: this file calls both before. */
static size_t depth(void (*f)(void))
{
    size_t untouched = 0;

    memset(stack, PAINT, sizeof stack);
    getcontext(&there);
    there.uc_stack.ss_sp = stack;
    there.uc_stack.ss_size = sizeof stack;
    there.uc_link = &here;
    makecontext(&there, f, 0);
    swapcontext(&here, &there);
    while (untouched < SIZE && stack[untouched] == PAINT)
        untouched++;
    return SIZE - untouched;
}

/* ---- what the calls are given: twelve places, long numbers, and every way that ends late */

static uint64_t tasks[36], flat[36], numbered[128], chains[48], places[4], jobs[12], counts[3], figures[4], both[4];
static uint64_t starts[1024], latencies[1024], many[1024];
static uint64_t a, b;
static const uint64_t bounds[4] = { 60011000, 60011000, 60011000, 60011000 };
static mo_bounded bounded, other;
static mo_made_state made;
static mo_asked asked, refused;
static mo_committed committed;
/* The longest gap, so that a file has its record and every link waits. */
static const uint64_t gap = 1000;
static uint8_t file[698], text[MO_LONGEST_REPORT];
static size_t file_length;

static void put(uint64_t value, int bytes)
{
    while (bytes-- > 0) {
        file[file_length++] = (uint8_t)value;
        value /= 256;
    }
}

/* Thirty-two tasks, four chains of twelve places and a gap: the longest file. The hyperperiods, also that of two chains together, are the greatest
 * there is, and the durations too, so that the area of the mean has as many digits as any: a number is written by a call for each digit. */
static void prepare(void)
{
    for (size_t i = 0; i < 32; i++) {
        const uint64_t task[4] = { 65000 + i, i % 2 ? 768 : 78125, 4000000, 1000000 };
        memcpy(numbered + 4 * i, task, sizeof task);
        put(18, 2), put(1, 2), put(task[0], 2), put(task[1], 4), put(task[2], 4), put(task[3], 4);
    }
    for (size_t c = 0; c < 4; c++) {
        places[c] = 12;
        put(28, 2), put(2, 2);
        for (size_t i = 0; i < 12; i++) {
            chains[12 * c + i] = 65020 - 5 * c + i;
            put(chains[12 * c + i], 2);
        }
    }
    for (size_t i = 0; i < 12; i++)
        memcpy(tasks + 3 * i, numbered + 4 * (20 + i) + 1, 3 * sizeof *tasks);
    put(6, 2), put(4, 2), put(gap, 2);
    put(4, 2), put(3, 2);
}

/* How many digits the area of the mean has, from the report. */
static size_t mean_digits(void)
{
    const char *line = strstr((const char *)text, "mean ");

    return line ? strspn(line + 5, "0123456789") : 0;
}

static void nothing(void) { }
static void check(void) { mo_check(tasks, 36, 12, gap, &a); }
static void warm_up(void) { mo_warm_up(tasks, 36, 12, gap, jobs, &a, &b); }
static void delay(void) { mo_delay(tasks, 36, 12, gap, 999999999999u, &a); }
static void age(void) { mo_age(tasks, 36, 12, gap, 999999999999u, &a); }
static void make_table(void) { mo_make_table(tasks, 36, 12, gap, 7, starts, 1024, latencies, 1024, figures); }
static void read_table(void) { a = mo_read_table(starts, 1024, latencies, 1024, figures[0], figures[2], 999999999999u); }
static void greatest(void) { mo_greatest(starts, 1024, latencies, 1024, figures[0], figures[2], &a); }
static void low(void) { mo_low(starts, 1024, latencies, 1024, figures[0], figures[2], &a); }
static void mean(void) { mo_mean(starts, 1024, latencies, 1024, figures[0], figures[2], &a, &b); }
static void throughput(void) { mo_throughput(starts, 1024, latencies, 1024, figures[0], figures[2], &a, &b); }
static void histogram(void) { mo_histogram(starts, 1024, latencies, 1024, figures[0], figures[2], 50000, many, 1024, &a); }
static void exceedance(void) { mo_exceedance(starts, 1024, latencies, 1024, figures[0], figures[2], 48000000, &a, &b); }
/* A bound that some jobs miss and no 100 in a row, so that the call looks twice. */
static void windows(void) { mo_windows(tasks, 36, 12, gap, 48235600, 100, &a, &b); }
/* Two sections of six places, so that partitions are stepped to. */
static void sections(void) { mo_sections(tasks, 36, 12, gap, (const uint64_t[]){ 6 }, 1, jobs, &a, &b); }
static void load(void) { a = mo_load(1234567890123456789u, 12, flat); }
static void read_file(void) { mo_read_file(file, file_length, numbered, chains, places, counts); }
static void write_file(void) { mo_write_file(numbered, 128, 32, chains, 48, places, 4, 4, gap, text, sizeof text, &a); }
static void chain_of_schedule(void) { mo_chain_of_schedule(numbered, 128, 32, chains, 48, places, 4, 4, gap, 4, flat, &b); }
static void bookings(void) { mo_bookings(numbered, 128, 32, chains, 48, places, 4, 4, gap, 1, 4, 999999999999u, both); }
/* A bound that every partition keeps at phase 0 of the task, so that the walk goes all the way round. */
static void smallest_phase(void) { both[0] = mo_smallest_phase(numbered, 128, 32, chains, 48, places, 4, 4, gap, 4, 65015, 52000000, &a, &b); }
/* The instrument's state. C hands structs by value on the stack: the copies of those that a call is given, and room for the one that it hands back, lie in the frame of the function here that calls
 * it. They are counted, as are the plain numbers that C hands on the stack to the calls above, so the numbers hold wherever a caller keeps what it gives and gets. */
static void bounded_schedule(void) { bounded = mo_bounded_schedule(numbered, 128, 32, chains, 48, places, 4, 4, gap, bounds); }
static void make_state(void) { made = mo_make_state(bounded); }
static void ask(void) { asked = mo_ask(made.state, bounded); }
static void ask_other(void) { refused = mo_ask(asked.state, other); }
static void commit(void) { committed = mo_commit(asked.state, bounded); }
static void commit_other(void) { committed = mo_commit(asked.state, other); }
static void commit_nothing(void) { committed = mo_commit(made.state, bounded); }
static void report(void) { a = mo_report(file, file_length, text, sizeof text); }

/* A call's depth below that of an empty function is at most what the header says, and no more than `spare` bytes less. */
static void within(const char *what, void (*f)(void), size_t said, size_t spare)
{
    size_t empty = depth(nothing), used = depth(f);
    size_t needs = used > empty ? used - empty : 0;

    if (needs <= said && said <= needs + spare) {
        passed++;
        printf("ok    %s: %zu bytes, the header says %zu\n", what, needs, said);
    } else {
        failed++;
        printf("WRONG %s: %zu bytes, the header says %zu\n", what, needs, said);
    }
}

/* The header's number is not much more than a call needs. */
static void held(const char *what, void (*f)(void), size_t said) { within(what, f, said, 256); }

int main(void)
{
    prepare();
    expect("bytes of the file", file_length, 698);
    held("mo_check", check, MO_STACK_CHECK);
    held("mo_warm_up", warm_up, MO_STACK_WARM_UP);
    held("mo_delay", delay, MO_STACK_DELAY);
    held("mo_age", age, MO_STACK_AGE);
    held("mo_make_table", make_table, MO_STACK_MAKE_TABLE);
    expect("hyperperiod", figures[2], 60000000);
    expect("anchors, many and no more than 1,024", figures[0] > 500 && figures[0] <= 1024, 1);
    held("mo_read_table", read_table, MO_STACK_READ_TABLE);
    held("mo_greatest", greatest, MO_STACK_FIGURES);
    held("mo_low", low, MO_STACK_FIGURES);
    held("mo_mean", mean, MO_STACK_FIGURES);
    held("mo_throughput", throughput, MO_STACK_FIGURES);
    held("mo_exceedance", exceedance, MO_STACK_FIGURES);
    held("mo_histogram", histogram, MO_STACK_HISTOGRAM);
    for (size_t i = 0; i < 1024; i++)
        a += many[i];
    expect("all ticks, in the list and beyond it", a, 60000000);
    held("mo_windows", windows, MO_STACK_WINDOWS);
    expect("some jobs miss, and no 100 in a row", a > 0 && a < 100, 1);
    held("mo_sections", sections, MO_STACK_SECTIONS);
    expect("two sections", a, 2);
    held("mo_load", load, MO_STACK_LOAD);
    expect("a load, and not a refusal", a == 0 && flat[33] > 0, 1);
    held("mo_read_file", read_file, MO_STACK_READ_FILE);
    expect("the gap that was read", counts[2], gap);
    held("mo_write_file", write_file, MO_STACK_WRITE_FILE);
    expect("file written", a, 698);
    held("mo_chain_of_schedule", chain_of_schedule, MO_STACK_CHAIN_OF_SCHEDULE);
    expect("places of the chain", b, 12);
    held("mo_bookings", bookings, MO_STACK_BOOKINGS);
    expect("bookings, and not a refusal", both[0] > 999999999999u, 1);
    held("mo_smallest_phase", smallest_phase, MO_STACK_SMALLEST_PHASE);
    expect("a phase, and neither none nor a refusal", both[0] == 0 && a == 0 && b == 0, 1);
    held("mo_bounded_schedule", bounded_schedule, MO_STACK_BOUNDED_SCHEDULE);
    expect("tasks of the schedule", bounded.schedule.count, 32);
    held("mo_make_state", make_state, MO_STACK_MAKE_STATE);
    expect("a state, and not a refusal", made.refusal.number == 0 && made.state.running.schedule.count == 32, 1);
    held("mo_ask", ask, MO_STACK_ASK);
    expect("four latencies, and not a refusal", asked.refusal.number == 0 && asked.latencies[0] > 48000000 && asked.latencies[3] > 48000000, 1);
    /* The last bound is missed, by 1. */
    other = bounded;
    other.bounds[3] = asked.latencies[3] - 1;
    held("mo_ask, above a bound", ask_other, MO_STACK_ASK);
    expect("above a bound", refused.refusal.number, MO_ABOVE_BOUND);
    held("mo_commit, of another one", commit_other, MO_STACK_COMMIT);
    expect("another one, by its last bound", committed.refusal.number, MO_OTHER_PROPOSAL);
    /* Where nothing was asked, the call ends before it compares, and needs less. */
    within("mo_commit, of nothing", commit_nothing, MO_STACK_COMMIT, 8192);
    expect("no proposal", committed.refusal.number, MO_NO_PROPOSAL);
    held("mo_commit", commit, MO_STACK_COMMIT);
    expect("it runs, and is not refused", committed.refusal.number == 0 && committed.state.running.schedule.count == 32, 1);
    held("mo_report", report, MO_STACK_REPORT);
    expect("digits of the mean's area", mean_digits(), 16);
    return counted();
}
