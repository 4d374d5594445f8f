/*
 * Meshorchard: delay tables for chains of fixed-duration tasks, for the instrument's firmware and for hosts.
 *
 * All times are whole ticks; a tick is 1 microsecond. The calls keep nothing, allocate nothing and always return. They answer for any
 * values: none of the arguments has to be checked first.
 *
 * Lists and numbers are lent for the time of a call. A list is a pointer and the number of its entries; only mo_make_table, mo_histogram,
 * mo_write_file and mo_report write to lists. A number that a call gives is lent as a pointer, several of them as an array that the call writes whole.
 * No pointer may be null, also that of a list of 0 entries, and each must point to as many entries as are named. The numbers, arrays and
 * lists that a call writes lie apart from each other and from all else that is lent to it: the compiled code counts on that, so where they
 * overlap the answers may be wrong and the call may even stop the program. Nothing that a call was proved to do holds then.
 *
 * Archives, made by host/archives below target/staticlib; they can be linked together:
 *   libtable.a          mo_read_table
 *   libcapi_figures.a   mo_greatest, mo_low, mo_mean, mo_throughput, mo_exceedance
 *   libcapi_histogram.a mo_histogram
 *   libcapi_timing.a    mo_check, mo_warm_up, mo_delay, mo_age
 *   libcapi_maker.a     mo_make_table
 *   libcapi_windows.a   mo_windows
 *   libcapi_sections.a  mo_sections
 *   libcapi_load.a      mo_load
 *   libcapi_file.a      mo_read_file, mo_write_file, mo_chain_of_schedule
 *   libcapi_bookings.a  mo_bookings
 *   libcapi_phase.a     mo_smallest_phase
 *   libcapi_instrument.a mo_bounded_schedule, mo_make_state, mo_ask, mo_commit
 *   libcapi_report.a    mo_report
 * libcapi_file.a, libcapi_bookings.a, libcapi_phase.a, libcapi_instrument.a and libcapi_report.a need memcpy and memset from the C library, libcapi_maker.a, libcapi_windows.a,
 * libcapi_sections.a, libcapi_histogram.a and libcapi_load.a memset; the other three need nothing (`nm -u` on an archive tells; tests/c/run looks).
 *
 * The archives are for x86-64, in position-independent code that uses its SSE2 registers. The proofs say nothing of a processor, but the
 * toolchain has only a few back ends that turn proved code into machine code, and of these only the one for x86-64 is tried here. On an
 * instrument with another processor the calls wait for such a back end; until then they serve hosts, which may work the table out and
 * hand the instrument its anchors.
 *
 * Time. mo_read_table and the figures take one to three passes over the g anchors; mo_histogram two over the anchors, with two divisions for
 * each of them, and two over its list, however wide the entries are and however long h is; mo_check, mo_warm_up, mo_delay and mo_age a few
 * over the places, and so does mo_load, with one division at each; the calls on files one over the bytes.
 * mo_make_table walks h / T partitions, T being the period at the place of the cut, and a partition costs each place once: with h 60,000,000
 * and twelve places 0.015 ms where the longest period, 78,125, is cut at, and 0.9 s at a place of period 1. Cut at the longest period no
 * chain has more than 3,063,060 partitions, which take 0.05 s at twelve places. The call divides only before the second partition, some 90
 * times at twelve places; from there on a partition takes two multiplications and a shift at each place. mo_windows makes at most
 * 2 * (h / T + k - 1) walks, T being the first place's period: 0.06 ms to 4.7 s for these chains. mo_report makes one table for each chain,
 * cut at the longest period: at most 0.1 s a chain. mo_bookings goes once through the common hyperperiod, from one change of a booking to
 * the next, and a change costs each place of its chain twice: 0.5 s for one place of period 1 beside 768 and 78,125, and at the worst,
 * twelve places of period 1 beside 16, 9, 5, 7, 11, 23 and 47, 10 s.
 * mo_sections walks, of each section, h / T partitions, h being the section's own hyperperiod and T its longest period, and makes no list.
 * A partition costs each of the section's places once, so however a chain is cut, at most 0.05 s: 3,063,060 partitions of twelve places.
 * Cuts cost nothing: the first that is out of order ends the look at them, so no more than twelve are read.
 * mo_smallest_phase tries the phases below the greatest common divisor of the task's period and the least common multiple of the periods of the
 * chain's other tasks, so 10,000 at most, and a try ends at its first partition above the bound. A try divides once or twice at each place. The
 * partitions of all tries are counted in the code, and that count is proved to be at most h, which would take 1 s at twelve places. A try begins
 * where such a partition is likely: most searches take some milliseconds at most, and the longest that was seen 0.2 s, for 13,029,065 partitions
 * at ten places.
 * mo_make_state and mo_ask walk, of each chain, h / T partitions, T being its longest period, and make no list: 0.20 to 0.26 s in six calls with
 * four chains of 3,063,060 partitions of twelve places. They walk all chains before they look at a bound, so a refusal with MO_ABOVE_BOUND takes as long as an answer; every other
 * refusal comes before any walk. mo_commit walks nothing: 0.4 microseconds, as an ask that is refused at once; mo_bounded_schedule takes 0.1.
 * (One run on a server's processor, with the older toolchain; an instrument's takes longer.) Nothing else that is lent makes a call take long.
 *
 * Stack. What each call needs below its caller's frame, in bytes, is MO_STACK_ below: measured on x86-64 and rounded up, not proved. The structs
 * that a call takes and gives by value are in it, and the C library's memcpy and memset, but not the dynamic linker, which a program that binds
 * them at their first call runs there. To measure it again: tests/c/run, which holds the calls to these numbers, then target/tests/c/stack.
 */
#ifndef MESHORCHARD_H
#define MESHORCHARD_H

#include <stddef.h>
#include <stdint.h>

#ifdef __cplusplus
extern "C" {
#endif

#define MO_STACK_CHECK 64u
#define MO_STACK_WARM_UP 320u
#define MO_STACK_DELAY 128u
#define MO_STACK_AGE 128u
#define MO_STACK_MAKE_TABLE 832u
#define MO_STACK_READ_TABLE 128u
#define MO_STACK_FIGURES 128u /* each of mo_greatest, mo_low, mo_mean, mo_throughput and mo_exceedance */
#define MO_STACK_HISTOGRAM 128u
#define MO_STACK_WINDOWS 1216u
#define MO_STACK_SECTIONS 1088u
#define MO_STACK_LOAD 448u
#define MO_STACK_READ_FILE 3520u
#define MO_STACK_WRITE_FILE 4288u
#define MO_STACK_CHAIN_OF_SCHEDULE 5952u
#define MO_STACK_BOOKINGS 7744u
#define MO_STACK_SMALLEST_PHASE 9088u
#define MO_STACK_BOUNDED_SCHEDULE 3136u /* 1,496 of it for the struct handed back */
#define MO_STACK_MAKE_STATE 16640u /* 4,512 of it for the structs handed to the call and back */
#define MO_STACK_ASK 19712u /* 7,544 of it for the structs handed to the call and back */
#define MO_STACK_COMMIT 19008u /* 7,512 of it for the structs handed to the call and back */
#define MO_STACK_REPORT 21184u

/*
 * Refusals: the numbers of document 01, and 16 to 23 of orders 1, 6, 7, 9 and 10 in document 02; order 5 there adds the gap to 5.
 */
#define MO_FILE_ENDS_EARLY 1u          /* reading a file: fewer than 4 bytes remain, or a record runs past the file */
#define MO_RECORD_LENGTH_WRONG 2u      /* reading a file: a length below 4, or one that its kind does not have */
#define MO_RECORD_KIND_UNKNOWN 3u      /* reading a file: the kind is not 1 to 4 */
#define MO_RECORD_OUT_OF_TURN 4u       /* reading a file: a record that may not stand there, or a byte after the end */
#define MO_TASK_OUTSIDE_LIMITS 5u      /* a task's period, duration or phase, in a file or a schedule also its number; or the gap */
#define MO_TASK_UNKNOWN 6u             /* a file or a schedule: a chain has a number that no task has */
#define MO_HYPERPERIOD_TOO_LONG 7u     /* above 60,000,000: that of a chain, or the common one of two */
#define MO_PLACES_OUTSIDE_LIMITS 8u    /* places not 1 to 12, a schedule's tasks not 1 to 32 or chains not 1 to 4, or a list does not hold them */
#define MO_CUT_OUTSIDE_PLACES 9u       /* making: the place of the cut is not one of the chain */
#define MO_LISTS_UNEQUAL 10u           /* making: the two lists have different lengths */
#define MO_LISTS_TOO_SHORT 11u         /* making: shorter than the number of anchors; writing a file: the bytes are fewer than the file's */
#define MO_TICK_TOO_EARLY 12u          /* reading a table: below the first start; a chain: below its first tick for the call */
#define MO_TICK_TOO_LATE 13u           /* above MO_UPPER_TICK */
#define MO_TABLE_NOT_WELL_FORMED 14u
#define MO_WINDOW_OUTSIDE_LIMITS 15u   /* windows: k is not 1 to 100 */
#define MO_CHAIN_UNKNOWN 16u           /* a schedule: it has no chain of that number; they count from 1 */
#define MO_CUTS_NOT_RISING 17u         /* sections: the cuts do not rise strictly, or one is not 1 to places - 1 */
#define MO_WIDTH_ZERO 18u              /* histogram: the width is 0 */
#define MO_TASK_NOT_IN_CHAIN 19u       /* smallest phase: no place of the chain has the task */
#define MO_PERIOD_TOO_LONG 20u         /* smallest phase: the task's period is above 10,000 */
#define MO_ABOVE_BOUND 21u             /* making a state, ask: a chain's greatest latency is above its bound */
#define MO_NO_PROPOSAL 22u             /* commit: no proposal stands */
#define MO_OTHER_PROPOSAL 23u          /* commit: the schedule or a bound differs from the proposal's */

/*
 * Every call but mo_read_table, mo_report and the four on the instrument's state answers a code: 0 for a success, else a refusal's number and 256 times its place. The place is
 *   in every refusal of mo_read_file a byte offset, from 0;
 *   else, for MO_TASK_OUTSIDE_LIMITS, the task's place in the chain, and of a call on a schedule its position among the tasks, from 1; 0 for
 *   the gap;
 *   for MO_TASK_UNKNOWN the place in its own chain, from 1, whichever chain that is;
 *   else 0.
 * Each number lent to the call is written: with what the call gives, and with 0 in a refusal (MO_LISTS_TOO_SHORT of mo_make_table gives
 * its numbers).
 */
#define MO_NUMBER(code) ((code) % 256u)
#define MO_PLACE(code) ((code) / 256u)

#define MO_UPPER_TICK 1000000000000u

/* ---- Tables ----
 *
 * A table is two lists of equal length, its anchor count g and its hyperperiod h. Anchor i (from 0 to g - 1) is starts[i] and
 * latencies[i]; entries from g on are not looked at.
 *
 * The table is judged at each call, in one pass over its anchors. It is well-formed if
 *   starts_length equals latencies_length, and g is from 1 to that length;
 *   h is from 1 to 60,000,000;
 *   starts[0] is at most 1,000,000,000;
 *   the g starts rise strictly and are below starts[0] + h;
 *   each of the g latencies is at most 60,011,000 and greater than the distance from its start to the next start
 *   (for the last anchor, to starts[0] + h).
 */

/*
 * The delay at tick t that a table gives: how long a press at t waits until it is booked. A delay is below MO_REFUSED; a refusal is
 * MO_REFUSED plus its number.
 *
 * Answers, the first that applies:
 *   MO_REFUSED + MO_TABLE_NOT_WELL_FORMED   the table is not well-formed;
 *   MO_REFUSED + MO_TICK_TOO_EARLY          t is below starts[0];
 *   MO_REFUSED + MO_TICK_TOO_LATE           t is above MO_UPPER_TICK;
 *   else the delay in ticks, from 2 to 60,011,000. With u = starts[0] + (t - starts[0]) % h, it is the latency of the last anchor whose
 *   start is at most u, less (u - that start).
 *
 *     uint64_t r = mo_read_table(starts, n, latencies, n, g, h, t);
 *     if (r < MO_REFUSED) { .. r is the delay .. } else { .. r - MO_REFUSED is the refusal's number .. }
 */
#define MO_REFUSED 4294967296u /* 2^32 */

uint64_t mo_read_table(const uint64_t *starts, size_t starts_length,
                       const uint64_t *latencies, size_t latencies_length,
                       uint64_t g, uint64_t h, uint64_t t);

/*
 * The figures of a table. The one refusal is MO_TABLE_NOT_WELL_FORMED, at place 0; "the delays" are those that mo_read_table gives from
 * starts[0] on, without the upper tick.
 */

/* The greatest latency: the largest of the g latencies, which is the greatest delay. */
uint64_t mo_greatest(const uint64_t *starts, size_t starts_length,
                     const uint64_t *latencies, size_t latencies_length,
                     uint64_t g, uint64_t h, uint64_t *latency);

/* Low: the least of latency less distance to the next start, which is the least delay less 1. */
uint64_t mo_low(const uint64_t *starts, size_t starts_length,
                const uint64_t *latencies, size_t latencies_length,
                uint64_t g, uint64_t h, uint64_t *low);

/*
 * The mean delay, by area, is doubled_area / doubled_ticks: twice the sum of the delays at the h ticks from starts[0] on, less h, and twice h.
 * Within each tick the delay falls by one, so this is the mean of the delay at every time of a hyperperiod, its integral divided by h, and
 * half a tick less than the mean of the delays at whole ticks. The two numbers have not been divided by a common divisor.
 */
uint64_t mo_mean(const uint64_t *starts, size_t starts_length,
                 const uint64_t *latencies, size_t latencies_length,
                 uint64_t g, uint64_t h, uint64_t *doubled_area, uint64_t *doubled_ticks);

/* The throughput, anchors in ticks: g and h as they are. */
uint64_t mo_throughput(const uint64_t *starts, size_t starts_length,
                       const uint64_t *latencies, size_t latencies_length,
                       uint64_t g, uint64_t h, uint64_t *anchors, uint64_t *ticks);

/*
 * The longest exceedance of b, which may be any number: run is the length of the longest run of successive ticks, from starts[0] on and
 * without end of time, whose delays are all above b, and endless is 0. A run may cross from one hyperperiod into the next. Where every
 * delay is above b, endless is 1 and run is 0.
 */
uint64_t mo_exceedance(const uint64_t *starts, size_t starts_length,
                       const uint64_t *latencies, size_t latencies_length,
                       uint64_t g, uint64_t h, uint64_t b, uint64_t *run, uint64_t *endless);

/*
 * How often each delay occurs: counts[i] becomes the number of ticks with a delay from i * width up to below (i + 1) * width, and rest the
 * number of ticks with a delay from counts_length * width on, of one hyperperiod. The delays are those that mo_read_table gives at the h ticks
 * from starts[0] on, without the upper tick; any other h ticks from starts[0] on have the same counts. Every entry is written, with 0 where
 * there is no such delay, and all entries and rest come to h. The products are meant without end of numbers: width may be any number but 0, and
 * with one above every delay counts[0] is h. With mo_greatest's latency / width + 1 entries rest is 0. The list may be empty, and rest is then
 * h; counts points somewhere all the same. Of a table from mo_make_table the delays are those that mo_delay gives at h ticks from the warm-up
 * tick on. That is proved (crates/histogram, crates/capi_histogram, crates/capi_agreement).
 *
 * Refuses, the first that applies, both at place 0, with the list as it was and 0 in rest:
 *   MO_TABLE_NOT_WELL_FORMED   the table is not well-formed;
 *   MO_WIDTH_ZERO              width is 0.
 */
uint64_t mo_histogram(const uint64_t *starts, size_t starts_length,
                      const uint64_t *latencies, size_t latencies_length,
                      uint64_t g, uint64_t h, uint64_t width, uint64_t *counts, size_t counts_length, uint64_t *rest);

/* ---- Chains ----
 *
 * A chain is the list T, D, F, T, D, F, .. of the period, duration and phase of the task at each place, the number of places, and its gap.
 * Entries past the places are no part of it.
 *
 * The gap is for boards that are linked by radio: a value becomes readable gap ticks after its write. So a job takes over the latest value
 * that the place before wrote gap ticks or more before the job reads. The gap is 0 to 1,000, one number for every link of the chain; with 0
 * a value is readable from the tick of its write on. The last write, the booking, has none. A chain of one place has no link: its gap is
 * tested all the same and changes nothing.
 *
 * Each call on a chain refuses, the first that applies:
 *   MO_PLACES_OUTSIDE_LIMITS   places is not 1 to 12, tasks_length is no multiple of 3, or it is below 3 * places;
 *   MO_TASK_OUTSIDE_LIMITS     T is not 1 to 1,000,000, D not 1 to 4,000,000 or F above 1,000,000; at the lowest such place, from 1;
 *   MO_TASK_OUTSIDE_LIMITS     gap is above 1,000; at place 0;
 *   MO_HYPERPERIOD_TOO_LONG    the least common multiple of the periods at the places is above 60,000,000;
 * mo_make_table, mo_windows and mo_sections go on as they say, and mo_delay and mo_age after these with
 *   MO_TICK_TOO_EARLY          the tick is below the warm-up tick for mo_delay, below the write of the last warm-up job for mo_age;
 *   MO_TICK_TOO_LATE           the tick is above MO_UPPER_TICK.
 */

/* The checks of a chain, and its hyperperiod. */
uint64_t mo_check(const uint64_t *tasks, size_t tasks_length, size_t places, uint64_t gap, uint64_t *hyperperiod);

/*
 * Warm-up: jobs[0] to jobs[places - 1] are the jobs W1 to Wn, counted from 0, and the other entries are 0; tick is the warm-up tick, the
 * read of W1, from which on a press has a delay. All twelve entries of jobs are written.
 */
uint64_t mo_warm_up(const uint64_t *tasks, size_t tasks_length, size_t places, uint64_t gap,
                    uint64_t jobs[12], uint64_t *tick, uint64_t *hyperperiod);

/* Walking: the delay of a press at tick t, up to the write of the last place. */
uint64_t mo_delay(const uint64_t *tasks, size_t tasks_length, size_t places, uint64_t gap, uint64_t t, uint64_t *delay);

/* Ageing: how old at tick z the newest reading is that has come through the chain. */
uint64_t mo_age(const uint64_t *tasks, size_t tasks_length, size_t places, uint64_t gap, uint64_t z, uint64_t *age);

/*
 * Making: the table of a chain cut at place p, p counted from 1. The anchors do not depend on p; the work does, and is least at the place
 * with the longest period. figures becomes the anchor count g, the warm-up tick, the hyperperiod h and the number of partitions walked;
 * the first g entries of the lists become the anchors' starts and latencies, and the others keep their content. The table is then read
 * by mo_read_table with g and h: at every tick from the warm-up tick to MO_UPPER_TICK it gives the delay that mo_delay gives. Whatever p
 * is, the entries below g are the same, and the greatest latency of the table (mo_greatest) is the greatest delay of mo_delay and 1 more
 * than the greatest age of mo_age. That is proved of these calls (crates/capi_agreement), and so is that lists of the length
 * below suffice.
 *
 * How long the lists must be: g is at most h / T for the period T of any place, so lists of h divided by the longest period always suffice;
 * mo_check gives h.
 *
 * Refuses, after the chain's own refusals, the first that applies:
 *   MO_CUT_OUTSIDE_PLACES   p is 0 or above the places;
 *   MO_LISTS_UNEQUAL        the lists have different lengths;
 *   MO_LISTS_TOO_SHORT      the lists are shorter than g: they then hold the first anchors that fit, and figures is as in a success.
 * Every other refusal leaves the lists as they were, with zeros in figures.
 */
uint64_t mo_make_table(const uint64_t *tasks, size_t tasks_length, size_t places, uint64_t gap, size_t p,
                       uint64_t *starts, size_t starts_length,
                       uint64_t *latencies, size_t latencies_length, uint64_t figures[4]);

/*
 * Windows of jobs: a job of the first place misses when more than b ticks pass from its read to the write at which its way forward ends.
 * misses becomes the largest number of misses in k successive jobs after the warm-up job W1, over all time, and first the earliest job,
 * counted from 0, with which such a window begins: every window of k jobs that begins after W1 and before first has fewer misses. first is
 * one of the jobs W1 + 1 to W1 + h / T, h being the hyperperiod and T the first place's period. b may be any number. The call goes through
 * these jobs at most twice, once for the largest number and once for the earliest job that has it, each time with at most h / T + k - 1
 * walks. The first window with k misses ends it.
 *
 * Refuses, after the chain's own refusals:
 *   MO_WINDOW_OUTSIDE_LIMITS   k is not 1 to 100.
 */
uint64_t mo_windows(const uint64_t *tasks, size_t tasks_length, size_t places, uint64_t gap, uint64_t b, uint64_t k,
                    uint64_t *misses, uint64_t *first);

/*
 * Sections, for makers of boards that know only their part of a chain: the chain is cut after the places in cuts, where cut c parts place c
 * from the next, and each section is analysed as a chain of its own, with its own warm-up and the same gap. latencies[0] on become the
 * greatest latency of each section, in order, and the other entries 0; count becomes the number of sections, cuts_length + 1; sum becomes
 * the latencies together and one gap for each cut. All twelve entries of latencies are written, and cuts are not. With no cut at all there
 * is one section, the whole chain, and the sum is its greatest latency, which mo_greatest gives of its table; cuts_length is then 0, and
 * cuts points somewhere all the same.
 *
 * The whole chain's greatest latency is at most the sum, however it is cut, and each cut adds at least 1 to it: cutting a section further
 * never lowers the sum. That is proved (crates/sections, crates/capi_sections), and so is that the maker of a board gets the same figure
 * for his section alone, lent as a chain of its own with the same gap and no cut. So whoever adds up what the makers promise, and one gap for
 * each cut, is never too low.
 *
 * Refuses, after the chain's own refusals:
 *   MO_CUTS_NOT_RISING   a cut is 0, not below places or not above the one before; at place 0. So no more than places - 1 cuts pass.
 */
uint64_t mo_sections(const uint64_t *tasks, size_t tasks_length, size_t places, uint64_t gap,
                     const uint64_t *cuts, size_t cuts_length,
                     uint64_t latencies[12], uint64_t *count, uint64_t *sum);

/*
 * A test load that others can repeat: the made-up chain of a seed, any number, and a number of places. tasks becomes T, D, F of each place,
 * with 0 past them; all 36 entries are written. With a tasks_length of 36, the same places and a gap of 0 it is a chain for every call on a
 * chain.
 *
 * Each draw sets s, the seed at first, to s + 0x9E3779B97F4A7C15 modulo 2^64 and gives s ^ (s >> 31). At each place, the first draw modulo
 * 97 picks T: 2,500 for 0, 5,000 for 1 to 10, 10,000 for 11 to 43, 20,000 for 44 to 58, 40,000 for 59 to 81, 80,000 for 82 to 96; D is T,
 * and the second draw modulo T is F. One s goes through all places, so a chain of fewer places is the front of a longer one.
 *
 * Every chain so made passes mo_check, with a hyperperiod that divides 80,000 and is the chain's longest period; so a table of it has one
 * anchor, and lists of one entry hold it. That is proved, for every seed (crates/load, crates/capi_load, crates/load_report).
 *
 * Refuses:
 *   MO_PLACES_OUTSIDE_LIMITS   places is not 1 to 12; at place 0.
 */
uint64_t mo_load(uint64_t seed, size_t places, uint64_t tasks[36]);

/* ---- Schedules and their files ----
 *
 * A schedule has 1 to 32 tasks, 1 to 4 chains, each of 1 to 12 places, and one gap for all of them. It is lent as three lists, two counts
 * and the gap:
 *   tasks    number, T, D, F, number, T, D, F, ..; count is the number of tasks;
 *   chains   the task numbers at the places of each chain, twelve entries a chain: chain 1 from entry 0 on, chain 2 from entry 12 on;
 *   places   the number of places of each chain; chain_count is the number of chains;
 *   gap      0 to 1,000: the gap of each of its chains.
 * Task numbers are 1 to 65,535 and rise strictly from task to task; some may be left out. A task may fill several places, of one chain or
 * of several, or none. Chains are numbered from 1, in their order. Entries past a count are no part of a schedule: mo_read_file makes them 0,
 * the other calls do not look at them. A list need not be longer than that: for one chain of two places chains may have 2 entries and
 * places 1.
 *
 * Each call on a schedule refuses, the first that applies:
 *   MO_PLACES_OUTSIDE_LIMITS   count is not 1 to 32, chain_count not 1 to 4, the places of a chain not 1 to 12, or a list does not hold
 *                              them: tasks_length is no multiple of 4 or below 4 * count, places_length is below chain_count, or
 *                              chains_length is below 12 * (c - 1) + places[c - 1] for a chain c; at place 0;
 *   MO_TASK_OUTSIDE_LIMITS     a task's number is 0, above 65,535 or not above the one before, or T is not 1 to 1,000,000, D not 1 to
 *                              4,000,000 or F above 1,000,000, of a task that fills no place too; at the lowest such task's position
 *                              among the tasks, from 1;
 *   MO_TASK_OUTSIDE_LIMITS     gap is above 1,000; at place 0;
 *   MO_TASK_UNKNOWN            a number of a chain, which may be any, is that of no counted task; of the first chain that has one at its
 *                              lowest such place, from 1.
 * So a fault anywhere in the schedule refuses every chain of it. The hyperperiod of a chain is no such fault: where that of one chain is too
 * long, the others have their answers.
 *
 * A file holds one schedule, in records of length (2 bytes, the whole record), kind (2 bytes) and body, little-endian:
 *   kind 1, length 18               a task: its number (2 bytes), T, D, F (4 bytes each);
 *   kind 2, length 4 + 2 * places   a chain: the task number at each place (2 bytes each);
 *   kind 3, length 4                the end;
 *   kind 4, length 6                the gap (2 bytes), 1 to 1,000;
 * first the tasks, then the chains, then the gap where it is not 0, then the end, then nothing. A gap of 0 has no record. The longest file
 * has 698 bytes.
 *
 * From the bytes of a file to the table of chain 2, to how often its delays occur in steps of a millisecond, and to the bookings by chains
 * 1 and 2 of a press at t:
 *
 *     uint64_t tasks[128], chains[48], places[4], counts[3], flat[36], n, figures[4], bars[64], rest, both[4];
 *     if (mo_read_file(bytes, size, tasks, chains, places, counts) == 0) {
 *         uint64_t gap = counts[2];
 *         if (mo_chain_of_schedule(tasks, 128, counts[0], chains, 48, places, 4, counts[1], gap, 2, flat, &n) == 0)
 *             if (mo_make_table(flat, 36, n, gap, p, starts, slots, latencies, slots, figures) == 0)
 *                 .. mo_histogram(starts, slots, latencies, slots, figures[0], figures[2], 1000, bars, 64, &rest) ..
 *         if (mo_bookings(tasks, 128, counts[0], chains, 48, places, 4, counts[1], gap, 1, 2, t, both) == 0)
 *             .. one chain has booked at both[1], the other at both[0], which is both[2] later ..
 *     }
 */

/*
 * Reading a file: tasks becomes number, T, D, F of each task, chains the task numbers at the places of each chain, places the number of
 * places of each chain, and counts the number of tasks, the number of chains and the gap, 0 where the file has no record of it; 0 stands in
 * every entry past the tasks and chains. The bytes are not written.
 *
 * The file is judged record by record, and refused at the first record with a fault. The place is that record's offset, but for a byte
 * after the end, where it is that byte's. For one record, the first that applies:
 *   MO_FILE_ENDS_EARLY       fewer than 4 bytes remain; so a file that stops after a record is refused at its length;
 *   MO_RECORD_LENGTH_WRONG   its length is below 4;
 *   MO_FILE_ENDS_EARLY       its length runs past the file;
 *   MO_RECORD_KIND_UNKNOWN   its kind is not 1 to 4;
 *   MO_RECORD_LENGTH_WRONG   its length is not one of its kind, as for a chain of 0 or 13 places;
 *   MO_RECORD_OUT_OF_TURN    a task after a chain, a 33rd task; a chain before the tasks, a fifth chain, a chain after the gap; a gap before
 *                            the first chain, a second gap; an end before the first chain;
 *   MO_TASK_OUTSIDE_LIMITS   a task's number is 0 or not above the one before, or T is not 1 to 1,000,000, D not 1 to 4,000,000 or F
 *                            above 1,000,000; a gap is not 1 to 1,000;
 *   MO_TASK_UNKNOWN          the chain has a number that no task has;
 *   MO_RECORD_OUT_OF_TURN    at the byte after the end, whatever follows it.
 * A refusal leaves 0 in every entry of tasks, chains, places and counts.
 */
uint64_t mo_read_file(const uint8_t *bytes, size_t bytes_length,
                      uint64_t tasks[128], uint64_t chains[48], uint64_t places[4], uint64_t counts[3]);

/*
 * Writing a file: the first bytes of out become the schedule's file, and length the number of these bytes; the others keep their content.
 * Read again, the file gives the same schedule; a file that was read and is written again is the same bytes.
 *
 * Refuses, after the schedule's own refusals:
 *   MO_LISTS_TOO_SHORT   out_length is below the file's length, 18 * count + 4 * chain_count + 2 * (the places of all chains) + 4, and 6
 *                        more where gap is not 0; at 0.
 * A refusal leaves every byte of out as it was, and 0 in length.
 */
uint64_t mo_write_file(const uint64_t *tasks, size_t tasks_length, size_t count,
                       const uint64_t *chains, size_t chains_length,
                       const uint64_t *places, size_t places_length, size_t chain_count, uint64_t gap,
                       uint8_t *out, size_t out_length, uint64_t *length);

/*
 * One chain of a schedule, as the calls on chains take it; number counts from 1. flat becomes T, D, F of the task at each of its places, with
 * 0 past them, and chain_places the number of places. Every analysis of the chain is then the call on chains that takes flat, 36,
 * chain_places and the same gap; of the chain's own refusals only MO_HYPERPERIOD_TOO_LONG can still come.
 *
 * Refuses, after the schedule's own refusals:
 *   MO_CHAIN_UNKNOWN   number is 0 or above chain_count; at place 0.
 * A refusal leaves 0 in every entry of flat and in chain_places; every call on chains that takes them then refuses with
 * MO_PLACES_OUTSIDE_LIMITS.
 */
uint64_t mo_chain_of_schedule(const uint64_t *tasks, size_t tasks_length, size_t count,
                              const uint64_t *chains, size_t chains_length,
                              const uint64_t *places, size_t places_length, size_t chain_count, uint64_t gap,
                              size_t number, uint64_t flat[36], uint64_t *chain_places);

/*
 * Two chains of a schedule side by side: when a press at tick t is booked by chain first and by chain second, numbers that may be equal. A
 * booking is the last write of the forward walk, so t and the delay that mo_delay gives for that chain; it may lie above MO_UPPER_TICK.
 * figures becomes
 *   figures[0]   the later booking;
 *   figures[1]   the earlier booking;
 *   figures[2]   their difference;
 *   figures[3]   the greatest such difference at the ticks of one common hyperperiod from the later of the two warm-up ticks on. The
 *                differences repeat from there on, so no later press has a greater one. It does not depend on t.
 * The common hyperperiod is the least common multiple of those of the two chains.
 *
 * Refuses, after the schedule's own refusals, the first that applies, all at place 0:
 *   MO_CHAIN_UNKNOWN          first or second is 0 or above chain_count;
 *   MO_HYPERPERIOD_TOO_LONG   the hyperperiod of either chain, or the common one, is above 60,000,000;
 *   MO_TICK_TOO_EARLY         t is below the warm-up tick of either chain;
 *   MO_TICK_TOO_LATE          t is above MO_UPPER_TICK.
 * A refusal leaves 0 in every entry of figures.
 */
uint64_t mo_bookings(const uint64_t *tasks, size_t tasks_length, size_t count,
                     const uint64_t *chains, size_t chains_length,
                     const uint64_t *places, size_t places_length, size_t chain_count, uint64_t gap,
                     size_t first, size_t second, uint64_t t, uint64_t figures[4]);

/*
 * A phase that keeps a promise: of the task with a number, the smallest phase from 0 to its period - 1 with which the greatest latency of chain
 * `chain`, counted from 1, is at most bound, which may be any number. Every place that the task fills has that phase then, in every chain; only
 * this chain is looked at. phase becomes it, and none 0; where there is no such phase none becomes 1 and phase 0. The phase that the task has now
 * is judged as every value is, and else makes no difference.
 *
 * With that phase written into its entry of tasks, or any other up to 1,000,000, the schedule passes every check that it passed before. With that
 * phase no press by this chain waits longer than bound, from its warm-up tick on; with every smaller one some press does. Phases from the period
 * on add nothing: where none is 1, some press waits longer with each phase up to 1,000,000. That is proved (crates/phase, crates/capi_phase).
 *
 * Refuses, after the schedule's own refusals, the first that applies, all at place 0:
 *   MO_CHAIN_UNKNOWN          chain is 0 or above chain_count;
 *   MO_HYPERPERIOD_TOO_LONG   the chain's hyperperiod is above 60,000,000;
 *   MO_TASK_NOT_IN_CHAIN      no place of the chain has that number, be it that of a task or not;
 *   MO_PERIOD_TOO_LONG        the task's period is above 10,000.
 * A refusal leaves 0 in phase and in none.
 */
uint64_t mo_smallest_phase(const uint64_t *tasks, size_t tasks_length, size_t count,
                           const uint64_t *chains, size_t chains_length,
                           const uint64_t *places, size_t places_length, size_t chain_count, uint64_t gap,
                           size_t chain, uint64_t number, uint64_t bound, uint64_t *phase, uint64_t *none);

/* ---- The instrument's state ----
 *
 * Changing the schedule that runs needs two steps: mo_ask tries another one, and mo_commit makes it run. The state is a struct that the caller
 * keeps and hands to each call by value; a call hands back the state that follows. The calls keep nothing and write nothing that is lent.
 *
 * A schedule with bounds, mo_bounded, holds the tasks with their numbers, the chains, the two counts and the gap, as the lists above do, and a
 * bound for each chain, in their order: the greatest latency that it may have. Entries past a count are no part of it, nor are bounds past the
 * chains: an mo_bounded that is handed to a call is judged, compared and kept with 0 there, so 0 stands there in every state that follows from a
 * made one.
 *
 * Every field has 8 bytes and the structs have no padding, so a state may be stored and compared as bytes. (Two mo_bounded that mean the same may
 * differ past their counts.) Hand a state on as it is: each call answers for any state, also for one that no list of calls leaves, but what is
 * promised below holds of states that were made, and of those that follow from them.
 */
typedef struct { uint64_t period, duration, phase; } mo_task;
typedef struct { uint64_t number; mo_task task; } mo_numbered_task;
typedef struct { uint64_t tasks[12]; size_t places; } mo_chain; /* the task numbers at its places, and how many places there are */
typedef struct {
    mo_numbered_task tasks[32];
    mo_chain chains[4];
    size_t count; /* of the tasks */
    size_t chain_count;
    uint64_t gap;
} mo_schedule;
typedef struct { mo_schedule schedule; uint64_t bounds[4]; } mo_bounded;
typedef struct { mo_bounded proposal; uint64_t stands; } mo_side; /* stands: 0 where there is none, and zeros in its place; 1 where an ask put one there. Every number but 0 counts as 1 */
typedef struct { mo_bounded running; mo_side firmware; } mo_state;
typedef struct { uint64_t number; size_t place; } mo_refusal; /* number 0 at place 0 in a success; the numbers and places are those of a code */
typedef struct { mo_state state; mo_refusal refusal; } mo_made_state;
typedef struct { mo_state state; mo_refusal refusal; uint64_t latencies[4]; } mo_asked;
typedef struct { mo_state state; mo_refusal refusal; } mo_committed;

/*
 * A schedule with bounds from the lists that mo_read_file gives, or any lists that mean a schedule above. It judges nothing. Where a list does not
 * hold what is counted, that count becomes 0: of the tasks, of the chains, or of the places of the one chain; making a state and asking then refuse
 * with MO_PLACES_OUTSIDE_LIMITS, as they do where a count stays that is above its limit. The entries are those of the lists, as far as there is
 * room, also past the counts; 0 stands past the lists' ends, and for a task that the list does not hold whole. An mo_bounded may be made by hand
 * as well.
 */
mo_bounded mo_bounded_schedule(const uint64_t *tasks, size_t tasks_length, size_t count,
                               const uint64_t *chains, size_t chains_length,
                               const uint64_t *places, size_t places_length, size_t chain_count, uint64_t gap,
                               const uint64_t bounds[4]);

/*
 * A state in which b runs and no proposal stands.
 *
 * Refuses, the first that applies:
 *   MO_PLACES_OUTSIDE_LIMITS, MO_TASK_OUTSIDE_LIMITS, MO_TASK_UNKNOWN   as each call on a schedule does, with the same places;
 *   MO_HYPERPERIOD_TOO_LONG   that of one of its chains is above 60,000,000; at place 0;
 *   MO_ABOVE_BOUND            the greatest latency of one of its chains is above that chain's bound; at place 0.
 * These are the refusals of an ask for b. A refusal hands back a state of zeros.
 */
mo_made_state mo_make_state(mo_bounded b);

/*
 * Tries b: latencies becomes the greatest latency of each chain, in their order, with 0 past the chains, and b the proposal of the state that is
 * handed back, in place of an earlier one. What runs stays.
 *
 * Refuses as mo_make_state does. A refusal hands the state back as it was, an earlier proposal included, and 0 in every entry of latencies.
 */
mo_asked mo_ask(mo_state s, mo_bounded b);

/*
 * Makes the proposal run, which b names again, schedule and bounds; in the state that is handed back no proposal stands.
 *
 * Refuses, the first that applies, both at place 0, and makes no other check:
 *   MO_NO_PROPOSAL      no proposal stands;
 *   MO_OTHER_PROPOSAL   the schedule or a bound differs from the proposal's, be b faulty or not.
 * A refusal hands the state back as it was.
 *
 * From a state that mo_make_state made, over every list of asks and commits, what runs is what the last commit that was not refused names, or
 * what the state was made with; every check passes of it, and no press by any of its chains, from that chain's warm-up tick on, waits longer
 * than the chain's bound. That is proved (crates/instrument_laws).
 *
 * At the start, with the lists of the schedule that the instrument was shipped with, and later with those of another one:
 *
 *     uint64_t bounds[4] = { 20000, 20000 };
 *     mo_made_state m = mo_make_state(mo_bounded_schedule(tasks, 128, counts[0], chains, 48, places, 4, counts[1], counts[2], bounds));
 *     if (m.refusal.number != 0) .. nothing runs, and m.state is zeros ..
 *     mo_state state = m.state;
 *
 *     mo_bounded b = mo_bounded_schedule(tasks, 128, counts[0], chains, 48, places, 4, counts[1], counts[2], bounds);
 *     mo_asked a = mo_ask(state, b);
 *     state = a.state;
 *     if (a.refusal.number == 0) .. show a.latencies, and when the caver agrees
 *         state = mo_commit(state, b).state;
 */
mo_committed mo_commit(mo_state s, mo_bounded b);

/*
 * The report of a schedule file: of each chain in turn a line with its number, then its table, made with 1,024 slots and cut at the longest
 * period, and the table's figures, as lines of text that end in LF,
 *
 *     chain 1
 *     warm 0
 *     hyper 12
 *     anchors 2
 *     a 0 18
 *     a 8 16
 *     max 18
 *     low 10
 *     mean 336 24
 *     walked 2
 *
 * with the mean's two numbers as mo_mean gives them.
 *
 * A chain without a table has the one line "refused 7 0" after its number where its hyperperiod is too long (MO_HYPERPERIOD_TOO_LONG), and
 * "refused 11 0" where it has more than 1,024 anchors (MO_LISTS_TOO_SHORT); the next chain follows all the same. The report of bytes that
 * mo_read_file refuses is the one line "refused N P", N being the refusal's number and P its place, without a line of a chain.
 *
 * All the bytes lent are judged as one file. The program chainreport prints this report of the first 4,096 bytes of its input.
 *
 * The answer is no code but the length of the text, at most MO_LONGEST_REPORT. The first bytes of out become the text, as many of them as
 * there are; the others keep their content. The bytes of the file are not written.
 */
#define MO_LONGEST_REPORT 92000u
uint64_t mo_report(const uint8_t *bytes, size_t bytes_length, uint8_t *out, size_t out_length);

#ifdef __cplusplus
}
#endif

#endif
