/*
 * The report of a schedule file through the header, held to the text for chain A, for two chains, for a refused chain before another and for
 * chains with a gap.
 * tests/c/run builds and runs it.
 */
#include "meshorchard.h"

#include "expect.h"

#include <string.h>

/* What the lent bytes hold before the call. */
#define RUBBISH 77u

/* Chain A's file: tasks 1 and 2, (4, 4, 0) and (6, 6, 0), the chain 1, 2, and the end. */
static const uint8_t file_a[48] = {
    18, 0, 1, 0, 1, 0, 4, 0, 0, 0, 4, 0, 0, 0, 0, 0, 0, 0,
    18, 0, 1, 0, 2, 0, 6, 0, 0, 0, 6, 0, 0, 0, 0, 0, 0, 0,
    8, 0, 2, 0, 1, 0, 2, 0,
    4, 0, 3, 0,
};
#define TEXT_A "chain 1\nwarm 0\nhyper 12\nanchors 2\na 0 18\na 8 16\nmax 18\nlow 10\nmean 336 24\nwalked 2\n"

/* Two chains, 1 2 and 3, of tasks (4, 4, 0), (6, 6, 0) and (10, 3, 5). */
static const uint8_t file_s[72] = {
    18, 0, 1, 0, 1, 0, 4, 0, 0, 0, 4, 0, 0, 0, 0, 0, 0, 0,
    18, 0, 1, 0, 2, 0, 6, 0, 0, 0, 6, 0, 0, 0, 0, 0, 0, 0,
    18, 0, 1, 0, 3, 0, 10, 0, 0, 0, 3, 0, 0, 0, 5, 0, 0, 0,
    8, 0, 2, 0, 1, 0, 2, 0,
    6, 0, 2, 0, 3, 0,
    4, 0, 3, 0,
};
#define TEXT_S TEXT_A "chain 2\nwarm 5\nhyper 10\nanchors 1\na 5 13\nmax 13\nlow 3\nmean 160 20\nwalked 1\n"

/* The same chains of tasks (769, 1, 0), (78125, 1, 0) and (7, 1, 0): the hyperperiod of the first is above the limit. */
static const uint8_t file_refused[72] = {
    18, 0, 1, 0, 1, 0, 1, 3, 0, 0, 1, 0, 0, 0, 0, 0, 0, 0,
    18, 0, 1, 0, 2, 0, 45, 49, 1, 0, 1, 0, 0, 0, 0, 0, 0, 0,
    18, 0, 1, 0, 3, 0, 7, 0, 0, 0, 1, 0, 0, 0, 0, 0, 0, 0,
    8, 0, 2, 0, 1, 0, 2, 0,
    6, 0, 2, 0, 3, 0,
    4, 0, 3, 0,
};
#define TEXT_SECOND "warm 0\nhyper 7\nanchors 1\na 0 8\nmax 8\nlow 1\nmean 63 14\nwalked 1\n"

/* Chain C, (5, 5, 0) twice, then one place of it, and gap 1, which moves the first alone. */
static const uint8_t file_gap[42] = {
    18, 0, 1, 0, 1, 0, 5, 0, 0, 0, 5, 0, 0, 0, 0, 0, 0, 0,
    8, 0, 2, 0, 1, 0, 1, 0,
    6, 0, 2, 0, 1, 0,
    6, 0, 4, 0, 1, 0,
    4, 0, 3, 0,
};
#define TEXT_ONE "chain 2\nwarm 0\nhyper 5\nanchors 1\na 0 10\nmax 10\nlow 5\nmean 75 10\nwalked 1\n"
#define TEXT_GAP "chain 1\nwarm 0\nhyper 5\nanchors 1\na 0 20\nmax 20\nlow 15\nmean 175 10\nwalked 1\n" TEXT_ONE
#define TEXT_THOUSAND "chain 1\nwarm 0\nhyper 5\nanchors 1\na 0 1015\nmax 1015\nlow 1010\nmean 10125 10\nwalked 1\n" TEXT_ONE

static uint8_t out[MO_LONGEST_REPORT];

/* The report of the first n bytes of a file into the first `lent` bytes of out; it must answer the text's length and leave its front. */
static void check(const char *what, const uint8_t *file, size_t n, size_t lent, const char *text)
{
    size_t length = strlen(text), held = length < lent ? length : lent;
    uint64_t past = 0;

    memset(out, RUBBISH, sizeof out);
    expect(what, mo_report(file, n, out, lent), length);
    expect("  the text's front differs", memcmp(out, text, held) != 0, 0);
    for (size_t i = held; i < sizeof out; i++)
        past += out[i] != RUBBISH;
    expect("  bytes written past it", past, 0);
}

/* The file with a gap, with another value. */
static void check_value(const char *what, unsigned value, const char *text)
{
    uint8_t file[42];

    memcpy(file, file_gap, 42);
    file[36] = (uint8_t)value;
    file[37] = (uint8_t)(value / 256);
    check(what, file, 42, sizeof out, text);
}

int main(void)
{
    check("A's file", file_a, 48, sizeof out, TEXT_A);
    check("just the bytes of the text", file_a, 48, strlen(TEXT_A), TEXT_A);
    check("a byte too few", file_a, 48, strlen(TEXT_A) - 1, TEXT_A);
    check("no bytes lent", file_a, 48, 0, TEXT_A);
    check("a file that ends early", file_a, 47, sizeof out, "refused 1 44\n");
    check("no bytes in the file", file_a, 0, sizeof out, "refused 1 0\n");
    check("the file of two chains", file_s, 72, sizeof out, TEXT_S);
    check("  just the bytes of the text", file_s, 72, strlen(TEXT_S), TEXT_S);
    check("  bytes that end inside the first chain's text", file_s, 72, 20, TEXT_S);
    check("  bytes that end with it", file_s, 72, strlen(TEXT_A), TEXT_S);
    check("  bytes that end inside the line of the second chain", file_s, 72, strlen(TEXT_A) + 3, TEXT_S);
    check("  bytes that end inside its text", file_s, 72, strlen(TEXT_S) - 1, TEXT_S);
    check("  without its end", file_s, 68, sizeof out, "refused 1 68\n");
    check("a refused chain before another", file_refused, 72, sizeof out, "chain 1\nrefused 7 0\nchain 2\n" TEXT_SECOND);
    check("  bytes that end inside the refusal", file_refused, 72, 15, "chain 1\nrefused 7 0\nchain 2\n" TEXT_SECOND);
    check("chains with gap 1", file_gap, 42, sizeof out, TEXT_GAP);
    check("  bytes that end inside the second chain's text", file_gap, 42, strlen(TEXT_GAP) - 9, TEXT_GAP);
    check("  without its end", file_gap, 38, sizeof out, "refused 1 38\n");
    check_value("gap 4", 4, TEXT_GAP);
    check_value("gap 1,000", 1000, TEXT_THOUSAND);
    check_value("gap 0", 0, "refused 5 32\n");
    check_value("gap 1,001", 1001, "refused 5 32\n");
    return counted();
}
