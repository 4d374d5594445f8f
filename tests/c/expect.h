/*
 * What the C tests share: each check prints one line; the last line is 'N passed, M failed', and the exit status is 1 where one failed.
 */
#ifndef EXPECT_H
#define EXPECT_H

#include <inttypes.h>
#include <stdio.h>

static unsigned passed;
static unsigned failed;

static void expect(const char *what, uint64_t got, uint64_t wanted)
{
    if (got == wanted) {
        passed++;
        printf("ok    %s: %" PRIu64 "\n", what, got);
    } else {
        failed++;
        printf("WRONG %s: %" PRIu64 ", wanted %" PRIu64 "\n", what, got, wanted);
    }
}

static int counted(void)
{
    printf("%u passed, %u failed\n", passed, failed);
    return failed ? 1 : 0;
}

#endif
