/* Checks of the C tests: each failed one is told, and the number of them is the outcome. */
#ifndef CHECK_H
#define CHECK_H

#include <stdbool.h>
#include <stdint.h>
#include <stdio.h>

static unsigned checks_passed, checks_failed;

static inline void check(int line, const char *what, uint32_t got, uint32_t expected)
{
    if (got == expected) {
        checks_passed++;
        return;
    }
    checks_failed++;
    printf("line %d: %s: got 0x%X, expected 0x%X\n", line, what, got, expected);
}

#define CHECK(got, expected) check(__LINE__, #got, (got), (expected))

/* The status of a test program, whose name begins its last line. */
static inline int outcome(const char *program)
{
    printf("%s: %u checks passed, %u failed\n", program, checks_passed, checks_failed);
    return checks_failed == 0 && checks_passed > 0 ? 0 : 1;
}

#endif
