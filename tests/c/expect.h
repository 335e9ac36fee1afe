/* Counts what a test program expects, and closes it with the line `N passed, M failed`. */
#ifndef EXPECT_H
#define EXPECT_H

#include <stdio.h>

static int passes = 0;
static int failures = 0;

/* Counts one expectation, and says what was not met. */
static inline int expect(int met, const char *name, const char *what)
{
    if (met) {
        passes++;
    } else {
        failures++;
        printf("%s: expected %s\n", name, what);
    }
    return met;
}

/* Prints the counts; the answer is the program's exit status. */
static inline int closed(void)
{
    printf("%d passed, %d failed\n", passes, failures);
    return failures != 0;
}

#endif
