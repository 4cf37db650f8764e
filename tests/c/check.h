/* What a test counts: claims that hold, and those that don't, each told with its place. */
#ifndef CHECK_H
#define CHECK_H

#include <stdio.h>

static int passed, failed;
#define CHECK(claim) check((claim) != 0, __FILE__, __LINE__, #claim)

static void check(int holds, const char *file, int line, const char *what)
{
    if (holds) {
        passed++;
    } else {
        failed++;
        printf("%s:%d: failed: %s\n", file, line, what);
    }
}

#endif
