/* What a test expects, told with its line where it does not hold. */

#ifndef HEADERS_EXPECT_H
#define HEADERS_EXPECT_H

#include <stdbool.h>
#include <stdio.h>

#define EXPECT(holds) expect_at((holds), #holds, __FILE__, __LINE__)

static int expectations_missed = 0;

static inline void expect_at(bool holds, const char* what, const char* file, int line)
{
    if (holds)
        return;
    printf("%s:%d: not so: %s\n", file, line, what);
    expectations_missed++;
}

#endif
