/* What a test holds true: each failure is told with its line, and counted. */
#include <stdio.h>

static int failures;

#define CHECK(holds) check((holds) != 0, #holds, __LINE__)

static void check(int holds, const char *what, int line)
{
    if (!holds) {
        failures++;
        printf("line %d: %s does not hold\n", line, what);
    }
}
