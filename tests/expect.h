/* Counts what a C test expects; a line FAIL for each fact that does not hold. */
#include <stdio.h>

static int failures, checks;

static void expect(int good, const char *what, const char *file, int line)
{
    checks++;
    if (!good) {
        failures++;
        printf("FAIL %s:%d: %s\n", file, line, what);
    }
}
#define EXPECT(fact) expect((fact), #fact, __FILE__, __LINE__)
