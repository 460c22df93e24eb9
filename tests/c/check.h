/* What the test programs in C share: a line for each check. The host test that runs one counts the lines. */
#ifndef CHECK_H
#define CHECK_H

#include <stdbool.h>
#include <stdio.h>

static inline void check(bool good, const char *name)
{
    printf("%s %s\n", good ? "ok" : "not ok", name);
}

#endif
