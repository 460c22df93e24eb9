/*
 * How often each function of recursion.txt is active at once, at most: what a module that count.awk has changed calls. When the
 * program ends, a line that begins with # has the numbers, in the order of that file.
 */
#include <stdint.h>
#include <stdio.h>

enum { FUNCTIONS = 16 };

static unsigned active[FUNCTIONS + 1], most[FUNCTIONS + 1], last;

void entered(uint32_t function)
{
    if (++active[function] > most[function])
        most[function] = active[function];
    if (function > last)
        last = function;
}

void left(uint32_t function)
{
    active[function]--;
}

__attribute__((destructor)) static void print_most(void)
{
    printf("# active:");
    for (unsigned i = 1; i <= last; i++)
        printf(" %u", most[i]);
    puts("");
}
