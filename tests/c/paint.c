/* See paint.h: the work has a stack of its own. */
#define _XOPEN_SOURCE 700
#include "paint.h"

#include <string.h>
#include <ucontext.h>

enum { STACK = 65536 };

static uint8_t stack[STACK];

size_t painted_depth(void (*work)(void), uint8_t byte)
{
    ucontext_t here, there;
    size_t lowest = 0;
    memset(stack, byte, STACK);
    if (getcontext(&there) != 0)
        return STACK;
    there.uc_stack.ss_sp = stack;
    there.uc_stack.ss_size = STACK;
    there.uc_link = &here;
    makecontext(&there, work, 0);
    if (swapcontext(&here, &there) != 0)
        return STACK;
    while (lowest < STACK && stack[lowest] == byte)
        lowest++;
    return STACK - lowest;
}
