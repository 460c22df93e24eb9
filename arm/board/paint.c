/* See tests/c/paint.h: the work runs below this function's own frame. Nothing lies there, and no call is made while it is painted. */
#include "paint.h"

enum { PAINTED = 24576 };

size_t painted_depth(void (*work)(void), uint8_t byte)
{
    volatile uint32_t *top, *lowest;
    uint32_t word = byte * 0x01010101u;
    __asm__ volatile("mov %0, sp" : "=r"(top));
    for (lowest = top; lowest > top - PAINTED / 4;)
        *--lowest = word;
    work();
    while (lowest < top && *lowest == word)
        lowest++;
    return (size_t)(top - lowest) * 4;
}
