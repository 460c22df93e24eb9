/*
 * How deep the stack of some work goes, found by painting: it runs on a stack that was filled with one byte, and the lowest
 * byte that changed tells. The few bytes by which the work is entered are counted in. paint.c is for Linux, arm/board/paint.c
 * for a Cortex-M.
 */
#ifndef PAINT_H
#define PAINT_H

#include <stddef.h>
#include <stdint.h>

size_t painted_depth(void (*work)(void), uint8_t byte);

#endif
