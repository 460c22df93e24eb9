/* Chance from a seed: the same numbers at every run and on every machine. */
#ifndef DICE_H
#define DICE_H

#include <stdbool.h>
#include <stdint.h>

typedef struct {
    uint64_t state;
} dice;

/* xorshift64*; its state is never 0. */
static inline uint64_t roll(dice *d)
{
    d->state ^= d->state >> 12;
    d->state ^= d->state << 25;
    d->state ^= d->state >> 27;
    return d->state * UINT64_C(0x2545f4914f6cdd1d);
}

/* Seeds that differ by little give sequences that differ by much. */
static inline dice seeded(uint64_t seed)
{
    dice d = {(seed + 1) * UINT64_C(0x9e3779b97f4a7c15) | 1};
    for (int i = 0; i < 8; i++)
        roll(&d);
    return d;
}

/* A number below n, which is not 0. */
static inline uint32_t below(dice *d, uint32_t n)
{
    return (uint32_t)((roll(d) >> 33) % n);
}

static inline bool percent(dice *d, uint32_t n)
{
    return below(d, 100) < n;
}

#endif
