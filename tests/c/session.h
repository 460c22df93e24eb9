/* Document 01, "A session printed whole": the call words after the boot word, and what each answers. */
#ifndef SESSION_H
#define SESSION_H

#include <stdint.h>

enum { SESSION_BASE = 256, SESSION_END = 1024, SESSION_CALLS = 7 };

static const struct {
    uint64_t word;
    uint32_t refusal, first;
} session[SESSION_CALLS] = {
    {UINT64_C(0x7000000002000000), 0, 1}, {UINT64_C(0x7000000001100000), 0, 2},
    {UINT64_C(0x1000000000000000), 0, 1}, {UINT64_C(0x7010000001200000), 0, 3},
    {UINT64_C(0x3110000000000000), 0, 0}, {UINT64_C(0x5118300000000000), 0, 0},
    {UINT64_C(0x5118300000000000), 6, 0}};

#endif
