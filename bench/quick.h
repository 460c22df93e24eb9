/*
 * The quick kernel: boot, call, holders and runs of ulavrepit.h, for its board, in plain C written for speed alone. It is there to be
 * measured: how far the library is from what C can do. tests/host/quick holds it to the second program; nothing is proved of it.
 */
#ifndef QUICK_H
#define QUICK_H

#include "ulavrepit.h"

uint64_t quick_boot(uint8_t *table, uint64_t table_len, uint64_t base, uint64_t end);
uint64_t quick_call(uint8_t *table, uint64_t table_len, uint64_t word, uint64_t *second);
uint64_t quick_holders(const uint8_t *table, uint64_t table_len, uint64_t line, uint8_t *list, uint64_t list_len,
                       uint64_t *second);
uint64_t quick_runs(const uint8_t *table, uint64_t table_len, ulavrepit_run *list, uint64_t list_len);

#endif
