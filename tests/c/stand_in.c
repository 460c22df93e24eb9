/*
 * The second program under the library's names. Where no memory checker runs programs for x86-64, the comparison's
 * own code and the second program are checked as programs of the processor at hand, with this in the library's place.
 * With QUICK it leaves out what the quick kernel has (bench/quick.h), which then stands there itself.
 */
#include "steer.h"
#include "ulavrepit.h"

#ifndef QUICK
uint64_t ulavrepit_boot(uint8_t *table, uint64_t table_len, uint64_t base, uint64_t end)
{
    return second_boot(table, table_len, base, end);
}

uint64_t ulavrepit_call(uint8_t *table, uint64_t table_len, uint64_t word, uint64_t *second)
{
    return second_call(BOARD, table, table_len, word, second);
}

uint64_t ulavrepit_holders(const uint8_t *table, uint64_t table_len, uint64_t line, uint8_t *list, uint64_t list_len,
                           uint64_t *second)
{
    return second_holders(BOARD, table, table_len, line, list, list_len, second);
}

uint64_t ulavrepit_runs(const uint8_t *table, uint64_t table_len, ulavrepit_run *list, uint64_t list_len)
{
    return second_runs(BOARD, table, table_len, (second_run *)list, list_len);
}
#endif

uint64_t ulavrepit_pieces(const uint8_t *table, uint64_t table_len, uint64_t partition, uint64_t slot, uint64_t *list,
                          uint64_t list_len)
{
    return second_pieces(BOARD, table, table_len, partition, slot, list, list_len);
}

uint64_t ulavrepit_boot_sheet(uint8_t *table, uint64_t table_len, uint8_t *sheet, uint64_t sheet_len, uint64_t base, uint64_t end)
{
    return second_boot_sheet(table, table_len, sheet, sheet_len, base, end);
}

uint64_t ulavrepit_call_sheet(uint8_t *table, uint64_t table_len, uint8_t *sheet, uint64_t sheet_len, uint64_t word, uint64_t *second)
{
    return second_call_sheet(BOARD, table, table_len, sheet, sheet_len, word, second);
}

uint64_t ulavrepit_engine_start(uint16_t *masks, uint64_t n, uint64_t base, uint64_t end)
{
    return second_engine_start(masks, n, base, end);
}

uint64_t ulavrepit_engine_give(uint16_t *masks, uint64_t n, uint64_t base, uint64_t end, uint64_t child, uint64_t from, uint64_t to)
{
    return second_engine_give(masks, n, base, end, child, from, to);
}

uint64_t ulavrepit_engine_take(uint16_t *masks, uint64_t n, uint64_t base, uint64_t end, uint64_t child, uint64_t from, uint64_t to)
{
    return second_engine_take(masks, n, base, end, child, from, to);
}

uint64_t ulavrepit_engine_strike(uint16_t *masks, uint64_t n, uint64_t base, uint64_t end, uint64_t members)
{
    return second_engine_strike(masks, n, base, end, members);
}
