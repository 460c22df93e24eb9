/*
 * How deep the stack of each function goes, found by painting (paint.h), once with each of two bytes, since a function
 * may write the one that stood there. A line for each check, with the number; what the library uses includes
 * the few bytes by which the stack is entered.
 */
#include "check.h"
#include "lent.h"
#include "most_runs.h"
#include "paint.h"
#include "services.h"
#include "session.h"
#include "tables.h"

enum { LIMIT = 16384, KNOWN = 20480, ENTERING = 1024 };

static const kernel library = {ulavrepit_boot, ulavrepit_call, ulavrepit_holders, ulavrepit_runs, ulavrepit_pieces};

/* Work is done twice, so it begins by putting its memory back. */
static size_t depth_of(void (*work)(void))
{
    size_t a = painted_depth(work, 0xa5), b = painted_depth(work, 0x5a);
    return a > b ? a : b;
}

static bool within_limit(size_t depth)
{
    return depth <= LIMIT;
}

/* ---- what is run ---- */

static uint8_t start[ULAVREPIT_TABLE_BYTES], table[ULAVREPIT_TABLE_BYTES];
static uint8_t list[ULAVREPIT_HOLDERS_BYTES];
static ulavrepit_run runs[ULAVREPIT_RUNS];
static uint64_t pieces[ULAVREPIT_PIECES];
static uint64_t argument;
static bool accepted[LAST_SERVICE + 1]; /* by row */

static void do_nothing(void)
{
}

static void use_known(void)
{
    volatile uint8_t bytes[KNOWN];
    bytes[0] = 1;
    for (size_t i = 1; i < KNOWN; i++)
        bytes[i] = (uint8_t)(bytes[i - 1] + 1);
}

static void do_boot(void)
{
    memcpy(table, start, sizeof table);
    ulavrepit_boot(table, sizeof table, 256, argument);
}

static void do_call(void)
{
    uint64_t second;
    memcpy(table, start, sizeof table);
    if ((ulavrepit_call(table, sizeof table, argument, &second) & 0xff) == 0)
        accepted[row_of(argument)] = true;
}

static void do_holders(void)
{
    uint64_t second;
    memcpy(table, start, sizeof table);
    ulavrepit_holders(table, sizeof table, argument, list, sizeof list, &second);
}

static void do_runs(void)
{
    memcpy(table, start, sizeof table);
    ulavrepit_runs(table, sizeof table, runs, argument);
}

/* The argument is 32 times the partition's number, and the slot's. */
static void do_pieces(void)
{
    memcpy(table, start, sizeof table);
    ulavrepit_pieces(table, sizeof table, argument / ULAVREPIT_SLOTS, argument % ULAVREPIT_SLOTS, pieces, ULAVREPIT_PIECES);
}

static second_table most;
static size_t deepest[5]; /* of boot, call, holders, runs, pieces */

static void measure(unsigned which, void (*work)(void), uint64_t with)
{
    argument = with;
    size_t depth = depth_of(work);
    if (depth > deepest[which])
        deepest[which] = depth;
}

/* Every service with these fields, where it uses them. */
static void measure_services(uint32_t p, uint32_t s, uint32_t t, uint32_t line)
{
    const uint64_t words[] = {SERVICES(SERVICE_WORDS) ulavrepit_give_whole(p, s, t & 7), 0};
    for (size_t i = 0; i < sizeof words / sizeof *words; i++)
        measure(1, do_call, words[i]);
}

/* All functions, from the table in 'start'. */
static void measure_table(void)
{
    static const uint32_t lines[] = {0, 256, 300, 700, 1500, 65535};
    measure(0, do_boot, 4096);
    measure(0, do_boot, 0);
    measure(3, do_runs, ULAVREPIT_RUNS);
    measure(3, do_runs, 0);
    for (size_t i = 0; i < sizeof lines / sizeof *lines; i++)
        measure(2, do_holders, lines[i]);
    for (uint32_t p = 0; p < ULAVREPIT_PARTITIONS; p++)
        for (uint32_t s = 0; s < ULAVREPIT_SLOTS; s += 4) {
            measure_services(p, s, (s + p) % 9, lines[s % 6]);
            measure(4, do_pieces, p * ULAVREPIT_SLOTS + s);
        }
}

/* The table as it is, and with its last zero bit set. */
static void measure_both(void)
{
    measure_table();
    start[LAST_ZERO_BYTE] ^= 1;
    measure_table();
    start[LAST_ZERO_BYTE] ^= 1;
}

/* Each word is measured, and then carried out for good; all but the session's last are accepted. */
static void measure_script(void)
{
    const uint64_t rest[] = {
        ulavrepit_load(1, 0, 5), ulavrepit_read_region(1, 5), ulavrepit_unload(1, 5), ulavrepit_find(0, 600),
        ulavrepit_switch(1), ulavrepit_switch(0), ulavrepit_take(3), ulavrepit_merge(3, 1), ulavrepit_collect(1, 0),
        ulavrepit_delete(1)};
    for (size_t i = 0; i < SESSION_CALLS + sizeof rest / sizeof *rest; i++) {
        measure(1, do_call, i < SESSION_CALLS ? session[i].word : rest[i - SESSION_CALLS]);
        memcpy(start, table, sizeof start);
    }
}

static bool every_service_accepted(void)
{
    for (unsigned service = 1; service <= LAST_SERVICE; service++)
        if (!accepted[service])
            return false;
    return true;
}

static bool move_up(unsigned levels)
{
    bool good = true;
    uint64_t second;
    for (; levels > 0; levels--) {
        uint32_t parent = current_of(start) - 1; /* the densest table is a chain */
        good = ulavrepit_call(start, sizeof start, ulavrepit_switch(parent), &second) >> 16 == 0 && good;
    }
    return good;
}

static void say_depth(unsigned which, const char *name)
{
    bool good = deepest[which] > 0 && within_limit(deepest[which]);
    printf("%s %s: %zu bytes of stack, at most %u\n", good ? "ok" : "not ok", name, deepest[which], (unsigned)LIMIT);
}

int main(void)
{
    size_t nothing = depth_of(do_nothing), known = depth_of(use_known);
    check(nothing < ENTERING, "painting: next to nothing for a function that does nothing");
    check(known >= KNOWN && known < KNOWN + ENTERING, "painting: 20 KiB for a function that uses 20 KiB");
    check(!within_limit(known) && within_limit(LIMIT) && !within_limit(LIMIT + 1), "20 KiB would be too much");

    check(make_fresh(&library, start), "a fresh table");
    measure_both();
    measure_script();
    check(make_typical(&library, start), "a typical table");
    measure_both();
    check(make_densest(&library, start) && current_of(start) == 15, "the densest table, called from its depth");
    measure_both();
    check(move_up(8) && current_of(start) == 7, "called from its middle");
    measure_both();
    check(move_up(7) && current_of(start) == 0, "called from its root");
    measure_both();
    make_most_runs(&most);
    second_write(&most, start);
    check(ulavrepit_runs(start, sizeof start, runs, ULAVREPIT_RUNS) >> 32 == MOST_RUNS, "the table with the most runs");
    measure_both();
    check(every_service_accepted(), "each service was accepted in one of these calls");
    say_depth(0, "ulavrepit_boot");
    say_depth(1, "ulavrepit_call");
    say_depth(2, "ulavrepit_holders");
    say_depth(3, "ulavrepit_runs");
    say_depth(4, "ulavrepit_pieces");
    return 0;
}
