/*
 * The handset's story on both engines side by side: the tables of ulavrepit_call, and the line engine, one mask a line,
 * bit p for partition p. What each accepted call does to the masks is all there is to know of who holds what: the picture
 * has one row for each block of lines with the same mask, and one column for each partition. See docs/LINES.md.
 *
 *   make lines     or     cc -Iinclude examples/lines.c build/libulavrepit.a
 */
#include "ulavrepit.h"

#include <stdio.h>

enum { BASE = 256, END = 2304, LINES = END - BASE };

static uint8_t table[ULAVREPIT_TABLE_BYTES];
static uint16_t masks[LINES];
static uint32_t parent[ULAVREPIT_PARTITIONS]; /* who started whom, by the answers of create */

/* ---- the masks, driven by what is accepted ---- */

/*
 * The lines of the caller's entry that a call names by its slot: all that is looked up in the table. Give and take leave them.
 * No call answers the entry of a slot, so this goes by the table's layout: word 0, then 40 words a partition, of which the
 * last 32 are its slots.
 */
enum { WORD_BYTES = 8, FIRST_WORDS = 1, PARTITION_WORDS = 40, WORDS_BEFORE_SLOTS = 8 };

static ulavrepit_entry entry_named(uint32_t caller, uint32_t slot)
{
    const uint8_t *bytes = table + WORD_BYTES * (FIRST_WORDS + PARTITION_WORDS * caller + WORDS_BEFORE_SLOTS + slot);
    uint64_t word = 0;
    for (int b = 0; b < 8; b++)
        word = word << 8 | bytes[b];
    return ulavrepit_unpack_entry(word);
}

/* The caller's child that holds the line; 0, which the engine refuses, where there is none. */
static uint32_t child_with(uint32_t caller, uint32_t line)
{
    for (uint32_t p = 1; p < ULAVREPIT_PARTITIONS; p++)
        if (parent[p] == caller && (masks[line - BASE] >> p & 1) != 0)
            return p;
    return 0;
}

/* What an accepted call drives is never refused. */
static void driven(uint64_t result)
{
    if ((result & 0xff) != ULAVREPIT_DONE)
        printf("the line engine refuses with %u\n", (unsigned)(result & 0xff));
}

/* A partition and all that it started, one bit each. */
static uint64_t branch_of(uint32_t top)
{
    uint64_t members = UINT64_C(1) << top;
    for (int turn = 0; turn < ULAVREPIT_PARTITIONS; turn++)
        for (uint32_t p = 1; p < ULAVREPIT_PARTITIONS; p++)
            if (parent[p] != 0 && (members >> parent[p] & 1) != 0)
                members |= UINT64_C(1) << p;
    return members;
}

static void strike(uint64_t members)
{
    for (uint32_t p = 1; p < ULAVREPIT_PARTITIONS; p++)
        if ((members >> p & 1) != 0)
            parent[p] = 0;
    driven(ulavrepit_engine_strike(masks, LINES, BASE, END, members));
}

/* One call on the tables; if it is done, the masks follow. */
static uint32_t call(const char *what, uint64_t word)
{
    uint32_t child = (uint32_t)(word >> 56 & 15), slot = (uint32_t)(word >> 51 & 31);
    ulavrepit_answer answer = ulavrepit_call_answer(table, sizeof table, word);
    ulavrepit_entry entry = entry_named(answer.caller, slot);
    if (answer.refusal != ULAVREPIT_DONE) {
        printf("%s: refused %u, and no mask changes\n", what, (unsigned)answer.refusal);
        return answer.first;
    }
    switch (word >> 60) {
    case ULAVREPIT_CREATE:
        parent[answer.first] = answer.caller;
        break;
    case ULAVREPIT_GIVE:
        driven(ulavrepit_engine_give(masks, LINES, BASE, END, child, entry.start, entry.end));
        break;
    case ULAVREPIT_TAKE:
        driven(ulavrepit_engine_take(masks, LINES, BASE, END, child_with(answer.caller, entry.start), entry.start, entry.end));
        break;
    case ULAVREPIT_DELETE:
        strike(UINT64_C(1) << child);
        break;
    case ULAVREPIT_CLEAR_OUT:
        strike(branch_of(child));
        break;
    default: /* the others move no line */
        break;
    }
    return answer.first;
}

/* ---- the picture ---- */

/* How many lines have another mask than the holders that the tables list. */
static unsigned count_differing(void)
{
    unsigned n = 0;
    for (uint32_t line = BASE; line < END; line++) {
        uint8_t list[ULAVREPIT_HOLDERS_BYTES];
        ulavrepit_answer answer = ulavrepit_holders_answer(table, sizeof table, line, list, sizeof list);
        unsigned mask = 0;
        for (uint32_t i = 0; i < answer.first; i++)
            mask |= 1u << list[i];
        n += mask != masks[line - BASE];
    }
    return n;
}

static void show(const char *when)
{
    printf("\n%s\n  lines          0123456789abcdef\n", when);
    for (uint32_t from = 0, to; from < LINES; from = to) {
        for (to = from; to < LINES && masks[to] == masks[from]; to++)
            ;
        printf("  %4u to %4u   ", (unsigned)(BASE + from), (unsigned)(BASE + to));
        for (unsigned p = 0; p < ULAVREPIT_PARTITIONS; p++)
            putchar((masks[from] >> p & 1) != 0 ? '#' : '.');
        putchar('\n');
    }
    printf("  the tables say otherwise of %u lines\n", count_differing());
}

/* ---- the story: examples/handset.c ---- */

static uint32_t carve(uint32_t *rest, uint32_t *rest_start, uint32_t lines)
{
    uint32_t slot = *rest;
    *rest_start += lines;
    *rest = call("cut", ulavrepit_cut(slot, *rest_start));
    return slot;
}

static uint32_t add_part(uint32_t *rest, uint32_t *rest_start, uint32_t lines, uint32_t rights)
{
    uint32_t child = call("create", ulavrepit_create(carve(rest, rest_start, ULAVREPIT_AREA_LINES)));
    call("prepare", ulavrepit_prepare(child, carve(rest, rest_start, ULAVREPIT_AREA_LINES)));
    uint32_t slot = carve(rest, rest_start, lines);
    call("give", ulavrepit_give(child, slot, rights));
    return slot;
}

int main(void)
{
    uint32_t rest = 0, start = BASE, read_write = ULAVREPIT_READ + ULAVREPIT_WRITE;
    ulavrepit_boot(table, sizeof table, BASE, END);
    driven(ulavrepit_engine_start(masks, LINES, BASE, END));
    show("boot: the root holds every line");

    call("prepare", ulavrepit_prepare(0, carve(&rest, &start, ULAVREPIT_AREA_LINES)));
    uint32_t forms = add_part(&rest, &start, 1024, read_write);
    add_part(&rest, &start, 128, ULAVREPIT_ALL_RIGHTS);
    add_part(&rest, &start, 256, read_write);
    show("store 1, reader 2 and uploader 3 are each given a block");

    call("give the store's block to the uploader", ulavrepit_give(3, forms, read_write));
    call("take", ulavrepit_take(forms));
    call("give", ulavrepit_give(3, forms, ULAVREPIT_READ));
    show("the store's block is taken back and given to the uploader");

    uint32_t slot = 0, line = 1360; /* the reader's block, from its first line on */
    call("switch", ulavrepit_switch(2));
    add_part(&slot, &line, 32, ULAVREPIT_READ);
    call("switch", ulavrepit_switch(0));
    show("the reader starts helper 4 and gives it a part of its block");

    call("delete the reader", ulavrepit_delete(2));
    call("clear out the reader", ulavrepit_clear_out(2));
    show("the reader is cleared out with its helper");
    return 0;
}
