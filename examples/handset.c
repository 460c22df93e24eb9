/*
 * A handset's firmware sets up its three parts with libulavrepit.a: a form store, a label reader and a
 * bought-in radio uploader, which the store starts in its own memory. Then it makes the mistake that the kernel is
 * there for: a block that the store has is given to the reader as well. The store lends the uploader a buffer
 * whole, and so has it back whatever the uploader tries. Then the reader is replaced, which has started a helper
 * of its own by then: both go at once. At last the slots of a part are packed, after a long day of cuts and merges.
 *
 *   make example     or     cc -Iinclude examples/handset.c build/libulavrepit.a
 */
#include "ulavrepit.h"

#include <stdio.h>

static uint8_t table[ULAVREPIT_TABLE_BYTES];

/* One call. Its first value is what most services are called for; a refusal is printed. */
static uint32_t call(const char *what, uint64_t word)
{
    ulavrepit_answer answer = ulavrepit_call_answer(table, sizeof table, word);
    if (answer.refusal != ULAVREPIT_DONE)
        printf("%s: refused %u\n", what, (unsigned)answer.refusal);
    return answer.first;
}

/* Cuts so many lines off the front of the caller's largest block; answers their slot. The rest moves on. */
static uint32_t carve(uint32_t *rest, uint32_t *rest_start, uint32_t lines)
{
    uint32_t slot = *rest;
    *rest_start += lines;
    *rest = call("cut", ulavrepit_cut(slot, *rest_start));
    return slot;
}

/* A child with room for eight entries and one block of its own; answers the slot of that block. */
static uint32_t add_part(const char *name, uint32_t *rest, uint32_t *rest_start, uint32_t lines, uint32_t rights)
{
    uint32_t child = call("create", ulavrepit_create(carve(rest, rest_start, ULAVREPIT_AREA_LINES)));
    call("prepare", ulavrepit_prepare(child, carve(rest, rest_start, ULAVREPIT_AREA_LINES)));
    uint32_t slot = carve(rest, rest_start, lines);
    call("give", ulavrepit_give(child, slot, rights));
    printf("%s is partition %u, with lines %u to %u\n", name, (unsigned)child,
           (unsigned)(*rest_start - lines), (unsigned)*rest_start);
    return slot;
}

static void print_holders(uint32_t line)
{
    uint8_t list[ULAVREPIT_HOLDERS_BYTES];
    ulavrepit_answer answer = ulavrepit_holders_answer(table, sizeof table, line, list, sizeof list);
    printf("line %u is held by", (unsigned)line);
    for (uint32_t i = 0; i < answer.first; i++)
        printf(" %u", (unsigned)list[i]);
    if (answer.refusal == ULAVREPIT_DONE)
        printf(", found in %u slot words (at most %u)\n", (unsigned)answer.second, (unsigned)ULAVREPIT_LOOKS);
    else
        puts(" nobody: it is not the kernel's");
}

/* The store starts the uploader in its own memory, from its first line on, and lends it a buffer; what is left is the store's. */
static void lend_buffer(uint32_t store, uint32_t first_line)
{
    uint32_t rest = 0, start = first_line, uploader = 3, read_write = ULAVREPIT_READ + ULAVREPIT_WRITE;
    call("switch", ulavrepit_switch(store));
    uint32_t given = add_part("uploader of the store", &rest, &start, 256, read_write);
    uint32_t buffer = carve(&rest, &start, 64), line = start - 64;
    uint32_t lent = call("give", ulavrepit_give_whole(uploader, buffer, read_write));
    printf("the store lends it lines %u to %u whole\n", (unsigned)line, (unsigned)start);
    print_holders(line);

    call("switch", ulavrepit_switch(uploader));
    call("the uploader cuts its own block", ulavrepit_cut(0, line - 128)); /* that is done */
    call("the uploader cuts the buffer", ulavrepit_cut(lent, line + 32));
    call("switch", ulavrepit_switch(store));
    call("the store takes the uploader's own block", ulavrepit_take(given));
    call("take", ulavrepit_take(buffer));
    puts("the store takes the buffer back");
    print_holders(line);
    call("switch", ulavrepit_switch(0));
}

/* The reader starts a helper in its own memory, from its first line on: then it can't be deleted, but cleared out. */
static void replace_reader(uint32_t reader, uint32_t first_line)
{
    uint32_t rest = 0, start = first_line;
    call("switch", ulavrepit_switch(reader));
    add_part("helper of the reader", &rest, &start, 32, ULAVREPIT_READ);
    call("switch", ulavrepit_switch(0));
    uint32_t line = start - 1; /* the last one that the helper has */
    print_holders(line);
    call("delete the reader", ulavrepit_delete(reader));
    printf("the reader is cleared out: %u partitions removed\n",
           (unsigned)call("clear out", ulavrepit_clear_out(reader)));
    print_holders(line);
}

/*
 * The part gets three more structures, cuts its block in 32 and merges the pieces again: what is left is one entry in
 * each of its four structures, and none of them can be collected. Packed, they stand in the first.
 */
static void end_a_long_day(uint32_t part, uint32_t first_line, uint32_t *rest, uint32_t *rest_start)
{
    uint32_t slots = ULAVREPIT_SLOTS / ULAVREPIT_STRUCTURES; /* of a structure */
    for (uint32_t i = 1; i < ULAVREPIT_STRUCTURES; i++)
        call("prepare", ulavrepit_prepare(part, carve(rest, rest_start, ULAVREPIT_AREA_LINES)));
    call("switch", ulavrepit_switch(part));
    for (uint32_t s = 1; s < ULAVREPIT_SLOTS; s++)
        call("cut", ulavrepit_cut(s - 1, first_line + 8 * s));
    for (uint32_t s = 1; s < ULAVREPIT_SLOTS; s++)
        if (s % slots != 0)
            call("merge", ulavrepit_merge(s - s % slots, s));
    call("switch", ulavrepit_switch(0));

    uint32_t line = first_line + 8 * ULAVREPIT_SLOTS - 1; /* the last one */
    print_holders(line);
    call("collect the last structure", ulavrepit_collect(part, ULAVREPIT_STRUCTURES - 1));
    printf("the slots are packed: %u entries moved\n", (unsigned)call("pack", ulavrepit_pack(part)));
    for (uint32_t i = 1; i < ULAVREPIT_STRUCTURES; i++)
        call("collect", ulavrepit_collect(part, i));
    puts("the other three structures are collected");
    print_holders(line);
}

int main(void)
{
    uint32_t rest = 0, start = 256, end = 4096;
    uint32_t read_write = ULAVREPIT_READ + ULAVREPIT_WRITE;

    ulavrepit_answer boot = ulavrepit_boot_answer(table, sizeof table, start, end);
    printf("boot of lines %u to %u: %s\n", (unsigned)start, (unsigned)end, boot.refusal == 0 ? "done" : "refused");

    /* Eight slots are too few for all that follows, so the root gets eight more. */
    call("prepare", ulavrepit_prepare(0, carve(&rest, &start, ULAVREPIT_AREA_LINES)));
    uint32_t forms = add_part("store", &rest, &start, 1024, read_write);
    add_part("reader", &rest, &start, 128, ULAVREPIT_ALL_RIGHTS);

    print_holders(400);
    print_holders(1400);
    print_holders(4096);
    call("give the store's block to the reader", ulavrepit_give(2, forms, read_write));
    print_holders(400);

    /* The right way: it comes back from the store first, as it does as long as the store hasn't cut it. */
    call("take", ulavrepit_take(forms));
    call("give", ulavrepit_give(2, forms, ULAVREPIT_READ));
    puts("the store's block is taken back and given to the reader, to read");
    print_holders(400);
    call("take", ulavrepit_take(forms));
    call("give", ulavrepit_give(1, forms, read_write));

    lend_buffer(1, 304);
    replace_reader(2, 1360);
    add_part("new reader", &rest, &start, 8 * ULAVREPIT_SLOTS, ULAVREPIT_ALL_RIGHTS);
    end_a_long_day(2, start - 8 * ULAVREPIT_SLOTS, &rest, &start);
    return 0;
}
