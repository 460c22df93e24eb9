#include "farthest.h"
#include "tables.h"

/* The table being made, and whether every call so far was accepted. */
typedef struct {
    const kernel *k;
    uint8_t *table;
    bool good;
} making;

/* Makes a call; answers its first value. */
static uint32_t must(making *m, uint64_t word)
{
    uint64_t second = 0;
    uint64_t result = m->k->call(m->table, ULAVREPIT_TABLE_BYTES, word, &second);
    if ((result & 0xff) != ULAVREPIT_DONE)
        m->good = false;
    return (uint32_t)(result >> 32);
}

static making boot(const kernel *k, uint8_t *table, uint64_t base, uint64_t end)
{
    making m = {k, table, true};
    m.good = k->boot(table, ULAVREPIT_TABLE_BYTES, base, end) == 0;
    return m;
}

bool make_fresh(const kernel *k, uint8_t *table)
{
    return boot(k, table, 256, 1024).good;
}

/* A block of the caller from which pieces are cut off at the front. */
typedef struct {
    uint32_t slot, start;
} block;

/* Cuts so many lines off; answers their slot. */
static uint32_t carve(making *m, block *from, uint32_t lines)
{
    uint32_t slot = from->slot;
    from->start += lines;
    from->slot = must(m, ulavrepit_cut(slot, from->start));
    return slot;
}

/* A child with one structure and one block; answers its number. */
static uint32_t add_child(making *m, block *from, uint32_t lines, uint32_t rights)
{
    uint32_t child = must(m, ulavrepit_create(carve(m, from, ULAVREPIT_AREA_LINES)));
    must(m, ulavrepit_prepare(child, carve(m, from, ULAVREPIT_AREA_LINES)));
    must(m, ulavrepit_give(child, carve(m, from, lines), rights));
    return child;
}

/* The child cuts its block into so many parts and loads the first. */
static void settle_in(making *m, uint32_t child, uint32_t start, uint32_t parts)
{
    block own = {0, start};
    must(m, ulavrepit_switch(child));
    for (uint32_t i = 1; i < parts; i++)
        carve(m, &own, 64);
    must(m, ulavrepit_load(child, 0, 0));
    must(m, ulavrepit_switch(0));
}

/* The store has eight slots more and two helpers. */
static void settle_store(making *m, uint32_t store, uint32_t start)
{
    block own = {0, start};
    must(m, ulavrepit_switch(store));
    must(m, ulavrepit_prepare(store, carve(m, &own, ULAVREPIT_AREA_LINES)));
    add_child(m, &own, 64, ULAVREPIT_READ);
    add_child(m, &own, 128, ULAVREPIT_READ + ULAVREPIT_WRITE);
    must(m, ulavrepit_load(store, own.slot, 3));
    must(m, ulavrepit_switch(0));
}

bool make_typical(const kernel *k, uint8_t *table)
{
    const uint32_t lines = 1024;
    making m = boot(k, table, 256, 8192);
    block rest = {0, 256};
    must(&m, ulavrepit_prepare(0, carve(&m, &rest, ULAVREPIT_AREA_LINES)));
    uint32_t store = add_child(&m, &rest, lines, ULAVREPIT_READ + ULAVREPIT_WRITE);
    settle_store(&m, store, rest.start - lines);
    uint32_t reader = add_child(&m, &rest, lines, ULAVREPIT_ALL_RIGHTS);
    settle_in(&m, reader, rest.start - lines, 4);
    uint32_t uploader = add_child(&m, &rest, lines, ULAVREPIT_READ + ULAVREPIT_WRITE);
    settle_in(&m, uploader, rest.start - lines, 3);
    return m.good;
}

/* ---- ten partitions ---- */

/* A child with eight slots more and so many children of its own, each with its block in two parts, the first of them loaded. */
static void add_family(making *m, block *from, uint32_t children)
{
    const uint32_t lines = 2048, lines_each = 256;
    uint32_t parent = add_child(m, from, lines, ULAVREPIT_ALL_RIGHTS);
    block own = {0, from->start - lines};
    must(m, ulavrepit_switch(parent));
    must(m, ulavrepit_prepare(parent, carve(m, &own, ULAVREPIT_AREA_LINES)));
    for (uint32_t i = 0; i < children; i++) {
        uint32_t child = add_child(m, &own, lines_each, ULAVREPIT_READ + ULAVREPIT_WRITE);
        block part = {0, own.start - lines_each};
        must(m, ulavrepit_switch(child));
        carve(m, &part, 64);
        must(m, ulavrepit_load(child, 0, 0));
        must(m, ulavrepit_switch(parent));
    }
    must(m, ulavrepit_switch(0));
}

bool make_ten(const kernel *k, uint8_t *table)
{
    making m = boot(k, table, 256, 8192);
    block rest = {0, 256};
    must(&m, ulavrepit_prepare(0, carve(&m, &rest, ULAVREPIT_AREA_LINES)));
    add_family(&m, &rest, 4);
    add_family(&m, &rest, 3);
    carve(&m, &rest, ULAVREPIT_AREA_LINES);
    return m.good;
}

/* ---- the densest ---- */

enum { LEVELS = 16, GRANTS = 27, SMALL_LINES = 4 };

/*
 * Rights of the i-th grant by a partition of this depth: none is taken away near the root, others further
 * down, so that neighbours differ and each is within its parent's.
 */
static uint32_t grant_rights(uint32_t depth, uint32_t i)
{
    uint32_t rights = ULAVREPIT_ALL_RIGHTS;
    if (i % 3 == 1 && depth >= 4)
        rights -= ULAVREPIT_EXECUTE;
    if (i % 3 == 2 && depth >= 8)
        rights -= ULAVREPIT_WRITE;
    return rights;
}

/*
 * The slots that the caller gives away, by grant: the block that goes from child to child, the longest, and the
 * others. A grant is one entry in the child, so its slot there is the child's own slot to give.
 */
typedef struct {
    uint32_t slots[GRANTS];
    uint32_t start; /* of the first of them */
} grants;

/* The caller cuts five areas off its first block: three for its own structures, two for a child, if it has one. */
static void fill_structures(making *m, grants *own, uint32_t caller, uint32_t areas[2])
{
    block first = {own->slots[0], own->start};
    for (unsigned i = 0; i < 3; i++)
        must(m, ulavrepit_prepare(caller, carve(m, &first, ULAVREPIT_AREA_LINES)));
    for (unsigned i = 0; i < 2; i++)
        areas[i] = carve(m, &first, ULAVREPIT_AREA_LINES);
    own->slots[0] = first.slot;
    own->start = first.start;
}

/* One level more: the caller's child, current afterwards, has the caller's 27 blocks, and 32 entries. */
static void deepen(making *m, grants *own, uint32_t depth, uint32_t areas[2])
{
    grants next;
    uint32_t caller = depth, child = must(m, ulavrepit_create(areas[0]));
    must(m, ulavrepit_prepare(child, areas[1]));
    next.start = own->start;
    next.slots[0] = must(m, ulavrepit_give(child, own->slots[0], grant_rights(depth, 0)));
    must(m, ulavrepit_switch(child));
    fill_structures(m, &next, child, areas);
    must(m, ulavrepit_switch(caller));
    for (uint32_t i = 1; i < GRANTS; i++)
        next.slots[i] = must(m, ulavrepit_give(child, own->slots[i], grant_rights(depth, i)));
    must(m, ulavrepit_switch(child));
    *own = next;
}

bool make_densest(const kernel *k, uint8_t *table)
{
    making m = boot(k, table, 256, 65536);
    grants own = {{0}, 256};
    uint32_t areas[2];
    fill_structures(&m, &own, 0, areas);

    /* The root's other 26 blocks are the last lines of memory. */
    uint32_t last = own.slots[0], start = 65536 - (GRANTS - 1) * SMALL_LINES;
    for (uint32_t i = 1; i < GRANTS; i++, start += SMALL_LINES)
        last = own.slots[i] = must(&m, ulavrepit_cut(last, start));
    for (uint32_t depth = 0; depth < LEVELS - 1; depth++)
        deepen(&m, &own, depth, areas);
    return m.good;
}

/* ---- a chain ---- */

bool climb_chain(const kernel *k, uint8_t *table, uint32_t partitions)
{
    making m = {k, table, true};
    for (uint32_t p = partitions - 1; p > 0; p--)
        must(&m, ulavrepit_switch(p - 1));
    return m.good;
}

bool make_chain(const kernel *k, uint8_t *table, uint32_t partitions, uint32_t entries)
{
    static uint64_t words[FARTHEST_CALLS];
    unsigned calls = chain_session(words, partitions, entries);
    making m = boot(k, table, 0, FARTHEST_END);
    for (unsigned i = 0; i < calls; i++)
        must(&m, words[i]);
    return climb_chain(k, table, partitions) && m.good;
}
