#include "damage.h"

#include "lent.h"
#include "steer.h"

/* ---- small parts ---- */

static second_slot *slot_in(second_table *t, uint8_t p, uint8_t s)
{
    return &t->partitions[p].slots[s];
}

/* A partition that passes, each with the same chance; SECOND_PARTITIONS if none does. */
typedef bool partition_test(const second_table *t, uint8_t p);

static uint8_t some_partition(const second_table *t, partition_test *passes, dice *d)
{
    uint8_t first = (uint8_t)below(d, SECOND_PARTITIONS);
    for (uint8_t i = 0; i < SECOND_PARTITIONS; i++) {
        uint8_t p = (first + i) % SECOND_PARTITIONS;
        if (passes(t, p))
            return p;
    }
    return SECOND_PARTITIONS;
}

static bool is_present(const second_table *t, uint8_t p)
{
    return t->partitions[p].present;
}

static bool is_absent(const second_table *t, uint8_t p)
{
    return !t->partitions[p].present;
}

static bool is_child(const second_table *t, uint8_t p)
{
    return p != 0 && t->partitions[p].present;
}

/* A slot of some present partition that passes; false if it has none. */
static bool pick_slot(const second_table *t, slot_test *passes, uint8_t *p, uint8_t *s, dice *d)
{
    *p = some_partition(t, is_present, d);
    *s = some_slot(t, *p, passes, d);
    return *s < SECOND_SLOTS;
}

static bool is_long(const second_slot *e)
{
    return e->end - e->start >= SECOND_AREA_LINES;
}

static bool is_usable_long(const second_table *t, uint8_t p, uint8_t s)
{
    return is_usable(t, p, s) && is_long(&t->partitions[p].slots[s]);
}

static bool is_usable_short(const second_table *t, uint8_t p, uint8_t s)
{
    return is_usable(t, p, s) && !is_long(&t->partitions[p].slots[s]);
}

static second_area range_of(const second_slot *e)
{
    second_area a = {e->start, e->end};
    return a;
}

/* A structure of the partition that is present, or absent; NULL if it has none. The root's first is left alone. */
static second_structure *some_structure(second_table *t, uint8_t p, bool present, dice *d)
{
    unsigned first = below(d, SECOND_STRUCTURES);
    for (unsigned i = 0; i < SECOND_STRUCTURES; i++) {
        unsigned at = (first + i) % SECOND_STRUCTURES;
        if ((p != 0 || at != 0) && t->partitions[p].structures[at].present == present)
            return &t->partitions[p].structures[at];
    }
    return NULL;
}

static void put_structure(second_structure *structure, const second_slot *e)
{
    structure->present = true;
    structure->area = range_of(e);
}

/* A region that named the slot names none. */
static void forget_slot(second_table *t, uint8_t p, uint8_t s)
{
    for (unsigned r = 0; r < SECOND_REGIONS; r++)
        if (t->partitions[p].regions[r].loaded && t->partitions[p].regions[r].slot == s)
            memset(&t->partitions[p].regions[r], 0, sizeof t->partitions[p].regions[r]);
}

/* ---- open bits and regions, after areas were changed ---- */

static bool shares(second_area a, const second_slot *e)
{
    return a.start < e->end && e->start < a.end;
}

static bool touches_area(const second_table *t, const second_slot *e)
{
    for (unsigned p = 0; p < SECOND_PARTITIONS; p++) {
        const second_partition *q = &t->partitions[p];
        if (q->present && shares(q->area, e))
            return true;
        for (unsigned i = 0; q->present && i < SECOND_STRUCTURES; i++)
            if (q->structures[i].present && shares(q->structures[i].area, e))
                return true;
    }
    return false;
}

void settle_table(second_table *t)
{
    for (uint8_t p = 0; p < SECOND_PARTITIONS; p++)
        for (uint8_t s = 0; s < SECOND_SLOTS; s++) {
            second_slot *e = slot_in(t, p, s);
            if (!e->present)
                continue;
            e->open = !touches_area(t, e);
            if (!e->open)
                forget_slot(t, p, s);
        }
}

/* ---- S1 ---- */

static bool absent_is_current(second_table *t, dice *d)
{
    t->current = some_partition(t, is_absent, d);
    return t->current < SECOND_PARTITIONS;
}

static bool memory_of_no_line(second_table *t, dice *d)
{
    memset(t, 0, sizeof *t);
    t->base = t->end = below(d, SECOND_LAST_LINE + 1u);
    t->partitions[0].present = true;
    t->partitions[0].structures[0].present = true;
    return true;
}

/* ---- S2 ---- */

static bool root_has_parent(second_table *t, dice *d)
{
    t->partitions[0].parent = (uint8_t)(1 + below(d, 15));
    return true;
}

static bool root_has_area(second_table *t, dice *d)
{
    uint8_t s = some_slot(t, 0, is_usable_long, d);
    if (s == SECOND_SLOTS)
        return false;
    t->partitions[0].area = range_of(slot_in(t, 0, s));
    return true;
}

static bool child_without_area(second_table *t, dice *d)
{
    uint8_t p = some_partition(t, is_child, d);
    if (p == SECOND_PARTITIONS)
        return false;
    memset(&t->partitions[p].area, 0, sizeof t->partitions[p].area);
    return true;
}

/* Its parent is absent, itself, or below it. Its area is then in nobody's entry: S8 fails too. */
static bool lost_child(second_table *t, dice *d)
{
    uint8_t p = some_partition(t, is_child, d);
    if (p == SECOND_PARTITIONS)
        return false;
    uint8_t parent = (uint8_t)below(d, SECOND_PARTITIONS), below_it = parent;
    while (below_it != 0 && below_it != p && is_present(t, below_it))
        below_it = t->partitions[below_it].parent;
    t->partitions[p].parent = parent;
    return below_it != 0;
}

/* A word of a record that is absent: all of it zero but one field. */
static bool rest_of_a_record(uint8_t *table, const second_table *t, dice *d)
{
    uint8_t p = some_partition(t, is_absent, d);
    if (p == SECOND_PARTITIONS)
        return false;
    uint8_t *record = table + 8 * (1 + 40 * (unsigned)p);
    switch (below(d, 4)) {
    case 0: record[0] = (uint8_t)((1 + below(d, 15)) << 3); break;                         /* parent */
    case 1: record[3] = (uint8_t)(1 + below(d, 255)); break;                               /* area start */
    case 2: record[8 * 5 + below(d, 8)] = (uint8_t)(0x80 + below(d, 32)); break;           /* a region */
    default: record[8 * (8 + below(d, 32)) + below(d, 8)] = (uint8_t)(1 + below(d, 255)); /* a slot */
    }
    return true;
}

/* ---- S3 ---- */

/* The zero bits of word i of a record, up to the slots, which have none. */
static uint64_t zero_bits(unsigned i)
{
    if (i == 0)
        return 0x1f;
    if (i < 5)
        return 0x1ff;
    return i == 5 ? UINT64_C(0x6060606060606060) : UINT64_MAX;
}

static bool zero_bit_set(uint8_t *table, const second_table *t, dice *d)
{
    unsigned i = below(d, 9), bit = below(d, 64);
    uint8_t p = some_partition(t, is_present, d);
    uint64_t mask = i == 8 ? 0x3f : zero_bits(i); /* 8: word 0 of the table */
    while ((mask >> bit & 1) == 0)
        bit = (bit + 1) % 64;
    unsigned word = i == 8 ? 0 : 1 + 40 * (unsigned)p + i;
    table[8 * word + 7 - bit / 8] |= (uint8_t)(1u << bit % 8);
    return true;
}

static bool slot_without_load(second_table *t, dice *d)
{
    uint8_t p = some_partition(t, is_present, d);
    for (unsigned r = 0; r < SECOND_REGIONS; r++)
        if (!t->partitions[p].regions[r].loaded) {
            t->partitions[p].regions[r].slot = (uint8_t)(1 + below(d, 31));
            return true;
        }
    return false;
}

/* ---- S4 ---- */

static bool absent_has_area(second_table *t, dice *d)
{
    uint8_t p, s;
    if (!pick_slot(t, is_usable, &p, &s, d))
        return false;
    second_structure *structure = some_structure(t, p, false, d);
    if (structure == NULL)
        return false;
    structure->area = range_of(slot_in(t, p, s));
    return true;
}

static bool structure_without_area(second_table *t, dice *d)
{
    second_structure *structure = some_structure(t, some_partition(t, is_present, d), true, d);
    if (structure == NULL)
        return false;
    memset(&structure->area, 0, sizeof structure->area);
    return true;
}

static bool first_structure_has_area(second_table *t, dice *d)
{
    uint8_t s = some_slot(t, 0, is_usable_long, d);
    if (s == SECOND_SLOTS)
        return false;
    t->partitions[0].structures[0].area = range_of(slot_in(t, 0, s));
    return true;
}

/* Where its slots hold entries, S5 fails too. */
static bool first_structure_absent(second_table *t, dice *d)
{
    (void)d;
    t->partitions[0].structures[0].present = false;
    return true;
}

static bool short_area(second_table *t, dice *d)
{
    uint8_t p, s;
    if (!pick_slot(t, is_usable_short, &p, &s, d))
        return false;
    second_structure *structure = some_structure(t, p, false, d);
    if (structure == NULL)
        return false;
    put_structure(structure, slot_in(t, p, s));
    return true;
}

/* ---- S5 ---- */

static bool entry_outside_structures(second_table *t, dice *d)
{
    uint8_t p, s;
    if (!pick_slot(t, is_entry, &p, &s, d))
        return false;
    for (uint8_t i = 0; i < SECOND_STRUCTURES; i++)
        if (!t->partitions[p].structures[i].present) {
            forget_slot(t, p, s);
            *slot_in(t, p, (uint8_t)(SECOND_STRUCTURE_SLOTS * i + below(d, SECOND_STRUCTURE_SLOTS))) = *slot_in(t, p, s);
            memset(slot_in(t, p, s), 0, sizeof(second_slot));
            return true;
        }
    return false;
}

static bool entry_of_no_line(second_table *t, dice *d)
{
    uint8_t p, s;
    if (!pick_slot(t, is_entry, &p, &s, d))
        return false;
    uint8_t spare = some_slot(t, p, is_free, d);
    if (spare == SECOND_SLOTS)
        return false;
    second_slot *e = slot_in(t, p, spare);
    e->present = e->open = true;
    e->start = e->end = slot_in(t, p, s)->start;
    e->rights = p == 0 ? 7 : 0;
    return true;
}

static bool rest_of_an_entry(second_table *t, dice *d)
{
    uint8_t p, s;
    if (!pick_slot(t, is_free, &p, &s, d))
        return false;
    second_slot *e = slot_in(t, p, s);
    switch (below(d, 6)) {
    case 0: e->open = true; break;
    case 1: e->rights = (uint8_t)(1 + below(d, 7)); break;
    case 2: e->given = (uint8_t)(1 + below(d, 15)); break;
    case 3: e->start = 1 + below(d, SECOND_LAST_LINE); break;
    case 4: e->whole = true; break;
    default: e->end = 1 + below(d, SECOND_LAST_LINE);
    }
    return true;
}

/* ---- S6 ---- */

/* The slot of the usable entry that starts where another of the same grant ends; SECOND_SLOTS if none does. */
static uint8_t next_in_grant(const second_table *t, uint8_t p, uint8_t s)
{
    const second_slot *slots = t->partitions[p].slots;
    for (uint8_t u = 0; u < SECOND_SLOTS; u++)
        if (is_usable(t, p, u) && slots[u].start == slots[s].end &&
            (p == 0 || entry_around(t, p, slots[s].start, slots[u].end) < SECOND_SLOTS))
            return u;
    return SECOND_SLOTS;
}

static bool has_next(const second_table *t, uint8_t p, uint8_t s)
{
    return is_usable(t, p, s) && next_in_grant(t, p, s) < SECOND_SLOTS;
}

static bool one_line_twice(second_table *t, dice *d)
{
    uint8_t p, s;
    if (!pick_slot(t, has_next, &p, &s, d))
        return false;
    if (percent(d, 50))
        slot_in(t, p, s)->end += 1;
    else
        slot_in(t, p, next_in_grant(t, p, s))->start -= 1;
    return true;
}

static bool entry_twice(second_table *t, dice *d)
{
    uint8_t p, s;
    if (!pick_slot(t, is_usable, &p, &s, d))
        return false;
    uint8_t spare = some_slot(t, p, is_free, d);
    if (spare == SECOND_SLOTS)
        return false;
    *slot_in(t, p, spare) = *slot_in(t, p, s);
    return true;
}

/* ---- S7 ---- */

static bool hole(second_table *t, dice *d)
{
    uint8_t p, s;
    if (!pick_slot(t, is_usable, &p, &s, d))
        return false;
    forget_slot(t, p, s);
    memset(slot_in(t, p, s), 0, sizeof(second_slot));
    return true;
}

static bool line_missing(second_table *t, dice *d)
{
    uint8_t p, s;
    if (!pick_slot(t, is_usable_long, &p, &s, d))
        return false;
    if (percent(d, 50))
        slot_in(t, p, s)->end -= 1;
    else
        slot_in(t, p, s)->start += 1;
    return true;
}

/* An entry reaches one line past its grant, or past the memory, where the partition holds none. */
static bool line_too_many(second_table *t, dice *d)
{
    uint8_t p, s;
    if (!pick_slot(t, is_usable, &p, &s, d))
        return false;
    second_slot *e = slot_in(t, p, s);
    if (e->end == SECOND_LAST_LINE)
        return false;
    for (uint8_t u = 0; u < SECOND_SLOTS; u++)
        if (is_entry(t, p, u) && slot_in(t, p, u)->start == e->end)
            return false;
    e->end += 1;
    return !touches_area(t, e);
}

static bool given_to_no_child(second_table *t, dice *d)
{
    uint8_t p, s;
    if (!pick_slot(t, is_usable, &p, &s, d))
        return false;
    slot_in(t, p, s)->given = (uint8_t)(1 + below(d, 15));
    return !child_of(t, slot_in(t, p, s)->given, p);
}

static bool held_without_grant(second_table *t, dice *d)
{
    uint8_t p = some_partition(t, is_child, d);
    if (p == SECOND_PARTITIONS)
        return false;
    uint8_t parent = t->partitions[p].parent;
    uint8_t s = some_slot(t, parent, is_usable, d), spare = some_slot(t, p, is_free, d);
    if (s == SECOND_SLOTS || spare == SECOND_SLOTS)
        return false;
    *slot_in(t, p, spare) = *slot_in(t, parent, s);
    return true;
}

static bool grant_forgotten(second_table *t, dice *d)
{
    uint8_t p, s;
    if (!pick_slot(t, is_lent, &p, &s, d))
        return false;
    slot_in(t, p, s)->given = 0;
    return true;
}

static bool more_memory(second_table *t, dice *d)
{
    if (percent(d, 50) && t->base > 0)
        t->base -= 1;
    else if (t->end < SECOND_LAST_LINE)
        t->end += 1;
    else
        return false;
    return true;
}

/* Ends where another usable entry of the same partition starts, of another grant. */
static bool meets_other_grant(const second_table *t, uint8_t p, uint8_t s)
{
    const second_slot *slots = t->partitions[p].slots;
    for (uint8_t u = 0; p != 0 && u < SECOND_SLOTS; u++)
        if (is_usable(t, p, u) && slots[u].start == slots[s].end)
            return is_usable(t, p, s) && entry_around(t, p, slots[s].start, slots[u].end) == SECOND_SLOTS;
    return false;
}

static bool grants_in_one(second_table *t, dice *d)
{
    uint8_t p, s;
    if (!pick_slot(t, meets_other_grant, &p, &s, d))
        return false;
    for (uint8_t u = 0; u < SECOND_SLOTS; u++)
        if (is_usable(t, p, u) && slot_in(t, p, u)->start == slot_in(t, p, s)->end) {
            slot_in(t, p, s)->end = slot_in(t, p, u)->end;
            slot_in(t, p, s)->rights &= slot_in(t, p, u)->rights;
            forget_slot(t, p, u);
            memset(slot_in(t, p, u), 0, sizeof(second_slot));
            return true;
        }
    return false;
}

/* Few partitions have such an entry, so many are asked. */
static bool mark_one(second_table *t, slot_test *passes, dice *d)
{
    uint8_t p, s;
    bool found = false;
    for (unsigned tries = 0; tries < SECOND_PARTITIONS && !found; tries++)
        found = pick_slot(t, passes, &p, &s, d);
    if (found)
        slot_in(t, p, s)->whole = true;
    return found;
}

/* A piece of a grant, or, of the root, an entry that nobody gave it. */
static bool is_no_grant(const second_table *t, uint8_t p, uint8_t s)
{
    return is_usable(t, p, s) && !is_grant(t, p, s);
}

static bool is_grant_given_on(const second_table *t, uint8_t p, uint8_t s)
{
    return is_lent(t, p, s) && is_grant(t, p, s);
}

static bool is_grant_closed(const second_table *t, uint8_t p, uint8_t s)
{
    return is_closed(t, p, s) && is_grant(t, p, s);
}

static bool piece_is_whole(second_table *t, dice *d)
{
    return mark_one(t, is_no_grant, d);
}

static bool whole_is_given(second_table *t, dice *d)
{
    return mark_one(t, is_grant_given_on, d);
}

static bool whole_is_closed(second_table *t, dice *d)
{
    return mark_one(t, is_grant_closed, d);
}

mismark mismarked_in(const uint8_t *table)
{
    static second_table t;
    second_read(table, &t);
    for (uint8_t p = 0; p < SECOND_PARTITIONS; p++)
        for (uint8_t s = 0; s < SECOND_SLOTS; s++) {
            if (!is_whole(&t, p, s) || (is_idle(&t, p, s) && is_grant(&t, p, s)))
                continue;
            return !is_grant(&t, p, s) ? WHOLE_NO_GRANT : is_closed(&t, p, s) ? WHOLE_CLOSED : WHOLE_GIVEN;
        }
    return ALL_ALLOWED;
}

/* ---- S8 ---- */

static bool area_unlike_its_entry(second_table *t, dice *d)
{
    uint8_t p = some_partition(t, is_child, d);
    if (p == SECOND_PARTITIONS)
        return false;
    second_structure *structure = some_structure(t, p, true, d);
    second_area *area = structure != NULL && percent(d, 50) ? &structure->area : &t->partitions[p].area;
    if (area->end - area->start <= SECOND_AREA_LINES)
        return false;
    if (percent(d, 50))
        area->end -= 1;
    else
        area->start += 1;
    return true;
}

static bool area_twice(second_table *t, dice *d)
{
    uint8_t p = some_partition(t, is_present, d);
    second_structure *from = some_structure(t, p, true, d), *to = some_structure(t, p, false, d);
    if (to == NULL || (from == NULL && p == 0))
        return false;
    to->present = true;
    to->area = from != NULL && percent(d, 50) ? from->area : t->partitions[p].area;
    return to->area.end != 0;
}

/* A child's structure lies where a sibling's record does: its area is an entry of the parent's, as it should be. */
static bool area_of_two_owners(second_table *t, dice *d)
{
    uint8_t p = some_partition(t, is_child, d), q = some_partition(t, is_child, d);
    if (p == SECOND_PARTITIONS || p == q || t->partitions[p].parent != t->partitions[q].parent)
        return false;
    second_structure *structure = some_structure(t, p, false, d);
    if (structure == NULL)
        return false;
    structure->present = true;
    structure->area = t->partitions[q].area;
    return true;
}

static bool header_in_its_own_entry(second_table *t, dice *d)
{
    uint8_t p, s;
    if (!pick_slot(t, is_usable_long, &p, &s, d) || p == 0)
        return false;
    t->partitions[p].area = range_of(slot_in(t, p, s));
    return true;
}

static bool is_lent_long(const second_table *t, uint8_t p, uint8_t s)
{
    return is_lent(t, p, s) && is_long(&t->partitions[p].slots[s]);
}

static bool area_in_given_entry(second_table *t, dice *d)
{
    uint8_t p, s;
    if (!pick_slot(t, is_lent_long, &p, &s, d))
        return false;
    uint8_t child = slot_in(t, p, s)->given;
    second_structure *structure = some_structure(t, p, false, d);
    if (percent(d, 50) && child_of(t, child, p))
        t->partitions[child].area = range_of(slot_in(t, p, s));
    else if (structure != NULL)
        put_structure(structure, slot_in(t, p, s));
    else
        return false;
    return true;
}

static bool area_in_strange_entry(second_table *t, dice *d)
{
    uint8_t p, s, q = some_partition(t, is_child, d);
    if (q == SECOND_PARTITIONS || !pick_slot(t, is_usable_long, &p, &s, d) || p == q || p == t->partitions[q].parent)
        return false;
    second_structure *structure = some_structure(t, q, false, d);
    if (structure == NULL)
        return false;
    put_structure(structure, slot_in(t, p, s));
    return true;
}

/* ---- S9, S10, S11 ---- */

static bool open_bit_turned(second_table *t, dice *d)
{
    uint8_t p, s;
    if (!pick_slot(t, percent(d, 50) ? is_closed : is_entry, &p, &s, d))
        return false;
    forget_slot(t, p, s);
    slot_in(t, p, s)->open = !slot_in(t, p, s)->open;
    return true;
}

static bool is_not_open(const second_table *t, uint8_t p, uint8_t s)
{
    return !t->partitions[p].slots[s].open;
}

static bool region_of_no_open_entry(second_table *t, dice *d)
{
    uint8_t p, s;
    if (!pick_slot(t, percent(d, 50) ? is_closed : is_not_open, &p, &s, d))
        return false;
    second_region *region = &t->partitions[p].regions[below(d, SECOND_REGIONS)];
    region->loaded = true;
    region->slot = s;
    return true;
}

static bool regions_of_one_slot(second_table *t, dice *d)
{
    uint8_t p, s;
    if (!pick_slot(t, percent(d, 50) ? is_usable : is_lent, &p, &s, d))
        return false;
    unsigned first = below(d, SECOND_REGIONS), other = (first + 1 + below(d, SECOND_REGIONS - 1)) % SECOND_REGIONS;
    second_region named = {true, 0, s};
    t->partitions[p].regions[first] = t->partitions[p].regions[other] = named;
    return true;
}

/* Loads open entries of a partition into regions that name nothing, while it has any and the pieces are at most so many. */
static uint32_t load_more(second_table *t, uint8_t p, uint32_t most, dice *d)
{
    second_partition *q = &t->partitions[p];
    uint32_t pieces = second_loaded_pieces(BOARD, q);
    for (uint8_t i = 0, first = (uint8_t)below(d, SECOND_SLOTS), r = 0; i < SECOND_SLOTS; i++) {
        uint8_t s = (first + i) % SECOND_SLOTS;
        while (r < SECOND_REGIONS && q->regions[r].loaded)
            r++;
        if (r == SECOND_REGIONS || !is_open(t, p, s) || is_loaded(t, p, s) || pieces + pieces_of(t, p, s) > most)
            continue;
        second_region named = {true, 0, s};
        q->regions[r] = named;
        pieces += pieces_of(t, p, s);
    }
    return pieces;
}

/* Rather one more than may be. */
static bool too_many_pieces(second_table *t, dice *d)
{
    uint8_t p = some_partition(t, is_present, d);
    uint32_t pieces = load_more(t, p, SECOND_LOADED + 1, d);
    if (pieces <= SECOND_LOADED && percent(d, 30))
        pieces = load_more(t, p, 2 * SECOND_PIECES, d);
    return pieces > SECOND_LOADED;
}

static bool root_lacks_a_right(second_table *t, dice *d)
{
    uint8_t s = some_slot(t, 0, percent(d, 50) ? is_usable : is_closed, d);
    if (s == SECOND_SLOTS)
        return false;
    slot_in(t, 0, s)->rights = (uint8_t)below(d, 7);
    return true;
}

static bool could_exceed(const second_table *t, uint8_t p, uint8_t s)
{
    const second_slot *e = &t->partitions[p].slots[s];
    if (p == 0 || !e->present)
        return false;
    return t->partitions[t->partitions[p].parent].slots[entry_around(t, p, e->start, e->end)].rights != 7;
}

static bool child_exceeds_its_parent(second_table *t, dice *d)
{
    uint8_t p, s;
    if (!pick_slot(t, could_exceed, &p, &s, d))
        return false;
    uint8_t around = entry_around(t, p, slot_in(t, p, s)->start, slot_in(t, p, s)->end);
    slot_in(t, p, s)->rights |= 7 & ~slot_in(t, t->partitions[p].parent, around)->rights;
    return true;
}

/* The slot of another entry of p inside the same grant; SECOND_SLOTS if there is none. */
static uint8_t beside_in_grant(const second_table *t, uint8_t p, uint8_t s)
{
    const second_slot *slots = t->partitions[p].slots;
    uint8_t around = entry_around(t, p, slots[s].start, slots[s].end), u = 0;
    while (u < SECOND_SLOTS &&
           !(u != s && slots[u].present && entry_around(t, p, slots[u].start, slots[u].end) == around))
        u++;
    return u;
}

/* The entry may have other rights, within the grant's and without harm to a grandchild, than one beside it. */
static bool could_be_unlike(const second_table *t, uint8_t p, uint8_t s)
{
    const second_slot *e = &t->partitions[p].slots[s];
    if (p == 0 || !e->present || e->given != 0 || beside_in_grant(t, p, s) == SECOND_SLOTS)
        return false;
    return t->partitions[t->partitions[p].parent].slots[entry_around(t, p, e->start, e->end)].rights != 0;
}

static bool unlike_in_one_grant(second_table *t, dice *d)
{
    uint8_t p, s;
    if (!pick_slot(t, could_be_unlike, &p, &s, d))
        return false;
    second_slot *e = slot_in(t, p, s);
    uint8_t around = entry_around(t, p, e->start, e->end), rights = slot_in(t, t->partitions[p].parent, around)->rights;
    uint8_t other;
    do
        other = rights & (uint8_t)below(d, 8);
    while (other == e->rights);
    e->rights = other;
    return true;
}

uint8_t unlike_in(const uint8_t *table)
{
    static second_table t;
    second_read(table, &t);
    for (uint8_t p = 1; p < SECOND_PARTITIONS; p++)
        for (uint8_t s = 0; s < SECOND_SLOTS; s++) {
            uint8_t u = is_entry(&t, p, s) ? beside_in_grant(&t, p, s) : SECOND_SLOTS;
            if (u < SECOND_SLOTS && t.partitions[p].slots[u].rights != t.partitions[p].slots[s].rights)
                return p;
        }
    return 0;
}

/* ---- all of them ---- */

/* A way to damage a table: in the structs, with or without settling afterwards, or in the bytes. */
typedef struct {
    uint8_t clause;
    bool settles;
    bool (*in_table)(second_table *, dice *);
    bool (*in_bytes)(uint8_t *, const second_table *, dice *);
} way;

static const way ways[] = {
    {1, false, absent_is_current, NULL}, {1, false, memory_of_no_line, NULL},
    {2, false, root_has_parent, NULL}, {2, true, root_has_area, NULL}, {2, true, child_without_area, NULL},
    {2, false, lost_child, NULL}, {2, false, NULL, rest_of_a_record},
    {3, false, NULL, zero_bit_set}, {3, false, slot_without_load, NULL},
    {4, false, absent_has_area, NULL}, {4, true, structure_without_area, NULL},
    {4, true, first_structure_has_area, NULL}, {4, false, first_structure_absent, NULL}, {4, true, short_area, NULL},
    {5, false, entry_outside_structures, NULL}, {5, false, entry_of_no_line, NULL}, {5, false, rest_of_an_entry, NULL},
    {6, false, one_line_twice, NULL}, {6, false, entry_twice, NULL},
    {7, false, hole, NULL}, {7, false, line_missing, NULL}, {7, false, line_too_many, NULL}, {7, false, given_to_no_child, NULL},
    {7, false, held_without_grant, NULL}, {7, false, grant_forgotten, NULL}, {7, false, more_memory, NULL},
    {7, false, grants_in_one, NULL}, {7, false, piece_is_whole, NULL}, {7, false, whole_is_given, NULL},
    {7, false, whole_is_closed, NULL},
    {8, false, area_unlike_its_entry, NULL}, {8, false, area_twice, NULL}, {8, false, area_of_two_owners, NULL},
    {8, true, header_in_its_own_entry, NULL}, {8, true, area_in_given_entry, NULL}, {8, true, area_in_strange_entry, NULL},
    {9, false, open_bit_turned, NULL},
    {10, false, region_of_no_open_entry, NULL}, {10, false, regions_of_one_slot, NULL}, {10, false, too_many_pieces, NULL},
    {11, false, root_lacks_a_right, NULL}, {11, false, child_exceeds_its_parent, NULL},
    {11, false, unlike_in_one_grant, NULL}};

/* Each clause has the same chance, however many ways it has. */
static const way *some_way(dice *d)
{
    uint8_t clause = (uint8_t)(1 + below(d, CLAUSES));
    const way *chosen;
    do
        chosen = &ways[below(d, sizeof ways / sizeof *ways)];
    while (chosen->clause != clause);
    return chosen;
}

static uint8_t damage_by(const way *chosen, const second_table *sound, uint8_t *table, dice *d)
{
    static second_table t;
    t = *sound;
    if (chosen->in_table != NULL && !chosen->in_table(&t, d))
        return 0;
    if (chosen->settles)
        settle_table(&t);
    second_write(&t, table);
    if (chosen->in_bytes != NULL && !chosen->in_bytes(table, &t, d))
        return 0;
    return chosen->clause;
}

unsigned damage_ways(void)
{
    return sizeof ways / sizeof *ways;
}

bool damages_on_board(unsigned which)
{
    return BOARD == SECOND_V7 || ways[which].in_table != too_many_pieces;
}

uint8_t damage_in(unsigned which, const second_table *sound, uint8_t *table, dice *d)
{
    return damage_by(&ways[which], sound, table, d);
}

uint8_t damage(const second_table *sound, uint8_t *table, dice *d)
{
    return damage_by(some_way(d), sound, table, d);
}

static bool board_s10(const second_table *t)
{
    return second_s10(BOARD, t);
}

uint8_t only_failing(const uint8_t *table)
{
    static bool (*const clauses[CLAUSES])(const second_table *) = {
        second_s1, second_s2, second_s3, second_s4, second_s5, second_s6,
        second_s7, second_s8, second_s9, board_s10, second_s11};
    static second_table t;
    uint8_t failing = 0;
    second_read(table, &t);
    for (uint8_t i = 0; i < CLAUSES; i++) {
        bool not_asked = (failing == 5 && (i + 1 == 6 || i + 1 == 7)) || (failing == 6 && i + 1 == 7);
        if (not_asked || clauses[i](&t))
            continue;
        if (failing != 0)
            return 0;
        failing = (uint8_t)(i + 1);
    }
    return failing;
}

/* ---- sound tables of unusual make ---- */

static void move_entry(second_table *t, uint8_t p, uint8_t from, uint8_t to)
{
    for (unsigned r = 0; r < SECOND_REGIONS; r++)
        if (t->partitions[p].regions[r].loaded && t->partitions[p].regions[r].slot == from)
            t->partitions[p].regions[r].slot = to;
    *slot_in(t, p, to) = *slot_in(t, p, from);
    memset(slot_in(t, p, from), 0, sizeof(second_slot));
}

/* Entries lie in slots that no search for the lowest would have found. */
static void scatter_entries(second_table *t, dice *d)
{
    for (unsigned i = 0; i < 24; i++) {
        uint8_t p, s;
        if (!pick_slot(t, is_entry, &p, &s, d))
            continue;
        uint8_t spare = some_slot(t, p, is_free, d);
        if (spare < SECOND_SLOTS)
            move_entry(t, p, s, spare);
    }
}

/*
 * The root's first structure has no entry, if there is room elsewhere. From boot on, slot 0 always holds the first
 * line: cut leaves the front in its slot, and merge empties the slot of the back.
 */
static void clear_first_structure(second_table *t, dice *d)
{
    (void)d;
    for (uint8_t s = 0; s < SECOND_STRUCTURE_SLOTS; s++) {
        uint8_t spare = SECOND_STRUCTURE_SLOTS;
        while (spare < SECOND_SLOTS && !is_free(t, 0, spare))
            spare++;
        if (is_entry(t, 0, s) && spare < SECOND_SLOTS)
            move_entry(t, 0, s, spare);
    }
}

/* All pieces of a grant have fewer rights. What was given on has no more than what it lies in. */
static void lessen_rights(second_table *t, dice *d)
{
    for (unsigned depth = 1; depth < SECOND_PARTITIONS; depth++)
        for (uint8_t p = 1; p < SECOND_PARTITIONS; p++) {
            if (!is_present(t, p) || depth_in(t, p) != depth)
                continue;
            uint8_t left[SECOND_SLOTS];
            for (uint8_t g = 0; g < SECOND_SLOTS; g++)
                left[g] = slot_in(t, t->partitions[p].parent, g)->rights & (percent(d, 30) ? (uint8_t)below(d, 8) : 7);
            for (uint8_t s = 0; s < SECOND_SLOTS; s++) {
                second_slot *e = slot_in(t, p, s);
                if (e->present)
                    e->rights &= left[entry_around(t, p, e->start, e->end)];
            }
        }
}

/* Of the entries that may be whole, any are. */
static void turn_marks(second_table *t, dice *d)
{
    for (uint8_t p = 1; p < SECOND_PARTITIONS; p++)
        for (uint8_t s = 0; s < SECOND_SLOTS; s++)
            if (is_idle(t, p, s) && is_grant(t, p, s))
                slot_in(t, p, s)->whole = percent(d, 30);
}

/* Other entries are loaded, and as many as may be. */
static void reload_regions(second_table *t, dice *d)
{
    for (uint8_t p = 0; p < SECOND_PARTITIONS; p++) {
        memset(t->partitions[p].regions, 0, sizeof t->partitions[p].regions);
        load_more(t, p, SECOND_LOADED, d);
    }
}

/* Two children, or a child and a number that is not used, change their numbers. */
static void renumber(second_table *t, dice *d)
{
    uint8_t a = (uint8_t)(1 + below(d, 15)), b = (uint8_t)(1 + below(d, 15));
    second_partition kept = t->partitions[a];
    t->partitions[a] = t->partitions[b];
    t->partitions[b] = kept;
    for (uint8_t p = 0; p < SECOND_PARTITIONS; p++) {
        uint8_t *parent = &t->partitions[p].parent;
        *parent = *parent == a ? b : *parent == b ? a : *parent;
        for (uint8_t s = 0; s < SECOND_SLOTS; s++) {
            uint8_t *given = &slot_in(t, p, s)->given;
            *given = *given == a ? b : *given == b ? a : *given;
        }
    }
    t->current = t->current == a ? b : t->current == b ? a : t->current;
}

void make_odd(second_table *t, dice *d)
{
    void (*const oddities[])(second_table *, dice *) = {scatter_entries, clear_first_structure, lessen_rights,
                                                            turn_marks, reload_regions, renumber};
    for (unsigned i = 0; i < sizeof oddities / sizeof *oddities; i++)
        if (percent(d, 60))
            oddities[i](t, d);
    t->current = some_partition(t, is_present, d);
}
