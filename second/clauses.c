#include "clauses.h"

#include <stddef.h>

/* ---- lines ---- */

static bool share_a_line(uint32_t a, uint32_t b, uint32_t c, uint32_t d)
{
    uint32_t later = a > c ? a : c; /* the later start is a line of both, if any is */
    return later < b && later < d;
}

/* One entry lies inside another. */
static bool lies_inside(const second_slot *e, const second_slot *around)
{
    return around->start <= e->start && e->end <= around->end;
}

/* The parent's entry in this slot is given to the partition. */
static bool is_grant(const second_table *t, uint8_t p, uint8_t slot)
{
    const second_slot *e = &t->partitions[t->partitions[p].parent].slots[slot];
    return p != 0 && e->present && e->given == p;
}

/* ---- S1 to S5 ---- */

static bool s1_at(const second_table *t, uint8_t p)
{
    return p != 0 || (t->base < t->end && t->partitions[t->current].present);
}

static bool is_nowhere(second_area a)
{
    return a.start == 0 && a.end == 0;
}

static bool s2_at(const second_table *t, uint8_t p)
{
    const second_partition *q = &t->partitions[p];
    if (p == 0)
        return q->present && q->parent == 0 && is_nowhere(q->area);
    if (!q->present)
        return q->blank;
    uint8_t at = p;
    for (unsigned step = 0; step < 15; step++)
        at = at == 0 ? 0 : t->partitions[at].parent;
    return t->partitions[q->parent].present && !is_nowhere(q->area) && at == 0;
}

static bool s3_at(const second_table *t, uint8_t p)
{
    const second_partition *q = &t->partitions[p];
    bool clean = (p != 0 || t->zero == 0) && q->zero == 0 && q->zero_words[0] == 0 && q->zero_words[1] == 0;
    for (unsigned i = 0; i < SECOND_STRUCTURES; i++)
        clean = clean && q->structures[i].zero == 0;
    for (unsigned r = 0; r < SECOND_REGIONS; r++)
        clean = clean && q->regions[r].zero == 0 && (q->regions[r].loaded || q->regions[r].slot == 0);
    return clean;
}

/* An area of 16 lines or more. */
static bool is_long(second_area a)
{
    return a.end >= SECOND_AREA_LINES && a.start <= a.end - SECOND_AREA_LINES;
}

static bool s4_at(const second_table *t, uint8_t p)
{
    const second_partition *q = &t->partitions[p];
    bool good = !q->present || p == 0 || is_long(q->area);
    for (unsigned i = 0; i < SECOND_STRUCTURES; i++) {
        const second_structure *s = &q->structures[i];
        if (p == 0 && i == 0)
            good = good && s->present && is_nowhere(s->area);
        else
            good = good && (s->present ? is_long(s->area) : is_nowhere(s->area));
    }
    return good;
}

static bool s5_at(const second_table *t, uint8_t p)
{
    const second_partition *q = &t->partitions[p];
    for (unsigned i = 0; i < SECOND_SLOTS; i++) {
        const second_slot *s = &q->slots[i];
        bool zero = !s->present && !s->open && s->rights == 0 && s->given == 0 && s->start == 0 && s->end == 0 && !s->whole;
        bool entry = s->present && q->structures[i / SECOND_STRUCTURE_SLOTS].present && s->start < s->end;
        if (!zero && !entry)
            return false;
    }
    return true;
}

/* ---- S6 and S7 ---- */

static bool s6_at(const second_table *t, uint8_t p)
{
    const second_slot *slots = t->partitions[p].slots;
    for (unsigned i = 0; i < SECOND_SLOTS; i++)
        for (unsigned j = 0; j < i; j++)
            if (slots[i].present && slots[j].present &&
                share_a_line(slots[i].start, slots[i].end, slots[j].start, slots[j].end))
                return false;
    return true;
}

/* No line is in two entries (S6): so those inside cover it exactly if they have as many lines. */
static bool covers(const second_table *t, uint8_t p, const second_slot *range)
{
    uint32_t lines = 0;
    for (unsigned i = 0; i < SECOND_SLOTS; i++) {
        const second_slot *e = &t->partitions[p].slots[i];
        if (e->present && lies_inside(e, range))
            lines += e->end - e->start;
    }
    return lines == range->end - range->start;
}

/* Each entry inside the memory, or inside one entry that the parent gave; and these covered. */
static bool covers_exactly(const second_table *t, uint8_t p)
{
    second_slot memory = {.present = true, .start = t->base, .end = t->end};
    const second_slot *parents = t->partitions[t->partitions[p].parent].slots;
    for (unsigned i = 0; i < SECOND_SLOTS; i++) {
        const second_slot *e = &t->partitions[p].slots[i];
        unsigned around = p == 0 && lies_inside(e, &memory);
        for (uint8_t j = 0; j < SECOND_SLOTS; j++)
            around += is_grant(t, p, j) && lies_inside(e, &parents[j]);
        if (e->present && around == 0)
            return false;
    }
    for (uint8_t j = 0; j < SECOND_SLOTS; j++)
        if (is_grant(t, p, j) && !covers(t, p, &parents[j]))
            return false;
    return p != 0 || covers(t, p, &memory);
}

/* A whole entry is open, not given, and equal to an entry that the parent gave. */
static bool whole_is_right(const second_table *t, uint8_t p, const second_slot *e)
{
    const second_slot *parents = t->partitions[t->partitions[p].parent].slots;
    unsigned equal = 0;
    for (uint8_t j = 0; j < SECOND_SLOTS; j++)
        equal += is_grant(t, p, j) && parents[j].start == e->start && parents[j].end == e->end;
    return e->open && e->given == 0 && equal > 0;
}

/* A bad `given` is the giver's, a grant badly covered the child's, a whole mark that of whose entry it is. */
static bool s7_at(const second_table *t, uint8_t p)
{
    if (!t->partitions[p].present)
        return true;
    for (unsigned i = 0; i < SECOND_SLOTS; i++) {
        const second_slot *e = &t->partitions[p].slots[i];
        const second_partition *child = &t->partitions[e->given];
        if (e->present && e->given != 0 && !(child->present && child->parent == p))
            return false;
        if (e->present && e->whole && !whole_is_right(t, p, e))
            return false;
    }
    return covers_exactly(t, p);
}

/* ---- S8 and S9 ---- */

/* Area 0 of a partition is its header's, area 1 + i that of structure i. Those that are not there have no line. */
static second_area area_of(const second_table *t, uint8_t p, unsigned i)
{
    static const second_area none = {0, 0};
    const second_partition *q = &t->partitions[p];
    if (i == 0)
        return q->present ? q->area : none;
    return q->structures[i - 1].present ? q->structures[i - 1].area : none;
}

enum { AREAS = 1 + SECOND_STRUCTURES };

/* A not-given entry of the partition equals the area. */
static bool has_equal(const second_table *t, uint8_t p, second_area a)
{
    for (unsigned i = 0; i < SECOND_SLOTS; i++) {
        const second_slot *e = &t->partitions[p].slots[i];
        if (e->present && e->given == 0 && e->start == a.start && e->end == a.end)
            return true;
    }
    return false;
}

/* Of two owners of areas that share a line the lower is at fault. */
static bool s8_at(const second_table *t, uint8_t p)
{
    uint8_t parent = t->partitions[p].parent;
    for (unsigned i = 0; i < AREAS; i++) {
        second_area a = area_of(t, p, i);
        if (!is_nowhere(a) && !has_equal(t, parent, a) && !(i > 0 && has_equal(t, p, a)))
            return false;
        for (uint8_t q = p; q < SECOND_PARTITIONS; q++)
            for (unsigned j = 0; j < AREAS; j++) {
                second_area b = area_of(t, q, j);
                if ((q != p || j != i) && share_a_line(a.start, a.end, b.start, b.end))
                    return false;
            }
    }
    return true;
}

static bool s9_at(const second_table *t, uint8_t p)
{
    for (unsigned i = 0; i < SECOND_SLOTS; i++) {
        const second_slot *e = &t->partitions[p].slots[i];
        bool shares = false;
        for (uint8_t q = 0; q < SECOND_PARTITIONS; q++)
            for (unsigned j = 0; j < AREAS; j++) {
                second_area a = area_of(t, q, j);
                shares = shares || share_a_line(e->start, e->end, a.start, a.end);
            }
        if (e->present && e->open == shares)
            return false;
    }
    return true;
}

/* ---- S10 and S11 ---- */

/* The largest power of two of lines at a multiple of it, as often as one fits. */
static unsigned pieces_of(const second_slot *e)
{
    unsigned n = 0;
    for (uint32_t at = e->start, lines; at < e->end; at += lines, n++)
        for (lines = 1; at % (2 * lines) == 0 && at + 2 * lines <= e->end;)
            lines *= 2;
    return n;
}

static bool s10_at(second_board board, const second_table *t, uint8_t p)
{
    const second_partition *q = &t->partitions[p];
    unsigned named[SECOND_SLOTS] = {0}, pieces = 0;
    for (unsigned r = 0; r < SECOND_REGIONS; r++) {
        if (!q->regions[r].loaded)
            continue;
        const second_slot *e = &q->slots[q->regions[r].slot];
        if (!e->present || !e->open || named[q->regions[r].slot]++ != 0)
            return false;
        pieces += pieces_of(e);
    }
    return board == SECOND_V8 || pieces <= 8;
}

static bool s11_at(const second_table *t, uint8_t p)
{
    const second_slot *slots = t->partitions[p].slots;
    const second_slot *parents = t->partitions[t->partitions[p].parent].slots;
    for (unsigned i = 0; i < SECOND_SLOTS; i++) {
        if (slots[i].present && p == 0 && slots[i].rights != 7)
            return false;
        for (uint8_t j = 0; slots[i].present && j < SECOND_SLOTS; j++) {
            if (!is_grant(t, p, j) || !lies_inside(&slots[i], &parents[j]))
                continue;
            if ((slots[i].rights & ~parents[j].rights) != 0)
                return false;
            for (unsigned k = 0; k < i; k++)
                if (slots[k].present && lies_inside(&slots[k], &parents[j]) && slots[k].rights != slots[i].rights)
                    return false;
        }
    }
    return true;
}

/* ---- all of them ---- */

bool second_holds_at(second_board board, const second_table *t, unsigned clause, uint8_t p)
{
    static bool (*const at[SECOND_CLAUSES])(const second_table *, uint8_t) = {s1_at, s2_at, s3_at, s4_at, s5_at, s6_at,
                                                                             s7_at, s8_at, s9_at, NULL,  s11_at};
    return clause == 10 ? s10_at(board, t, p) : at[clause - 1](t, p);
}

uint64_t second_check(second_board board, const uint8_t *table, uint64_t table_len)
{
    second_table t;
    if (table_len != SECOND_BYTES)
        return 1;
    second_read(table, &t);
    for (unsigned clause = 1; clause <= SECOND_CLAUSES; clause++)
        for (uint8_t p = 0; p < SECOND_PARTITIONS; p++)
            if (!second_holds_at(board, &t, clause, p))
                return (uint64_t)(16 * clause + p) << 32;
    return 0;
}
