#include "steer.h"

#include <string.h>

const uint8_t service_checks[LAST_SERVICE + 1][8] = {SERVICES(SERVICE_CHECKS)};

/* How often each service is tried, by mood. */
static const uint8_t weights[LAST_SERVICE + 1][MOODS] = {SERVICES(SERVICE_WEIGHTS)};

/* ---- the tree ---- */

bool child_of(const second_table *t, uint8_t p, uint8_t of)
{
    return p != 0 && t->partitions[p].present && t->partitions[p].parent == of;
}

unsigned depth_in(const second_table *t, uint8_t p)
{
    unsigned depth = 0;
    for (; p != 0 && depth < SECOND_PARTITIONS; depth++)
        p = t->partitions[p].parent;
    return depth;
}

static bool has_child(const second_table *t, uint8_t p)
{
    for (uint8_t q = 1; q < SECOND_PARTITIONS; q++)
        if (child_of(t, q, p))
            return true;
    return false;
}

uint8_t entry_around(const second_table *t, uint8_t p, uint32_t start, uint32_t end)
{
    const second_slot *slots = t->partitions[t->partitions[p].parent].slots;
    for (uint8_t s = 0; s < SECOND_SLOTS; s++)
        if (slots[s].present && slots[s].given == p && slots[s].start <= start && end <= slots[s].end)
            return s;
    return SECOND_SLOTS;
}

/* ---- slots ---- */

uint8_t some_slot(const second_table *t, uint8_t p, slot_test *passes, dice *d)
{
    uint8_t first = (uint8_t)below(d, SECOND_SLOTS);
    for (uint8_t i = 0; i < SECOND_SLOTS; i++) {
        uint8_t s = (first + i) % SECOND_SLOTS;
        if (passes(t, p, s))
            return s;
    }
    return SECOND_SLOTS;
}

static const second_slot *slot_of(const second_table *t, uint8_t p, uint8_t s)
{
    return &t->partitions[p].slots[s];
}

bool is_entry(const second_table *t, uint8_t p, uint8_t s)
{
    return slot_of(t, p, s)->present;
}

bool is_idle(const second_table *t, uint8_t p, uint8_t s)
{
    return slot_of(t, p, s)->present && slot_of(t, p, s)->open && slot_of(t, p, s)->given == 0;
}

bool is_whole(const second_table *t, uint8_t p, uint8_t s)
{
    return slot_of(t, p, s)->present && slot_of(t, p, s)->whole;
}

bool is_usable(const second_table *t, uint8_t p, uint8_t s)
{
    return is_idle(t, p, s) && !is_whole(t, p, s);
}

bool is_grant(const second_table *t, uint8_t p, uint8_t s)
{
    const second_slot *e = slot_of(t, p, s), *parents = t->partitions[t->partitions[p].parent].slots;
    if (p == 0 || !e->present)
        return false;
    uint8_t around = entry_around(t, p, e->start, e->end);
    return around < SECOND_SLOTS && parents[around].start == e->start && parents[around].end == e->end;
}

bool is_closed(const second_table *t, uint8_t p, uint8_t s)
{
    return slot_of(t, p, s)->present && !slot_of(t, p, s)->open;
}

bool is_lent(const second_table *t, uint8_t p, uint8_t s)
{
    return slot_of(t, p, s)->present && slot_of(t, p, s)->open && slot_of(t, p, s)->given != 0;
}

bool is_free(const second_table *t, uint8_t p, uint8_t s)
{
    return t->partitions[p].structures[s / SECOND_STRUCTURE_SLOTS].present && !slot_of(t, p, s)->present;
}

static bool is_no_entry(const second_table *t, uint8_t p, uint8_t s)
{
    return !slot_of(t, p, s)->present;
}

bool is_open(const second_table *t, uint8_t p, uint8_t s)
{
    return slot_of(t, p, s)->present && slot_of(t, p, s)->open;
}

static bool is_not_given(const second_table *t, uint8_t p, uint8_t s)
{
    return slot_of(t, p, s)->present && slot_of(t, p, s)->given == 0;
}

static uint32_t lines_of(const second_table *t, uint8_t p, uint8_t s)
{
    return slot_of(t, p, s)->end - slot_of(t, p, s)->start;
}

static bool is_short(const second_table *t, uint8_t p, uint8_t s)
{
    return is_idle(t, p, s) && lines_of(t, p, s) < SECOND_AREA_LINES;
}

static bool lacks_rights(const second_table *t, uint8_t p, uint8_t s)
{
    return is_idle(t, p, s) && slot_of(t, p, s)->rights != 7;
}

bool is_loaded(const second_table *t, uint8_t p, uint8_t s)
{
    for (unsigned r = 0; r < SECOND_REGIONS; r++)
        if (t->partitions[p].regions[r].loaded && t->partitions[p].regions[r].slot == s)
            return true;
    return false;
}

uint32_t pieces_of(const second_table *t, uint8_t p, uint8_t s)
{
    return second_piece_count(BOARD, slot_of(t, p, s)->start, slot_of(t, p, s)->end);
}

/* Its pieces and those that are loaded are 8 together, or fewer. */
static bool is_loadable(const second_table *t, uint8_t p, uint8_t s)
{
    return is_open(t, p, s) && !is_loaded(t, p, s) &&
           second_loaded_pieces(BOARD, &t->partitions[p]) + pieces_of(t, p, s) <= SECOND_LOADED;
}

static bool is_too_much(const second_table *t, uint8_t p, uint8_t s)
{
    return is_open(t, p, s) && !is_loaded(t, p, s) && !is_loadable(t, p, s);
}

/* .. and are 9 together. */
static bool is_just_too_much(const second_table *t, uint8_t p, uint8_t s)
{
    return is_too_much(t, p, s) && second_loaded_pieces(BOARD, &t->partitions[p]) + pieces_of(t, p, s) == SECOND_LOADED + 1;
}

/* Given, and the child has it in one piece, open and not given on: so it can be taken. */
static bool is_takeable(const second_table *t, uint8_t p, uint8_t s)
{
    const second_slot *e = slot_of(t, p, s);
    for (uint8_t i = 0; e->given != 0 && i < SECOND_SLOTS; i++)
        if (is_idle(t, e->given, i) && slot_of(t, e->given, i)->start == e->start &&
            slot_of(t, e->given, i)->end == e->end)
            return true;
    return false;
}

static bool is_in_pieces(const second_table *t, uint8_t p, uint8_t s)
{
    return slot_of(t, p, s)->given != 0 && !is_takeable(t, p, s);
}

/* In pieces of a kind: the child has it in one, and has closed it or given it on. */
static bool is_one_in_use(const second_table *t, uint8_t p, uint8_t s)
{
    const second_slot *e = slot_of(t, p, s);
    for (uint8_t i = 0; e->given != 0 && i < SECOND_SLOTS; i++)
        if (is_entry(t, e->given, i) && !is_idle(t, e->given, i) && slot_of(t, e->given, i)->start == e->start &&
            slot_of(t, e->given, i)->end == e->end)
            return true;
    return false;
}

/* A slot that passes, or any. */
static uint8_t slot_or_any(const second_table *t, uint8_t p, slot_test *passes, dice *d)
{
    uint8_t s = some_slot(t, p, passes, d);
    return s < SECOND_SLOTS ? s : (uint8_t)below(d, SECOND_SLOTS);
}

/* The longest or the shortest usable entry of 16 lines or more; SECOND_SLOTS if there is none. */
static uint8_t fit_entry(const second_table *t, uint8_t p, bool longest)
{
    uint8_t found = SECOND_SLOTS;
    for (uint8_t s = 0; s < SECOND_SLOTS; s++) {
        if (!is_usable(t, p, s) || is_short(t, p, s))
            continue;
        if (found == SECOND_SLOTS || (lines_of(t, p, s) > lines_of(t, p, found)) == longest)
            found = s;
    }
    return found;
}

/* ---- partitions ---- */

static unsigned structures_of(const second_table *t, uint8_t p)
{
    unsigned n = 0;
    for (unsigned i = 0; i < SECOND_STRUCTURES; i++)
        n += t->partitions[p].structures[i].present;
    return n;
}

static bool has_free_slot(const second_table *t, uint8_t p)
{
    for (uint8_t s = 0; s < SECOND_SLOTS; s++)
        if (is_free(t, p, s))
            return true;
    return false;
}

/* P is as the service says. */
static bool suits(const second_table *t, uint8_t service, uint8_t p)
{
    switch (service) {
    case ULAVREPIT_DELETE:
    case ULAVREPIT_GIVE:
    case ULAVREPIT_CLEAR_OUT:
        return child_of(t, p, t->current);
    case ULAVREPIT_SWITCH:
        return child_of(t, p, t->current) || child_of(t, t->current, p);
    default:
        return p == t->current || child_of(t, p, t->current);
    }
}

/* P is such that the service can come to the refusal number, or be accepted (0), as far as P decides it. */
static bool leads_to(const second_table *t, uint8_t service, uint8_t refusal, uint8_t p)
{
    if (refusal == 3)
        return !suits(t, service, p);
    if (!suits(t, service, p))
        return false;
    bool by_slot = 4 <= refusal && refusal <= 6; /* P is then not asked further */
    switch (service) {
    case ULAVREPIT_DELETE:
        return has_child(t, p) == (refusal == 15);
    case ULAVREPIT_PREPARE:
        return by_slot || (structures_of(t, p) == SECOND_STRUCTURES) == (refusal == 8);
    case ULAVREPIT_GIVE:
        return by_slot || has_free_slot(t, p) != (refusal == 8);
    default:
        return true;
    }
}

static uint8_t some_partition(const second_table *t, uint8_t service, uint8_t refusal, dice *d)
{
    uint8_t first = (uint8_t)below(d, SECOND_PARTITIONS);
    for (uint8_t i = 0; i < SECOND_PARTITIONS; i++) {
        uint8_t p = (first + i) % SECOND_PARTITIONS;
        if (leads_to(t, service, refusal, p))
            return p;
    }
    return first;
}

/* ---- the fields of one service ---- */

/* The test for slot S by which a service that wants an open entry, not given, comes to the refusal number; 18 is the last one. */
static slot_test *wanted(uint8_t refusal)
{
    switch (refusal) {
    case 0: return is_usable;
    case 4: return is_no_entry;
    case 5: return is_closed;
    case 6: return is_lent;
    case 9: return is_short;
    case 10: return lacks_rights;
    case 18: return is_whole;
    default: return is_idle;
    }
}

/*
 * Create and prepare use up a whole entry, so a long one is first cut: at 16 lines or little more. Where the
 * caller has none, or no slot for another, the entry is as it comes.
 */
static uint64_t use_area(const second_table *t, uint8_t service, uint8_t p, dice *d)
{
    uint8_t s = fit_entry(t, t->current, false);
    if (s == SECOND_SLOTS)
        s = slot_or_any(t, t->current, is_usable, d);
    if (lines_of(t, t->current, s) > 64 && has_free_slot(t, t->current))
        return ulavrepit_cut(s, slot_of(t, t->current, s)->start + SECOND_AREA_LINES + (percent(d, 50) ? 0 : below(d, 3)));
    return service == ULAVREPIT_CREATE ? ulavrepit_create(s) : ulavrepit_prepare(p, s);
}

static uint64_t create_or_prepare(const second_table *t, uint8_t service, uint8_t refusal, dice *d)
{
    uint8_t p = service == ULAVREPIT_CREATE ? 0 : some_partition(t, service, refusal, d);
    if (refusal == 0)
        return use_area(t, service, p, d);
    uint8_t s = slot_or_any(t, t->current, wanted(refusal), d);
    return service == ULAVREPIT_CREATE ? ulavrepit_create(s) : ulavrepit_prepare(p, s);
}

static uint64_t collect(const second_table *t, uint8_t refusal, dice *d)
{
    uint8_t p = some_partition(t, ULAVREPIT_COLLECT, refusal, d);
    uint32_t first = below(d, SECOND_STRUCTURES);
    for (uint32_t i = 0; i < SECOND_STRUCTURES; i++) {
        uint32_t structure = (first + i) % SECOND_STRUCTURES;
        bool filled = false;
        for (uint8_t s = 0; s < SECOND_STRUCTURE_SLOTS; s++)
            filled = filled || is_entry(t, p, (uint8_t)(SECOND_STRUCTURE_SLOTS * structure + s));
        if (t->partitions[p].structures[structure].present != (refusal == 4) && filled == (refusal == 15))
            return ulavrepit_collect(p, structure);
    }
    return ulavrepit_collect(p, refusal == 4 ? below(d, 32) : first);
}

static uint64_t give(const second_table *t, uint8_t refusal, dice *d)
{
    uint8_t p = some_partition(t, ULAVREPIT_GIVE, refusal, d);
    uint8_t s = slot_or_any(t, t->current, wanted(refusal), d);
    if (refusal == 0 && percent(d, 40) && fit_entry(t, t->current, true) < SECOND_SLOTS)
        s = fit_entry(t, t->current, true);
    uint32_t rights = slot_of(t, t->current, s)->rights;
    if (refusal == 10)
        rights = (rights & below(d, 8)) | (7 & ~rights);
    else if (percent(d, 60))
        rights &= below(d, 8) | below(d, 8);
    return percent(d, 20) ? ulavrepit_give_whole(p, s, rights) : ulavrepit_give(p, s, rights);
}

static uint64_t take(const second_table *t, uint8_t refusal, dice *d)
{
    slot_test *passes = refusal == 4 ? is_no_entry : refusal == 6 ? is_not_given : is_takeable;
    if (refusal == 14)
        passes = percent(d, 50) ? is_in_pieces : is_one_in_use;
    return ulavrepit_take(slot_or_any(t, t->current, passes, d));
}

static uint64_t cut(const second_table *t, uint8_t refusal, dice *d)
{
    uint8_t s = slot_or_any(t, t->current, wanted(refusal), d);
    uint32_t start = slot_of(t, t->current, s)->start, end = slot_of(t, t->current, s)->end;
    const uint32_t outside[] = {start, end, start - 1, end + 1, 0, SECOND_LAST_LINE};
    const uint32_t inside[] = {start + 1, end - 1, start + 15, start + 16, start + 17, end - 16};
    uint32_t line = refusal == 7 ? outside[below(d, 6)] : inside[below(d, 6)];
    if (refusal != 7 && end > start && percent(d, 40))
        line = start + below(d, end - start);
    uint32_t round = line & ~((2u << below(d, 16)) - 1); /* so that entries have few pieces */
    if (refusal != 7 && round > start && percent(d, 60))
        line = round;
    return ulavrepit_cut(s, line & SECOND_LAST_LINE);
}

/* Merge of two open entries, not given, would be refused with the number, or accepted (0). */
static bool merge_leads_to(const second_table *t, uint8_t refusal, uint8_t s, uint8_t u)
{
    const second_slot *a = slot_of(t, t->current, s), *b = slot_of(t, t->current, u);
    if (a->end != b->start)
        return refusal == 11;
    if (t->current != 0 && entry_around(t, t->current, a->start, b->end) == SECOND_SLOTS)
        return refusal == 12;
    return refusal == 0;
}

static uint64_t merge(const second_table *t, uint8_t refusal, dice *d)
{
    if (refusal == 4 || refusal == 5 || refusal == 6) {
        uint8_t a = slot_or_any(t, t->current, wanted(refusal), d), b = slot_or_any(t, t->current, is_idle, d);
        return percent(d, 50) ? ulavrepit_merge(a, b) : ulavrepit_merge(b, a);
    }
    uint32_t first = below(d, SECOND_SLOTS * SECOND_SLOTS);
    bool turned = refusal == 11 && percent(d, 50); /* a pair that could be merged the other way round */
    for (uint32_t i = 0; i < SECOND_SLOTS * SECOND_SLOTS; i++) {
        uint32_t pair = (first + i) % (SECOND_SLOTS * SECOND_SLOTS);
        uint8_t s = (uint8_t)(pair / SECOND_SLOTS), u = (uint8_t)(pair % SECOND_SLOTS);
        if (is_idle(t, t->current, s) && is_idle(t, t->current, u) && merge_leads_to(t, turned ? 0 : refusal, s, u))
            return turned ? ulavrepit_merge(u, s) : ulavrepit_merge(s, u);
    }
    return ulavrepit_merge(first / SECOND_SLOTS, first % SECOND_SLOTS);
}

static uint64_t load(const second_table *t, uint8_t refusal, dice *d)
{
    uint8_t p = some_partition(t, ULAVREPIT_LOAD, refusal, d);
    bool elsewhere = refusal == 16 && percent(d, 70);
    slot_test *passes = refusal == 4 ? is_no_entry : refusal == 5 ? is_closed : elsewhere ? is_loaded : is_open;
    if (refusal == 0 && percent(d, 80))
        passes = is_loadable;
    if (refusal == 19)
        passes = percent(d, 50) ? is_just_too_much : is_too_much;
    uint32_t region = below(d, SECOND_REGIONS);
    for (unsigned tries = 0; tries < 8 && t->partitions[p].regions[region].loaded && percent(d, 80); tries++)
        region = below(d, SECOND_REGIONS); /* rather one that names nothing */
    if (refusal == 16 && !elsewhere)
        region = SECOND_REGIONS + below(d, 32 - SECOND_REGIONS);
    return ulavrepit_load(p, slot_or_any(t, p, passes, d), region);
}

region_miss region_missed(uint64_t word)
{
    uint64_t service = word >> 60, slot = word >> 51 & 31, rights = word >> 43 & 7;
    if (service == 10)
        return SERVICE_10;
    if (service != ULAVREPIT_LOAD || rights == 0)
        return NO_MISS;
    return rights > 1 ? RIGHTS_ABOVE_1 : slot != 0 ? UNLOAD_OF_A_SLOT : NO_MISS;
}

/* One of these, in order but for that; at times P is not as it should be either, which is not what is answered. */
static uint64_t region_near_miss(const second_table *t, dice *d)
{
    uint8_t p = some_partition(t, ULAVREPIT_LOAD, percent(d, 25) ? 3 : 0, d), s = slot_or_any(t, p, is_open, d);
    uint32_t region = below(d, SECOND_REGIONS);
    switch ((region_miss)(1 + below(d, REGION_MISSES - 1))) {
    case RIGHTS_ABOVE_1:
        return ulavrepit_word(ULAVREPIT_LOAD, p, percent(d, 50) ? s : 0, region, 2 + below(d, 6), 0);
    case UNLOAD_OF_A_SLOT:
        return ulavrepit_word(ULAVREPIT_LOAD, p, s == 0 ? 1 : s, region, 1, 0);
    default:
        return ulavrepit_word(10, p, percent(d, 50) ? s : 0, region, 0, 0);
    }
}

static uint64_t unload_or_read(const second_table *t, uint8_t service, uint8_t refusal, dice *d)
{
    uint8_t p = some_partition(t, service, refusal, d);
    uint32_t region = refusal == 16 ? SECOND_REGIONS + below(d, 32 - SECOND_REGIONS) : below(d, SECOND_REGIONS);
    return service == UNLOAD ? ulavrepit_unload(p, region) : ulavrepit_read_region(p, region);
}

static uint64_t find(const second_table *t, uint8_t refusal, dice *d)
{
    uint8_t p = some_partition(t, ULAVREPIT_FIND, refusal, d);
    const second_slot *e = slot_of(t, p, slot_or_any(t, p, is_entry, d));
    const uint32_t held[] = {e->start, e->end - 1, e->start + (e->end - e->start) / 2};
    const uint32_t beyond[] = {t->base - 1, t->end, e->end, e->start - 1, SECOND_LAST_LINE};
    return ulavrepit_find(p, (refusal == 7 ? beyond[below(d, 5)] : held[below(d, 3)]) & SECOND_LAST_LINE);
}

/* An entry with which more can be done than to load it. */
static bool has_entry(const second_table *t, uint8_t p)
{
    for (uint8_t s = 0; s < SECOND_SLOTS; s++)
        if (is_entry(t, p, s) && !is_whole(t, p, s))
            return true;
    return false;
}

/* Down the tree rather than up, where a child has something to do. */
static uint64_t switch_to(const second_table *t, uint8_t refusal, dice *d)
{
    uint8_t p = some_partition(t, ULAVREPIT_SWITCH, refusal, d);
    for (unsigned tries = 0; refusal == 0 && tries < 3 && !(child_of(t, p, t->current) && has_entry(t, p)); tries++)
        p = some_partition(t, ULAVREPIT_SWITCH, refusal, d);
    return ulavrepit_switch(p);
}

/* Rather a child that has children; to be refused, rather a present one: the caller, its parent, another's child. */
static uint64_t clear_out(const second_table *t, uint8_t refusal, dice *d)
{
    uint8_t p = some_partition(t, ULAVREPIT_CLEAR_OUT, refusal, d);
    for (unsigned tries = 0; tries < 3 && !(refusal == 3 ? t->partitions[p].present : has_child(t, p)); tries++)
        p = some_partition(t, ULAVREPIT_CLEAR_OUT, refusal, d);
    return ulavrepit_clear_out(p);
}

bool moves(const second_table *t, uint8_t p, uint8_t s)
{
    for (uint8_t below_it = 0; is_entry(t, p, s) && below_it < s; below_it++)
        if (is_free(t, p, below_it))
            return true;
    return false;
}

/* Rather a partition with an entry that moves. */
static uint64_t pack(const second_table *t, uint8_t refusal, dice *d)
{
    uint8_t p = some_partition(t, ULAVREPIT_PACK, refusal, d);
    for (unsigned tries = 0; refusal == 0 && tries < 3 && some_slot(t, p, moves, d) == SECOND_SLOTS; tries++)
        p = some_partition(t, ULAVREPIT_PACK, refusal, d);
    return ulavrepit_pack(p);
}

/* A word that is meant to be refused with the number, or accepted (0); of unload, one of service 9. */
static uint64_t word_for(const second_table *t, uint8_t service, uint8_t refusal, dice *d)
{
    switch (service) {
    case ULAVREPIT_CREATE:
    case ULAVREPIT_PREPARE:
        return create_or_prepare(t, service, refusal, d);
    case ULAVREPIT_DELETE:
        return ulavrepit_delete(some_partition(t, service, refusal, d));
    case ULAVREPIT_COLLECT:
        return collect(t, refusal, d);
    case ULAVREPIT_GIVE:
        return give(t, refusal, d);
    case ULAVREPIT_TAKE:
        return take(t, refusal, d);
    case ULAVREPIT_CUT:
        return cut(t, refusal, d);
    case ULAVREPIT_MERGE:
        return merge(t, refusal, d);
    case ULAVREPIT_LOAD:
        return load(t, refusal, d);
    case UNLOAD:
    case ULAVREPIT_READ_REGION:
        return unload_or_read(t, service, refusal, d);
    case ULAVREPIT_FIND:
        return find(t, refusal, d);
    case ULAVREPIT_CLEAR_OUT:
        return clear_out(t, refusal, d);
    case ULAVREPIT_PACK:
        return pack(t, refusal, d);
    default:
        return switch_to(t, refusal, d);
    }
}

/* ---- the next word ---- */

/* The child of the current partition with the highest number; 0 if it has none. */
static uint8_t last_child(const second_table *t)
{
    for (uint8_t p = SECOND_PARTITIONS - 1; p > 0; p--)
        if (child_of(t, p, t->current))
            return p;
    return 0;
}

/* The next step towards a longer chain: a child, a structure in it, the longest block for it, and on from there. */
static uint64_t deepen(const second_table *t, dice *d)
{
    uint8_t child = last_child(t), longest = fit_entry(t, t->current, true);
    if (child == 0)
        return use_area(t, ULAVREPIT_CREATE, 0, d);
    if (structures_of(t, child) == 0)
        return use_area(t, ULAVREPIT_PREPARE, child, d);
    if (!has_entry(t, child) && longest < SECOND_SLOTS)
        return ulavrepit_give(child, longest, slot_of(t, t->current, longest)->rights);
    return ulavrepit_switch(child);
}

static bool every_partition_present(const second_table *t)
{
    for (unsigned p = 0; p < SECOND_PARTITIONS; p++)
        if (!t->partitions[p].present)
            return false;
    return true;
}

/* Up the tree, and at some level a branch goes: so branches of all sizes do, up to all but the root. */
static uint64_t climb_or_clear(const second_table *t, dice *d)
{
    if (t->current == 0 || (has_child(t, t->current) && percent(d, 15)))
        return clear_out(t, 0, d);
    return ulavrepit_switch(t->partitions[t->current].parent);
}

/* The next step of what a mood builds up, or clears out; 0, which is no call, if it leaves that to chance. */
static uint64_t planned(const second_table *t, mood m, dice *d)
{
    if (m == CLEARING && every_partition_present(t))
        return climb_or_clear(t, d);
    if ((m == DEEP && percent(d, 80)) || (m == CLEARING && percent(d, 60)))
        return deepen(t, d);
    return 0;
}

/* Any bits, at times with the zero bits zero. */
static uint64_t garbage(dice *d)
{
    return percent(d, 50) ? roll(d) : roll(d) & ~UINT64_C(0xffff);
}

static uint8_t some_service(mood m, dice *d)
{
    uint32_t total = 0;
    for (unsigned i = 1; i <= LAST_SERVICE; i++)
        total += weights[i][m];
    uint32_t pick = below(d, total);
    uint8_t service = 1;
    while (pick >= weights[service][m])
        pick -= weights[service++][m];
    return service;
}

static uint8_t some_check(uint8_t service, dice *d)
{
    uint32_t count = 0;
    while (service_checks[service][count] != 0)
        count++;
    return service_checks[service][below(d, count)];
}

/* A partition without such entries can do little: its parent has the word again, or it is not called at all. */
static uint64_t unless_stuck(const second_table *t, uint64_t word, dice *d)
{
    uint8_t p = (uint8_t)(word >> 56 & 15);
    if (t->current != 0 && !has_entry(t, t->current) && percent(d, 50))
        return ulavrepit_switch(t->partitions[t->current].parent);
    if (word >> 60 == ULAVREPIT_SWITCH && child_of(t, p, t->current) && !has_entry(t, p) && percent(d, 70))
        return has_free_slot(t, p) ? give(t, 0, d) : use_area(t, ULAVREPIT_PREPARE, p, d);
    return word;
}

/* What the second program answers to the word. */
static uint8_t tried(const uint8_t *table, uint64_t word)
{
    static uint8_t copy[SECOND_BYTES];
    uint64_t second;
    memcpy(copy, table, sizeof copy);
    return (uint8_t)second_call(BOARD, copy, sizeof copy, word, &second);
}

/* Service and refusal that take a table of their kind, which is seldom met: so they are tried often. */
static const uint8_t seldom[][2] = {
    {ULAVREPIT_CREATE, 8}, {ULAVREPIT_CREATE, 18}, {ULAVREPIT_DELETE, 15}, {ULAVREPIT_PREPARE, 8}, {ULAVREPIT_PREPARE, 18},
    {ULAVREPIT_GIVE, 10}, {ULAVREPIT_GIVE, 18}, {ULAVREPIT_TAKE, 14}, {ULAVREPIT_CUT, 8}, {ULAVREPIT_CUT, 18},
    {ULAVREPIT_MERGE, 6}, {ULAVREPIT_MERGE, 11}, {ULAVREPIT_MERGE, 12}, {ULAVREPIT_LOAD, 19}};

/* A good word of any service with one bit turned: often in a field that the service doesn't use, or a zero bit. */
static uint64_t bit_turned(const second_table *t, dice *d)
{
    uint8_t service = (uint8_t)(1 + below(d, LAST_SERVICE));
    return word_for(t, service, 0, d) ^ (percent(d, 15) ? ULAVREPIT_WHOLE : UINT64_C(1) << below(d, 64));
}

/*
 * Every refusal of every service is as welcome, whatever the mood. Some words are taken untried: if the second
 * program were wrong about them, trying would shun the very words that show it.
 */
static uint64_t near_miss(const uint8_t *table, const second_table *t, dice *d)
{
    uint64_t word = 0;
    if (percent(d, 15))
        return bit_turned(t, d);
    if (percent(d, 5))
        return region_near_miss(t, d);
    for (unsigned tries = 0; tries < 8; tries++) {
        uint8_t service = (uint8_t)(1 + below(d, LAST_SERVICE)), refusal = some_check(service, d);
        if (percent(d, 50)) {
            const uint8_t *cell = seldom[below(d, sizeof seldom / sizeof *seldom)];
            service = cell[0];
            refusal = cell[1];
        }
        word = word_for(t, service, refusal, d);
        if (tried(table, word) == refusal || percent(d, 15))
            break;
    }
    return word;
}

uint64_t next_word(const uint8_t *table, const second_table *t, mood m, dice *d)
{
    if (percent(d, m == DEEP || m == CLEARING ? 5 : 25))
        return near_miss(table, t, d);
    uint64_t word = planned(t, m, d);
    if (word != 0 && tried(table, word) == 0)
        return word;
    for (unsigned tries = 0; tries < 6; tries++) {
        word = unless_stuck(t, word_for(t, some_service(m, d), 0, d), d);
        if (tried(table, word) == 0)
            break;
    }
    return percent(d, 2) ? garbage(d) : word;
}

range next_boot(dice *d)
{
    range r;
    r.base = percent(d, 20) ? 0 : below(d, SECOND_LAST_LINE - 100000);
    r.end = r.base + 1000 + below(d, 90000);
    if (percent(d, 50)) { /* with few pieces */
        r.base &= ~UINT64_C(0xfff);
        r.end = r.base + 0x1000 * (1 + below(d, 24));
    }
    if (percent(d, 15))
        r.end = r.base + 1 + below(d, 100);
    if (percent(d, 10))
        r.end = SECOND_LAST_LINE;
    if (percent(d, 5)) { /* with the most */
        r.base = 1;
        r.end = SECOND_LAST_LINE;
    }
    return r;
}
