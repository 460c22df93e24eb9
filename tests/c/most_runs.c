/*
 * A run ends only where a grant begins or ends, and an entry has two ends. So a partition with g grants, which can
 * cut 32 - g times, does best if every cut parts kept lines from given ones, with as few given pieces as may
 * be: kept, given, kept, and so on. The root cuts 31 times, its descendants 16, 24, 20, 22 and ten times 21;
 * the last of the chain has nobody to give to. With the run before the first cut that is 324.
 */
#include "most_runs.h"

#include "damage.h"

#include <string.h>

enum { FIRST_LINE = 64, MEMORY_LINES = 1 << 20, KEPT_LINES = SECOND_AREA_LINES };

/* Pieces of one partition that it keeps, or gives. */
typedef struct {
    uint8_t count;
    second_area pieces[SECOND_SLOTS];
} pieces;

static void put_piece(second_partition *p, pieces *list, uint32_t start, uint32_t end, uint8_t given)
{
    second_slot entry = {true, true, 7, given, false, start, end};
    p->slots[p->entry_count++] = entry;
    list->pieces[list->count].start = start;
    list->pieces[list->count++].end = end;
}

/*
 * Cuts one grant so often: kept pieces of 16 lines, and given ones that share the rest. The last takes what is left
 * over by the division.
 */
static void cut_grant(second_partition *p, second_area grant, uint32_t cuts, uint8_t child, pieces *kept, pieces *given)
{
    uint32_t givings = (cuts + 1) / 2, keepings = cuts + 1 - givings, start = grant.start;
    if (cuts == 0) {
        put_piece(p, kept, grant.start, grant.end, 0);
        return;
    }
    uint32_t lines = (grant.end - grant.start - keepings * KEPT_LINES) / givings;
    for (uint32_t i = 0; i <= cuts; i++) {
        uint32_t end = i == cuts ? grant.end : start + (i % 2 == 0 ? KEPT_LINES : lines);
        put_piece(p, i % 2 == 0 ? kept : given, start, end, i % 2 == 0 ? 0 : child);
        start = end;
    }
}

/* Two cuts for each grant, as long as there are cuts; then two more, from the first on; the last one alone. */
static void share_cuts(uint32_t cuts, uint8_t grants, uint32_t share[SECOND_SLOTS])
{
    memset(share, 0, SECOND_SLOTS * sizeof *share);
    for (uint8_t i = 0; cuts > 0; i = (uint8_t)((i + 1) % grants)) {
        uint32_t some = cuts > 1 ? 2 : 1;
        share[i] += some;
        cuts -= some;
    }
}

/* Its header lies in a piece that the parent keeps, its structures in such pieces of its own. */
static void put_areas(second_partition *p, second_area header, const pieces *kept, bool root)
{
    p->present = true;
    p->area = header;
    for (unsigned i = 0; i < SECOND_STRUCTURES; i++) {
        p->structures[i].present = true;
        if (!root || i != 0)
            p->structures[i].area = kept->pieces[1 + i];
    }
}

void make_most_runs(second_table *t)
{
    pieces grants = {1, {{FIRST_LINE, FIRST_LINE + MEMORY_LINES}}};
    second_area header = {0, 0};
    memset(t, 0, sizeof *t);
    t->base = grants.pieces[0].start;
    t->end = grants.pieces[0].end;
    for (uint8_t p = 0; p < SECOND_PARTITIONS; p++) {
        second_partition *q = &t->partitions[p];
        bool last = p == SECOND_PARTITIONS - 1;
        pieces kept = {0, {{0, 0}}}, given = {0, {{0, 0}}};
        uint32_t share[SECOND_SLOTS];
        share_cuts(last ? 0 : SECOND_SLOTS - grants.count, grants.count, share);
        for (uint8_t i = 0; i < grants.count; i++)
            cut_grant(q, grants.pieces[i], share[i], (uint8_t)(p + 1), &kept, &given);
        q->parent = p == 0 ? 0 : (uint8_t)(p - 1);
        put_areas(q, header, &kept, p == 0);
        header = kept.pieces[0];
        grants = given;
    }
    settle_table(t);
}
