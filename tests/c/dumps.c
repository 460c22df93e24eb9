/*
 * Dumps for the program who, each with the machine form (docs/WHO.md) that is due, told by the second program and its plain structs.
 *
 *   dumps handset FILE          the handset of docs/WHO.md
 *   dumps densest FILE          the densest table that the format holds
 *   dumps FOLDER COUNT SEED     COUNT generated ones, NNN.dump, and one damaged in each way, dNN.dump; beside each the question that is
 *                               put before it, .question, and what is to be printed, .form
 */
#include "clauses.h"
#include "damage.h"
#include "steer.h"
#include "tables.h"

#include <inttypes.h>
#include <stdio.h>
#include <stdlib.h>
#include <string.h>

static const uint64_t ALL = UINT64_MAX; /* the question for every line */

static dice chance;
static uint8_t table[SECOND_BYTES];
static second_table state;

/* ---- whether a partition can write into its entry: tried, by the calls that it would make ---- */

/* The partition becomes current and unloads its regions. Then it loads the entry: the refusal, or 0. */
static unsigned loading(unsigned p, unsigned s)
{
    static uint8_t tried[SECOND_BYTES];
    second_table turned = state;
    uint64_t second;
    turned.current = (uint8_t)p;
    second_write(&turned, tried);
    for (uint32_t r = 0; r < SECOND_REGIONS; r++)
        second_call(BOARD, tried, SECOND_BYTES, ulavrepit_unload(p, r), &second);
    return second_call(BOARD, tried, SECOND_BYTES, ulavrepit_load(p, s, 0), &second) & 0xff;
}

static bool loaded(unsigned p, unsigned s)
{
    for (unsigned r = 0; r < SECOND_REGIONS; r++)
        if (state.partitions[p].regions[r].loaded && state.partitions[p].regions[r].slot == s)
            return true;
    return false;
}

/* As the form has it: 0 closed, 1 no right, 2 too many pieces, 3 if it is loaded, 4 when the partition is current, 5 now. */
static unsigned ability(unsigned p, unsigned s)
{
    unsigned refusal = loading(p, s);
    if (refusal == ULAVREPIT_REFUSED_NOT_OPEN)
        return 0;
    if ((state.partitions[p].slots[s].rights & ULAVREPIT_WRITE) == 0)
        return 1;
    if (loaded(p, s))
        return p == state.current ? 5 : 4;
    return refusal == ULAVREPIT_DONE ? 3 : 2;
}

/* ---- the machine form ---- */

/* Area j of a partition: the header's, or that of structure j - 1; 0, 0 is none. */
static second_area area_of(const second_partition *p, unsigned j)
{
    return j == 0 ? p->area : p->structures[j - 1].area;
}

static void put_shuts(FILE *out, unsigned p, unsigned s)
{
    const second_slot *e = &state.partitions[p].slots[s];
    for (unsigned q = 0; q < SECOND_PARTITIONS; q++)
        for (unsigned j = 0; j <= SECOND_STRUCTURES; j++) {
            second_area a = area_of(&state.partitions[q], j);
            if (a.start < a.end && a.start < e->end && e->start < a.end)
                fprintf(out, "shut %u %u %u %u\n", p, s, q, j);
        }
}

static void put_entry(FILE *out, unsigned p, unsigned s)
{
    const second_slot *e = &state.partitions[p].slots[s];
    if (!e->present)
        return;
    fprintf(out, "entry %u %u %" PRIu32 " %" PRIu32 " %u %u %u %u %u %u %" PRIu32 "\n", p, s, e->start, e->end, e->rights >> 2 & 1u,
            e->rights >> 1 & 1u, e->rights & 1u, e->open, e->given, e->whole, second_piece_count(BOARD, e->start, e->end));
    fprintf(out, "can %u %u %u\n", p, s, ability(p, s));
    for (unsigned r = 0; r < SECOND_REGIONS; r++)
        if (state.partitions[p].regions[r].loaded && state.partitions[p].regions[r].slot == s)
            fprintf(out, "region %u %u %u\n", p, s, r);
    if (!e->open)
        put_shuts(out, p, s);
}

static void put_partition(FILE *out, unsigned p)
{
    const second_partition *q = &state.partitions[p];
    if (!q->present)
        return;
    fprintf(out, "partition %u %u\n", p, q->parent);
    for (unsigned j = 0; j <= SECOND_STRUCTURES; j++) {
        second_area a = area_of(q, j);
        if (a.start < a.end)
            fprintf(out, "area %u %u %" PRIu32 " %" PRIu32 "\n", p, j, a.start, a.end);
    }
    for (unsigned s = 0; s < SECOND_SLOTS; s++)
        put_entry(out, p, s);
}

/* The line and its holders. Answers the end of the last one's entry; the line itself if nobody holds it. */
static uint64_t put_at(FILE *out, uint64_t line)
{
    uint8_t list[SECOND_HOLDERS];
    uint64_t second, end = line, answer = second_holders(BOARD, table, SECOND_BYTES, line, list, sizeof list, &second);
    if ((answer & 0xff) != 0)
        return line;
    fprintf(out, "at %" PRIu64 "\n", line);
    for (unsigned i = 0; i < answer >> 32; i++)
        for (unsigned s = 0; s < SECOND_SLOTS; s++) {
            const second_slot *e = &state.partitions[list[i]].slots[s];
            if (e->present && e->start <= line && line < e->end) {
                fprintf(out, "holder %u %u\n", list[i], s);
                end = e->end;
            }
        }
    return end;
}

static void put_map(FILE *out)
{
    static second_run runs[SECOND_RUNS];
    uint64_t count = second_runs(BOARD, table, SECOND_BYTES, runs, SECOND_RUNS) >> 32;
    for (uint64_t i = 0; i < count; i++) {
        fprintf(out, "run %" PRIu32 " %" PRIu32 "\n", runs[i].start, runs[i].end);
        for (uint64_t line = runs[i].start; line < runs[i].end;)
            line = put_at(out, line);
    }
}

static void put_form(FILE *out, uint64_t question)
{
    uint64_t said = second_check(BOARD, table, SECOND_BYTES) >> 32;
    second_read(table, &state);
    if (said != 0) {
        fprintf(out, "fails %" PRIu64 " %" PRIu64 "\n", said / 16, said % 16);
        return;
    }
    fprintf(out, "sound\nmemory %" PRIu32 " %" PRIu32 " %u\n", state.base, state.end, state.current);
    for (unsigned p = 0; p < SECOND_PARTITIONS; p++)
        put_partition(out, p);
    if (question == ALL)
        put_map(out);
    else
        put_at(out, question);
}

/* ---- files ---- */

static FILE *opened(const char *folder, const char *name, const char *kind)
{
    char path[4096];
    snprintf(path, sizeof path, "%s/%s.%s", folder, name, kind);
    FILE *out = fopen(path, "wb");
    if (out == NULL) {
        fprintf(stderr, "dumps: can't write %s\n", path);
        exit(2);
    }
    return out;
}

static void write_dump(const char *folder, const char *name, uint64_t question)
{
    FILE *out = opened(folder, name, "dump");
    fwrite(table, 1, SECOND_BYTES, out);
    fclose(out);
    out = opened(folder, name, "question");
    for (int shift = 56; shift >= 0; shift -= 8)
        fputc((int)(question >> shift & 0xff), out);
    fclose(out);
    out = opened(folder, name, "form");
    put_form(out, question);
    fclose(out);
}

/* All lines, one of the memory, one at an end of an entry, or any number. */
static uint64_t next_question(void)
{
    const second_slot *e = &state.partitions[below(&chance, SECOND_PARTITIONS)].slots[below(&chance, SECOND_SLOTS)];
    switch (below(&chance, 4)) {
    case 0:
        return ALL;
    case 1:
        return state.base + below(&chance, state.end - state.base);
    case 2:
        return e->present ? (percent(&chance, 50) ? e->start : e->end) : state.end - 1;
    default:
        return percent(&chance, 50) ? state.base - 1 : roll(&chance) >> below(&chance, 64);
    }
}

static void call_some(unsigned calls, mood m)
{
    uint64_t second;
    for (; calls > 0; calls--) {
        second_read(table, &state);
        second_call(BOARD, table, SECOND_BYTES, next_word(table, &state, m, &chance), &second);
    }
    second_read(table, &state);
}

static void write_generated(const char *folder, unsigned count)
{
    char name[16];
    for (unsigned i = 0; i < count; i++) {
        range r = next_boot(&chance);
        second_boot(table, SECOND_BYTES, r.base, r.end);
        call_some(below(&chance, 400), (mood)(i % MOODS));
        if (percent(&chance, 20)) {
            make_odd(&state, &chance);
            second_write(&state, table);
        }
        snprintf(name, sizeof name, "%03u", i);
        write_dump(folder, name, next_question());
    }
}

static void write_damaged(const char *folder)
{
    static uint8_t image[SECOND_BYTES];
    char name[16];
    for (unsigned which = 0; which < damage_ways(); which++) {
        do {
            second_boot(table, SECOND_BYTES, 256, 65536);
            call_some(200, which % 2 == 0 ? MIXED : DENSE);
        } while (damage_in(which, &state, image, &chance) == 0);
        memcpy(table, image, SECOND_BYTES);
        snprintf(name, sizeof name, "d%02u", which);
        write_dump(folder, name, 300);
    }
}

/* ---- the handset ---- */

static uint64_t call(uint8_t *t, uint64_t len, uint64_t word, uint64_t *second)
{
    return second_call(BOARD, t, len, word, second);
}

static bool accepted(uint64_t word)
{
    uint64_t second;
    return (call(table, SECOND_BYTES, word, &second) & 0xff) == 0;
}

/* Cuts the last block of the caller, whose slot is told, at each of these lines in turn: the pieces stand in the slots from there on. */
static bool cut_at(uint32_t slot, const uint32_t *lines, unsigned count)
{
    bool good = true;
    for (unsigned i = 0; i < count; i++)
        good = good && accepted(ulavrepit_cut(slot + i, lines[i]));
    return good;
}

/*
 * The root, the store 1, the reader 2; and the uploader 3, which the store has started in the second of its two blocks, with a buffer
 * that is lent to it whole. Each has loaded what it works on. The store is current.
 */
static bool make_handset(void)
{
    static const uint32_t roots[] = {272, 288, 304, 1024, 1328, 1344, 1360, 1488}, stores[] = {1040, 1056, 1280, 1312};
    uint32_t read_write = ULAVREPIT_READ + ULAVREPIT_WRITE;
    bool good = second_boot(table, SECOND_BYTES, 256, 4096) == 0 && cut_at(0, roots, 1);
    good = good && accepted(ulavrepit_prepare(0, 0)) && cut_at(1, roots + 1, 7);
    good = good && accepted(ulavrepit_create(1)) && accepted(ulavrepit_prepare(1, 2));
    good = good && accepted(ulavrepit_give(1, 3, read_write)) && accepted(ulavrepit_give(1, 4, read_write));
    good = good && accepted(ulavrepit_create(5)) && accepted(ulavrepit_prepare(2, 6));
    good = good && accepted(ulavrepit_give(2, 7, ULAVREPIT_ALL_RIGHTS));
    good = good && accepted(ulavrepit_load(2, 0, 0)) && accepted(ulavrepit_load(0, 8, 0));
    good = good && accepted(ulavrepit_switch(1)) && cut_at(1, stores, 4);
    good = good && accepted(ulavrepit_create(1)) && accepted(ulavrepit_prepare(3, 2));
    good = good && accepted(ulavrepit_give(3, 3, read_write)) && accepted(ulavrepit_give_whole(3, 4, read_write));
    good = good && accepted(ulavrepit_load(1, 0, 0)) && accepted(ulavrepit_load(1, 5, 1));
    return good && accepted(ulavrepit_load(3, 0, 0)) && accepted(ulavrepit_load(3, 1, 1));
}

static bool make_dense(void)
{
    const kernel second = {second_boot, call, NULL, NULL, NULL};
    return make_densest(&second, table);
}

int main(int count, char **words)
{
    if (count == 3 && (strcmp(words[1], "handset") == 0 || strcmp(words[1], "densest") == 0)) {
        FILE *out = fopen(words[2], "wb");
        bool good = words[1][0] == 'h' ? make_handset() : make_dense();
        good = good && out != NULL && fwrite(table, 1, SECOND_BYTES, out) == SECOND_BYTES;
        return out != NULL && fclose(out) == 0 && good ? 0 : 1;
    }
    if (count != 4) {
        fprintf(stderr, "usage: dumps handset FILE | dumps densest FILE | dumps FOLDER COUNT SEED\n");
        return 2;
    }
    chance = seeded(strtoull(words[3], NULL, 10));
    write_generated(words[1], (unsigned)strtoul(words[2], NULL, 10));
    write_damaged(words[1]);
    return 0;
}
