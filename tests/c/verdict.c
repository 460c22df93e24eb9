/*
 * The verdict on an image (document 02, request 113) against the second program, which answers each clause at each partition: on tables
 * that sessions come to, on sound ones of unusual make, on damaged ones, each way of damage by itself and several in one image, on
 * noise, and on images of another length.
 *
 *   verdict SEED ROUNDS          compares
 *   verdict SEED ROUNDS FOLDER   .. and writes a sound image into the folder, and one damaged in each of the ways, each with
 *                                what the second program says of it
 *
 * Lines that begin with # are for the reader; the others are one check each.
 */
#include "check.h"
#include "clauses.h"
#include "damage.h"
#include "lent.h"
#include "steer.h"

#include <inttypes.h>
#include <stdlib.h>

enum { MEGABYTE = 1000000, MANY_WAYS = 256 };

static dice chance;
static second_table state;
static uint8_t image[MEGABYTE];
static unsigned long images, sound_ones, unlike, other_clause, cells[SECOND_CLAUSES + 1][SECOND_PARTITIONS];
static unsigned long met[MANY_WAYS]; /* images by the way of damage */
static uint16_t places[MANY_WAYS];   /* .. and the partitions named, bit p for partition p */

/* Both say the same of the image, and nothing is written. Answers what they say. */
static uint64_t check_both(const uint8_t *table)
{
    static lent lending, before;
    paint(&lending);
    memcpy(lending.table, table, sizeof lending.table);
    before = lending;
    uint64_t ours = ulavrepit_check(lending.table, sizeof lending.table), theirs = second_check(BOARD, table, SECOND_BYTES);
    if ((ours != theirs || !same(&lending, &before)) && unlike++ == 0)
        printf("# image %lu: library %016" PRIx64 ", second program %016" PRIx64 "\n", images, ours, theirs);
    ulavrepit_verdict said = ulavrepit_unpack_verdict(theirs);
    other_clause += said.clause != (unsigned)second_unsound(BOARD, table, SECOND_BYTES);
    images++;
    sound_ones += theirs == 0;
    cells[said.clause][said.partition]++;
    return theirs;
}

/* ---- images ---- */

static void next_table(uint8_t *table, mood m)
{
    uint64_t second;
    for (unsigned i = 1 + below(&chance, 30); i > 0; i--) {
        second_call(BOARD, table, SECOND_BYTES, next_word(table, &state, m, &chance), &second);
        second_read(table, &state);
    }
}

static void each_damage(void)
{
    for (unsigned which = 0; which < damage_ways(); which++) {
        if (damage_in(which, &state, image, &chance) == 0)
            continue;
        uint64_t said = check_both(image);
        met[which] += said != 0;
        places[which] |= (uint16_t)(said != 0 ? 1u << (said >> 32 & 15) : 0);
    }
}

/* Each record from one of three images, each damaged in some way: so clauses fail at several partitions. */
static void much_damage(void)
{
    static uint8_t damaged[3][SECOND_BYTES];
    for (unsigned i = 0; i < 3; i++)
        while (damage(&state, damaged[i], &chance) == 0)
            continue;
    memcpy(image, damaged[0], SECOND_BYTES);
    for (unsigned p = 0; p < SECOND_PARTITIONS; p++)
        memcpy(image + 8 * (1 + 40 * p), damaged[below(&chance, 3)] + 8 * (1 + 40 * p), 8 * 40);
    check_both(image);
}

static void some_bits_turned(const uint8_t *table, unsigned bits)
{
    memcpy(image, table, SECOND_BYTES);
    for (; bits > 0; bits--)
        image[below(&chance, SECOND_BYTES)] ^= (uint8_t)(1u << below(&chance, 8));
    check_both(image);
}

static void noise(void)
{
    for (unsigned i = 0; i < SECOND_BYTES; i++)
        image[i] = (uint8_t)(percent(&chance, 50) ? roll(&chance) >> 40 : 0);
    check_both(image);
}

static void round_of_images(uint8_t *table, mood m)
{
    next_table(table, m);
    check_both(table);
    each_damage();
    much_damage();
    some_bits_turned(table, 1 + below(&chance, 8));
    if (percent(&chance, 10))
        noise();
    if (percent(&chance, 30)) {
        make_odd(&state, &chance);
        second_write(&state, image);
        check_both(image);
        each_damage();
        second_read(table, &state);
    }
}

/* ---- images of another length ---- */

static bool refuses_lengths(void)
{
    static const uint64_t lengths[] = {0, 1, SECOND_BYTES - 1, SECOND_BYTES + 1, MEGABYTE};
    bool good = true;
    second_boot(image, SECOND_BYTES, 256, 1024);
    for (unsigned i = 0; i < sizeof lengths / sizeof *lengths; i++)
        good = good && ulavrepit_check(image, lengths[i]) == ULAVREPIT_REFUSED_TABLE;
    return good && ulavrepit_check(image, SECOND_BYTES) == 0;
}

/* ---- for the program and for make check: images as files ---- */

static bool write_image(const char *folder, unsigned number)
{
    char name[4096];
    ulavrepit_verdict said = ulavrepit_unpack_verdict(second_check(BOARD, image, SECOND_BYTES));
    snprintf(name, sizeof name, "%s/%02u.image", folder, number);
    FILE *out = fopen(name, "wb");
    bool good = out != NULL && fwrite(image, 1, SECOND_BYTES, out) == SECOND_BYTES && fclose(out) == 0;
    snprintf(name, sizeof name, "%s/%02u.verdict", folder, number);
    out = fopen(name, "w");
    if (!good || out == NULL)
        return false;
    if (said.clause == 0)
        fprintf(out, "sound\n");
    else
        fprintf(out, "S%" PRIu32 " %" PRIu32 "\n", said.clause, said.partition);
    return fclose(out) == 0;
}

/* Number 0 is the session's table, number 1 + i that table, or a later one of the session, damaged in way i. */
static bool write_images(const char *folder)
{
    static uint8_t table[SECOND_BYTES];
    bool written[MANY_WAYS] = {false}, good = true;
    unsigned left = 0;
    for (unsigned which = 0; which < damage_ways(); which++)
        left += damages_on_board(which);
    for (unsigned turn = 0; left > 0 && turn < 100000; turn++) {
        if (turn % 300 == 0)
            second_boot(table, SECOND_BYTES, 256, 65536);
        second_read(table, &state);
        next_table(table, turn % 600 < 300 ? MIXED : DENSE);
        for (unsigned which = 0; turn >= 10 && which < damage_ways(); which++) {
            if (written[which] || damage_in(which, &state, image, &chance) == 0 || second_check(BOARD, image, SECOND_BYTES) == 0)
                continue;
            good = good && write_image(folder, 1 + which);
            written[which] = true;
            left--;
        }
        memcpy(image, table, SECOND_BYTES);
        good = good && (turn != 10 || write_image(folder, 0));
    }
    return good && left == 0;
}

/* ---- what was met ---- */

static void print_cells(void)
{
    printf("# images by clause and partition:\n#     ");
    for (unsigned p = 0; p < SECOND_PARTITIONS; p++)
        printf("%6u", p);
    for (unsigned clause = 1; clause <= SECOND_CLAUSES; clause++) {
        printf("\n# S%-4u", clause);
        for (unsigned p = 0; p < SECOND_PARTITIONS; p++)
            printf("%6lu", cells[clause][p]);
    }
    printf("\n# %lu images, %lu of them sound, %u ways of damage\n", images, sound_ones, damage_ways());
}

/* S1 is asked of partition 0 alone. */
static bool every_cell_met(void)
{
    bool good = cells[1][0] > 0;
    for (unsigned clause = 2; clause <= SECOND_CLAUSES; clause++)
        for (unsigned p = 0; p < SECOND_PARTITIONS; p++)
            if (cells[clause][p] == 0) {
                printf("# S%u at %u was not met\n", clause, p);
                good = false;
            }
    return good;
}

static bool every_way_met(void)
{
    bool good = damage_ways() <= MANY_WAYS;
    for (unsigned which = 0; good && which < damage_ways(); which++)
        if ((met[which] != 0) != damages_on_board(which)) {
            printf("# way %u was met %lu times\n", which, met[which]);
            good = false;
        }
    return good;
}

/* Ways that are the root's, or word 0's, alone name one partition; most others many. */
static unsigned ways_at_several(void)
{
    unsigned several = 0;
    for (unsigned which = 0; which < damage_ways(); which++)
        several += (places[which] & (places[which] - 1)) != 0;
    return several;
}

int main(int count, char **words)
{
    static uint8_t table[SECOND_BYTES];
    unsigned long rounds = count >= 3 ? strtoul(words[2], NULL, 10) : 0;
    if (rounds == 0 || count > 4) {
        fprintf(stderr, "usage: verdict SEED ROUNDS [FOLDER]\n");
        return 2;
    }
    chance = seeded(strtoull(words[1], NULL, 10));
    for (unsigned long i = 0; i < rounds; i++) {
        if (i % 20 == 0) {
            range r = next_boot(&chance);
            second_boot(table, SECOND_BYTES, r.base, r.end);
            second_read(table, &state);
        }
        round_of_images(table, (mood)(i / 20 % MOODS));
    }
    print_cells();
    check(unlike == 0, "the library and the second program say the same of every image, and nothing is written");
    check(other_clause == 0, "the clause is the lowest that the second program's own walks find failing");
    check(every_cell_met(), "each of S2 to S11 was named at each of the sixteen partitions, S1 at 0");
    check(every_way_met() && ways_at_several() >= damage_ways() / 2, "each way of damage was met, half of them or more at several partitions");
    check(sound_ones >= rounds, "sound images were met, from sessions and of unusual make");
    check(refuses_lengths(), "images of 0, 1, 5127, 5129 and a million bytes are refused 1");
    if (count == 4)
        check(write_images(words[3]), "a sound image, and one damaged in each of the ways, are written");
    return 0;
}
