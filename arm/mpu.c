/*
 * A region's register pair in the MPU of a Cortex-M33, in the emulator, with the library for ARMv8-M:
 *
 *   mpu PARTITION SLOT ADDRESS
 *
 * Memory is 128 lines from line BASE on, which the emulated board has. Partition 0 has lines 116 to 128 of them in its slot 3, with all
 * rights; it gave partition 1 lines 32 to 116, to read. The program writes the pair of that entry, loads it into region 0, reads both
 * registers back and prints them, and the word of the entry that they tell; it switches the MPU on, and stores to the address as an
 * unprivileged task does. A store that the MPU stops is a fault (start.c).
 */
#include "host.h"
#include "ulavrepit8.h"

enum { BASE = 29392896 };

static uint8_t table[ULAVREPIT_TABLE_BYTES];

static bool set_up(void)
{
    const uint64_t words[] = {ulavrepit_cut(0, BASE + 16), ulavrepit_cut(1, BASE + 32),  ulavrepit_create(0),
                              ulavrepit_prepare(1, 1),     ulavrepit_cut(2, BASE + 116), ulavrepit_give(1, 2, ULAVREPIT_READ)};
    uint64_t second;
    if (ulavrepit_boot(table, sizeof table, BASE, BASE + 128) != 0)
        return false;
    for (unsigned i = 0; i < sizeof words / sizeof words[0]; i++)
        if ((ulavrepit_call(table, sizeof table, words[i], &second) & 0xff) != 0)
            return false;
    return true;
}

int main(int count, char **words)
{
    volatile uint32_t *mpu = (volatile uint32_t *)0xe000ed90; /* type, control, number, base, limit */
    uint32_t rbar, rlar;
    uint64_t entry;
    if (count != 4 || !set_up() ||
        ulavrepit_region_write(table, sizeof table, strtoul(words[1], NULL, 10), strtoul(words[2], NULL, 10), &rbar, &rlar) != 0)
        return 2;
    mpu[2] = 0;
    mpu[3] = rbar;
    mpu[4] = rlar;
    if (mpu[3] != rbar || mpu[4] != rlar || ulavrepit_region_read(mpu[3], mpu[4], &entry) != 0)
        return 3;
    printf("%lu %lu %llu\n", (unsigned long)rbar, (unsigned long)rlar, (unsigned long long)entry);
    mpu[1] = 5; /* on; for the kernel the rest of memory as it was */
    __asm__ volatile("dsb\n isb\n strt %0, [%1]\n dsb" ::"r"(0x5e47), "r"(strtoul(words[3], NULL, 10)) : "memory");
    puts("stored");
    return 0;
}
