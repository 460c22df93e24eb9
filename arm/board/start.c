/* What a C program in the emulator stands on: vectors, reset, a guard below the stack, the words of its command line. */
#include "host.h"

int main(int count, char **words);
extern uint32_t stack_low[], stack_top[], data[], data_end[], data_load[], bss[], bss_end[];

/*
 * Without a guard nothing tells of a stack that is too small: the emulated boards read 0 below their memory, and no fault. A
 * Cortex-M0 has nothing to make a guard of.
 */
static void guard_stack(void)
{
#if __ARM_ARCH >= 8
    __asm__ volatile("msr msplim, %0" ::"r"(stack_low));
#elif __ARM_ARCH == 7
    volatile uint32_t *mpu = (volatile uint32_t *)0xe000ed90; /* type, control, number, base, attributes and size */
    mpu[2] = 0;
    mpu[3] = (uint32_t)stack_low - 0x8000;
    mpu[4] = 1u << 28 | 14 << 1 | 1; /* no access, 2^15 bytes, on */
    mpu[1] = 5;                      /* on; the rest of memory as it was */
#endif
}

/* An address that is not aligned is a fault, as firmware may have it, and as it always is on a Cortex-M0. */
static void trap_unaligned(void)
{
#ifndef __ARM_FEATURE_UNALIGNED
    *(volatile uint32_t *)0xe000ed14 |= 1 << 3;
#endif
}

static char line[256], *words[16];

static int split_line(void)
{
    const uint32_t where[] = {(uint32_t)line, sizeof line};
    int count = 0;
    if (ask_host(HOST_COMMAND_LINE, where) != 0)
        return 0;
    for (char *at = line; *at != 0 && count < 16;) {
        words[count++] = at;
        while (*at != 0 && *at != ' ')
            at++;
        if (*at == ' ')
            *at++ = 0;
    }
    return count;
}

void reset(void)
{
    guard_stack();
    trap_unaligned();
    __asm__ volatile("dsb\n isb" ::: "memory");
    for (uint32_t *to = data, *from = data_load; to < data_end;)
        *to++ = *from++;
    for (uint32_t *to = bss; to < bss_end;)
        *to++ = 0;
    exit(main(split_line(), words));
}

__attribute__((used)) static void say_fault(void)
{
    ask_host(HOST_WRITE0, "\nFAULT\n");
    leave(99);
}

/* The stack may be what is at fault, so it starts again at its top. */
__attribute__((naked)) static void fault(void) { __asm__("ldr r0, =stack_top\n mov sp, r0\n bl say_fault"); }

__attribute__((section(".vectors"), used)) static const void *const vectors[16] = {
    stack_top, (void *)reset, (void *)fault, (void *)fault, (void *)fault, (void *)fault, (void *)fault};
