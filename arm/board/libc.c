/* See libc.h. Among it: the functions that clang calls where C has an operator and the processor has no instruction. */
#include "host.h"

/* ---- memory ---- */

/* clang would make calls of these functions out of their own loops */
#define LOOP _Pragma("clang loop vectorize(disable) unroll(disable)")

/* By words where it can: a call of the library clears some 10,000 bytes. */
void *memcpy(void *to, const void *from, size_t count)
{
    uint8_t *t = to;
    const uint8_t *f = from;
    if ((((uint32_t)t | (uint32_t)f) & 3) == 0)
        LOOP for (; count >= 4; count -= 4, t += 4, f += 4)
            *(uint32_t *)t = *(const uint32_t *)f;
    LOOP for (; count > 0; count--)
        *t++ = *f++;
    return to;
}

void *memmove(void *to, const void *from, size_t count)
{
    if ((uint8_t *)to < (const uint8_t *)from)
        return memcpy(to, from, count);
    LOOP for (; count > 0; count--)
        ((uint8_t *)to)[count - 1] = ((const uint8_t *)from)[count - 1];
    return to;
}

void *memset(void *to, int byte, size_t count)
{
    uint8_t *t = to;
    uint32_t word = (uint8_t)byte * 0x01010101u;
    LOOP for (; count > 0 && ((uint32_t)t & 3) != 0; count--)
        *t++ = (uint8_t)byte;
    LOOP for (; count >= 16; count -= 16, t += 16)
        ((uint32_t *)t)[0] = ((uint32_t *)t)[1] = ((uint32_t *)t)[2] = ((uint32_t *)t)[3] = word;
    LOOP for (; count > 0; count--)
        *t++ = (uint8_t)byte;
    return to;
}

int memcmp(const void *a, const void *b, size_t count)
{
    const uint8_t *x = a, *y = b;
    for (; count > 0; count--, x++, y++)
        if (*x != *y)
            return *x < *y ? -1 : 1;
    return 0;
}

/* The names of Arm's run-time ABI; 4 and 8: to and from are so aligned. */
#define COPY(name) void name(void *to, const void *from, size_t count) { memcpy(to, from, count); }
#define MOVE(name) void name(void *to, const void *from, size_t count) { memmove(to, from, count); }
#define CLEAR(name) void name(void *to, size_t count) { memset(to, 0, count); }
#define SET(name) void name(void *to, size_t count, int byte) { memset(to, byte, count); }
COPY(__aeabi_memcpy) COPY(__aeabi_memcpy4) COPY(__aeabi_memcpy8)
MOVE(__aeabi_memmove) MOVE(__aeabi_memmove4) MOVE(__aeabi_memmove8)
SET(__aeabi_memset) SET(__aeabi_memset4) SET(__aeabi_memset8)
CLEAR(__aeabi_memclr) CLEAR(__aeabi_memclr4) CLEAR(__aeabi_memclr8)

/* ---- division ---- */

/* Bit by bit; no shift by a number that is not constant, for which a Cortex-M0 would need a function more. */
__attribute__((used)) static uint64_t divide(uint64_t a, uint64_t b, uint64_t *rest)
{
    uint64_t quotient = 0, left = 0;
    LOOP for (int bit = 0; bit < 64; bit++) {
        bool carry = left >> 63;
        left = left << 1 | a >> 63;
        a <<= 1;
        quotient <<= 1;
        if (carry || left >= b) {
            left -= b;
            quotient |= 1;
        }
    }
    *rest = left;
    return quotient;
}

/* Quotient in r0 and r1, rest in r2 and r3. */
__attribute__((naked)) void __aeabi_uldivmod(void)
{
    __asm__("push {r6, lr}\n sub sp, #16\n add r6, sp, #8\n str r6, [sp]\n bl divide\n"
            "ldr r2, [sp, #8]\n ldr r3, [sp, #12]\n add sp, #16\n pop {r6, pc}");
}

/* ---- printing ---- */

static char waiting[513];
static uint32_t count_waiting;

static void flush(void)
{
    waiting[count_waiting] = 0;
    ask_host(HOST_WRITE0, waiting);
    count_waiting = 0;
}

static void put(char c)
{
    if (count_waiting == sizeof waiting - 1)
        flush();
    waiting[count_waiting++] = c;
}

static void put_text(const char *text)
{
    while (*text != 0)
        put(*text++);
}

/* The digits of a number, from the end of a buffer on. */
static const char *digits(char *end, uint64_t n, unsigned base)
{
    uint64_t digit;
    *end = 0;
    do {
        n = divide(n, base, &digit);
        *--end = "0123456789abcdef"[digit];
    } while (n != 0);
    return end;
}

typedef __builtin_va_list arguments;

/* One directive, from behind its % on; answers what follows it. */
static const char *put_directive(const char *at, arguments *from)
{
    char number[24];
    const char *text;
    bool left = *at == '-', zeros = *at == '0';
    int width = 0, longs = 0;
    for (at += left; *at >= '0' && *at <= '9'; at++)
        width = 10 * width + *at - '0';
    for (; *at == 'l' || *at == 'z'; at++)
        longs += *at == 'l';
    if (*at == 's')
        text = __builtin_va_arg(*from, const char *);
    else
        text = digits(number + 23, longs == 2 ? __builtin_va_arg(*from, uint64_t) : __builtin_va_arg(*from, uint32_t),
                      *at == 'x' ? 16 : 10);
    for (const char *c = text; *c != 0; c++)
        width--;
    for (; !left && width > 0; width--)
        put(zeros ? '0' : ' ');
    put_text(text);
    for (; width > 0; width--)
        put(' ');
    return at + 1;
}

static void put_format(const char *at, arguments *from)
{
    while (*at != 0)
        if (*at == '%')
            at = put_directive(at + 1, from);
        else
            put(*at++);
}

int printf(const char *format, ...)
{
    arguments from;
    __builtin_va_start(from, format);
    put_format(format, &from);
    __builtin_va_end(from);
    return 0;
}

static FILE files[3];
FILE *const stdout = files, *const stderr = files + 1;

int fprintf(FILE *file, const char *format, ...)
{
    arguments from;
    (void)file;
    __builtin_va_start(from, format);
    put_format(format, &from);
    __builtin_va_end(from);
    return 0;
}

int puts(const char *text)
{
    put_text(text);
    put('\n');
    return 0;
}

/* ---- reading, ending ---- */

FILE *fopen(const char *path, const char *mode)
{
    uint32_t length = 0;
    (void)mode;
    while (path[length] != 0)
        length++;
    const uint32_t words[] = {(uint32_t)path, 1, length};
    files[2].handle = ask_host(HOST_OPEN, words);
    return files[2].handle == UINT32_MAX ? NULL : files + 2;
}

size_t fread(void *to, size_t size, size_t count, FILE *file)
{
    const uint32_t words[] = {file->handle, (uint32_t)to, size * count};
    return (size * count - ask_host(HOST_READ, words)) / size;
}

int fclose(FILE *file)
{
    return (int)ask_host(HOST_CLOSE, &file->handle);
}

unsigned long long strtoull(const char *text, char **end, int base)
{
    unsigned long long n = 0;
    (void)end, (void)base;
    while (*text >= '0' && *text <= '9')
        n = 10 * n + (unsigned)(*text++ - '0');
    return n;
}

unsigned long strtoul(const char *text, char **end, int base)
{
    return (unsigned long)strtoull(text, end, base);
}

void exit(int status)
{
    flush();
    leave((uint32_t)status);
}
