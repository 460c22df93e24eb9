/*
 * Firmware to start from, for a Cortex-M3: a kernel whose tables are kept by the library, and two tasks.
 *
 * A task makes a kernel call by `svc 0` with a call word in r0 and r1. The handler hands the word to ulavrepit_call as it
 * is: the library refuses what is wrong, so nothing is checked here. Then the MPU gets the pieces of what the partition that
 * is current has loaded, as read region and pieces answer them. The store keeps to its block. The uploader writes over the
 * store's mark: the MPU stops it, and the fault handler asks the library who holds that line.
 *
 * There are no interrupts and no scheduler: the root, which is the code of main, lets one task run after the other.
 */
#include "host.h"
#include "ulavrepit.h"

extern uint32_t stack_top[], data[], data_end[], data_load[], bss[], bss_end[], tasks[], tasks_end[], tasks_load[];
extern uint8_t shared_start[], shared_end[], store_code[], store_data[], uploader_code[], uploader_data[], uploader_spare[];

/* ---- the kernel's memory ---- */

static uint8_t table[ULAVREPIT_TABLE_BYTES];

/* What the processor stacks when it takes an exception, and what it leaves to the handler. */
typedef struct {
    uint32_t r0, r1, r2, r3, r12, lr, pc, psr;
} stacked;
typedef struct {
    uint32_t r4_to_r11[8], r12, way_back; /* way_back: the processor's EXC_RETURN; 0: nobody has started it, or it was stopped */
} kept;
#define TO_TASK 0xfffffffdu /* to a thread, on its own stack */

/* Where a partition goes on when it is current again. The root runs privileged, on the kernel's stack. */
static struct {
    kept registers;
    stacked *frame;
} contexts[ULAVREPIT_PARTITIONS];

enum { ROOT, STORE, UPLOADER };

/* ---- the MPU ---- */

#define REGISTER(address) (*(volatile uint32_t *)(address))
#define MPU_CONTROL REGISTER(0xe000ed94)
#define MPU_NUMBER REGISTER(0xe000ed98)
#define MPU_BASE REGISTER(0xe000ed9c)
#define MPU_ATTRIBUTES REGISTER(0xe000eda0)
#define PRIORITIES REGISTER(0xe000ed1c)      /* that of the supervisor call is the highest byte */
#define SYSTEM_HANDLERS REGISTER(0xe000ed24) /* bit 16: the MPU's faults have a handler; bit 15: a supervisor call waits */
#define FAULT_STATUS REGISTER(0xe000ed28)    /* bit 7: the address below is that of the fault */
#define FAULT_ADDRESS REGISTER(0xe000ed34)

#define MEMORY_TYPE (3u << 17) /* normal memory, shared, cached */

static void clear_region(uint32_t number)
{
    MPU_NUMBER = number;
    MPU_ATTRIBUTES = 0;
}

static void set_region(uint32_t number, ulavrepit_piece piece, uint32_t rights)
{
    clear_region(number);
    MPU_BASE = ulavrepit_rbar(piece);
    MPU_ATTRIBUTES = ulavrepit_rasr(piece, rights) | MEMORY_TYPE;
}

static ulavrepit_answer ask(uint64_t word) { return ulavrepit_call_answer(table, sizeof table, word); }

__attribute__((used, noreturn)) static void give_up(void)
{
    ask_host(HOST_WRITE0, "another fault\n");
    leave(99);
}

/*
 * No service has number 0: such a word is refused, and its answer names who is current. Where the table is refused, nobody is:
 * the caller's number is 0 then, and that must not be taken for the root.
 */
static uint32_t current(void)
{
    ulavrepit_answer answer = ask(0);
    if (answer.refusal == ULAVREPIT_REFUSED_TABLE)
        give_up();
    return answer.caller;
}

/* Word 0 of a partition's record: present 1, parent 4, .. */
static uint8_t header_of(uint32_t partition) { return table[8 + 320 * partition]; }

/* The pieces of an entry, into regions of the MPU from this number on; answers the number of the next. */
static uint32_t load_entry(uint32_t partition, ulavrepit_entry entry, uint32_t number)
{
    uint64_t pieces[ULAVREPIT_REGIONS];
    uint32_t slot = ask(ulavrepit_find(partition, entry.start)).first;
    uint32_t count = ulavrepit_pieces_answer(table, sizeof table, partition, slot, pieces, ULAVREPIT_REGIONS).first;
    for (uint32_t i = 0; i < count; i++)
        set_region(number++, ulavrepit_unpack_piece(pieces[i]), entry.rights);
    return number;
}

/* Whatever a partition has loaded, it is at most 8 pieces, and the MPU has 8 regions: the library sees to it. */
static void load_regions(uint32_t partition)
{
    uint32_t number = 0;
    for (uint32_t r = 0; r < ULAVREPIT_REGIONS; r++) {
        ulavrepit_entry entry = ulavrepit_unpack_entry(ask(ulavrepit_read_region(partition, r)).second);
        if (entry.present)
            number = load_entry(partition, entry, number);
    }
    while (number < ULAVREPIT_REGIONS)
        clear_region(number++);
    __asm__ volatile("dsb\n isb" ::: "memory");
}

/* ---- exceptions ---- */

/* Makes the handler return to the partition that is current: its registers, its stack, its privilege, its regions. */
static void go_on(kept *registers)
{
    uint32_t partition = current();
    for (uint32_t p = 0; p < ULAVREPIT_PARTITIONS; p++)
        if (header_of(p) >> 7 == 0)
            contexts[p].registers = (kept){0}; /* whoever gets the number next starts with nothing */
    for (; contexts[partition].registers.way_back == 0; partition = current())
        ask(ulavrepit_switch(header_of(partition) >> 3 & 15)); /* one that can't go on: its parent does */
    *registers = contexts[partition].registers;
    if (partition != ROOT)
        __asm__ volatile("msr psp, %0" ::"r"(contexts[partition].frame));
    __asm__ volatile("msr control, %0\n isb" ::"r"(partition != ROOT));
    load_regions(partition);
}

/* A refused call changes nothing: its caller goes on as it was. */
__attribute__((used)) static void serve(stacked *caller, kept *registers)
{
    uint64_t second = 0;
    uint64_t result = ulavrepit_call(table, sizeof table, caller->r0 | (uint64_t)caller->r1 << 32, &second);
    ulavrepit_answer answer = ulavrepit_unpack_answer(result, second);
    if (answer.refusal == ULAVREPIT_REFUSED_TABLE)
        give_up();
    caller->r0 = (uint32_t)result, caller->r1 = (uint32_t)(result >> 32);
    caller->r2 = (uint32_t)second, caller->r3 = (uint32_t)(second >> 32);
    if (answer.refusal != ULAVREPIT_DONE)
        return;
    contexts[answer.caller].registers = *registers;
    contexts[answer.caller].frame = caller;
    go_on(registers);
}

static void print_holders(uint32_t address)
{
    uint8_t list[ULAVREPIT_HOLDERS_BYTES];
    ulavrepit_answer holders = ulavrepit_holders_answer(table, sizeof table, address / ULAVREPIT_LINE_BYTES, list, sizeof list);
    printf(" at %08x; that line is held by", (unsigned)address);
    for (uint32_t i = 0; i < holders.first; i++)
        printf(" %u", (unsigned)list[i]);
}

/*
 * Says who could have written there, and stops the task: its parent, the root, goes on. A fault without an address is one of
 * code, or of the stack: the processor stacks a caller's registers with the caller's own rights. A call that waits for a
 * stack like that is not made: its registers would be read, and its answer written, where the task's stack pointer says.
 */
__attribute__((used)) static void stop(stacked *caller, kept *registers)
{
    uint32_t status = FAULT_STATUS, address = FAULT_ADDRESS;
    (void)caller;
    if (registers->way_back != TO_TASK)
        give_up();
    FAULT_STATUS = status; /* a bit that is written as 1 is cleared */
    SYSTEM_HANDLERS &= ~(1u << 15);
    printf("fault: partition %u", (unsigned)current());
    if (status & 1 << 7)
        print_holders(address);
    printf("\n");
    contexts[current()].registers.way_back = 0;
    go_on(registers);
}

/* The caller's stacked registers lie on the stack that it used; the others are put beside. */
#define HANDLER(name, work)                                                                                            \
    __attribute__((naked)) static void name(void)                                                                      \
    {                                                                                                                  \
        __asm__("tst lr, #4\n ite eq\n mrseq r0, msp\n mrsne r0, psp\n"                                                \
                "push {r4-r11, r12, lr}\n mov r1, sp\n bl " #work "\n pop {r4-r11, r12, pc}");                         \
    }
HANDLER(supervisor_call, serve)
HANDLER(task_fault, stop)

__attribute__((naked)) static void other_fault(void) { __asm__("ldr r0, =stack_top\n mov sp, r0\n bl give_up"); }
__attribute__((naked)) static void hard_fault(void) { __asm__("tst lr, #4\n bne task_fault\n b other_fault"); }

/* ---- a kernel call, from a task or from the root ---- */

static inline __attribute__((always_inline)) ulavrepit_answer kernel(uint64_t word)
{
    register uint32_t r0 __asm__("r0") = (uint32_t)word;
    register uint32_t r1 __asm__("r1") = (uint32_t)(word >> 32);
    register uint32_t r2 __asm__("r2");
    register uint32_t r3 __asm__("r3");
    __asm__ volatile("svc 0" : "+r"(r0), "+r"(r1), "=r"(r2), "=r"(r3)::"r12", "lr", "memory", "cc");
    return ulavrepit_unpack_answer((uint64_t)r1 << 32 | r0, (uint64_t)r3 << 32 | r2);
}

/* ---- the tasks: each has its own code and data, and the kernel to call ---- */

/* A task's code calls nothing outside its section and has no string: flash is not its own. */

#define MARK 0x5e47u

__attribute__((section(".store_data"))) static volatile uint32_t store_mark = 1;
__attribute__((section(".uploader_data"))) static volatile uint32_t uploader_sent = 1;

__attribute__((section(".store_code"), noreturn, used)) static void store(void)
{
    store_mark = MARK;
    for (;;)
        kernel(ulavrepit_switch(ROOT));
}

__attribute__((section(".uploader_code"), noreturn, used)) static void uploader(void)
{
    uploader_sent = 7;
    kernel(UINT64_MAX); /* whatever it likes: refused */
    kernel(ulavrepit_give(STORE, 0, ULAVREPIT_ALL_RIGHTS)); /* not its child: refused */
    store_mark = 0;
    uploader_sent = 8; /* not reached */
    for (;;)
        kernel(ulavrepit_switch(ROOT));
}

/* ---- the root: shares the memory out, then lets the tasks run ---- */

static uint32_t line_of(const uint8_t *address) { return (uint32_t)address / ULAVREPIT_LINE_BYTES; }

/* Every call of the set-up is to be done; answers its first value. */
static uint32_t must(uint64_t word)
{
    ulavrepit_answer answer = kernel(word);
    if (answer.refusal != ULAVREPIT_DONE) {
        printf("kernel: %08x%08x is refused with %u\n", (unsigned)(word >> 32), (unsigned)word, (unsigned)answer.refusal);
        exit(1);
    }
    return answer.first;
}

/* One entry becomes ten: the first for eight slots more, then the areas of both tasks, and their blocks. */
static void cut_memory(void)
{
    const uint8_t *starts[] = {shared_start + 0x200, shared_start + 0x400, shared_start + 0x600, shared_start + 0x800, store_code,
                               store_data,           uploader_code,        uploader_data,        uploader_spare};
    for (uint32_t slot = 0; slot < sizeof starts / sizeof *starts; slot++) {
        must(ulavrepit_cut(slot, line_of(starts[slot])));
        if (slot == 0)
            must(ulavrepit_prepare(ROOT, slot));
    }
}

/* A child whose header and structure lie in two areas from slot `area` on; its code and data are two entries from `block` on. */
static void start_task(uint32_t area, uint32_t block, void (*entry)(void), uint8_t *stack_end)
{
    uint32_t child = must(ulavrepit_create(area));
    must(ulavrepit_prepare(child, area + 1));
    must(ulavrepit_load(child, must(ulavrepit_give(child, block, ULAVREPIT_READ + ULAVREPIT_EXECUTE)), 0));
    must(ulavrepit_load(child, must(ulavrepit_give(child, block + 1, ULAVREPIT_READ + ULAVREPIT_WRITE)), 1));
    contexts[child].frame = (stacked *)stack_end - 1;
    contexts[child].frame->pc = (uint32_t)entry & ~1u;
    contexts[child].frame->psr = 1 << 24;             /* Thumb */
    contexts[child].registers = (kept){.way_back = TO_TASK};
}

static void turn_on(void)
{
    SYSTEM_HANDLERS |= 7 << 16;
    PRIORITIES = 0xffu << 24; /* a fault comes before the call that it is found in */
    MPU_CONTROL = 5;          /* on; privileged code sees the rest of memory as it was */
    __asm__ volatile("dsb\n isb" ::: "memory");
}

static void run(void)
{
    if (ulavrepit_boot(table, sizeof table, line_of(shared_start), line_of(shared_end)) != ULAVREPIT_DONE)
        exit(1);
    turn_on();
    cut_memory();
    start_task(1, 5, store, uploader_code);
    start_task(3, 7, uploader, uploader_spare);
    must(ulavrepit_give(UPLOADER, 9, ULAVREPIT_READ + ULAVREPIT_WRITE)); /* not loaded: to make something of */
    must(ulavrepit_switch(STORE));
    printf("store: came back, its mark is %04x\n", (unsigned)store_mark);
    must(ulavrepit_switch(UPLOADER));
    printf("uploader: was stopped, it had sent %u; the store's mark is %04x\n", (unsigned)uploader_sent, (unsigned)store_mark);
    printf("root: clears out %u partition\n", (unsigned)must(ulavrepit_clear_out(UPLOADER)));
}

static void copy(uint32_t *to, const uint32_t *end, const uint32_t *from)
{
    while (to < end)
        *to++ = *from++;
}

__attribute__((noreturn)) void reset(void)
{
    copy(data, data_end, data_load);
    copy(tasks, tasks_end, tasks_load);
    for (uint32_t *to = bss; to < bss_end;)
        *to++ = 0;
    run();
    exit(0);
}

__attribute__((section(".vectors"), used)) static const void *const vectors[16] = {
    [0] = stack_top,           [1] = (void *)reset,       [2] = (void *)other_fault, [3] = (void *)hard_fault,
    [4] = (void *)task_fault, [5] = (void *)task_fault, [6] = (void *)task_fault, [11] = (void *)supervisor_call};
