/* What the kernel asks of its machine, and the four functions that every C compiler asks for. */
#include "machine.h"
#include <stdarg.h>

/* What an interrupt finds on the stack of its CPU. */
struct interrupted {
    uint64_t saved[9], vector, error, at, segment, flags, stack;
};

/* What QEMU passes by its PVH entry, and where. */
struct start_info {
    uint32_t magic, version, flags, modules;
    uint64_t module_list, command_line, acpi, memory_map;
    uint32_t spans;
};
extern uint32_t start_info;
extern unsigned char vectors[], trampoline[], trampoline_end[];
extern uint64_t stacks[CPUS][STACK / sizeof(uint64_t)];
void call_on(void *top, void (*call)(void));

enum { SERIAL = 0x3f8, EXIT = 0xf4, FIRMWARE = 0x510, CPUS_ITEM = 5, TIMER = 32, SPURIOUS = 63 };
enum { APIC_NUMBER = 0x20, APIC_EOI = 0xb0, APIC_SPURIOUS = 0xf0, APIC_COMMAND = 0x300, APIC_TIMER = 0x320,
       APIC_COUNT = 0x380, APIC_DIVIDER = 0x3e0, INIT_OTHERS = 0xc4500, START_OTHERS = 0xc4600, PERIODIC = 0x20000 };

static uint64_t gates[VECTORS][2];
static uint64_t interrupts[CPUS];
static void (*volatile handler)(unsigned number);
static void (*volatile work_of_others)(unsigned number);
static bool is_printing;

static void out(uint16_t port, uint8_t byte)
{
    __asm__ volatile("outb %0, %1" : : "a"(byte), "Nd"(port));
}

static uint8_t in(uint16_t port)
{
    uint8_t byte;

    __asm__ volatile("inb %1, %0" : "=a"(byte) : "Nd"(port));
    return byte;
}

static volatile uint32_t *apic(uint32_t at)
{
    return (volatile uint32_t *)(uintptr_t)(APIC + at);
}

void *memcpy(void *to, const void *from, size_t bytes)
{
    void *start = to;

    __asm__ volatile("rep movsb" : "+D"(to), "+S"(from), "+c"(bytes) : : "memory");
    return start;
}

void *memmove(void *to, const void *from, size_t bytes)
{
    if ((uintptr_t)to - (uintptr_t)from >= bytes)
        return memcpy(to, from, bytes);
    unsigned char *last = (unsigned char *)to + bytes - 1;
    const unsigned char *last_from = (const unsigned char *)from + bytes - 1;
    __asm__ volatile("std; rep movsb; cld" : "+D"(last), "+S"(last_from), "+c"(bytes) : : "memory");
    return to;
}

void *memset(void *at, int byte, size_t bytes)
{
    void *start = at;

    __asm__ volatile("rep stosb" : "+D"(at), "+c"(bytes) : "a"(byte) : "memory");
    return start;
}

int memcmp(const void *left, const void *right, size_t bytes)
{
    const unsigned char *a = left, *b = right;

    for (; bytes > 0; bytes--, a++, b++)
        if (*a != *b)
            return *a - *b;
    return 0;
}

static void print_char(char c)
{
    while (!(in(SERIAL + 5) & 0x20))
        ;
    out(SERIAL, (uint8_t)c);
}

static void print_number(uint64_t number, unsigned width)
{
    char digits[20];
    unsigned count = 0;

    do
        digits[count++] = (char)('0' + number % 10);
    while (number /= 10);
    for (; width > count; width--)
        print_char(' ');
    while (count > 0)
        print_char(digits[--count]);
}

void print(const char *format, ...)
{
    va_list values;

    while (__atomic_test_and_set(&is_printing, __ATOMIC_ACQUIRE))
        ;
    va_start(values, format);
    for (; *format; format++) {
        unsigned width = 0;

        if (*format != '%') {
            print_char(*format);
            continue;
        }
        for (format++; *format >= '0' && *format <= '9'; format++)
            width = width * 10 + (unsigned)(*format - '0');
        if (*format == 'u')
            print_number(va_arg(values, uint64_t), width);
        else if (*format == 's')
            for (const char *text = va_arg(values, const char *); *text; text++)
                print_char(*text);
    }
    va_end(values);
    __atomic_clear(&is_printing, __ATOMIC_RELEASE);
}

void stop(bool is_well)
{
    out(EXIT, is_well ? 16 : 17);
    for (;;)
        __asm__ volatile("cli; hlt");
}

/* the CPU that alone tells what is wrong, counted from 1; 0 if each does */
static unsigned teller;

void tell_alone(void)
{
    __atomic_store_n(&teller, cpu_number() + 1, __ATOMIC_SEQ_CST);
}

void expect(bool is_so, const char *otherwise)
{
    if (!is_so) {
        unsigned alone;

        while ((alone = __atomic_load_n(&teller, __ATOMIC_SEQ_CST)) != 0 && alone != cpu_number() + 1)
            ;
        print("CPU %u: %s\n", (uint64_t)cpu_number(), otherwise);
        stop(false);
    }
}

static const struct start_info *info(void)
{
    return (const struct start_info *)(uintptr_t)start_info;
}

bool is_said(const char *word)
{
    const char *line = (const char *)info()->command_line;

    if (!line)
        return false;
    for (; *line; line++) {
        size_t at = 0;

        while (word[at] && line[at] == word[at])
            at++;
        if (!word[at])
            return true;
    }
    return false;
}

const struct span *memory_map(uint32_t *spans)
{
    *spans = info()->spans;
    return (const struct span *)info()->memory_map;
}

/* From QEMU's own table: the firmware's may name CPUs that are not there. */
unsigned count_of_cpus(void)
{
    __asm__ volatile("outw %0, %1" : : "a"((uint16_t)CPUS_ITEM), "Nd"((uint16_t)FIRMWARE));
    unsigned low = in(FIRMWARE + 1), count = low | (unsigned)in(FIRMWARE + 1) << 8;
    return count < CPUS ? count : CPUS;
}

unsigned cpu_number(void)
{
    return *apic(APIC_NUMBER) >> 24;
}

void interrupt(const struct interrupted *found)
{
    if (found->vector == TIMER) {
        interrupts[cpu_number()]++;
        handler(cpu_number());
        *apic(APIC_EOI) = 0;
    } else if (found->vector != SPURIOUS) {
        is_printing = false;
        print("CPU %u: exception %u at %u%s\n", (uint64_t)cpu_number(), found->vector, found->at,
              found->vector == 6 ? " (no such instruction)" : "");
        stop(false);
    }
}

/* Interrupts find their vectors, and what is free of the stack has no bit clear. */
static void listen(unsigned number)
{
    struct __attribute__((packed)) {
        uint16_t last;
        const void *at;
    } table = { sizeof gates - 1, gates };

    for (uint64_t *at = stacks[number]; at < (uint64_t *)__builtin_frame_address(0) - 64; at++)
        *at = UINT64_MAX;
    __asm__ volatile("lidt %0" : : "m"(table));
    *apic(APIC_SPURIOUS) = 0x100 | SPURIOUS;
}

void main(void);

/* Where boot.S comes to on each CPU, on a stack of its own. */
void cpu_main(unsigned number)
{
    if (work_of_others) {
        listen(number);
        work_of_others(number);
        for (;;)
            __asm__ volatile("cli; hlt");
    }
    out(0x21, 0xff); /* the old interrupt controllers are silent */
    out(0xa1, 0xff);
    for (uint64_t vector = 0; vector < VECTORS; vector++) {
        uint64_t at = (uintptr_t)vectors + 16 * vector;

        gates[vector][0] = (at & 0xffff) | 24 << 16 | 0x8e00ull << 32 | (at & 0xffff0000) << 32;
        gates[vector][1] = at >> 32;
    }
    listen(number);
    main();
}

static void wait(unsigned milliseconds)
{
    for (unsigned i = 0; i < milliseconds * 1000; i++)
        in(0x80); /* about a microsecond */
}

void start_cpus(void (*work)(unsigned number))
{
    work_of_others = work;
    memcpy((void *)TRAMPOLINE, trampoline, (size_t)(trampoline_end - trampoline));
    *apic(APIC_COMMAND) = INIT_OTHERS;
    wait(10);
    for (int i = 0; i < 2; i++) {
        *apic(APIC_COMMAND) = START_OTHERS | TRAMPOLINE >> 12;
        wait(1);
    }
}

void allow_sse(void)
{
    uint64_t flags;

    __asm__ volatile("mov %%cr4, %0; or $0x600, %0; mov %0, %%cr4" : "=r"(flags));
}

void start_timer(uint32_t nanoseconds, void (*handle)(unsigned number))
{
    handler = handle;
    *apic(APIC_DIVIDER) = 0xb; /* by 1: QEMU's clock has a nanosecond */
    *apic(APIC_TIMER) = PERIODIC | TIMER;
    *apic(APIC_COUNT) = nanoseconds;
    __asm__ volatile("sti");
}

uint64_t interrupts_of(unsigned number)
{
    return interrupts[number];
}

/* Of a stack whose free words have no bit clear. */
static size_t used_of(const uint64_t *stack)
{
    size_t at = 0;

    while (at < STACK / sizeof *stack && stack[at] == UINT64_MAX)
        at++;
    return STACK - at * sizeof *stack;
}

size_t deepest_stack(unsigned number)
{
    return used_of(stacks[number]);
}

size_t stack_of(void (*call)(void))
{
    static _Alignas(16) uint64_t stack[STACK / sizeof(uint64_t)];

    memset(stack, 0xff, sizeof stack);
    call_on(stack + STACK / sizeof *stack, call);
    return used_of(stack);
}
