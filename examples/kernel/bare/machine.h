/* The machine, as QEMU has it: its serial line, its CPUs with their stacks and timers, its memory. */
#ifndef MACHINE_H
#define MACHINE_H

#define CPUS 32 /* each has two cores, of 64 */
#define STACK 16384
#define GIBIBYTES 8 /* as much as an allocator has frames for */
#define VECTORS 64
#define TRAMPOLINE 0x8000
#define APIC 0xfee00000

#ifndef __ASSEMBLER__
#include <stdbool.h>
#include <stddef.h>
#include <stdint.h>

/* Of the memory map: so many bytes from an address on. */
struct span {
    uint64_t address, bytes;
    uint32_t type, unused;
};
enum { USABLE = 1 };

void *memcpy(void *to, const void *from, size_t bytes);
void *memmove(void *to, const void *from, size_t bytes);

/* As printf, but knows %s and %u alone, the latter with a width; each number is passed as an uint64_t. */
void print(const char *format, ...);
/* Ends QEMU, with the status 33 where all went well, else 35. */
_Noreturn void stop(bool is_well);
/* Stops where something is not so. */
void expect(bool is_so, const char *otherwise);
/* From now on only this CPU tells what is wrong: what others find follows from what it does. They wait. */
void tell_alone(void);

bool is_said(const char *word); /* whether QEMU's -append has it */
const struct span *memory_map(uint32_t *spans);

unsigned count_of_cpus(void);
unsigned cpu_number(void);
void start_cpus(void (*work)(unsigned number)); /* on all but this one */
void allow_sse(void);
void start_timer(uint32_t nanoseconds, void (*handle)(unsigned number)); /* of this CPU, which counts its interrupts */
uint64_t interrupts_of(unsigned number);

size_t deepest_stack(unsigned number); /* the most bytes that this CPU ever had on its stack */
size_t stack_of(void (*call)(void));   /* the bytes that the call needs; one at a time, without interrupts */
#endif
#endif
