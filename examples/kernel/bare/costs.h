/* What the calls cost a kernel: bytes of stack and of heap. */
#ifndef COSTS_H
#define COSTS_H

/* On one CPU, without interrupts, with all frames of the machine: measures and prints. */
void measure_costs(void);

#endif
