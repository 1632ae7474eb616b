/* The benchmark's instruments: x86-64 instructions of a call, its time, and the stack that it takes. */
#ifndef METER_H
#define METER_H
#include <stddef.h>
#include <stdint.h>

typedef void (*call)(void);

/* Counts with the processor's trap flag: the kernel hands over after every instruction.
   The count repeats exactly. Answers 0 if the flag does not work here. */
int meter_start(void);

/* Instructions of one call, the calling itself not counted. */
unsigned long meter_instructions(call run);

/* Octets of stack that the function `entry` takes below its return address, where `run` calls it: the deeper of the lowest
   stack pointer seen and the lowest octet overwritten. What `run` itself takes is not counted. */
unsigned long meter_stack(call run, call entry);

/* Nanoseconds of one call, as the mean over `times` calls. */
double meter_time(call run, unsigned long times);
#endif
