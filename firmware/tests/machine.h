/* What the test programs ask of the machine under them: cortex_m.c and riscv32.c are boards in QEMU, linux.c is any Linux. */
#ifndef MACHINE_H
#define MACHINE_H

#include <stdint.h>

int machine_char(void); /* the next character of the file events.txt, or -1 */
void machine_say(const char *text);

/* A count that grows with the instructions run, at a rate of its own, and the count from one reading to a later one. */
uint32_t machine_time(void);
uint32_t machine_passed(uint32_t from, uint32_t to);

/* The count of a thousand instructions; 0 where the machine counts nothing. */
uint32_t machine_rate(void);

#endif
