/* What start.c has for the programs here. */
#ifndef START_H
#define START_H

#include <stdint.h>

enum { BUS_IRQ = 31 }; /* the interrupt that leads to bus_irq */

int semihost(int what, const void *with);
void board_say(const char *text);
void board_end(int status) __attribute__((noreturn));

#endif
