/* A Cortex-M board in QEMU: its file and screen by semihosting, its count of instructions by SysTick, which under -icount falls at an even
 * rate. board/start.c is the rest. */
#include "machine.h"

#include "../board/start.h"

int machine_char(void) {
    static uint8_t buffer[1024];
    static uint32_t at, count;
    static int file = -1;
    if (file < 0) {
        static const char name[] = "events.txt";
        const uint32_t open[3] = {(uint32_t)name, 1, sizeof name - 1};
        file = semihost(1, open);
    }
    if (at == count) {
        const uint32_t read[3] = {(uint32_t)file, (uint32_t)buffer, sizeof buffer};
        count = sizeof buffer - (uint32_t)semihost(6, read);
        at = 0;
        if (count == 0) return -1;
    }
    return buffer[at++];
}

void machine_say(const char *text) { board_say(text); }

#define SYSTICK ((volatile uint32_t *)0xE000E010)
enum { BITS = 0xFFFFFF };

uint32_t machine_time(void) { return SYSTICK[2]; }
uint32_t machine_passed(uint32_t from, uint32_t to) { return (from - to) & BITS; }
uint32_t machine_rate(void) {
    uint32_t left = 10000;
    SYSTICK[1] = BITS, SYSTICK[2] = 0, SYSTICK[0] = 5;
    __asm volatile(".syntax unified\n1: subs %0, %0, #1\n bne 1b" : "+l"(left) : : "cc");
    uint32_t from = machine_time();
    left = 10000;
    __asm volatile(".syntax unified\n1: subs %0, %0, #1\n bne 1b" : "+l"(left) : : "cc");
    return machine_passed(from, machine_time()) / 20;
}
