/* How a Cortex-M program begins: the vector table, and reset, which makes the memory ready and calls main. */
#include "start.h"

extern uint32_t stack_top[], data_from[], data_start[], data_end[], bss_start[], bss_end[];
int main(void);
__attribute__((weak)) void _start(void); /* the C library's own beginning, where a program has one */

void reset(void) {
    for (uint32_t *to = data_start, *from = data_from; to < data_end;) *to++ = *from++;
    for (uint32_t *to = bss_start; to < bss_end;) *to++ = 0;
    if (_start) _start();
    board_end(main());
}

/* A fault, and an interrupt that nobody asked for: the end. */
static void unexpected(void) {
    board_say("FAULT\n");
    board_end(3);
}
__attribute__((weak)) void bus_irq(void) { unexpected(); }

enum { SYSTEM = 16 };
typedef void (*handler)(void);
__attribute__((section(".vectors"), used)) static const struct {
    void *stack;
    handler handlers[SYSTEM - 1 + BUS_IRQ + 1];
} vectors = {
    stack_top,
    {reset, unexpected, unexpected, unexpected, unexpected, unexpected, [10] = unexpected, [SYSTEM - 1 + BUS_IRQ] = bus_irq},
};

/* Semihosting: what a debugger does for the program, and QEMU too. */
int semihost(int what, const void *with) {
    register int r0 __asm("r0") = what;
    register const void *r1 __asm("r1") = with;
    __asm volatile("bkpt 0xab" : "+r"(r0) : "r"(r1) : "memory");
    return r0;
}
void board_say(const char *text) { semihost(4, text); }
void board_end(int status) {
    const uint32_t exit[2] = {0x20026, (uint32_t)status};
    semihost(0x20, exit);
    for (;;) {}
}
