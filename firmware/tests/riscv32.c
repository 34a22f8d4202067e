/* The board virt of QEMU with a 32-bit RISC-V core and nothing under the program: semihosting, and the core's count of instructions, exact
 * under -icount. */
#include "machine.h"

#include <stddef.h>

int main(void);
extern uint32_t bss_start[], bss_end[];

/* The arguments are in a0 and a1 as they come. */
#define UNUSED __attribute__((unused))
__attribute__((naked, aligned(16), noinline)) static int semihost(int what UNUSED, const void *with UNUSED) {
    __asm volatile(".option push\n.option norvc\nslli x0, x0, 0x1f\nebreak\nsrai x0, x0, 7\nret\n.option pop");
}

static void end(int status) {
    const uint32_t exit[2] = {0x20026, (uint32_t)status};
    semihost(0x20, exit);
    for (;;) {}
}

int machine_char(void) {
    static uint8_t buffer[1024];
    static uint32_t at, count;
    static int file = -1;
    if (file < 0) {
        static const char name[] = "events.txt";
        const uint32_t open[3] = {(uint32_t)name, 1, sizeof name - 1};
        file = semihost(1, open);
    }
    if (at == count) {
        const uint32_t read[3] = {(uint32_t)file, (uint32_t)buffer, sizeof buffer};
        count = sizeof buffer - (uint32_t)semihost(6, read);
        at = 0;
        if (count == 0) return -1;
    }
    return buffer[at++];
}

void machine_say(const char *text) { semihost(4, text); }
uint32_t machine_time(void) {
    uint32_t count;
    __asm volatile("csrr %0, instret" : "=r"(count));
    return count;
}
uint32_t machine_passed(uint32_t from, uint32_t to) { return to - from; }
uint32_t machine_rate(void) { return 1000; }

/* What the archives need of the runtime; the compiler must not make them calls of themselves. */
#define PLAIN __attribute__((optimize("no-tree-loop-distribute-patterns")))
PLAIN void *memcpy(void *to, const void *from, size_t n) {
    for (size_t i = 0; i < n; i++) ((uint8_t *)to)[i] = ((const uint8_t *)from)[i];
    return to;
}
PLAIN void *memset(void *to, int value, size_t n) {
    for (size_t i = 0; i < n; i++) ((uint8_t *)to)[i] = (uint8_t)value;
    return to;
}
PLAIN void *memmove(void *to, const void *from, size_t n) {
    if ((uintptr_t)to < (uintptr_t)from) return memcpy(to, from, n);
    for (size_t i = n; i-- > 0;) ((uint8_t *)to)[i] = ((const uint8_t *)from)[i];
    return to;
}

static void unexpected(void) {
    machine_say("FAULT\n");
    end(3);
}
__attribute__((used)) void begin(void) {
    __asm volatile("csrw mtvec, %0" : : "r"(unexpected));
    for (uint32_t *p = bss_start; p < bss_end;) *p++ = 0;
    end(main());
}
__attribute__((naked, section(".vectors"), used)) void start(void) { __asm volatile("la sp, stack_top\n j begin"); }
