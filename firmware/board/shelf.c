/* A bare board for examples/bus.c: QEMU's mps2-an385, a Cortex-M3 with nothing under the program. The bus interrupt is a real one, of the
 * core's interrupt controller; what raises it is a bus master that is simulated here, since the board has no target-mode I2C block. The
 * pins, SMBALERT# and the supplies' switches, show on the serial line. For a board of your own keep examples/bus.c, and write these
 * functions over its registers. */
#include "../../examples/peripheral.h"
#include "start.h"
#include "tongsorrel.h"

#include <stddef.h>

/* ---- the serial line */

#define UART ((volatile uint32_t *)0x40004000) /* data, state, control, -, divisor */

static void say(const char *text) {
    UART[4] = 16, UART[2] = 1; /* any divisor, transmitter on */
    for (; *text != '\0'; text++) {
        while (UART[1] & 1) {}
        UART[0] = (uint8_t)*text;
    }
}
static void say_byte(uint8_t byte) {
    const char digits[] = {"0123456789ABCDEF"[byte >> 4], "0123456789ABCDEF"[byte & 15], '\0'};
    say(digits);
}

/* ---- the bus block, as far as the interrupt routine sees it */

#define NVIC_ENABLE (*(volatile uint32_t *)0xE000E100)
#define NVIC_DISABLE (*(volatile uint32_t *)0xE000E180)
#define NVIC_RAISE (*(volatile uint32_t *)0xE000E200)

static volatile bus_event event;
static volatile uint8_t written, sent;
static volatile bool acknowledged, finished;

bus_event bus_status(void) { return event; }
uint8_t bus_received(void) { return written; }
void bus_acknowledge(bool ack) { acknowledged = ack; }
void bus_transmit(uint8_t byte) { sent = byte; }
void bus_mask(bool masked) {
    if (masked) NVIC_DISABLE = 1u << BUS_IRQ;
    else NVIC_ENABLE = 1u << BUS_IRQ;
    __asm volatile("dsb\n isb" : : : "memory");
}

void bus_irq(void) {
    bus_interrupt();
    finished = true;
}

/* ---- the bus master: raises the interrupt for each event, and waits until the routine lets the clock go */

static void happens(bus_event what) {
    event = what, finished = false;
    NVIC_RAISE = 1u << BUS_IRQ;
    while (!finished) {}
}

static void writes(const uint8_t *bytes, size_t length) {
    for (size_t i = 0; i < length; i++) {
        written = bytes[i];
        happens(BUS_BYTE);
        say(" ");
        say_byte(written);
        say(acknowledged ? "+" : "-");
    }
}

static void write_transaction(const char *says, const uint8_t *bytes, size_t length) {
    say(says);
    happens(BUS_START);
    writes(bytes, length);
    say("\n");
    happens(BUS_STOP);
}

static void read_transaction(const char *says, uint8_t code, size_t clocked) {
    const uint8_t header[] = {TONGSORREL_ADDRESS_WRITE, code, TONGSORREL_ADDRESS_READ};
    say(says);
    happens(BUS_START);
    writes(header, 2);
    happens(BUS_REPEATED_START);
    writes(header + 2, 1);
    while (clocked-- > 0) {
        happens(BUS_CLOCK);
        say(" =");
        say_byte(sent);
    }
    say("\n");
    happens(BUS_STOP);
}

/* ---- pins */

void board_smbalert(bool asserted) {
    static bool before;
    if (asserted != before) say(asserted ? "    SMBALERT# asserted\n" : "    SMBALERT# released\n");
    before = asserted;
}

void board_switch(uint8_t page, bool on) {
    static bool before[TONGSORREL_PAGES];
    if (on != before[page]) {
        say("    supply ");
        say_byte(page);
        say(on ? " on\n" : " off\n");
    }
    before[page] = on;
}

void board_record(board_entry entry) { say(entry == BOARD_DAMAGED ? "recorded: memory damaged\n" : "recorded: power-on\n"); }

/* ---- what happens: the master's transactions, and work for the main loop between them */

bool board_wait(board_work *work) {
    static const uint8_t on[] = {TONGSORREL_ADDRESS_WRITE, TONGSORREL_CODE_OPERATION, TONGSORREL_OPERATION_ON};
    static const uint8_t wrong[] = {TONGSORREL_ADDRESS_WRITE, TONGSORREL_CODE_PAGE, 1, 0x8B};
    static int step;
    switch (step++) {
    case 0:
        write_transaction("OPERATION on:", on, sizeof on);
        read_transaction("read STATUS_WORD:", TONGSORREL_CODE_STATUS_WORD, 3);
        say("VOUT of supply 0 over its limit:\n");
        *work = (board_work){BOARD_MEASUREMENT, 0, TONGSORREL_VOUT, 0x2A3E};
        return true;
    case 1:
        read_transaction("read STATUS_WORD:", TONGSORREL_CODE_STATUS_WORD, 3);
        happens(BUS_ALERT_RESPONSE);
        say("alert response: ");
        say_byte(sent);
        say("\n");
        write_transaction("PAGE 1, wrong PEC:", wrong, sizeof wrong);
        say("a power sample of 1000:\n");
        *work = (board_work){BOARD_SAMPLE, 0, 0, 1000};
        return true;
    case 2: read_transaction("read READ_EIN:", TONGSORREL_CODE_READ_EIN, 8); return false;
    default: return false;
    }
}
