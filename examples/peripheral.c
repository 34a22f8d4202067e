/* A board without hardware: plays a short script, and prints what goes over the bus and what the pins do. */
#include "peripheral.h"
#include "tongsorrel.h"

#include <assert.h>
#include <stdio.h>
#include <stdlib.h>

/* A line of the bus: S is START, R a repeated START, P STOP; two digits are a byte that the host writes, ? one that it clocks, A one that
 * it clocks from the alert response address. Printed behind a byte written: + for ACK, - for NACK; behind one clocked: what was sent. */
static const struct line {
    const char *says;
    const char *bus;
    board_work work;
} script[] = {
    {.says = "OPERATION on", .bus = "S C0 01 80 P"},
    {.says = "read STATUS_WORD with PEC", .bus = "S C0 79 R C1 ? ? ? P"},
    {.says = "PAGE 1 with PEC", .bus = "S C0 00 01 8A P"},
    {.says = "the same, damaged", .bus = "S C0 00 01 8B P"},
    {.says = "alert response", .bus = "A"},
    {.says = "PAGE 0", .bus = "S C0 00 00 P"},
    {.says = "a read begins", .bus = "S C0 79 R C1 ?"},
    {.says = "VOUT of supply 0 over its limit", .work = {BOARD_MEASUREMENT, 0, TONGSORREL_VOUT, 0x2A3E}},
    {.says = "the read goes on as it began", .bus = "? ? P"},
    {.says = "read again", .bus = "S C0 79 R C1 ? ? ? P"},
    {.says = "alert response", .bus = "A"},
    {.says = "another one, alert down", .bus = "A"},
    {.says = "a write without STOP is dropped", .bus = "S C0 01 00 S C0 01 C1 P"},
    {.says = "VOUT 1.2 V", .work = {BOARD_MEASUREMENT, 0, TONGSORREL_VOUT, 0x2666}},
    {.says = "OPERATION off", .bus = "S C0 01 00 P"},
    {.says = "OPERATION on", .bus = "S C0 01 80 P"},
    {.says = "CLEAR_FAULTS", .bus = "S C0 03 P"},
    {.says = "a power sample of 1000", .work = {BOARD_SAMPLE, 0, 0, 1000}},
    {.says = "read READ_EIN with PEC", .bus = "S C0 86 R C1 ? ? ? ? ? ? ? ? P"},
    {.says = "response: two retries, delay 1", .bus = "S C0 41 91 P"},
    {.says = "VOUT over its limit", .work = {BOARD_MEASUREMENT, 0, TONGSORREL_VOUT, 0x2A3E}},
    {.says = "tick", .work = {BOARD_TICK, 0, 0, 0}},
    {.says = "another device's address", .bus = "S C2 01 00 P"},
    {.says = "a code that is not there", .bus = "S C0 99 00 P"},
    {.says = "too many bytes", .bus = "S C0 01 80 00 00 P"},
    {.says = "clocked too early", .bus = "S C0 79 ? P"},
};

enum { LINES = sizeof script / sizeof script[0] };

static bus_event status;
static uint8_t received;
static bool masked, smbalert, on[TONGSORREL_PAGES];

bus_event bus_status(void) { return status; }
uint8_t bus_received(void) { return received; }
void bus_acknowledge(bool ack) { printf("%c", ack ? '+' : '-'); }
void bus_transmit(uint8_t byte) { printf("=%02X", byte); }
void bus_mask(bool hold) { masked = hold; }

void board_smbalert(bool asserted) {
    if (asserted != smbalert) printf("\n    SMBALERT# %s", asserted ? "asserted" : "released");
    smbalert = asserted;
}

void board_switch(uint8_t page, bool keep) {
    if (keep != on[page]) printf("\n    supply %d %s", page, keep ? "on" : "off");
    on[page] = keep;
}

void board_record(board_entry entry) { printf("%s\n", entry == BOARD_DAMAGED ? "    recorded: memory damaged" : "recorded: power-on"); }

static bus_event event_of(char sign) {
    switch (sign) {
    case 'S': return BUS_START;
    case 'R': return BUS_REPEATED_START;
    case 'P': return BUS_STOP;
    case '?': return BUS_CLOCK;
    default: return BUS_ALERT_RESPONSE;
    }
}

/* The interrupt for each event of a line. */
static void play(const char *bus) {
    printf("\n   ");
    for (; *bus != '\0'; bus += *bus == ' ') {
        bool byte = bus[1] != ' ' && bus[1] != '\0';
        printf(" %.*s", byte ? 2 : 1, bus);
        status = byte ? BUS_BYTE : event_of(*bus);
        if (byte) received = (uint8_t)strtoul(bus, NULL, 16);
        assert(!masked);
        bus_interrupt();
        bus += byte ? 2 : 1;
    }
}

bool board_wait(board_work *work) {
    static size_t next;
    for (; next < LINES; next++) {
        printf("%s%s", next == 0 ? "" : "\n", script[next].says);
        if (script[next].bus == NULL) {
            *work = script[next++].work;
            return true;
        }
        play(script[next].bus);
    }
    printf("\n");
    return false;
}
