/* A board for examples/bus.c that plays events from standard input, as reference/src/bin/events.rs writes them, and prints for each what
 * reference/src/bin/bus.rs prints. */
#include "../examples/peripheral.h"

#include <stdio.h>
#include <stdlib.h>
#include <string.h>

static bus_event status;
static uint8_t received, supplies;
static bool masked, smbalert;
static char shown[8] = "-";

static void fail(const char *what) {
    printf("  C: FAILED: %s\n", what);
    exit(1);
}

bus_event bus_status(void) { return status; }
uint8_t bus_received(void) { return received; }
void bus_acknowledge(bool ack) { strcpy(shown, ack ? "ack" : "nack"); }
void bus_transmit(uint8_t byte) { sprintf(shown, "%02x", byte); }
void bus_mask(bool hold) { masked = hold; }
void board_smbalert(bool asserted) { smbalert = asserted; }
void board_record(board_entry entry) {
    if (entry == BOARD_DAMAGED) fail("answer 15 in a run");
}
void board_switch(uint8_t page, bool on) { supplies = (uint8_t)((supplies & ~(1u << page)) | (unsigned)on << page); }

static void print(void) {
    printf("%s %d %02x\n", shown, smbalert, supplies);
    strcpy(shown, "-");
}

/* Whether the line is an event of the bus, which the interrupt gets. */
static bool on_bus(const char *name, unsigned byte) {
    static const char *const names[] = {"start", "byte", "repeated", "clock", "stop", "alert"};
    static const bus_event events[] = {BUS_START, BUS_BYTE, BUS_REPEATED_START, BUS_CLOCK, BUS_STOP, BUS_ALERT_RESPONSE};
    for (size_t i = 0; i < sizeof names / sizeof names[0]; i++)
        if (strcmp(name, names[i]) == 0) {
            status = events[i], received = (uint8_t)byte;
            if (masked) fail("the bus is held back for good");
            bus_interrupt();
            return true;
        }
    return false;
}

static board_work work_of(const char *name, unsigned first, unsigned second, unsigned third) {
    if (strcmp(name, "measure") == 0) return (board_work){BOARD_MEASUREMENT, (uint8_t)first, (uint8_t)second, (uint16_t)third};
    if (strcmp(name, "sample") == 0) return (board_work){BOARD_SAMPLE, 0, 0, (uint16_t)first};
    if (strcmp(name, "tick") != 0) fail("no event");
    return (board_work){BOARD_TICK, 0, 0, 0};
}

bool board_wait(board_work *work) {
    static bool working;
    if (working) print();
    working = false;
    for (char line[64]; fgets(line, sizeof line, stdin) != NULL; print()) {
        char name[16];
        unsigned number[3] = {0};
        if (sscanf(line, "%15s %x %x %x", name, &number[0], &number[1], &number[2]) < 1) fail("no event");
        if (!on_bus(name, number[0])) {
            *work = work_of(name, number[0], number[1], number[2]);
            return working = true;
        }
    }
    return false;
}
