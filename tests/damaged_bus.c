/* A state buffer that something damaged, under the interrupt routine of examples/bus.c: every supply off, SMBALERT# asserted, NACK and FFh,
 * recorded once; also where the byte is mended again, and until a power-on is asked for. */
#define main bus_main
#include "../examples/bus.c"
#undef main

#include <stdio.h>
#include <stdlib.h>

static bus_event status;
static uint8_t received, sent;
static bool acknowledged, smbalert, on[TONGSORREL_PAGES];
static unsigned recorded[2];

bus_event bus_status(void) { return status; }
uint8_t bus_received(void) { return received; }
void bus_acknowledge(bool ack) { acknowledged = ack; }
void bus_transmit(uint8_t byte) { sent = byte; }
void bus_mask(bool masked) { (void)masked; }
bool board_wait(board_work *work) { return (void)work, false; }
void board_smbalert(bool asserted) { smbalert = asserted; }
void board_switch(uint8_t page, bool keep) { on[page] = keep; }
void board_record(board_entry entry) { recorded[entry]++; }

static void event(bus_event kind, uint8_t byte) {
    status = kind, received = byte;
    bus_interrupt();
}

static bool write_byte(uint8_t code, uint8_t byte) {
    bool acks = true;
    event(BUS_START, 0);
    for (int i = 0; i < 3; i++) {
        event(BUS_BYTE, (uint8_t[]){TONGSORREL_ADDRESS_WRITE, code, byte}[i]);
        acks = acks && acknowledged;
    }
    event(BUS_STOP, 0);
    return acks;
}

static void expect(bool holds, const char *what) {
    if (holds) return;
    printf("  C: FAILED: a damaged buffer: %s\n", what);
    exit(1);
}

static bool all_off(void) {
    for (int page = 0; page < TONGSORREL_PAGES; page++)
        if (on[page]) return false;
    return true;
}

/* The byte at this place gets the value, which no run gives it. */
static void damage(size_t place, uint8_t value) {
    recorded[BOARD_DAMAGED] = 0;
    power_on();
    expect(!smbalert && all_off(), "after power-on");
    expect(write_byte(TONGSORREL_CODE_OPERATION, TONGSORREL_OPERATION_ON) && on[0], "a supply switched on");
    uint8_t right = state[place];
    state[place] = value;
    for (int round = 0; round < 2; round++) {
        event(BUS_START, 0);
        expect(all_off() && smbalert, "off and asserted from START on");
        expect(!write_byte(TONGSORREL_CODE_OPERATION, TONGSORREL_OPERATION_ON) && all_off(), "a write is refused");
        event(BUS_CLOCK, 0);
        expect(sent == 0xFF, "FFh is sent");
        event(BUS_ALERT_RESPONSE, 0);
        expect(sent == 0xFF && smbalert, "no alert response");
        settle(call(&(board_work){BOARD_TICK, 0, 0, 0}));
        expect(all_off() && smbalert, "a tick brings nothing back");
        state[place] = right; /* mended by chance: it stays as it is */
    }
    expect(recorded[BOARD_DAMAGED] == 1, "recorded once");
}

int main(void) {
    damage(0, 5);    /* the phase */
    damage(22, 8);   /* PAGE */
    damage(29, 1);   /* the rollover count's high byte */
    damage(34, 1);   /* OPERATION of page 0 */
    damage(34 + 72 * 6 + 31, 0x41); /* a machine of page 6 */
    damage(34 + 72 * 7 + 54 + 12, 1); /* the mark of page 7's temperature, whose m is 0 */
    expect(recorded[BOARD_POWERED_ON] == 6, "each power-on recorded");
    printf("  C: a damaged state buffer keeps the example's supplies off and SMBALERT# asserted until power-on\n");
    return 0;
}
