/* The bus interrupt of a shelf's firmware, for a peripheral that hands over one event at a time, and the main loop beside it. */
#include "peripheral.h"
#include "tongsorrel.h"

static uint8_t state[TONGSORREL_STREAM_SIZE];

enum { SILENT = 0xFF }; /* what the host reads where nobody sends */

/* Answer 15 comes only if something else than the library changed the buffer (17.10). What it says cannot be believed any more, so every
 * supply is off, SMBALERT# is asserted and the bus gets NACK, until somebody decides on a power-on: that clears status bits, alert and
 * account without a trace, and the host has to begin a fresh totalizer (10.8). */
static bool damaged;

/* SMBALERT# and the supplies' switches follow the device. */
static void follow(void) {
    board_smbalert(damaged || tongsorrel_stream_alert(state, sizeof state));
    for (uint8_t page = 0; page < TONGSORREL_PAGES; page++)
        board_switch(page, !damaged && tongsorrel_stream_supplies(state, sizeof state, page));
}

static void note(uint8_t answer) {
    if (answer != TONGSORREL_INVALID_STATE || damaged) return;
    damaged = true;
    board_record(BOARD_DAMAGED);
    follow();
}

/* After each call that may change the device. */
static void settle(uint8_t answer) {
    note(answer);
    follow();
}

/* Power-on: at the start, and later where somebody at the shelf asks for it. */
static void power_on(void) {
    board_record(BOARD_POWERED_ON);
    damaged = false;
    settle(tongsorrel_stream_power_on(state, sizeof state));
}

/* An alert response: the address, or FFh, which leaves the bus to others. */
static void alert_response(void) {
    uint8_t address;
    uint8_t answer = tongsorrel_stream_alert_response(state, sizeof state, &address, 1);
    bus_transmit(damaged ? SILENT : address);
    settle(answer);
}

/* Once for each event, in the order of the bus. The device changes at STOP alone; a damaged buffer shows at START already. */
void bus_interrupt(void) {
    switch (bus_status()) {
    case BUS_START: note(tongsorrel_stream_start(state, sizeof state)); break;
    case BUS_BYTE: bus_acknowledge(!damaged && tongsorrel_stream_byte(state, sizeof state, bus_received()) == TONGSORREL_ACK); break;
    case BUS_REPEATED_START: tongsorrel_stream_repeated_start(state, sizeof state); break;
    case BUS_CLOCK: bus_transmit(damaged ? SILENT : tongsorrel_stream_clock(state, sizeof state)); break;
    case BUS_STOP: settle(tongsorrel_stream_stop(state, sizeof state)); break;
    case BUS_ALERT_RESPONSE: alert_response(); break;
    }
}

static uint8_t call(const board_work *work) {
    switch (work->kind) {
    case BOARD_MEASUREMENT: return tongsorrel_stream_measure(state, sizeof state, work->page, work->quantity, work->word);
    case BOARD_SAMPLE: return tongsorrel_stream_sample(state, sizeof state, work->word);
    default: return tongsorrel_stream_tick(state, sizeof state);
    }
}

/* The buffer is lent to one call at a time, so the bus interrupt is held back while the main loop uses it. It may come between any two
 * calls, in the middle of a transaction too (17.7). Interrupts of one priority need no mask. */
int main(void) {
    if (tongsorrel_layout_2() != TONGSORREL_LAYOUT) return 1; /* links with an archive of this header's layout alone */
    bus_mask(true);
    power_on();
    bus_mask(false);
    for (board_work work; board_wait(&work);) {
        bus_mask(true);
        if (work.kind == BOARD_POWER_ON) power_on();
        else settle(call(&work));
        bus_mask(false);
    }
    return 0;
}
