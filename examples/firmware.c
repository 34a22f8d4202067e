/* The main loop of a shelf's firmware: bus, converters and meter come in as events; SMBALERT# and the supplies' switches follow. */
#include "board.h"
#include "tongsorrel.h"

enum { LONGEST = 16 }; /* more than the eight bytes of any reply with its PEC */

static tongsorrel_device device;

/* Answer 15 comes only if something else than the library changed the state (12.5). What it says cannot be believed any more, so every
 * supply is off and SMBALERT# is asserted, until somebody decides on a power-on: that clears status bits, alert and account without a
 * trace, and the host has to begin a fresh totalizer (10.8). */
static bool damaged;

static void follow(void) {
    board_smbalert(damaged || device.unpaged.alert);
    for (uint8_t page = 0; page < TONGSORREL_PAGES; page++) board_switch(page, !damaged && tongsorrel_supplies(device, page));
}

/* Power-on: at the start, and later where somebody at the shelf asks for it. */
static void power_on(void) {
    board_record(BOARD_POWERED_ON);
    damaged = false;
    device = tongsorrel_power_on();
}

/* The bytes have to be ready before the host says, by its STOP, how many it takes. So the longest reply is made first and its state
 * dropped; a shorter reply is a beginning of it (2.9). The call that counts is made with the number clocked; above LONGEST
 * all are alike (11.3). */
static tongsorrel_done answer(const board_event *event) {
    bool alert = event->kind == BOARD_ALERT_RESPONSE;
    uint8_t reply[LONGEST];
    if (alert) tongsorrel_alert_response(device, reply, 1);
    else tongsorrel_read(device, event->bytes, event->length, reply, LONGEST);
    size_t n = board_send(reply, alert ? 1 : LONGEST);
    if (n > LONGEST) n = LONGEST;
    if (alert) return tongsorrel_alert_response(device, reply, n);
    return tongsorrel_read(device, event->bytes, event->length, reply, n);
}

static tongsorrel_done call(const board_event *event) {
    switch (event->kind) {
    case BOARD_WRITE: return tongsorrel_write(device, event->bytes, event->length);
    case BOARD_MEASUREMENT: return tongsorrel_measure(device, event->page, event->quantity, event->word);
    case BOARD_SAMPLE: return tongsorrel_sample(device, event->word);
    case BOARD_TICK: return tongsorrel_tick(device);
    default: return answer(event);
    }
}

/* One event: the state that comes back is the device from now on. A refusal by 15 hands it back as it was. */
static void take(const board_event *event) {
    tongsorrel_done done = call(event);
    if (done.answer == TONGSORREL_INVALID_STATE && !damaged) {
        damaged = true;
        board_record(BOARD_DAMAGED);
    }
    device = done.device;
}

int main(void) {
    if (tongsorrel_layout_2() != TONGSORREL_LAYOUT) return 1; /* links with an archive of this header's layout alone */
    power_on();
    follow();
    for (board_event event; board_wait(&event);) {
        if (event.kind == BOARD_POWER_ON) power_on();
        else take(&event);
        follow();
    }
    return 0;
}
