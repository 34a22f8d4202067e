/* A host that polls READ_EIN and keeps the energy totals. bus_read stands for its SMBus driver: here a shelf lives in this program,
 * takes samples between two polls, and the wires damage one reply. Each power-on of a device asks for a fresh totalizer: linux_host.c shows
 * how a host notices one. */
#include "tongsorrel.h"

#include <inttypes.h>
#include <stdio.h>

static tongsorrel_device shelf;
static unsigned polls;

static void bus_read(uint8_t *reply, size_t n) {
    static const uint8_t header[] = {TONGSORREL_ADDRESS_WRITE, TONGSORREL_CODE_READ_EIN, TONGSORREL_ADDRESS_READ};
    for (int i = 0; i < 100; i++) shelf = tongsorrel_sample(shelf, 12000).device;
    shelf = tongsorrel_read(shelf, header, sizeof header, reply, n).device;
    if (++polls == 3) reply[2] ^= 0x18;
}

int main(void) {
    shelf = tongsorrel_power_on();
    tongsorrel_totalizer totals = tongsorrel_totalizer_fresh();
    for (int poll = 0; poll < 6; poll++) {
        uint8_t reply[8]; /* seven data bytes and the PEC */
        bus_read(reply, sizeof reply);
        tongsorrel_taken taken = tongsorrel_totalizer_take(totals, reply, sizeof reply);
        totals = taken.totalizer;
        if (taken.answer == TONGSORREL_DONE)
            printf("energy %" PRIu64 " in %" PRIu64 " samples\n", totals.energy, totals.samples);
        else
            printf("reply refused with %d; the next good one makes up for it\n", taken.answer);
    }
    return 0;
}
