/* Ninety-six supplies in an array of the firmware's own: the calls over lent records change it where it stands. */
#include "tongsorrel.h"

#include <stdio.h>

enum { SUPPLIES = 96 };

static tongsorrel_page pages[SUPPLIES];
static tongsorrel_unpaged unpaged;

/* Keeps the unpaged part that a call hands back. */
static uint8_t keep(tongsorrel_outcome done) {
    unpaged = done.unpaged;
    return done.answer;
}

static uint8_t write_byte(uint8_t code, uint8_t data) {
    const uint8_t bytes[] = {TONGSORREL_ADDRESS_WRITE, code, data};
    return keep(tongsorrel_lent_write(unpaged, pages, SUPPLIES, bytes, sizeof bytes));
}

static void report(const char *event) {
    int on = 0;
    for (uint8_t page = 0; page < SUPPLIES; page++) on += tongsorrel_lent_supplies(pages, SUPPLIES, page);
    printf("%-44s %2d supplies on%s\n", event, on, unpaged.alert ? ", SMBALERT# asserted" : "");
}

int main(void) {
    if (tongsorrel_lent_layout_2() != TONGSORREL_LAYOUT) return 1; /* links with an archive of this header's layout alone */
    keep(tongsorrel_lent_power_on(pages, SUPPLIES));
    report("power-on");
    write_byte(TONGSORREL_CODE_PAGE, TONGSORREL_EVERY_PAGE);
    write_byte(TONGSORREL_CODE_OPERATION, TONGSORREL_OPERATION_ON);
    report("PAGE FFh, OPERATION 80h");
    for (uint8_t page = 0; page < SUPPLIES; page++) keep(tongsorrel_lent_measure(unpaged, pages, SUPPLIES, page, TONGSORREL_VOUT, 0x2666));
    keep(tongsorrel_lent_measure(unpaged, pages, SUPPLIES, 95, TONGSORREL_VOUT, 0x2A3E));
    report("VOUT of supply 95 over its limit");
    keep(tongsorrel_lent_measure(unpaged, pages, SUPPLIES, 95, TONGSORREL_VOUT, 0x2666));
    write_byte(TONGSORREL_CODE_PAGE, 95);
    write_byte(TONGSORREL_CODE_OPERATION, TONGSORREL_OPERATION_OFF);
    write_byte(TONGSORREL_CODE_OPERATION, TONGSORREL_OPERATION_ON);
    report("VOUT back, PAGE 95, OPERATION 00h, 80h");
    const uint8_t clear[] = {TONGSORREL_ADDRESS_WRITE, TONGSORREL_CODE_CLEAR_FAULTS};
    keep(tongsorrel_lent_write(unpaged, pages, SUPPLIES, clear, sizeof clear));
    report("CLEAR_FAULTS");
    printf("%-44s answer %d\n", "PAGE 96", write_byte(TONGSORREL_CODE_PAGE, 96));
    return 0;
}
