/* A device that something damaged, in the main loop of examples/firmware.c: every supply off and SMBALERT# asserted, recorded once, until a
 * power-on is asked for. */
#define main firmware_main
#include "../examples/firmware.c"
#undef main

#include <stdio.h>
#include <stdlib.h>
#include <string.h>

static bool smbalert, on[TONGSORREL_PAGES];
static unsigned recorded[2];
static size_t step;

void board_smbalert(bool asserted) { smbalert = asserted; }
void board_switch(uint8_t page, bool keep) { on[page] = keep; }
void board_record(board_entry entry) { recorded[entry]++; }
size_t board_send(const uint8_t *reply, size_t length) { return (void)reply, length; }

static void expect(bool holds, const char *what) {
    if (holds) return;
    printf("  C: FAILED: a damaged device: %s\n", what);
    exit(1);
}

/* What the pins show before each event, and the event. */
bool board_wait(board_event *event) {
    static const uint8_t switch_on[] = {TONGSORREL_ADDRESS_WRITE, TONGSORREL_CODE_OPERATION, TONGSORREL_OPERATION_ON};
    *event = (board_event){.kind = BOARD_WRITE, .length = sizeof switch_on};
    memcpy(event->bytes, switch_on, sizeof switch_on);
    switch (step++) {
    case 0: expect(!on[0] && !smbalert && recorded[BOARD_POWERED_ON] == 1, "after power-on"); return true;
    case 1: expect(on[0] && !smbalert, "a supply switched on"); device.unpaged.page = TONGSORREL_PAGES; return true;
    case 2: expect(!on[0] && smbalert && recorded[BOARD_DAMAGED] == 1, "off and asserted"); device.unpaged.page = 0; return true;
    case 3: expect(!on[0] && smbalert && recorded[BOARD_DAMAGED] == 1, "mended by chance"); event->kind = BOARD_TICK; return true;
    case 4: expect(!on[0] && smbalert, "a tick brings nothing back"); event->kind = BOARD_POWER_ON; return true;
    case 5: expect(!on[0] && !smbalert && recorded[BOARD_POWERED_ON] == 2, "a power-on that was asked for"); return true;
    default: expect(on[0] && !smbalert, "switched on again"); return false;
    }
}

int main(void) {
    firmware_main();
    expect(step == 7, "every step made");
    printf("  C: a damaged device keeps the example's supplies off and SMBALERT# asserted until power-on\n");
    return 0;
}
