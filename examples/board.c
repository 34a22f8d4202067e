/* A board without hardware: plays a short script of events, and prints what the firmware sends and what its pins do. */
#include "board.h"
#include "tongsorrel.h"

#include <stdio.h>

#define WRITE(code, data) {.kind = BOARD_WRITE, .bytes = {TONGSORREL_ADDRESS_WRITE, code, data}, .length = 3}
#define READ(code) {.kind = BOARD_READ, .bytes = {TONGSORREL_ADDRESS_WRITE, code, TONGSORREL_ADDRESS_READ}, .length = 3}
#define VOUT(word_of_it) {.kind = BOARD_MEASUREMENT, .page = 0, .quantity = TONGSORREL_VOUT, .word = word_of_it}

static const struct line {
    const char *says;
    board_event event;
    size_t clocked;
} script[] = {
    {"OPERATION on", WRITE(TONGSORREL_CODE_OPERATION, TONGSORREL_OPERATION_ON), 0},
    {"VOUT 1.2 V", VOUT(0x2666), 0},
    {"a power sample of 1000", {.kind = BOARD_SAMPLE, .word = 1000}, 0},
    {"VOUT over its limit", VOUT(0x2A3E), 0},
    {"alert response", {.kind = BOARD_ALERT_RESPONSE}, 1},
    {"read STATUS_WORD with PEC", READ(TONGSORREL_CODE_STATUS_WORD), 3},
    {"read READ_EIN with PEC", READ(TONGSORREL_CODE_READ_EIN), 8},
    {"VOUT 1.2 V", VOUT(0x2666), 0},
    {"OPERATION off", WRITE(TONGSORREL_CODE_OPERATION, TONGSORREL_OPERATION_OFF), 0},
    {"OPERATION on", WRITE(TONGSORREL_CODE_OPERATION, TONGSORREL_OPERATION_ON), 0},
    {"CLEAR_FAULTS", {.kind = BOARD_WRITE, .bytes = {TONGSORREL_ADDRESS_WRITE, TONGSORREL_CODE_CLEAR_FAULTS}, .length = 2}, 0},
    {"response: two retries, delay 1", WRITE(TONGSORREL_CODE_VOUT_OV_FAULT_RESPONSE, TONGSORREL_SHUT_DOWN | TONGSORREL_RETRIES(2) | 1), 0},
    {"VOUT over its limit", VOUT(0x2A3E), 0},
    {"tick", {.kind = BOARD_TICK}, 0},
    {"tick", {.kind = BOARD_TICK}, 0},
    {"VOUT 1.2 V", VOUT(0x2666), 0},
    {"tick", {.kind = BOARD_TICK}, 0},
    {"tick", {.kind = BOARD_TICK}, 0},
    {"read STATUS_WORD, 20 bytes", READ(TONGSORREL_CODE_STATUS_WORD), 20},
};

enum { LINES = sizeof script / sizeof script[0] };

static size_t next;
static bool smbalert, on[TONGSORREL_PAGES];

bool board_wait(board_event *event) {
    if (next == LINES) return false;
    printf("%s\n", script[next].says);
    *event = script[next++].event;
    return true;
}

size_t board_send(const uint8_t *reply, size_t length) {
    size_t clocked = script[next - 1].clocked;
    printf("    sent");
    for (size_t i = 0; i < clocked; i++) printf(" %02X", i < length ? reply[i] : 0xFFu);
    printf("\n");
    return clocked;
}

void board_record(board_entry entry) { printf("recorded: %s\n", entry == BOARD_DAMAGED ? "memory damaged" : "power-on"); }

void board_smbalert(bool asserted) {
    if (asserted != smbalert) printf("    SMBALERT# %s\n", asserted ? "asserted" : "released");
    smbalert = asserted;
}

void board_switch(uint8_t page, bool keep) {
    if (keep != on[page]) printf("    supply %d %s\n", page, keep ? "on" : "off");
    on[page] = keep;
}
