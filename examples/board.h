/* What firmware.c asks of its board: the bus block, the converters, the pins. board.c is a stand-in without hardware. */
#ifndef BOARD_H
#define BOARD_H

#include <stdbool.h>
#include <stddef.h>
#include <stdint.h>

typedef enum board_kind {
    BOARD_WRITE,          /* STOP after a write: bytes has all from the address byte on */
    BOARD_READ,           /* a read header is in: bytes has C0h, code, C1h; the host waits for data */
    BOARD_ALERT_RESPONSE, /* the alert response address is in; the host waits for an address */
    BOARD_MEASUREMENT,    /* a converter has a word of a quantity on a page */
    BOARD_SAMPLE,         /* the power meter has a sample, in word */
    BOARD_TICK,           /* a unit of delay has passed */
    BOARD_POWER_ON,       /* somebody at the shelf asks for a power-on of the device */
} board_kind;

typedef struct board_event {
    board_kind kind;
    uint8_t bytes[32];
    size_t length;
    uint8_t page, quantity;
    uint16_t word;
} board_event;

/* The next event; false where there is none any more, which on a real board never happens. */
bool board_wait(board_event *event);

/* Sends until STOP: the reply, then FFh. Gives the number of bytes that the host clocked. */
size_t board_send(const uint8_t *reply, size_t length);

void board_smbalert(bool asserted);
void board_switch(uint8_t page, bool on);

/* Into a log that outlasts a reset, with the time, for whoever audits the totals. */
typedef enum board_entry {
    BOARD_POWERED_ON,
    BOARD_DAMAGED, /* the device's memory was damaged: everything is off */
} board_entry;
void board_record(board_entry entry);

#endif
