/* What bus.c asks of its board: the bus peripheral's registers, the converters, the pins. peripheral.c is a stand-in without hardware. */
#ifndef PERIPHERAL_H
#define PERIPHERAL_H

#include <stdbool.h>
#include <stdint.h>

/* Why the bus interrupt came. The peripheral holds the clock low until the routine returns. */
typedef enum bus_event {
    BUS_START,
    BUS_BYTE, /* the host wrote a byte, address bytes too: it waits for ACK or NACK */
    BUS_REPEATED_START,
    BUS_CLOCK, /* the host clocks a byte: it waits for the byte */
    BUS_STOP,
    BUS_ALERT_RESPONSE, /* the host reads from the alert response address: it waits for an address */
} bus_event;

bus_event bus_status(void);
uint8_t bus_received(void);
void bus_acknowledge(bool ack);
void bus_transmit(uint8_t byte);

/* Holds the bus interrupt back, and lets it come again. */
void bus_mask(bool masked);

/* The routine of bus.c. */
void bus_interrupt(void);

/* What comes in beside the bus. */
typedef enum board_kind {
    BOARD_MEASUREMENT, /* a converter has a word of a quantity on a page */
    BOARD_SAMPLE,      /* the power meter has a sample, in word */
    BOARD_TICK,        /* a unit of delay has passed */
    BOARD_POWER_ON,    /* somebody at the shelf asks for a power-on of the device */
} board_kind;

typedef struct board_work {
    board_kind kind;
    uint8_t page, quantity;
    uint16_t word;
} board_work;

/* Waits for work; false where there is none any more, which on a real board never happens. */
bool board_wait(board_work *work);

void board_smbalert(bool asserted);
void board_switch(uint8_t page, bool on);

/* Into a log that outlasts a reset, with the time, for whoever audits the totals. */
typedef enum board_entry {
    BOARD_POWERED_ON,
    BOARD_DAMAGED, /* the device's memory was damaged: everything is off */
} board_entry;
void board_record(board_entry entry);

#endif
