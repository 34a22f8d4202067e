/* Tongsorrel for C and C++. Three archives, which may be linked side by side and on x86-64 call nothing but memcpy and memset:
 *   libhost.a        for a host: the functions named tongsorrel_host_...
 *   liblent.a        for firmware: the device over lent records, tongsorrel_lent_...
 *   libtongsorrel.a  for firmware: all others; the host's totalizer is among them, for a host that wants nothing else.
 *
 * This header is for x86-64 Linux. For a controller or another host firmware/build writes the archives, and this header for them
 * (docs/CONTROLLER.md). Lengths have 64 bits on every target.
 *
 * Each function is proved: for all arguments it gives exactly the result named at it, writes nothing but what is named, and ends.
 * Numbers such as 7.6 are clauses of docs/DATASHEET.md.
 *
 * What the caller owes:
 *   - A pointer is not NULL, not even beside a length of 0, and that many bytes, page records or choices stand behind it.
 *   - A buffer that is written overlaps no other argument, and nothing else uses it while the function runs.
 *   - A bool holds 0 or 1. Every other field may hold anything (12.1).
 * The functions keep nothing between calls and share nothing, so they may run in any number of threads and in signal handlers.
 *
 * Stack: a call takes at most TONGSORREL_STACK bytes from its return address down. The caller's own copies come on top: a device handed
 * over has 652 bytes, a result 656, choices for eight pages 288. tests/stack.c measures it on a painted stack, over every code, length and
 * answer. */
#ifndef TONGSORREL_H
#define TONGSORREL_H

#include <stdbool.h>
#include <stddef.h>
#include <stdint.h>

#if !defined(__x86_64__) || !defined(__linux__)
#error "this header is for the archives of x86-64 Linux; firmware/build writes one for each other target, beside its archives"
#endif

#ifdef __cplusplus
extern "C" {
#endif

#define TONGSORREL_STACK 3072

/* The version, and the number of the layout of all structs and of the state buffer. The number stands in the names of three functions, one
 * of each archive: a program that calls the one of its archive, as the examples do, does not link with an archive of another layout. */
#define TONGSORREL_VERSION "0.10"
#define TONGSORREL_LAYOUT 2
uint32_t tongsorrel_layout_2(void);
uint32_t tongsorrel_lent_layout_2(void);
uint32_t tongsorrel_host_layout_2(void);

/* ---- names */

/* The address bytes (2.1). */
enum {
    TONGSORREL_ADDRESS_WRITE = 0xC0,
    TONGSORREL_ADDRESS_READ = 0xC1,
};

/* Answer numbers (section 11). */
enum {
    TONGSORREL_DONE = 0,
    TONGSORREL_WRONG_ADDRESS = 1,
    TONGSORREL_MALFORMED = 2,
    TONGSORREL_UNSUPPORTED_COMMAND = 3,
    TONGSORREL_TOO_FEW_DATA = 5,
    TONGSORREL_TOO_MANY_DATA = 6,
    TONGSORREL_WRONG_PEC = 7,
    TONGSORREL_PROTECTED = 8,
    TONGSORREL_INVALID_DATA = 9,
    TONGSORREL_READ_TOO_SHORT = 10,
    TONGSORREL_READ_TOO_LONG = 11,
    TONGSORREL_NO_SUCH_PLACE = 12,
    TONGSORREL_SAMPLE_TOO_LARGE = 13,
    TONGSORREL_ALERT_DOWN = 14,
    TONGSORREL_INVALID_STATE = 15,
    TONGSORREL_WRONG_REPLY_LENGTH = 20,
    TONGSORREL_WRONG_REPLY_PEC = 21,
    TONGSORREL_WRONG_COUNT_BYTE = 22,
    TONGSORREL_ACCUMULATOR_TOO_LARGE = 23,
    TONGSORREL_TOTAL_FULL = 24,
    TONGSORREL_OUT_OF_RANGE = 25,
    TONGSORREL_NO_ROOM = 26,
    TONGSORREL_INVALID_FORMAT = 27,
};

/* Command codes (3.1). */
enum {
    TONGSORREL_CODE_PAGE = 0x00,
    TONGSORREL_CODE_OPERATION = 0x01,
    TONGSORREL_CODE_CLEAR_FAULTS = 0x03,
    TONGSORREL_CODE_WRITE_PROTECT = 0x10,
    TONGSORREL_CODE_CAPABILITY = 0x19,
    TONGSORREL_CODE_VOUT_MODE = 0x20,
    TONGSORREL_CODE_VOUT_COMMAND = 0x21,
    TONGSORREL_CODE_COEFFICIENTS = 0x30,
    TONGSORREL_CODE_VOUT_OV_FAULT_LIMIT = 0x40,
    TONGSORREL_CODE_VOUT_OV_FAULT_RESPONSE = 0x41,
    TONGSORREL_CODE_VOUT_OV_WARN_LIMIT = 0x42,
    TONGSORREL_CODE_IOUT_OC_FAULT_LIMIT = 0x46,
    TONGSORREL_CODE_IOUT_OC_FAULT_RESPONSE = 0x47,
    TONGSORREL_CODE_IOUT_OC_WARN_LIMIT = 0x4A,
    TONGSORREL_CODE_OT_FAULT_LIMIT = 0x4F,
    TONGSORREL_CODE_OT_FAULT_RESPONSE = 0x50,
    TONGSORREL_CODE_OT_WARN_LIMIT = 0x51,
    TONGSORREL_CODE_UT_FAULT_LIMIT = 0x53,
    TONGSORREL_CODE_UT_FAULT_RESPONSE = 0x54,
    TONGSORREL_CODE_VIN_OV_FAULT_LIMIT = 0x55,
    TONGSORREL_CODE_VIN_OV_FAULT_RESPONSE = 0x56,
    TONGSORREL_CODE_VIN_OV_WARN_LIMIT = 0x57,
    TONGSORREL_CODE_VIN_UV_WARN_LIMIT = 0x58,
    TONGSORREL_CODE_VIN_UV_FAULT_LIMIT = 0x59,
    TONGSORREL_CODE_VIN_UV_FAULT_RESPONSE = 0x5A,
    TONGSORREL_CODE_STATUS_BYTE = 0x78,
    TONGSORREL_CODE_STATUS_WORD = 0x79,
    TONGSORREL_CODE_STATUS_VOUT = 0x7A,
    TONGSORREL_CODE_STATUS_IOUT = 0x7B,
    TONGSORREL_CODE_STATUS_INPUT = 0x7C,
    TONGSORREL_CODE_STATUS_TEMPERATURE = 0x7D,
    TONGSORREL_CODE_STATUS_CML = 0x7E,
    TONGSORREL_CODE_READ_EIN = 0x86,
    TONGSORREL_CODE_READ_VIN = 0x88,
    TONGSORREL_CODE_READ_VOUT = 0x8B,
    TONGSORREL_CODE_READ_IOUT = 0x8C,
    TONGSORREL_CODE_READ_TEMPERATURE_1 = 0x8D,
    TONGSORREL_CODE_PMBUS_REVISION = 0x98,
};

/* Data of PAGE beside 0 to 7: every page (3.8). */
enum { TONGSORREL_EVERY_PAGE = 0xFF };

/* The bytes of COEFFICIENTS between its code and C1h: the count, a code, and one of these directions (20.6, 20.7). */
enum {
    TONGSORREL_COEFFICIENTS_COUNT = 2,
    TONGSORREL_TO_ENCODE = 0x00, /* what the code writes */
    TONGSORREL_TO_DECODE = 0x01, /* what it reads */
};

/* Data of OPERATION (3.5). */
enum {
    TONGSORREL_OPERATION_OFF = 0x00,
    TONGSORREL_OPERATION_SOFT_OFF = 0x40, /* off at once too */
    TONGSORREL_OPERATION_ON = 0x80,
};

/* Data of WRITE_PROTECT (4.1): each level refuses what the one before does, and the writes named here. */
enum {
    TONGSORREL_PROTECT_NOTHING = 0x00,
    TONGSORREL_PROTECT_LIMITS = 0x20, /* limits and responses */
    TONGSORREL_PROTECT_VOUT_COMMAND = 0x40,
    TONGSORREL_PROTECT_ALL = 0x80, /* PAGE and OPERATION; WRITE_PROTECT, CLEAR_FAULTS and the status registers are never refused */
};

/* Response bytes (3.6). 47h takes the first two, the other codes any byte: one of the last four, and with the two in the middle retries and
 * a delay in ticks, 0 to 7 each. TONGSORREL_SHUT_DOWN | TONGSORREL_RETRIES(2) | 1 is 91h: two retries, each after one tick. */
enum {
    TONGSORREL_IOUT_GO_ON = 0x00,
    TONGSORREL_IOUT_SHUT_DOWN = 0xC0,
    TONGSORREL_GO_ON = 0x00,
    TONGSORREL_DELAYED_SHUT_DOWN = 0x40, /* after the delay, if the cause is still present */
    TONGSORREL_SHUT_DOWN = 0x80,
    TONGSORREL_OFF_WHILE_PRESENT = 0xC0,
};
#define TONGSORREL_RETRIES(number) ((number) << 3)

/* Bits of STATUS_BYTE, which is the low byte of STATUS_WORD (6.10), and those that STATUS_WORD has besides (6.11). */
enum {
    TONGSORREL_STATUS_OFF_BIT = 0x40, /* the page does not supply */
    TONGSORREL_STATUS_VOUT_OV_BIT = 0x20,
    TONGSORREL_STATUS_IOUT_OC_BIT = 0x10,
    TONGSORREL_STATUS_VIN_UV_BIT = 0x08,
    TONGSORREL_STATUS_TEMPERATURE_BIT = 0x04,    /* any of STATUS_TEMPERATURE */
    TONGSORREL_STATUS_CML_BIT = 0x02,            /* any of STATUS_CML */
    TONGSORREL_STATUS_OTHER_BIT = 0x01,          /* one of STATUS_VOUT, STATUS_IOUT or STATUS_INPUT that no bit above shows */
    TONGSORREL_STATUS_VOUT_BIT = 0x8000,         /* any of STATUS_VOUT */
    TONGSORREL_STATUS_IOUT_BIT = 0x4000,         /* any of STATUS_IOUT */
    TONGSORREL_STATUS_INPUT_BIT = 0x2000,        /* any of STATUS_INPUT */
    TONGSORREL_STATUS_POWER_GOOD_N_BIT = 0x0800, /* the page does not supply */
};

/* Bits of STATUS_VOUT, STATUS_IOUT, STATUS_INPUT and STATUS_TEMPERATURE (6.1, 6.13). A 1 written clears its bit (6.8). */
enum {
    TONGSORREL_VOUT_OV_FAULT_BIT = 0x80,
    TONGSORREL_VOUT_OV_WARN_BIT = 0x40,
    TONGSORREL_IOUT_OC_FAULT_BIT = 0x80,
    TONGSORREL_IOUT_OC_WARN_BIT = 0x20,
    TONGSORREL_VIN_OV_FAULT_BIT = 0x80,
    TONGSORREL_VIN_OV_WARN_BIT = 0x40,
    TONGSORREL_VIN_UV_WARN_BIT = 0x20,
    TONGSORREL_VIN_UV_FAULT_BIT = 0x10,
    TONGSORREL_OT_FAULT_BIT = 0x80,
    TONGSORREL_OT_WARN_BIT = 0x40,
    TONGSORREL_UT_FAULT_BIT = 0x10,
};

/* Bits of STATUS_CML, with the answers that set them (6.9). */
enum {
    TONGSORREL_CML_COMMAND_BIT = 0x80, /* 3, 8: unsupported command, protected */
    TONGSORREL_CML_DATA_BIT = 0x40,    /* 6, 9: too many data; invalid data, a paged code read under PAGE FFh, no coefficients to send */
    TONGSORREL_CML_PEC_BIT = 0x20,     /* 7: wrong PEC */
    TONGSORREL_CML_OTHER_BIT = 0x02,   /* 5, 10, 11: too few data, read too short or too long */
};

/* Quantities (5.1): the argument of tongsorrel_measure, and the places in words, measured and status. */
enum {
    TONGSORREL_VOUT = 0,
    TONGSORREL_IOUT = 1,
    TONGSORREL_VIN = 2, /* in status: STATUS_INPUT */
    TONGSORREL_TEMPERATURE = 3,
    TONGSORREL_QUANTITIES = 4,
};

/* Causes (6.1): the places in responses, and the first in limits. */
enum {
    TONGSORREL_VOUT_OV = 0,
    TONGSORREL_IOUT_OC = 1,
    TONGSORREL_OT = 2,
    TONGSORREL_UT = 3,
    TONGSORREL_VIN_OV = 4,
    TONGSORREL_VIN_UV = 5,
    TONGSORREL_CAUSES = 6,
};

/* Warnings (6.13): the places in limits behind those of the causes. */
enum {
    TONGSORREL_VOUT_OV_WARN = 6,
    TONGSORREL_IOUT_OC_WARN = 7,
    TONGSORREL_OT_WARN = 8,
    TONGSORREL_VIN_OV_WARN = 9,
    TONGSORREL_VIN_UV_WARN = 10,
    TONGSORREL_LIMITS = 11,
};

/* The places in formats (20.1): of IOUT, VIN and temperature. VOUT has none. */
enum {
    TONGSORREL_IOUT_FORMAT = 0,
    TONGSORREL_VIN_FORMAT = 1,
    TONGSORREL_TEMPERATURE_FORMAT = 2,
    TONGSORREL_FORMATS = 3,
};

enum { TONGSORREL_PAGES = 8 };

/* ---- packet check and values */

/* The packet check (PEC) of the bytes of a transaction, address bytes included (2.5, 2.6). */
uint8_t tongsorrel_pec(const uint8_t *bytes, uint64_t length);

/* The packet check carried on: crc is the check of the bytes before, 0 where there are none. */
uint8_t tongsorrel_pec_from(uint8_t crc, const uint8_t *bytes, uint64_t length);

/* The value of a Linear11 word times 65,536, which is always a whole number (5.3, 5.4). */
int64_t tongsorrel_linear11_scaled(uint16_t word);

/* How the value of the Linear11 word a stands to that of b, exactly (5.5). */
enum {
    TONGSORREL_BELOW = 0,
    TONGSORREL_EQUAL = 1,
    TONGSORREL_ABOVE = 2,
};
uint8_t tongsorrel_linear11_compare(uint16_t a, uint16_t b);

/* The format of a quantity's words: Linear11, or where direct is set DIRECT, (Y / 10^r - b) / m for the word Y, with Y, m, b and r in two's
 * complement (20.1). Valid is every linear one, and DIRECT with m other than 0 and r from -6 to 6, that is 0 to 6 or 0xFA to 0xFF
 * (20.2). */
typedef struct tongsorrel_format {
    bool direct;
    uint16_t m;
    uint16_t b;
    uint8_t r;
} tongsorrel_format;

/* How the value of the word a in one format stands to that of b in another, exactly (20.5): TONGSORREL_BELOW, EQUAL or ABOVE. Answers 0,
 * and 27 where a format is not valid; order is then TONGSORREL_EQUAL and means nothing. */
typedef struct tongsorrel_compared {
    uint8_t answer;
    uint8_t order;
} tongsorrel_compared;
tongsorrel_compared tongsorrel_compare(tongsorrel_format format_a, uint16_t a, tongsorrel_format format_b, uint16_t b);

/* ---- the device */

/* Each call takes the whole state by value and hands it back in .device, with the answer number in .answer. A state handed in may hold any
 * field values: one that is not valid comes back as it was, with answer 15 (12.2). The struct is all that the library knows of a device,
 * so any number of them may be used side by side, and one may be copied and kept. */

/* The energy account behind READ_EIN. In a valid state: at most 7FFFh, 255 and 16,777,215. */
typedef struct tongsorrel_account {
    uint16_t accumulator;
    uint16_t rollover;
    uint32_t count;
} tongsorrel_account;

/* What the device holds beside its pages: PAGE (0 to 7, or FFh where every page is selected: 3.8), WRITE_PROTECT, STATUS_CML,
 * the alert (SMBALERT# asserted) and the account. */
typedef struct tongsorrel_unpaged {
    uint8_t page;
    uint8_t protect;
    uint8_t cml;
    bool alert;
    tongsorrel_account energy;
} tongsorrel_unpaged;

/* One supply. limits by cause and warning; responses by cause, and machines, which try again, each a byte of 0 to 64 (7.12); words (the
 * latest, where measured says so), measured and status by quantity; formats, which power-on alone sets (20.3). */
typedef struct tongsorrel_page {
    uint8_t operation;
    uint16_t vout_command;
    uint16_t limits[TONGSORREL_LIMITS];
    uint8_t responses[TONGSORREL_CAUSES];
    uint8_t machines[TONGSORREL_CAUSES];
    uint16_t words[TONGSORREL_QUANTITIES];
    bool measured[TONGSORREL_QUANTITIES];
    uint8_t status[TONGSORREL_QUANTITIES];
    bool tripped;
    tongsorrel_format formats[TONGSORREL_FORMATS];
} tongsorrel_page;

typedef struct tongsorrel_device {
    tongsorrel_unpaged unpaged;
    tongsorrel_page pages[TONGSORREL_PAGES];
} tongsorrel_device;

typedef struct tongsorrel_done {
    tongsorrel_device device;
    uint8_t answer;
} tongsorrel_done;

/* The state that power-on leaves, all linear (1.4). */
tongsorrel_device tongsorrel_power_on(void);

/* What is chosen for a page at power-on (20.3): its formats, and its fault limits by cause. Limits of VOUT and of linear quantities are
 * passed over, and start as without a choice; warn limits start as the fault limits do. */
typedef struct tongsorrel_page_choice {
    tongsorrel_format formats[TONGSORREL_FORMATS];
    uint16_t limits[TONGSORREL_CAUSES];
} tongsorrel_page_choice;

typedef struct tongsorrel_choices {
    tongsorrel_page_choice pages[TONGSORREL_PAGES];
} tongsorrel_choices;

/* Power-on by a choice for each page. Answers 0, and 27 where a format is not valid: the device is then all linear (20.4). */
tongsorrel_done tongsorrel_power_on_by(tongsorrel_choices choices);

/* A write transaction: the bytes from START to STOP, address byte first. Answers 0, 1, 2, 3, 5 to 9, 15 (11.2). */
tongsorrel_done tongsorrel_write(tongsorrel_device device, const uint8_t *bytes, uint64_t length);

/* A read transaction: the header C0h, code, C1h, or that of COEFFICIENTS (20.6), and a reply buffer of n bytes, n being the number of bytes
 * that the host clocks. All n bytes are written (2.9). Answers 0, 1, 2, 3, 9 (a paged code under PAGE FFh: 3.8; no coefficients: 20.8), 10,
 * 11, 15 (11.3). */
tongsorrel_done tongsorrel_read(tongsorrel_device device, const uint8_t *header, uint64_t header_length, uint8_t *reply, uint64_t n);

/* A measurement: the latest word of a quantity on a page (5.6), which is 0 to 7 whatever PAGE is. Answers 0, 12, 15. */
tongsorrel_done tongsorrel_measure(tongsorrel_device device, uint8_t page, uint8_t quantity, uint16_t word);

/* A power sample of 0 to 32767 for the energy account (9.2). Answers 0, 13, 15. */
tongsorrel_done tongsorrel_sample(tongsorrel_device device, uint16_t sample);

/* One tick, a delay unit, for every page: the machines that try again go on (7.9). Answers 0, 15. */
tongsorrel_done tongsorrel_tick(tongsorrel_device device);

/* An alert response with a reply buffer of n bytes, all of which are written: C0h where it is answered, FFh throughout otherwise
 * (8.4, 8.5). Answers 0, 2, 14, 15. */
tongsorrel_done tongsorrel_alert_response(tongsorrel_device device, uint8_t *reply, uint64_t n);

/* Whether the firmware keeps the supply of a page switched on (7.6, 7.7). A page over 7 is off. It changes after a write, a measurement or
 * a tick. */
bool tongsorrel_supplies(tongsorrel_device device, uint8_t page);

/* ---- the device over lent records: liblent.a */

/* One to ninety-six supplies in an array of the firmware's own (section 16). Each call gets the unpaged part by value and hands it back in
 * .unpaged with the answer number in .answer; the records are changed where they stand, and none is copied. Their number is the page limit:
 * PAGE and the page of a measurement go up to number - 1, PAGE FFh selects every one. With no record or more than 96, PAGE beyond them, or
 * a value that is not valid in any record or in the unpaged part: answer 15, and nothing changes. With eight records each call does what
 * the one of the eight-page device does. */

enum { TONGSORREL_MOST_PAGES = 96 };

typedef struct tongsorrel_outcome {
    tongsorrel_unpaged unpaged;
    uint8_t answer;
} tongsorrel_outcome;

/* Sets every record to its power-on values, whatever it held. Answers 0, 15: with 15 no record is touched, and the unpaged part that comes
 * back is that of power-on. */
tongsorrel_outcome tongsorrel_lent_power_on(tongsorrel_page *pages, uint64_t number);

/* The same by a choice for each record, as many as records (16.4, 20.4). Answers 0, 15, 27: with 27 every record is set, all linear. */
tongsorrel_outcome tongsorrel_lent_power_on_by(tongsorrel_page *pages, uint64_t number, const tongsorrel_page_choice *choices,
                                               uint64_t number_of_choices);

/* As tongsorrel_write: changes the record that PAGE selects, or under FFh any of them. */
tongsorrel_outcome tongsorrel_lent_write(tongsorrel_unpaged unpaged, tongsorrel_page *pages, uint64_t number, const uint8_t *bytes,
                                         uint64_t length);

/* As tongsorrel_read: changes no record. */
tongsorrel_outcome tongsorrel_lent_read(tongsorrel_unpaged unpaged, const tongsorrel_page *pages, uint64_t number, const uint8_t *header,
                                        uint64_t header_length, uint8_t *reply, uint64_t n);

/* As tongsorrel_measure: changes the record of that page. */
tongsorrel_outcome tongsorrel_lent_measure(tongsorrel_unpaged unpaged, tongsorrel_page *pages, uint64_t number, uint8_t page,
                                           uint8_t quantity, uint16_t word);

/* As tongsorrel_sample: changes no record. */
tongsorrel_outcome tongsorrel_lent_sample(tongsorrel_unpaged unpaged, const tongsorrel_page *pages, uint64_t number, uint16_t sample);

/* As tongsorrel_tick: may change any record. */
tongsorrel_outcome tongsorrel_lent_tick(tongsorrel_unpaged unpaged, tongsorrel_page *pages, uint64_t number);

/* As tongsorrel_alert_response: changes no record. */
tongsorrel_outcome tongsorrel_lent_alert_response(tongsorrel_unpaged unpaged, const tongsorrel_page *pages, uint64_t number, uint8_t *reply,
                                                  uint64_t n);

/* Whether the firmware keeps the supply of a page switched on; a page beyond the records is off. */
bool tongsorrel_lent_supplies(const tongsorrel_page *pages, uint64_t number, uint8_t page);

/* ---- the streaming device: the bus event by event */

/* For a bus block that hands over START, bytes, repeated START, clocked bytes and STOP one by one (section 17). The state is a buffer of
 * TONGSORREL_STREAM_SIZE bytes of the firmware's own, which each function gets and changes where it stands: the eight-page device, and what
 * is kept of the transaction under way. Any bytes may stand in it, at any address; 17.12 has the layout. A buffer of another length, and
 * one that holds a state which is not valid, is left as it is: answer 15, NACK, FFh. There are no whole transactions.
 *
 * The order of steps of a write and of a read, as the bus brings them (17.10 has the picture):
 *   tongsorrel_stream_start, tongsorrel_stream_byte for each byte, tongsorrel_stream_stop
 *   tongsorrel_stream_start, tongsorrel_stream_byte for each byte, tongsorrel_stream_repeated_start, tongsorrel_stream_byte for the second
 *       address byte, tongsorrel_stream_clock for each byte that the host clocks, tongsorrel_stream_stop
 * Any other order is taken too: it is a breach, and changes nothing (17.8). tongsorrel_stream_measure, _sample, _tick and _alert_response
 * may come between any two of them (17.7). */

enum {
    TONGSORREL_STREAM_SIZE = 610,
    TONGSORREL_STREAM_CHOICES = 240,
};

enum {
    TONGSORREL_NACK = 0,
    TONGSORREL_ACK = 1,
};

/* Power-on: sets every byte of the buffer, whatever it held. Answers 0, 15. */
uint8_t tongsorrel_stream_power_on(uint8_t *state, uint64_t length);

/* The same by a choice for each page, in TONGSORREL_STREAM_CHOICES bytes, 30 for a page: three formats of a mark, m, b and r in 1, 2, 2 and
 * 1 bytes, and six limits of 2, low bytes first; a mark is 0, or any other byte for DIRECT. Answers 0, 15 (no byte of the state is
 * touched), and 27 for a format that is not valid or another number of bytes: all linear (20.3, 20.4). */
uint8_t tongsorrel_stream_power_on_by(uint8_t *state, uint64_t length, const uint8_t *choices, uint64_t length_of_choices);

/* START begins a transaction and drops one that had no STOP (17.9). Answers 0, 15. */
uint8_t tongsorrel_stream_start(uint8_t *state, uint64_t length);

/* A byte that the host wrote, address bytes among them: TONGSORREL_ACK or TONGSORREL_NACK (17.4). */
uint8_t tongsorrel_stream_byte(uint8_t *state, uint64_t length, uint8_t byte);

/* A repeated START. Answers 0, 15. */
uint8_t tongsorrel_stream_repeated_start(uint8_t *state, uint64_t length);

/* A byte that the host clocks: the byte to send, FFh where there is none (17.5). */
uint8_t tongsorrel_stream_clock(uint8_t *state, uint64_t length);

/* STOP: the answer that the whole transaction gets, and its effect (17.6). Answers 0 to 3, 5 to 11, 15. */
uint8_t tongsorrel_stream_stop(uint8_t *state, uint64_t length);

/* As tongsorrel_measure, tongsorrel_sample, tongsorrel_tick and tongsorrel_alert_response, on the device in the buffer. */
uint8_t tongsorrel_stream_measure(uint8_t *state, uint64_t length, uint8_t page, uint8_t quantity, uint16_t word);
uint8_t tongsorrel_stream_sample(uint8_t *state, uint64_t length, uint16_t sample);
uint8_t tongsorrel_stream_tick(uint8_t *state, uint64_t length);
uint8_t tongsorrel_stream_alert_response(uint8_t *state, uint64_t length, uint8_t *reply, uint64_t n);

/* Whether the firmware keeps the supply of a page switched on, and whether it holds SMBALERT# asserted: 1 or 0. A page over 7 is off, and
 * so is everything in a buffer of another length. Both may change at STOP and after each of the four calls above. */
uint8_t tongsorrel_stream_supplies(const uint8_t *state, uint64_t length, uint8_t page);
uint8_t tongsorrel_stream_alert(const uint8_t *state, uint64_t length);

/* ---- the host's totalizer */

/* Totals of energy and samples since the first accepted reply. last: the account in the last accepted reply (10.1). Each power-on of the
 * device asks for a fresh one: to a totalizer that goes on, the account's fall to 0 is a step forward like any other (10.5). */
typedef struct tongsorrel_totalizer {
    bool started;
    bool closed;
    tongsorrel_account last;
    uint64_t energy;
    uint64_t samples;
} tongsorrel_totalizer;

typedef struct tongsorrel_taken {
    tongsorrel_totalizer totalizer;
    uint8_t answer;
} tongsorrel_taken;

/* A totalizer that has accepted nothing. */
tongsorrel_totalizer tongsorrel_totalizer_fresh(void);

/* One reply, as it came over the bus: the seven bytes of READ_EIN and the PEC, which covers the header C0h 86h C1h too (10.2).
 * Answers 0, 15, 20 to 24 (11.5). */
tongsorrel_taken tongsorrel_totalizer_take(tongsorrel_totalizer totalizer, const uint8_t *reply, uint64_t length);

/* ---- the host's transactions: libhost.a */

/* For the other end of the bus, without a device (section 18): builds the frame of every write and every read of the table (3.1), though
 * of no process call, in a buffer of the caller's, takes replies apart, and totalizes energy. A frame is all that the host writes, address
 * bytes and PEC among it. Only code, direction and number of data are looked at: a frame that the device will refuse for its data, its page
 * or WRITE_PROTECT is built like any other. */

/* Room for every frame, and for every reply, with PEC. */
enum {
    TONGSORREL_LONGEST_FRAME = 5,
    TONGSORREL_LONGEST_REPLY = 8,
};

/* What was built: the bytes of the frame, and of a read the bytes to clock behind it. Both are 0 for an answer other than 0. */
typedef struct tongsorrel_built {
    uint8_t answer;
    uint64_t length;
    uint64_t count;
} tongsorrel_built;

/* A write: C0h, code, the data, and the PEC where check asks for one (18.2), which is not among the data. The frame stands in the buffer
 * from the place on; no other byte of the buffer is touched, and none at all under a refusal (18.5). Answers 0, 3, 5, 6, 26 (18.4). */
tongsorrel_built tongsorrel_host_write(uint8_t *buffer, uint64_t size, uint64_t place, uint8_t code, const uint8_t *data, uint64_t number,
                                       bool check);

/* A read: the header C0h, code, C1h, likewise, and in .count the bytes to clock: the data, and the PEC where check asks for one (18.3).
 * Answers 0, 3, 26 (18.4). */
tongsorrel_built tongsorrel_host_read(uint8_t *buffer, uint64_t size, uint64_t place, uint8_t code, bool check);

/* A reply in its fields (18.6): byte where the code has one data byte, word where it has two, account for READ_EIN. Fields that a code does
 * not have are 0, and all are under a refusal. */
typedef struct tongsorrel_reply {
    uint8_t answer;
    uint8_t byte;
    uint16_t word;
    tongsorrel_account account;
} tongsorrel_reply;

/* The bytes clocked in a read of the code, with PEC or without. Answers 0, 3, 20 to 23 (18.7). */
tongsorrel_reply tongsorrel_host_reply(uint8_t code, bool check, const uint8_t *reply, uint64_t length);

/* As tongsorrel_totalizer_fresh and tongsorrel_totalizer_take, for the replies of a code: TONGSORREL_CODE_READ_EIN (18.8). */
tongsorrel_totalizer tongsorrel_host_totalizer_fresh(void);
tongsorrel_taken tongsorrel_host_totalizer_take(tongsorrel_totalizer totalizer, uint8_t code, const uint8_t *reply, uint64_t length);

/* ---- numbers for limits: libhost.a */

/* Counts of thousandths as words, and back (section 19): milliamperes, millivolts, thousandths of a degree. There are two formats (5.1):
 * Linear11 for IOUT, VIN and temperature where they are not DIRECT, and unsigned words in units of 2^-13 V for VOUT_COMMAND, READ_VOUT and
 * the limits of VOUT. */

/* Under an answer other than 0 the word is 0000h. */
typedef struct tongsorrel_converted {
    uint8_t answer;
    uint16_t word;
} tongsorrel_converted;

/* The Linear11 word nearest to the count (19.1); of words equally near that with the smallest exponent, and then the smaller value (19.2).
 * Answers 0, and 25 outside of -33,554,432,000 to 33,521,664,000, which 7C00h and 7BFFh mean (19.3). */
tongsorrel_converted tongsorrel_host_from_thousandths(int64_t count);

/* The value of a Linear11 word in thousandths, rounded, half away from zero (19.4). */
int64_t tongsorrel_host_to_thousandths(uint16_t word);

/* The VOUT word nearest to the count; two are never equally near. Answers 0, and 25 below 0 and above 7,999 (19.5). */
tongsorrel_converted tongsorrel_host_vout_from_thousandths(int64_t count);

/* The value of a VOUT word in thousandths, rounded, half up. From a count and back is that count (19.6). */
int64_t tongsorrel_host_vout_to_thousandths(uint16_t word);

#ifdef __cplusplus
}
#endif

/* ---- layout: a compiler that lays the structs out in another way may not use this library */

#ifdef __cplusplus
#define TONGSORREL_ASSERT(holds, text) static_assert(holds, text)
#else
#define TONGSORREL_ASSERT(holds, text) _Static_assert(holds, text)
#endif
#define TONGSORREL_SIZE(type, size) TONGSORREL_ASSERT(sizeof(type) == (size), "size of " #type)
#define TONGSORREL_AT(type, field, offset) TONGSORREL_ASSERT(offsetof(type, field) == (offset), "offset of " #type "." #field)

TONGSORREL_ASSERT(sizeof(bool) == 1, "size of bool");
TONGSORREL_SIZE(tongsorrel_account, 8);
TONGSORREL_AT(tongsorrel_account, accumulator, 0);
TONGSORREL_AT(tongsorrel_account, rollover, 2);
TONGSORREL_AT(tongsorrel_account, count, 4);
TONGSORREL_SIZE(tongsorrel_unpaged, 12);
TONGSORREL_AT(tongsorrel_unpaged, page, 0);
TONGSORREL_AT(tongsorrel_unpaged, protect, 1);
TONGSORREL_AT(tongsorrel_unpaged, cml, 2);
TONGSORREL_AT(tongsorrel_unpaged, alert, 3);
TONGSORREL_AT(tongsorrel_unpaged, energy, 4);
TONGSORREL_SIZE(tongsorrel_format, 8);
TONGSORREL_AT(tongsorrel_format, direct, 0);
TONGSORREL_AT(tongsorrel_format, m, 2);
TONGSORREL_AT(tongsorrel_format, b, 4);
TONGSORREL_AT(tongsorrel_format, r, 6);
TONGSORREL_SIZE(tongsorrel_compared, 2);
TONGSORREL_AT(tongsorrel_compared, answer, 0);
TONGSORREL_AT(tongsorrel_compared, order, 1);
TONGSORREL_SIZE(tongsorrel_page, 80);
TONGSORREL_AT(tongsorrel_page, operation, 0);
TONGSORREL_AT(tongsorrel_page, vout_command, 2);
TONGSORREL_AT(tongsorrel_page, limits, 4);
TONGSORREL_AT(tongsorrel_page, responses, 26);
TONGSORREL_AT(tongsorrel_page, machines, 32);
TONGSORREL_AT(tongsorrel_page, words, 38);
TONGSORREL_AT(tongsorrel_page, measured, 46);
TONGSORREL_AT(tongsorrel_page, status, 50);
TONGSORREL_AT(tongsorrel_page, tripped, 54);
TONGSORREL_AT(tongsorrel_page, formats, 56);
TONGSORREL_SIZE(tongsorrel_device, 652);
TONGSORREL_AT(tongsorrel_device, unpaged, 0);
TONGSORREL_AT(tongsorrel_device, pages, 12);
TONGSORREL_SIZE(tongsorrel_done, 656);
TONGSORREL_AT(tongsorrel_done, device, 0);
TONGSORREL_AT(tongsorrel_done, answer, 652);
TONGSORREL_SIZE(tongsorrel_page_choice, 36);
TONGSORREL_AT(tongsorrel_page_choice, formats, 0);
TONGSORREL_AT(tongsorrel_page_choice, limits, 24);
TONGSORREL_SIZE(tongsorrel_choices, 288);
TONGSORREL_AT(tongsorrel_choices, pages, 0);
TONGSORREL_SIZE(tongsorrel_outcome, 16);
TONGSORREL_AT(tongsorrel_outcome, unpaged, 0);
TONGSORREL_AT(tongsorrel_outcome, answer, 12);
TONGSORREL_SIZE(tongsorrel_totalizer, 32);
TONGSORREL_AT(tongsorrel_totalizer, started, 0);
TONGSORREL_AT(tongsorrel_totalizer, closed, 1);
TONGSORREL_AT(tongsorrel_totalizer, last, 4);
TONGSORREL_AT(tongsorrel_totalizer, energy, 16);
TONGSORREL_AT(tongsorrel_totalizer, samples, 24);
TONGSORREL_SIZE(tongsorrel_taken, 40);
TONGSORREL_AT(tongsorrel_taken, totalizer, 0);
TONGSORREL_AT(tongsorrel_taken, answer, 32);
TONGSORREL_SIZE(tongsorrel_built, 24);
TONGSORREL_AT(tongsorrel_built, answer, 0);
TONGSORREL_AT(tongsorrel_built, length, 8);
TONGSORREL_AT(tongsorrel_built, count, 16);
TONGSORREL_SIZE(tongsorrel_reply, 12);
TONGSORREL_AT(tongsorrel_reply, answer, 0);
TONGSORREL_AT(tongsorrel_reply, byte, 1);
TONGSORREL_AT(tongsorrel_reply, word, 2);
TONGSORREL_AT(tongsorrel_reply, account, 4);
TONGSORREL_SIZE(tongsorrel_converted, 4);
TONGSORREL_AT(tongsorrel_converted, answer, 0);
TONGSORREL_AT(tongsorrel_converted, word, 2);

#undef TONGSORREL_AT
#undef TONGSORREL_SIZE
#undef TONGSORREL_ASSERT

#endif
