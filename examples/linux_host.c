/* A host on Linux: reads the eight supplies of a shelf over /dev/i2c-N, sets a limit on each, and keeps the energy totals.
 *
 *     cc -Iinclude examples/linux_host.c target/staticlib/libhost.a -o linux_host
 *     ./linux_host /dev/i2c-1 10          (ten readings, one a second)
 *
 * Every transaction has a PEC. A reply with a wrong one is asked for once more. A write is read back, because the device ACKs writes that
 * it refuses, too (17.4). Nobody else may move PAGE meanwhile. The kernel's PMBus driver does, and clears faults: it must not be bound. */
#define _DEFAULT_SOURCE
#include "tongsorrel.h"

#include <errno.h>
#include <fcntl.h>
#include <inttypes.h>
#include <linux/i2c-dev.h>
#include <linux/i2c.h>
#include <stdio.h>
#include <stdlib.h>
#include <string.h>
#include <sys/ioctl.h>
#include <unistd.h>

enum { TRIES = 2, PERIOD = 1 };

/* The limit that every page gets, which is not that of power-on. */
enum { LIMIT = TONGSORREL_CODE_IOUT_OC_WARN_LIMIT, LIMIT_MILLIAMPERES = 8000 };

/* ---- words for numbers */

typedef struct name {
    unsigned number;
    const char *text;
} name;

static const name answers[] = {
    {TONGSORREL_UNSUPPORTED_COMMAND, "no such command in this direction"},
    {TONGSORREL_TOO_FEW_DATA, "too few data"},
    {TONGSORREL_TOO_MANY_DATA, "too many data"},
    {TONGSORREL_INVALID_STATE, "the totalizer was damaged"},
    {TONGSORREL_WRONG_REPLY_LENGTH, "the reply has another length"},
    {TONGSORREL_WRONG_REPLY_PEC, "the reply was damaged on the way"},
    {TONGSORREL_WRONG_COUNT_BYTE, "the reply has another count byte"},
    {TONGSORREL_ACCUMULATOR_TOO_LARGE, "the accumulator is too large"},
    {TONGSORREL_TOTAL_FULL, "a total is full"},
    {TONGSORREL_OUT_OF_RANGE, "no word stands for such a number"},
    {TONGSORREL_NO_ROOM, "the frame does not fit into the buffer"},
    {0, NULL},
};

#define COMMAND(of) {TONGSORREL_CODE_##of, #of}

static const name commands[] = {
    COMMAND(PAGE), COMMAND(IOUT_OC_WARN_LIMIT), COMMAND(STATUS_WORD), COMMAND(STATUS_VOUT), COMMAND(STATUS_IOUT), COMMAND(STATUS_INPUT),
    COMMAND(STATUS_TEMPERATURE), COMMAND(STATUS_CML), COMMAND(READ_EIN), COMMAND(READ_VIN), COMMAND(READ_VOUT), COMMAND(READ_IOUT),
    COMMAND(READ_TEMPERATURE_1), {0, NULL},
};

static const name cml_bits[] = {
    {TONGSORREL_CML_COMMAND_BIT, "unsupported or protected command"},
    {TONGSORREL_CML_DATA_BIT, "invalid data"},
    {TONGSORREL_CML_PEC_BIT, "a write was damaged on the way"},
    {TONGSORREL_CML_OTHER_BIT, "too few data, or a read of another length"},
    {0, NULL},
};

static const char *text_of(const name *names, unsigned number) {
    for (; names->text != NULL; names++)
        if (names->number == number) return names->text;
    return "unknown";
}

static void print_bits(const name *names, unsigned bits) {
    for (; names->text != NULL; names++)
        if (bits & names->number) printf(", %s", names->text);
}

/* ---- the bus */

static int bus;

/* Says why something did not go, and gives false. */
static bool refused(uint8_t code, const char *why) {
    printf("  %s: %s\n", text_of(commands, code), why);
    return false;
}

/* A frame as the kernel wants it: it sends the address bytes itself, from address and direction. A read is two messages, with a repeated
 * START between: the code, and the bytes to clock. */
static bool transfer(uint8_t *frame, tongsorrel_built built, uint8_t *reply) {
    const uint16_t address = frame[0] >> 1;
    const bool reads = built.count > 0;
    struct i2c_msg messages[] = {
        {.addr = address, .flags = 0, .len = (uint16_t)(built.length - (reads ? 2 : 1)), .buf = frame + 1},
        {.addr = address, .flags = I2C_M_RD, .len = (uint16_t)built.count, .buf = reply},
    };
    struct i2c_rdwr_ioctl_data data = {.msgs = messages, .nmsgs = reads ? 2 : 1};
    const int played = ioctl(bus, I2C_RDWR, &data);
    if (played == (int)data.nmsgs) return true;
    /* Which error stands for NACK differs from one adapter to another; these two are the usual ones. */
    if (played < 0 && (errno == ENXIO || errno == EREMOTEIO)) return refused(frame[1], "NACK: no device there, or it refuses");
    return refused(frame[1], played < 0 ? strerror(errno) : "the adapter stopped half way");
}

/* The bytes of a reply, and the fields in it. */
typedef struct reading {
    uint8_t bytes[TONGSORREL_LONGEST_REPLY];
    size_t length;
    tongsorrel_reply fields;
} reading;

/* A read, once more where the reply was damaged. */
static bool get(uint8_t code, reading *r) {
    uint8_t frame[TONGSORREL_LONGEST_FRAME];
    const tongsorrel_built built = tongsorrel_host_read(frame, sizeof frame, 0, code, true);
    if (built.answer != TONGSORREL_DONE) return refused(code, text_of(answers, built.answer));
    r->length = built.count;
    for (int tries = 0; tries < TRIES; tries++) {
        if (!transfer(frame, built, r->bytes)) return false;
        r->fields = tongsorrel_host_reply(code, true, r->bytes, r->length);
        if (r->fields.answer == TONGSORREL_DONE) return true;
        refused(code, text_of(answers, r->fields.answer));
        if (r->fields.answer != TONGSORREL_WRONG_REPLY_PEC) return false;
    }
    return false;
}

/* A write. That it was sent does not say that it was accepted. */
static bool put(uint8_t code, const uint8_t *data, size_t number) {
    uint8_t frame[TONGSORREL_LONGEST_FRAME];
    const tongsorrel_built built = tongsorrel_host_write(frame, sizeof frame, 0, code, data, number, true);
    if (built.answer != TONGSORREL_DONE) return refused(code, text_of(answers, built.answer));
    return transfer(frame, built, NULL);
}

/* What the device noted of transactions that it refused. The bits that were told are cleared, so that the next ones show. */
static void explain(void) {
    reading r;
    if (!get(TONGSORREL_CODE_STATUS_CML, &r) || r.fields.byte == 0) return;
    printf("  STATUS_CML %02Xh", r.fields.byte);
    print_bits(cml_bits, r.fields.byte);
    printf("\n");
    put(TONGSORREL_CODE_STATUS_CML, &r.fields.byte, 1);
}

/* Writes a setting of one or two bytes, and once more where it does not read back. */
static bool set(uint8_t code, uint16_t value, size_t number) {
    const uint8_t data[] = {(uint8_t)value, (uint8_t)(value >> 8)};
    for (int tries = 0; tries < TRIES; tries++) {
        reading r;
        if (!put(code, data, number) || !get(code, &r)) return false;
        if ((number == 1 ? r.fields.byte : r.fields.word) == value) return true;
        refused(code, "does not read back as it was written");
        explain();
    }
    return false;
}

/* ---- the shelf */

typedef struct host {
    bool ready;     /* every page has our limit, and totals belong to this power-on of the device */
    uint16_t limit; /* as a word */
    tongsorrel_totalizer totals;
} host;

/* Whether the page that is selected still has our limit; asked behind a reading, before the reading is believed.
 *
 * Power-on sets another limit. So where ours stands, it is sure that the device was not powered on since we wrote it: what was read belongs
 * to the page that we selected, and to the account that we totalize. Where it does not stand, there was a power-on, or somebody else wrote
 * the limit; either way we begin anew. What the device took between our last reading and a power-on is lost: that no host can know. */
static bool stands(host *h) {
    reading r;
    if (!get(LIMIT, &r)) return false; /* not known: the reading is not believed, and the totals stay */
    if (r.fields.word == h->limit) return true;
    h->ready = false;
    return refused(LIMIT, "no longer ours: the device was powered on anew");
}

/* The limit on each page, and a fresh totalizer. A power-on in the middle of this shows at the next report of a page. */
static bool set_up(host *h) {
    const tongsorrel_converted limit = tongsorrel_host_from_thousandths(LIMIT_MILLIAMPERES);
    if (limit.answer != TONGSORREL_DONE) return refused(LIMIT, text_of(answers, limit.answer));
    h->limit = limit.word;
    h->totals = tongsorrel_host_totalizer_fresh();
    for (uint8_t page = 0; page < TONGSORREL_PAGES; page++)
        if (!set(TONGSORREL_CODE_PAGE, page, 1) || !set(LIMIT, h->limit, 2)) return false;
    return true;
}

/* What is measured on a page. */
static const struct quantity {
    uint8_t code;
    const char *label, *unit;
} quantities[] = {
    {TONGSORREL_CODE_READ_VOUT, "VOUT", "V"},
    {TONGSORREL_CODE_READ_IOUT, "IOUT", "A"},
    {TONGSORREL_CODE_READ_VIN, "VIN", "V"},
    {TONGSORREL_CODE_READ_TEMPERATURE_1, "temperature", "C"},
};

/* The registers that STATUS_WORD sums up: its bit for any of theirs, and the names of theirs. */
static const struct summed {
    unsigned bit;
    uint8_t code;
    name bits[5];
} registers[] = {
    {TONGSORREL_STATUS_VOUT_BIT, TONGSORREL_CODE_STATUS_VOUT,
     {{TONGSORREL_VOUT_OV_FAULT_BIT, "VOUT_OV fault"}, {TONGSORREL_VOUT_OV_WARN_BIT, "VOUT_OV warning"}}},
    {TONGSORREL_STATUS_IOUT_BIT, TONGSORREL_CODE_STATUS_IOUT,
     {{TONGSORREL_IOUT_OC_FAULT_BIT, "IOUT_OC fault"}, {TONGSORREL_IOUT_OC_WARN_BIT, "IOUT_OC warning"}}},
    {TONGSORREL_STATUS_INPUT_BIT, TONGSORREL_CODE_STATUS_INPUT,
     {{TONGSORREL_VIN_OV_FAULT_BIT, "VIN_OV fault"}, {TONGSORREL_VIN_OV_WARN_BIT, "VIN_OV warning"},
      {TONGSORREL_VIN_UV_FAULT_BIT, "VIN_UV fault"}, {TONGSORREL_VIN_UV_WARN_BIT, "VIN_UV warning"}}},
    {TONGSORREL_STATUS_TEMPERATURE_BIT, TONGSORREL_CODE_STATUS_TEMPERATURE,
     {{TONGSORREL_OT_FAULT_BIT, "OT fault"}, {TONGSORREL_OT_WARN_BIT, "OT warning"}, {TONGSORREL_UT_FAULT_BIT, "UT fault"}}},
};

enum { QUANTITIES = sizeof quantities / sizeof quantities[0], REGISTERS = sizeof registers / sizeof registers[0] };

typedef struct page_reading {
    reading status, registers[REGISTERS], quantities[QUANTITIES];
} page_reading;

/* A register is read where STATUS_WORD says that a bit of it is 1. */
static bool read_page(uint8_t page, page_reading *p) {
    if (!set(TONGSORREL_CODE_PAGE, page, 1) || !get(TONGSORREL_CODE_STATUS_WORD, &p->status)) return false;
    for (int i = 0; i < REGISTERS; i++)
        if ((p->status.fields.word & registers[i].bit) && !get(registers[i].code, &p->registers[i])) return false;
    for (int i = 0; i < QUANTITIES; i++)
        if (!get(quantities[i].code, &p->quantities[i])) return false;
    return true;
}

/* VOUT words have a format of their own (5.2); the others are Linear11. */
static void print_value(const struct quantity *q, uint16_t word) {
    const bool vout = q->code == TONGSORREL_CODE_READ_VOUT;
    const int64_t value = vout ? tongsorrel_host_vout_to_thousandths(word) : tongsorrel_host_to_thousandths(word);
    const uint64_t size = (uint64_t)(value < 0 ? -value : value);
    printf("  %s %s%" PRIu64 ".%03" PRIu64 " %s", q->label, value < 0 ? "-" : "", size / 1000, size % 1000, q->unit);
}

static void report(host *h, uint8_t page) {
    page_reading p = {0};
    if (!read_page(page, &p) || !stands(h)) return;
    printf("  page %d", page);
    for (int i = 0; i < QUANTITIES; i++) print_value(&quantities[i], p.quantities[i].fields.word);
    printf("  %s", p.status.fields.word & TONGSORREL_STATUS_OFF_BIT ? "off" : "on");
    for (int i = 0; i < REGISTERS; i++) print_bits(registers[i].bits, p.registers[i].fields.byte);
    printf("\n");
}

/* The totals are plain sums as long as fewer than 16,777,216 samples of a sum below 8,388,608 come between two replies taken (15.7). */
static void totalize(host *h) {
    reading r;
    if (!get(TONGSORREL_CODE_READ_EIN, &r) || !stands(h)) return;
    const tongsorrel_taken taken = tongsorrel_host_totalizer_take(h->totals, TONGSORREL_CODE_READ_EIN, r.bytes, r.length);
    h->totals = taken.totalizer;
    if (taken.answer != TONGSORREL_DONE) refused(TONGSORREL_CODE_READ_EIN, text_of(answers, taken.answer));
    printf("  energy %" PRIu64 " in %" PRIu64 " samples\n", h->totals.energy, h->totals.samples);
}

int main(int count, char **arguments) {
    if (tongsorrel_host_layout_2() != TONGSORREL_LAYOUT) return 1; /* links with an archive of this header's layout alone */
    const long readings = count == 3 ? strtol(arguments[2], NULL, 10) : 0;
    if (readings < 1) {
        fprintf(stderr, "usage: %s /dev/i2c-N READINGS\n", arguments[0]);
        return 2;
    }
    bus = open(arguments[1], O_RDWR);
    if (bus < 0) {
        perror(arguments[1]);
        return 1;
    }
    host h = {.ready = false};
    for (long i = 1; i <= readings; i++) {
        if (i > 1) sleep(PERIOD);
        printf("reading %ld\n", i);
        if (!h.ready) h.ready = set_up(&h);
        for (uint8_t page = 0; h.ready && page < TONGSORREL_PAGES; page++) report(&h, page);
        if (h.ready) totalize(&h);
        explain();
    }
    close(bus);
    return 0;
}
