/* Linux and a shelf in one process, for examples/linux_host.c: its open, ioctl, close and sleep come here (the linker's --wrap). Each
 * message is played event by event on a streaming device, and while the host sleeps a second passes in the shelf. Lines in brackets say
 * what happens in the shelf; what it sends of its account is printed as the plain sum of the samples since power-on. */
#define _DEFAULT_SOURCE
#include "tongsorrel.h"

#include <errno.h>
#include <inttypes.h>
#include <linux/i2c-dev.h>
#include <linux/i2c.h>
#include <stdarg.h>
#include <stdio.h>
#include <stdlib.h>
#include <string.h>

enum { ADAPTER = 1000, ROUND = 100, SAMPLE = 30000, BETWEEN = 7 };

/* What the linker puts in place of the kernel. */
int __wrap_open(const char *path, int flags, ...);
int __wrap_ioctl(int file, unsigned long request, ...);
int __wrap_close(int file);
unsigned __wrap_sleep(unsigned seconds);

static uint8_t state[TONGSORREL_STREAM_SIZE];
static unsigned reading = 1;
static struct account {
    uint64_t energy, samples;
} account, sent;

static void expect(bool holds, const char *what) {
    if (!holds) {
        printf("  C: FAILED: %s\n", what);
        exit(1);
    }
}

/* ---- the shelf */

static void sample(uint16_t value) {
    if (tongsorrel_stream_sample(state, sizeof state, value) != TONGSORREL_DONE) return;
    account.energy += value, account.samples++;
}

/* A write by somebody else on the bus. */
static void other(uint8_t code, uint8_t data) {
    const uint8_t bytes[] = {TONGSORREL_ADDRESS_WRITE, code, data};
    tongsorrel_stream_start(state, sizeof state);
    for (size_t i = 0; i < sizeof bytes; i++) expect(tongsorrel_stream_byte(state, sizeof state, bytes[i]) == TONGSORREL_ACK, "ACK");
    expect(tongsorrel_stream_stop(state, sizeof state) == TONGSORREL_DONE, "the write of another");
}

static void measure(uint8_t page, uint8_t quantity, uint16_t word) {
    expect(tongsorrel_stream_measure(state, sizeof state, page, quantity, word) == TONGSORREL_DONE, "a measurement");
}

/* Power-on, all supplies on but the last: 1.2 V, 3.25 A and up, 12 V, 41.5 degrees and down by sevens to -7.5. */
static void power_on(void) {
    expect(tongsorrel_stream_power_on(state, sizeof state) == TONGSORREL_DONE, "power-on");
    account = (struct account){0, 0};
    for (uint8_t page = 0; page < TONGSORREL_PAGES; page++) {
        other(TONGSORREL_CODE_PAGE, page);
        other(TONGSORREL_CODE_OPERATION, page + 1 < TONGSORREL_PAGES ? TONGSORREL_OPERATION_ON : TONGSORREL_OPERATION_OFF);
        measure(page, TONGSORREL_VOUT, 0x2666);
        measure(page, TONGSORREL_IOUT, (uint16_t)(0xC340 + page));
        measure(page, TONGSORREL_VIN, 0xD300);
        measure(page, TONGSORREL_TEMPERATURE, (uint16_t)(0xE000 | ((0x298 - 7 * 16 * page) & 0x7FF)));
    }
    other(TONGSORREL_CODE_PAGE, 0);
}

/* ---- the wires */

/* What happens to a transaction of a code, in which reading, the first so many times. */
typedef enum deed { NOTHING, DAMAGED_REPLY, DAMAGED_WRITE, POWER_LOST } deed;

static struct plan {
    unsigned reading;
    uint8_t code;
    deed deed;
    int times;
} plans[] = {
    {1, TONGSORREL_CODE_IOUT_OC_WARN_LIMIT, DAMAGED_WRITE, 1},
    {1, TONGSORREL_CODE_READ_VIN, DAMAGED_REPLY, 1},
    {2, TONGSORREL_CODE_PAGE, DAMAGED_WRITE, 1},
    {2, TONGSORREL_CODE_READ_EIN, DAMAGED_REPLY, 1},
    {3, TONGSORREL_CODE_READ_EIN, DAMAGED_REPLY, 2},
    {3, TONGSORREL_CODE_READ_IOUT, DAMAGED_REPLY, 2},
    {5, TONGSORREL_CODE_READ_EIN, POWER_LOST, 1},
};

/* What is due to this transaction. */
static deed due(uint8_t code, bool reads) {
    for (size_t i = 0; i < sizeof plans / sizeof plans[0]; i++) {
        struct plan *p = &plans[i];
        if (p->reading != reading || p->code != code || p->times == 0 || reads == (p->deed == DAMAGED_WRITE)) continue;
        p->times--;
        return p->deed;
    }
    return NOTHING;
}

/* Turns up to eight neighbouring bits of the bytes, other ones each time. */
static void damage(uint8_t *bytes, size_t length) {
    static unsigned turns;
    const unsigned bit = 5 * ++turns % (unsigned)(8 * length - 7), pattern = 0x80u | 0x1Du * turns % 0x80u;
    for (unsigned i = 0; i < 8; i++)
        if (pattern >> (7 - i) & 1) bytes[(bit + i) / 8] ^= (uint8_t)(0x80 >> (bit + i) % 8);
}

static bool acked(uint8_t byte, int error) {
    if (tongsorrel_stream_byte(state, sizeof state, byte) == TONGSORREL_ACK) return true;
    errno = error;
    return false;
}

/* A message up to its last byte, or to the first that gets NACK. A sample may come at any time. */
static bool play(const struct i2c_msg *message, bool again) {
    const bool reads = message->flags & I2C_M_RD;
    if (again) tongsorrel_stream_repeated_start(state, sizeof state);
    else tongsorrel_stream_start(state, sizeof state);
    if (!acked((uint8_t)(message->addr << 1 | reads), ENXIO)) return false;
    sent = account; /* a reply is made at the address byte (17.5) */
    sample(BETWEEN);
    for (int i = 0; i < message->len; i++)
        if (reads) message->buf[i] = tongsorrel_stream_clock(state, sizeof state);
        else if (!acked(message->buf[i], EREMOTEIO)) return false;
    return true;
}

static bool transaction(const struct i2c_msg *messages, unsigned number) {
    bool good = true;
    for (unsigned i = 0; good && i < number; i++) good = play(&messages[i], i > 0);
    tongsorrel_stream_stop(state, sizeof state);
    return good;
}

/* ---- the kernel */

int __wrap_open(const char *path, int flags, ...) {
    (void)flags;
    expect(strcmp(path, "/dev/i2c-7") == 0, "the path");
    power_on();
    return ADAPTER;
}

int __wrap_close(int file) {
    expect(file == ADAPTER, "the file that is closed");
    return 0;
}

int __wrap_ioctl(int file, unsigned long request, ...) {
    va_list arguments;
    va_start(arguments, request);
    struct i2c_rdwr_ioctl_data *data = va_arg(arguments, struct i2c_rdwr_ioctl_data *);
    va_end(arguments);
    expect(file == ADAPTER && request == I2C_RDWR && (data->nmsgs == 1 || data->nmsgs == 2), "a transfer");
    struct i2c_msg messages[2] = {data->msgs[0], data->msgs[data->nmsgs - 1]};
    uint8_t wires[TONGSORREL_LONGEST_FRAME]; /* the host's own bytes stay as they are */
    expect(messages[0].len <= sizeof wires, "the length of a frame");
    memcpy(wires, messages[0].buf, messages[0].len);
    messages[0].buf = wires;
    const uint8_t code = wires[0];
    const deed deed = due(code, data->nmsgs == 2);
    if (deed == POWER_LOST) {
        printf("  [the shelf loses its power, and has it back]\n");
        power_on();
    }
    if (deed == DAMAGED_WRITE) damage(wires + 1, messages[0].len - 1u);
    if (!transaction(messages, data->nmsgs)) return -1;
    if (deed == DAMAGED_REPLY) damage(messages[1].buf, messages[1].len);
    if (code == TONGSORREL_CODE_READ_EIN) printf("  [sent: %" PRIu64 " in %" PRIu64 " samples]\n", sent.energy, sent.samples);
    return (int)data->nmsgs;
}

/* A second in the shelf. */
unsigned __wrap_sleep(unsigned seconds) {
    expect(seconds == 1, "a second");
    for (int i = 0; i < ROUND; i++) sample(SAMPLE);
    tongsorrel_stream_tick(state, sizeof state);
    switch (++reading) {
    case 2:
        printf("[supply 2: VOUT over its limit; supply 4: 8.5 A]\n");
        measure(2, TONGSORREL_VOUT, 0x2A3E);
        measure(4, TONGSORREL_IOUT, 0xD220);
        break;
    case 7:
        printf("[the memory of the shelf is damaged]\n");
        state[0] = 0xFF;
        break;
    case 8:
        printf("[the shelf is powered on]\n");
        power_on();
        break;
    }
    return 0;
}
