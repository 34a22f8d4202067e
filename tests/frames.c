/* The library from C: the nine frames of data sheet 13.7 through tongsorrel.h, the fields they leave, ones written to
 * status registers, an energy reply through the totalizer, and the worked numbers of DIRECT words. */
#include "tongsorrel.h"

#include <stdio.h>
#include <string.h>

static int failures;

static void expect(bool holds, const char *what) {
    if (!holds) {
        printf("  C: FAILED: %s\n", what);
        failures++;
    }
}

enum {
    VOUT_BITS = TONGSORREL_VOUT_OV_FAULT_BIT | TONGSORREL_VOUT_OV_WARN_BIT,
    CML_BITS = TONGSORREL_CML_COMMAND_BIT | TONGSORREL_CML_DATA_BIT | TONGSORREL_CML_OTHER_BIT,
    UNTOUCHED = 0x55,
};

/* One frame and the line it gives. */
typedef struct row {
    const char *frame;
    const char *line;
} row;

static const row rows[] = {
    {"04e803", "00"},
    {"0300003e2a", "00"},
    {"0201c07ac1", "00c0"},
    {"0201c078c1", "0061"},
    {"0501", "00c0"},
    {"0501", "0eff"},
    {"01c003", "00"},
    {"0501", "00c0"},
    {"0207c086c1", "0006e80300010000"},
};

enum { ROWS = sizeof rows / sizeof rows[0], LONGEST = 16 };

static size_t bytes_of(const char *text, uint8_t *bytes) {
    size_t n = 0;
    for (unsigned value; sscanf(text + 2 * n, "%2x", &value) == 1; n++) bytes[n] = (uint8_t)value;
    return n;
}

static uint16_t word(const uint8_t *low) { return (uint16_t)(low[0] | low[1] << 8); }

/* The call that a frame stands for. */
static tongsorrel_done call(tongsorrel_device device, const uint8_t *frame, size_t length, uint8_t *reply, size_t *n) {
    *n = 0;
    switch (frame[0]) {
    case 1:
        return tongsorrel_write(device, frame + 1, length - 1);
    case 2:
        *n = frame[1];
        return tongsorrel_read(device, frame + 2, length - 2, reply, *n);
    case 3:
        return tongsorrel_measure(device, frame[1], frame[2], word(frame + 3));
    case 4:
        return tongsorrel_sample(device, word(frame + 1));
    case 7:
        return tongsorrel_tick(device);
    default:
        *n = frame[1];
        return tongsorrel_alert_response(device, reply, *n);
    }
}

static tongsorrel_device frames(tongsorrel_device device) {
    for (size_t i = 0; i < ROWS; i++) {
        uint8_t frame[LONGEST], reply[LONGEST];
        size_t n, length = bytes_of(rows[i].frame, frame);
        memset(reply, UNTOUCHED, sizeof reply);
        tongsorrel_done done = call(device, frame, length, reply, &n);
        device = done.device;
        char line[2 * LONGEST + 3];
        int end = sprintf(line, "%02x", done.answer);
        for (size_t k = 0; k < n; k++) end += sprintf(line + end, "%02x", reply[k]);
        expect(strcmp(line, rows[i].line) == 0, rows[i].frame);
        expect(reply[n] == UNTOUCHED, "nothing is written behind the reply");
    }
    return device;
}

/* What the frames leave, field by field. */
static void state(const tongsorrel_device *device) {
    const tongsorrel_unpaged *unpaged = &device->unpaged;
    const tongsorrel_page *page = &device->pages[0];
    expect(unpaged->page == 0 && unpaged->protect == TONGSORREL_PROTECT_NOTHING, "PAGE and WRITE_PROTECT");
    expect(unpaged->cml == 0 && !unpaged->alert, "CML and the alert");
    expect(unpaged->energy.accumulator == 1000 && unpaged->energy.rollover == 0 && unpaged->energy.count == 1, "the account");
    expect(page->operation == TONGSORREL_OPERATION_OFF && page->vout_command == 0x2666, "OPERATION and VOUT_COMMAND");
    expect(page->limits[TONGSORREL_VOUT_OV] == 0x2A3D && page->limits[TONGSORREL_VIN_UV] == 0xC3F5, "the limits");
    expect(page->responses[TONGSORREL_VOUT_OV] == TONGSORREL_SHUT_DOWN, "a response");
    expect(page->responses[TONGSORREL_IOUT_OC] == TONGSORREL_IOUT_SHUT_DOWN, "the response to current");
    expect(page->responses[TONGSORREL_VIN_UV] == TONGSORREL_SHUT_DOWN, "the last response");
    expect(page->measured[TONGSORREL_VOUT] && page->words[TONGSORREL_VOUT] == 0x2A3E, "the measurement");
    expect(!page->measured[TONGSORREL_TEMPERATURE] && page->status[TONGSORREL_TEMPERATURE] == 0, "what is not measured");
    expect(page->status[TONGSORREL_VOUT] == VOUT_BITS && page->tripped, "the status and the trip");
    page = &device->pages[7];
    expect(page->limits[TONGSORREL_VOUT_OV] == 0x2A3D && page->status[TONGSORREL_VOUT] == 0 && !page->tripped, "another page");
}

/* A write of one data byte, which is accepted. */
static tongsorrel_device written(tongsorrel_device device, uint8_t code, uint8_t data) {
    uint8_t bytes[] = {TONGSORREL_ADDRESS_WRITE, code, data};
    tongsorrel_done done = tongsorrel_write(device, bytes, sizeof bytes);
    expect(done.answer == TONGSORREL_DONE, "a status register is written");
    return done.device;
}

/* Ones written to status registers (6.8, 8.3), under WRITE_PROTECT 80h; the alert had been answered. */
static void clearings(tongsorrel_device device) {
    const uint8_t *vout = &device.pages[0].status[TONGSORREL_VOUT], *cml = &device.unpaged.cml;
    device = written(device, TONGSORREL_CODE_WRITE_PROTECT, TONGSORREL_PROTECT_ALL);
    device = written(device, TONGSORREL_CODE_STATUS_VOUT, 0xFF);
    expect(*vout == VOUT_BITS && device.unpaged.alert, "a present cause has its bit and raises the alert");
    device = tongsorrel_measure(device, 0, TONGSORREL_VOUT, 0).device;
    device = written(device, TONGSORREL_CODE_STATUS_VOUT, (uint8_t)~TONGSORREL_VOUT_OV_FAULT_BIT);
    expect(*vout == TONGSORREL_VOUT_OV_FAULT_BIT && device.unpaged.alert, "zeros spare");
    device.unpaged.cml = CML_BITS;
    device = written(device, TONGSORREL_CODE_STATUS_VOUT, TONGSORREL_VOUT_OV_FAULT_BIT);
    expect(*vout == 0 && *cml == CML_BITS && device.unpaged.alert, "a one clears, in its register alone");
    device = written(device, TONGSORREL_CODE_STATUS_CML, TONGSORREL_CML_DATA_BIT | TONGSORREL_CML_OTHER_BIT);
    expect(*cml == TONGSORREL_CML_COMMAND_BIT && device.unpaged.alert, "STATUS_CML bit by bit");
    device = written(device, TONGSORREL_CODE_STATUS_CML, TONGSORREL_CML_COMMAND_BIT);
    expect(*cml == 0 && !device.unpaged.alert && device.pages[0].tripped, "with the last bit the alert falls, and the trip stays");
}

/* The start, and one more reply with two more samples. */
static void totalizer(tongsorrel_device device) {
    static const uint8_t header[] = {TONGSORREL_ADDRESS_WRITE, TONGSORREL_CODE_READ_EIN, TONGSORREL_ADDRESS_READ};
    uint8_t reply[TONGSORREL_LONGEST_REPLY];
    tongsorrel_taken taken = {tongsorrel_totalizer_fresh(), 0};
    device = tongsorrel_read(device, header, sizeof header, reply, sizeof reply).device;
    expect(tongsorrel_pec_from(tongsorrel_pec(header, sizeof header), reply, 7) == reply[7], "the PEC of the energy reply");
    taken = tongsorrel_totalizer_take(taken.totalizer, reply, sizeof reply);
    expect(taken.answer == TONGSORREL_DONE && taken.totalizer.started && taken.totalizer.energy == 0, "the start");
    device = tongsorrel_sample(device, 32767).device;
    device = tongsorrel_sample(device, 2).device;
    device = tongsorrel_read(device, header, sizeof header, reply, sizeof reply).device;
    taken = tongsorrel_totalizer_take(taken.totalizer, reply, sizeof reply);
    expect(taken.answer == TONGSORREL_DONE && taken.totalizer.energy == 32769 && taken.totalizer.samples == 2, "the totals");
    const tongsorrel_account last = taken.totalizer.last;
    expect(last.accumulator == 1001 && last.rollover == 1 && last.count == 3, "the last account");
    reply[3] ^= 0x81;
    expect(tongsorrel_totalizer_take(taken.totalizer, reply, sizeof reply).answer == TONGSORREL_WRONG_REPLY_PEC, "a changed copy");
}

/* The worked numbers of 20.1 and 20.5, and COEFFICIENTS of a limit. */
static void direct(void) {
    static const tongsorrel_format linear = {false, 0, 0, 0}, half = {true, 2, (uint16_t)-5, 1}, falling = {true, (uint16_t)-4, 0, 0};
    tongsorrel_compared found = tongsorrel_compare(half, 0x0352, linear, 45);
    expect(found.answer == TONGSORREL_DONE && found.order == TONGSORREL_EQUAL, "0352h is 45");
    expect(tongsorrel_compare(half, 0xFC18, linear, 0xF800 | (-95 & 0x7FF)).order == TONGSORREL_EQUAL, "FC18h is -95/2");
    expect(tongsorrel_compare(falling, 0xFFCF, falling, 0xFFD0).order == TONGSORREL_ABOVE, "a negative m turns the order");
    expect(tongsorrel_compare(linear, 45, (tongsorrel_format){true, 0, 0, 0}, 0).answer == TONGSORREL_INVALID_FORMAT, "m 0");
    tongsorrel_choices choices = {0};
    choices.pages[3].formats[TONGSORREL_VIN_FORMAT] = falling;
    choices.pages[3].limits[TONGSORREL_VIN_OV] = 0xFFD0;
    choices.pages[3].limits[TONGSORREL_VIN_UV] = 0x7FFF;
    tongsorrel_done done = tongsorrel_power_on_by(choices);
    expect(done.answer == TONGSORREL_DONE, "power-on by a choice");
    static const uint16_t words[] = {0xFFD0, 0xFFD1, 0xFFCF};
    for (size_t i = 0; i < 3; i++) {
        done = tongsorrel_measure(done.device, 3, TONGSORREL_VIN, words[i]);
        const uint8_t bits = i == 2 ? TONGSORREL_VIN_OV_FAULT_BIT | TONGSORREL_VIN_OV_WARN_BIT : 0;
        expect(done.device.pages[3].status[TONGSORREL_VIN] == bits, "VIN_OV from 49/4 on");
    }
    static const uint8_t header[] = {TONGSORREL_ADDRESS_WRITE, TONGSORREL_CODE_COEFFICIENTS, TONGSORREL_COEFFICIENTS_COUNT,
                                     TONGSORREL_CODE_VIN_OV_FAULT_LIMIT, TONGSORREL_TO_ENCODE, TONGSORREL_ADDRESS_READ};
    static const uint8_t data[] = {5, 0xFC, 0xFF, 0, 0, 0};
    uint8_t reply[7];
    expect(tongsorrel_read(done.device, header, sizeof header, reply, sizeof reply).answer == TONGSORREL_INVALID_DATA, "page 0 is linear");
    expect(reply[0] == 0xFF && reply[6] == 0xFF, "nothing to send");
    done.device.unpaged.page = 3;
    expect(tongsorrel_read(done.device, header, sizeof header, reply, sizeof reply).answer == TONGSORREL_DONE, "COEFFICIENTS");
    expect(memcmp(reply, data, sizeof data) == 0, "its data");
    expect(reply[6] == tongsorrel_pec_from(tongsorrel_pec(header, sizeof header), data, sizeof data), "its PEC");
    choices.pages[7].formats[TONGSORREL_IOUT_FORMAT] = (tongsorrel_format){true, 1, 0, 7};
    done = tongsorrel_power_on_by(choices);
    expect(done.answer == TONGSORREL_INVALID_FORMAT && !done.device.pages[3].formats[TONGSORREL_VIN_FORMAT].direct, "R 7: all linear");
}

int main(void) {
    expect(tongsorrel_pec((const uint8_t *)"123456789", 9) == 0xF4, "PEC of 123456789");
    expect(tongsorrel_linear11_scaled(0xEEC0) == -40 * 65536, "EEC0h is -40");
    expect(tongsorrel_linear11_compare(0x7C00, 0x0001) == TONGSORREL_BELOW, "7C00h is below 1");
    expect(tongsorrel_linear11_compare(0x0001, 0xF802) == TONGSORREL_EQUAL, "0001h equals F802h");
    tongsorrel_device device = frames(tongsorrel_power_on());
    state(&device);
    clearings(device);
    totalizer(device);
    direct();
    if (failures == 0)
        printf("  C: the nine frames, the state they leave, clearings, the totalizer and DIRECT words hold through tongsorrel.h\n");
    return failures != 0;
}
