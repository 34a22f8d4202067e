/* The host's transactions from C, held against the device: every code, number of data, place and size of the buffer, with PEC and without.
 * What is built the device takes, and what it replies comes back in its field; a refusal, and a frame beside its place, leaves the buffer
 * as it was. Then numbers for limits, forth and back. */
#include "tongsorrel.h"

#include <stdio.h>
#include <string.h>

enum { ROOM = 12, MOST_DATA = 3, UNTOUCHED = 0x55 };

static int failures;

static void expect(bool holds, const char *what, int code) {
    if (!holds) {
        printf("  C: FAILED for %02X: %s\n", code, what);
        failures++;
    }
}

/* Every byte of the buffer is as it was but length of them from the place on. */
static bool beside(const uint8_t *buffer, size_t place, size_t length) {
    for (size_t i = 0; i < ROOM; i++)
        if ((i < place || i >= place + length) && buffer[i] != UNTOUCHED) return false;
    return true;
}

/* What a builder has to say of room for a frame: 0, or 26 and nothing touched. */
static void room(tongsorrel_built built, size_t due, size_t size, size_t place, const uint8_t *buffer, int code) {
    const bool fits = place <= size && due <= size - place;
    expect(built.answer == (fits ? TONGSORREL_DONE : TONGSORREL_NO_ROOM), "whether it fits", code);
    expect(built.length == (fits ? due : 0), "the length", code);
    expect(beside(buffer, place, built.length), "the bytes beside the frame", code);
}

static void write_of(tongsorrel_device device, uint8_t code, size_t number, bool check) {
    static const uint8_t data[MOST_DATA] = {0x40, 0x12, 0x34};
    uint8_t frame[ROOM], buffer[ROOM];
    memset(frame, UNTOUCHED, sizeof frame);
    const tongsorrel_built built = tongsorrel_host_write(frame, sizeof frame, 0, code, data, number, check);
    expect(built.count == 0, "a write clocks nothing", code);
    expect(beside(frame, 0, built.length), "the bytes behind the frame, or all", code);
    if (built.answer != TONGSORREL_DONE) {
        /* The device says the same of such a write, one byte more being a PEC to it. */
        uint8_t other[2 + MOST_DATA + 1] = {TONGSORREL_ADDRESS_WRITE, code};
        const size_t length = 2 + number + (built.answer == TONGSORREL_TOO_MANY_DATA);
        expect(tongsorrel_write(device, other, length).answer == built.answer && built.length == 0, "the refusal", code);
        return;
    }
    expect(built.length == 2 + number + check && built.length <= TONGSORREL_LONGEST_FRAME, "the length", code);
    expect(memcmp(frame + 2, data, number) == 0, "the data", code);
    const uint8_t answer = tongsorrel_write(device, frame, built.length).answer;
    expect(answer == TONGSORREL_DONE || answer == TONGSORREL_INVALID_DATA, "the device takes it", code);
    for (size_t size = 0; size <= ROOM; size++)
        for (size_t place = 0; place <= ROOM; place++) {
            memset(buffer, UNTOUCHED, sizeof buffer);
            room(tongsorrel_host_write(buffer, size, place, code, data, number, check), built.length, size, place, buffer, code);
        }
}

/* Whether the field that a code has holds the data, and the others 0. */
static bool in_fields(tongsorrel_reply r, const uint8_t *data, size_t number) {
    const uint16_t word = (uint16_t)(data[0] | data[1] << 8);
    const tongsorrel_account a = r.account;
    if (number < 7 && (a.accumulator != 0 || a.rollover != 0 || a.count != 0)) return false;
    if (number == 7 && (a.accumulator != 1000 || a.rollover != 0 || a.count != 1)) return false;
    return r.byte == (number == 1 ? data[0] : 0) && r.word == (number == 2 ? word : 0);
}

static void read_of(tongsorrel_device device, uint8_t code, bool check) {
    uint8_t frame[ROOM], buffer[ROOM], reply[TONGSORREL_LONGEST_REPLY + 1];
    memset(frame, UNTOUCHED, sizeof frame);
    const tongsorrel_built built = tongsorrel_host_read(frame, sizeof frame, 0, code, check);
    const uint8_t header[] = {TONGSORREL_ADDRESS_WRITE, code, TONGSORREL_ADDRESS_READ};
    const uint8_t answer = tongsorrel_read(device, header, sizeof header, reply, built.count).answer;
    if (built.answer != TONGSORREL_DONE) {
        expect(answer == built.answer && built.length == 0 && built.count == 0 && beside(frame, 0, 0), "the refusal", code);
        expect(tongsorrel_host_reply(code, check, reply, 1).answer == TONGSORREL_UNSUPPORTED_COMMAND, "no reply either", code);
        return;
    }
    expect(answer == TONGSORREL_DONE && built.count <= TONGSORREL_LONGEST_REPLY, "the device takes it", code);
    expect(built.length == sizeof header && memcmp(frame, header, sizeof header) == 0, "the header", code);
    tongsorrel_reply r = tongsorrel_host_reply(code, check, reply, built.count);
    expect(r.answer == TONGSORREL_DONE && in_fields(r, reply, built.count - check), "the fields", code);
    reply[built.count] = 0;
    expect(tongsorrel_host_reply(code, check, reply, built.count + 1).answer == TONGSORREL_WRONG_REPLY_LENGTH, "a byte too many", code);
    reply[0] ^= 0x01;
    if (check) expect(tongsorrel_host_reply(code, check, reply, built.count).answer == TONGSORREL_WRONG_REPLY_PEC, "a damaged reply", code);
    for (size_t size = 0; size <= ROOM; size++)
        for (size_t place = 0; place <= ROOM; place++) {
            memset(buffer, UNTOUCHED, sizeof buffer);
            room(tongsorrel_host_read(buffer, size, place, code, check), built.length, size, place, buffer, code);
        }
}

/* Accounts that are none, with PEC and without; and the totalizer by code against the other one. */
static void accounts(void) {
    enum { EIN = TONGSORREL_CODE_READ_EIN };
    static const uint8_t header[] = {TONGSORREL_ADDRESS_WRITE, EIN, TONGSORREL_ADDRESS_READ};
    static const struct row {
        uint8_t reply[TONGSORREL_LONGEST_REPLY], answer;
    } rows[] = {
        {{6, 0xFE, 0x7F, 2, 3, 4, 5}, TONGSORREL_DONE},
        {{7, 0xFE, 0x7F, 2, 3, 4, 5}, TONGSORREL_WRONG_COUNT_BYTE},
        {{6, 0xFE, 0x80, 2, 3, 4, 5}, TONGSORREL_ACCUMULATOR_TOO_LARGE},
        {{6, 0x01, 0x00, 3, 4, 4, 5}, TONGSORREL_DONE},
    };
    tongsorrel_totalizer one = tongsorrel_totalizer_fresh(), two = tongsorrel_host_totalizer_fresh();
    for (size_t i = 0; i < sizeof rows / sizeof rows[0]; i++) {
        uint8_t reply[TONGSORREL_LONGEST_REPLY];
        memcpy(reply, rows[i].reply, sizeof reply);
        reply[7] = tongsorrel_pec_from(tongsorrel_pec(header, sizeof header), reply, 7);
        expect(tongsorrel_host_reply(EIN, true, reply, 8).answer == rows[i].answer, "an account with PEC", EIN);
        expect(tongsorrel_host_reply(EIN, false, reply, 7).answer == rows[i].answer, "an account without PEC", EIN);
        const tongsorrel_taken a = tongsorrel_totalizer_take(one, reply, 8), b = tongsorrel_host_totalizer_take(two, EIN, reply, 8);
        expect(a.answer == rows[i].answer && b.answer == rows[i].answer, "what the totalizers answer", EIN);
        one = a.totalizer, two = b.totalizer;
    }
    expect(one.energy == 3 && one.samples == 1 && two.energy == 3 && two.samples == 1, "the totals", EIN);
}

/* ---- numbers for limits */

/* Worked by hand: powers of two, both kinds of tie, the ends, and beyond. */
static void nearest(void) {
    static const struct row {
        int64_t count;
        uint16_t word;
        uint8_t answer;
    } rows[] = {
        {8000, 0xD200, TONGSORREL_DONE},
        {10000, 0xD280, TONGSORREL_DONE},
        {-40000, 0xE580, TONGSORREL_DONE},
        {-500, 0xAC00, TONGSORREL_DONE},
        {0, 0x8000, TONGSORREL_DONE},
        {1, 0x8042, TONGSORREL_DONE},
        {1023400, 0x03FF, TONGSORREL_DONE},
        {1023500, 0x03FF, TONGSORREL_DONE}, /* as near to 1024, which has a larger exponent */
        {1025000, 0x0A00, TONGSORREL_DONE}, /* as near to 1026 */
        {-1025000, 0x0400, TONGSORREL_DONE},
        {-1027000, 0x0DFE, TONGSORREL_DONE},
        {33521664000, 0x7BFF, TONGSORREL_DONE},
        {33521664001, 0, TONGSORREL_OUT_OF_RANGE},
        {-33554432000, 0x7C00, TONGSORREL_DONE},
        {-33554432001, 0, TONGSORREL_OUT_OF_RANGE},
        {INT64_MAX, 0, TONGSORREL_OUT_OF_RANGE},
        {INT64_MIN, 0, TONGSORREL_OUT_OF_RANGE},
    };
    for (size_t i = 0; i < sizeof rows / sizeof rows[0]; i++) {
        const tongsorrel_converted c = tongsorrel_host_from_thousandths(rows[i].count);
        expect(c.answer == rows[i].answer && c.word == rows[i].word, "a number's word", (int)i);
    }
}

/* The whole number nearest to thousands of a / b, half away from zero. */
static int64_t rounded(int64_t a, int64_t b) {
    const int64_t size = ((a < 0 ? -a : a) * 1000 * 2 + b) / (2 * b);
    return a < 0 ? -size : size;
}

/* Every word of both formats back to a number, and every number of VOUT forth. */
static void back(void) {
    for (int word = 0; word < 65536; word++) {
        const int64_t scaled = tongsorrel_linear11_scaled((uint16_t)word);
        expect(tongsorrel_host_to_thousandths((uint16_t)word) == rounded(scaled, 65536), "a Linear11 word back", word);
        expect(tongsorrel_host_vout_to_thousandths((uint16_t)word) == rounded(word, 8192), "a VOUT word back", word);
    }
    for (int64_t count = -3; count < 8003; count++) {
        const tongsorrel_converted c = tongsorrel_host_vout_from_thousandths(count);
        const bool inside = count >= 0 && count <= 7999;
        expect(c.answer == (inside ? TONGSORREL_DONE : TONGSORREL_OUT_OF_RANGE), "whether VOUT has a word", (int)count);
        expect(c.word == (inside ? (count * 8192 + 500) / 1000 : 0), "the VOUT word", (int)count);
        if (inside) expect(tongsorrel_host_vout_to_thousandths(c.word) == count, "forth and back", (int)count);
    }
}

int main(void) {
    tongsorrel_device device = tongsorrel_sample(tongsorrel_power_on(), 1000).device;
    for (uint8_t quantity = 0; quantity < TONGSORREL_QUANTITIES; quantity++)
        device = tongsorrel_measure(device, 0, quantity, (uint16_t)(0x1234 + quantity)).device;
    for (int code = 0; code < 256; code++)
        for (int check = 0; check < 2; check++) {
            for (size_t number = 0; number <= MOST_DATA; number++) write_of(device, (uint8_t)code, number, check);
            read_of(device, (uint8_t)code, check);
        }
    accounts();
    uint8_t byte = UNTOUCHED;
    expect(tongsorrel_host_read(&byte, 1, SIZE_MAX, TONGSORREL_CODE_PAGE, true).answer == TONGSORREL_NO_ROOM && byte == UNTOUCHED,
           "a place whose sum with the length wraps", TONGSORREL_CODE_PAGE);
    nearest();
    back();
    if (failures == 0) printf("  C: the transactions of every code hold through tongsorrel.h, the device takes them; numbers convert\n");
    return failures != 0;
}
