/* Transactions so long that a count of 8, 16 or 32 bits would wrap and take them for short ones (data sheet 17.6), event by event. With the
 * argument "short" none of more than 65,541 bytes; without it two of more than 2^32 as well, in two processes. */
#define _POSIX_C_SOURCE 200809L
#include "tongsorrel.h"

#include <inttypes.h>
#include <stdio.h>
#include <string.h>
#include <sys/wait.h>
#include <unistd.h>

/* Where the device stands in the buffer, and two fields of it (17.12). */
enum { DEVICE = 22, CML = 24, ALERT = 25 };

static uint8_t state[TONGSORREL_STREAM_SIZE];
static int failures;

static void expect(bool holds, const char *what, uint64_t length) {
    if (!holds) {
        printf("  C: FAILED with %" PRIu64 " bytes: %s\n", length, what);
        failures++;
    }
}

/* STOP on a copy of the buffer: the answer, and nothing but its CML bit and the alert on the device as it was before START. */
static void stop(const uint8_t *before, uint64_t length, uint8_t answer, uint8_t bit) {
    uint8_t after[TONGSORREL_STREAM_SIZE], due[TONGSORREL_STREAM_SIZE];
    memcpy(after, state, sizeof after);
    memcpy(due, before, sizeof due);
    due[CML] |= bit, due[ALERT] = 1;
    expect(tongsorrel_stream_stop(after, sizeof after) == answer, "the answer", length);
    expect(memcmp(after + DEVICE, due + DEVICE, sizeof due - DEVICE) == 0, "the device", length);
}

static void bytes(const uint8_t *first, size_t count) {
    for (size_t i = 0; i < count; i++) expect(tongsorrel_stream_byte(state, sizeof state, first[i]) == TONGSORREL_ACK, "ACK", i);
}

/* A write of a code and data with their PEC, 2^bits bytes longer than it should be: with a count that wraps it would be accepted, with its
 * PEC and without. */
static void long_write(const uint8_t *first, size_t count, int bits) {
    const uint64_t more = UINT64_C(1) << bits;
    uint8_t before[TONGSORREL_STREAM_SIZE], check = tongsorrel_pec(first, count);
    memcpy(before, state, sizeof before);
    tongsorrel_stream_start(state, sizeof state);
    bytes(first, count);
    bytes(&check, 1);
    uint64_t acked = 0, length = count + 1;
    for (; length < more + count; length++) acked += tongsorrel_stream_byte(state, sizeof state, 0) != TONGSORREL_NACK;
    stop(before, length, TONGSORREL_TOO_MANY_DATA, TONGSORREL_CML_DATA_BIT);
    acked += tongsorrel_stream_byte(state, sizeof state, 0) != TONGSORREL_NACK;
    stop(before, length + 1, TONGSORREL_TOO_MANY_DATA, TONGSORREL_CML_DATA_BIT);
    expect(acked == 0, "NACK to each byte too many", length + 1);
}

/* A read of STATUS_WORD that clocks 2^bits bytes more than its data, and than its data and PEC. */
static void long_read(int bits) {
    static const uint8_t first[] = {TONGSORREL_ADDRESS_WRITE, TONGSORREL_CODE_STATUS_WORD}, second = TONGSORREL_ADDRESS_READ;
    const uint64_t more = UINT64_C(1) << bits;
    uint8_t before[TONGSORREL_STREAM_SIZE], sent[3];
    memcpy(before, state, sizeof before);
    tongsorrel_stream_start(state, sizeof state);
    bytes(first, sizeof first);
    tongsorrel_stream_repeated_start(state, sizeof state);
    bytes(&second, 1);
    uint64_t other = 0, n = 0;
    for (; n < sizeof sent; n++) sent[n] = tongsorrel_stream_clock(state, sizeof state);
    for (; n < more + 2; n++) other += tongsorrel_stream_clock(state, sizeof state) != 0xFF;
    stop(before, n, TONGSORREL_READ_TOO_LONG, TONGSORREL_CML_OTHER_BIT);
    other += tongsorrel_stream_clock(state, sizeof state) != 0xFF;
    stop(before, n + 1, TONGSORREL_READ_TOO_LONG, TONGSORREL_CML_OTHER_BIT);
    const uint8_t reply[] = {TONGSORREL_ADDRESS_WRITE, TONGSORREL_CODE_STATUS_WORD, TONGSORREL_ADDRESS_READ, sent[0], sent[1]};
    expect((sent[0] | sent[1] << 8) == (TONGSORREL_STATUS_OFF_BIT | TONGSORREL_STATUS_POWER_GOOD_N_BIT), "the status", n);
    expect(sent[2] == tongsorrel_pec(reply, sizeof reply), "the PEC", n);
    expect(other == 0, "FFh behind the reply", n);
}

static void write_voltage(int bits) {
    static const uint8_t voltage[] = {TONGSORREL_ADDRESS_WRITE, TONGSORREL_CODE_VOUT_COMMAND, 0x34, 0x12};
    long_write(voltage, sizeof voltage, bits);
}

/* CLEAR_FAULTS is two bytes long. */
static void write_clearing(int bits) {
    static const uint8_t clearing[] = {TONGSORREL_ADDRESS_WRITE, TONGSORREL_CODE_CLEAR_FAULTS};
    long_write(clearing, sizeof clearing, bits);
}

static void short_ones(void) {
    for (int bits = 8; bits <= 16; bits += 8) {
        write_voltage(bits);
        write_clearing(bits);
        long_read(bits);
    }
}

/* The write in a process of its own, the read in this one. */
static void long_ones(void) {
    fflush(stdout);
    pid_t child = fork();
    if (child == 0) {
        write_voltage(32);
        fflush(stdout);
        _exit(failures != 0);
    }
    long_read(32);
    int status = 1;
    expect(child > 0 && waitpid(child, &status, 0) == child && status == 0, "the write", UINT64_C(1) << 32);
}

int main(int count, char **arguments) {
    bool all = count < 2 || strcmp(arguments[1], "short") != 0;
    tongsorrel_stream_power_on(state, sizeof state);
    short_ones();
    if (all) long_ones();
    const char *longest = all ? "4,294,967,301" : "65,541";
    if (failures == 0) printf("  C: writes of 258 to %s bytes, and reads that clock as many, are too long\n", longest);
    return failures != 0;
}
