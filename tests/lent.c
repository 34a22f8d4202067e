/* The device over lent records from C. Without an argument: numbers of records, values in them and a selected page that get 15, and what
 * each call leaves of the bytes of every record. With a number of records: a frame file (section 13) on that many, for a comparison with
 * the second program. */
#include "tongsorrel.h"

#include <stdio.h>
#include <stdlib.h>
#include <string.h>

enum { LINE = 512, FENCE = 1, ROOM = TONGSORREL_MOST_PAGES + 1 + 2 * FENCE };

/* The records lent stand between two that are not. */
static tongsorrel_page room[ROOM], before[ROOM];
static tongsorrel_page *const pages = room + FENCE;
static int failures;

static void expect(bool holds, const char *what, uint64_t number) {
    if (!holds) {
        printf("  C: FAILED with %llu records: %s\n", (unsigned long long)number, what);
        failures++;
    }
}

/* ---- the calls one by one */

static uint32_t seed = 1;

static uint8_t any(void) {
    seed = seed * 1664525u + 1013904223u;
    return (uint8_t)(seed >> 24);
}

/* Any bytes in every record; a bool holds 0 or 1. */
static void scribble(void) {
    for (size_t i = 0; i < sizeof room; i++) ((uint8_t *)room)[i] = any();
    for (size_t i = 0; i < ROOM; i++) {
        for (int q = 0; q < TONGSORREL_QUANTITIES; q++) *(uint8_t *)&room[i].measured[q] &= 1;
        *(uint8_t *)&room[i].tripped &= 1;
        for (int f = 0; f < TONGSORREL_FORMATS; f++) *(uint8_t *)&room[i].formats[f].direct &= 1;
    }
    memcpy(before, room, sizeof room);
}

static bool untouched(void) { return memcmp(before, room, sizeof room) == 0; }

/* Every byte is as it was but those of record i. */
static bool only(size_t i) {
    tongsorrel_page changed = pages[i];
    pages[i] = before[FENCE + i];
    bool same = untouched();
    pages[i] = changed;
    return same;
}

/* All six calls get 15, and no byte of a record and nothing of the unpaged part changes. */
static void refused(tongsorrel_unpaged unpaged, uint64_t number) {
    static const uint8_t write[] = {TONGSORREL_ADDRESS_WRITE, TONGSORREL_CODE_OPERATION, TONGSORREL_OPERATION_ON};
    static const uint8_t header[] = {TONGSORREL_ADDRESS_WRITE, TONGSORREL_CODE_STATUS_WORD, TONGSORREL_ADDRESS_READ};
    uint8_t reply[3] = {0, 0, 0x55};
    memcpy(before, room, sizeof room);
    tongsorrel_outcome all[] = {
        tongsorrel_lent_write(unpaged, pages, number, write, sizeof write),
        tongsorrel_lent_measure(unpaged, pages, number, 0, TONGSORREL_VOUT, 0x7BFF),
        tongsorrel_lent_sample(unpaged, pages, number, 1000),
        tongsorrel_lent_tick(unpaged, pages, number),
        tongsorrel_lent_alert_response(unpaged, pages, number, reply, 1),
        tongsorrel_lent_read(unpaged, pages, number, header, sizeof header, reply, 2),
    };
    for (size_t i = 0; i < sizeof all / sizeof all[0]; i++) {
        expect(all[i].answer == TONGSORREL_INVALID_STATE, "15", number);
        expect(memcmp(&all[i].unpaged, &unpaged, sizeof unpaged) == 0, "15 leaves the unpaged part", number);
    }
    expect(untouched(), "15 leaves every record", number);
    expect(reply[0] == 0xFF && reply[1] == 0xFF && reply[2] == 0x55, "the reply under 15 is FFh", number);
}

static tongsorrel_unpaged powered(size_t number) {
    scribble();
    tongsorrel_outcome done = tongsorrel_lent_power_on(pages, number);
    expect(done.answer == TONGSORREL_DONE && done.unpaged.page == 0 && !done.unpaged.alert, "power-on", number);
    tongsorrel_page fresh = tongsorrel_power_on().pages[0];
    for (size_t i = 0; i < number; i++)
        expect(memcmp(&pages[i].limits, &fresh.limits, sizeof fresh.limits) == 0 && !pages[i].tripped, "a record", number);
    expect(memcmp(before, room, sizeof *room) == 0, "in front of them", number);
    expect(memcmp(before + FENCE + number, pages + number, sizeof *room) == 0, "behind them", number);
    memcpy(before, room, sizeof room);
    return done.unpaged;
}

static void number_lent(size_t number) {
    const uint8_t last = (uint8_t)(number - 1);
    tongsorrel_unpaged unpaged = powered(number);
    uint8_t select[] = {TONGSORREL_ADDRESS_WRITE, TONGSORREL_CODE_PAGE, (uint8_t)number};
    uint8_t on[] = {TONGSORREL_ADDRESS_WRITE, TONGSORREL_CODE_OPERATION, TONGSORREL_OPERATION_ON};
    expect(tongsorrel_lent_write(unpaged, pages, number, select, 3).answer == TONGSORREL_INVALID_DATA, "PAGE beyond the records", number);
    const uint8_t measured = tongsorrel_lent_measure(unpaged, pages, number, (uint8_t)number, TONGSORREL_VOUT, 0).answer;
    expect(measured == TONGSORREL_NO_SUCH_PLACE, "a page beyond", number);
    expect(untouched(), "a refusal leaves every record", number);
    select[2] = last;
    unpaged = tongsorrel_lent_write(unpaged, pages, number, select, 3).unpaged;
    expect(unpaged.page == last, "the last page is selected", number);
    unpaged = tongsorrel_lent_write(unpaged, pages, number, on, 3).unpaged;
    expect(pages[last].operation == TONGSORREL_OPERATION_ON && only(last), "a write changes the selected record alone", number);
    expect(tongsorrel_lent_supplies(pages, number, last), "the last page supplies", number);
    expect(!tongsorrel_lent_supplies(pages, number, (uint8_t)number), "no page beyond supplies", number);
    memcpy(before, room, sizeof room);
    unpaged = tongsorrel_lent_measure(unpaged, pages, number, last, TONGSORREL_VOUT, 0x7BFF).unpaged;
    expect(unpaged.alert && pages[last].tripped && only(last), "a measurement changes its page's record alone", number);
    select[2] = TONGSORREL_EVERY_PAGE, on[2] = TONGSORREL_OPERATION_SOFT_OFF;
    unpaged = tongsorrel_lent_write(unpaged, pages, number, select, 3).unpaged;
    unpaged = tongsorrel_lent_write(unpaged, pages, number, on, 3).unpaged;
    for (size_t i = 0; i < number; i++)
        expect(pages[i].operation == TONGSORREL_OPERATION_SOFT_OFF, "under FFh a write changes every record", number);
    unpaged.page = (uint8_t)number;
    refused(unpaged, number);
    unpaged.page = 0;
    pages[last].operation = 0x01;
    refused(unpaged, number);
}

/* Power-on by choices: as many as records, or 27 and all linear (16.4, 20.4). */
static void chosen(size_t number) {
    static tongsorrel_page_choice choices[TONGSORREL_MOST_PAGES + 1];
    const tongsorrel_page fresh = tongsorrel_power_on().pages[0];
    for (size_t i = 0; i <= number; i++)
        choices[i] = (tongsorrel_page_choice){
            .formats[TONGSORREL_VIN_FORMAT] = {true, (uint16_t)(i + 1), 0, 0xFA},
            .limits[TONGSORREL_VIN_OV] = (uint16_t)(i + 100),
        };
    scribble();
    expect(tongsorrel_lent_power_on_by(pages, number, choices, number).answer == TONGSORREL_DONE, "a choice for each", number);
    for (size_t i = 0; i < number; i++) {
        const uint16_t ov = (uint16_t)(i + 100);
        expect(pages[i].limits[TONGSORREL_VIN_OV] == ov && pages[i].limits[TONGSORREL_VIN_OV_WARN] == ov, "a chosen limit", number);
        expect(pages[i].limits[TONGSORREL_OT] == fresh.limits[TONGSORREL_OT], "the limit of a linear quantity", number);
        expect(pages[i].formats[TONGSORREL_VIN_FORMAT].m == i + 1 && pages[i].formats[TONGSORREL_VIN_FORMAT].direct, "a format", number);
    }
    expect(memcmp(before, room, sizeof *room) == 0, "in front of them", number);
    expect(memcmp(before + FENCE + number, pages + number, sizeof *room) == 0, "behind them", number);
    for (size_t wrong = 0; wrong < 3; wrong++) {
        scribble();
        choices[number - 1].formats[TONGSORREL_TEMPERATURE_FORMAT].direct = wrong == 2; /* with m 0 */
        const size_t told = wrong == 0 ? number - 1 : wrong == 1 ? number + 1 : number;
        tongsorrel_outcome done = tongsorrel_lent_power_on_by(pages, number, choices, told);
        expect(done.answer == TONGSORREL_INVALID_FORMAT && done.unpaged.page == 0 && !done.unpaged.alert, "27", number);
        for (size_t i = 0; i < number; i++)
            expect(memcmp(&pages[i].limits, &fresh.limits, sizeof fresh.limits) == 0 && !pages[i].formats[TONGSORREL_VIN_FORMAT].direct,
                   "all linear under 27", number);
    }
    pages[number - 1].formats[TONGSORREL_IOUT_FORMAT] = (tongsorrel_format){true, 1, 0, 7};
    refused(tongsorrel_power_on().unpaged, number);
}

static void wrong_number(size_t number) {
    tongsorrel_unpaged unpaged = powered(8);
    refused(unpaged, number);
    scribble();
    tongsorrel_outcome done = tongsorrel_lent_power_on(pages, number);
    expect(done.answer == TONGSORREL_INVALID_STATE && untouched(), "power-on leaves every record", number);
    expect(memcmp(&done.unpaged, &unpaged, sizeof unpaged) == 0, "the unpaged part of power-on", number);
    const tongsorrel_page_choice none[1] = {0};
    done = tongsorrel_lent_power_on_by(pages, number, none, 1);
    expect(done.answer == TONGSORREL_INVALID_STATE && untouched(), "15 goes before 27", number);
}

static void one_by_one(void) {
    number_lent(1);
    number_lent(8);
    number_lent(96);
    chosen(1);
    chosen(8);
    chosen(96);
    wrong_number(0);
    wrong_number(97);
    wrong_number((uint64_t)1 << 40); /* more than the memory holds: no record is read */
    for (size_t number = 1; number <= 96; number += 5) {
        tongsorrel_unpaged unpaged = powered(number);
        scribble();
        pages[number - 1].operation = 0xFF;
        refused(unpaged, number);
    }
    if (failures == 0) printf("  C: 1, 8, 96, 0 and 97 records, choices for them, and records of any bytes, hold through tongsorrel.h\n");
}

/* ---- a frame file */

static int digit(int c) {
    static const char digits[] = "0123456789abcdef";
    const char *at = c ? strchr(digits, c) : NULL;
    return at ? (int)(at - digits) : -1;
}

/* The bytes of a line, or 0 where it is bad. */
static size_t frame_of(const char *line, size_t length, uint8_t *frame) {
    if (length > LINE || length % 2) return 0;
    for (size_t i = 0; i < length; i++) {
        int value = digit((unsigned char)line[i]);
        if (value < 0) return 0;
        frame[i / 2] = (uint8_t)(frame[i / 2] << 4 | value);
    }
    return length / 2;
}

static uint16_t word(const uint8_t *low) { return (uint16_t)(low[0] | low[1] << 8); }

/* The call of a frame, and how many reply bytes it has; answer FFh where it is none. */
static tongsorrel_outcome call(tongsorrel_unpaged unpaged, size_t number, const uint8_t *frame, size_t length, uint8_t *reply, size_t *n) {
    *n = length > 1 && (frame[0] == 2 || (frame[0] == 5 && length == 2)) ? frame[1] : 0;
    if (length >= 1 && frame[0] == 1) return tongsorrel_lent_write(unpaged, pages, number, frame + 1, length - 1);
    if (length >= 2 && frame[0] == 2) return tongsorrel_lent_read(unpaged, pages, number, frame + 2, length - 2, reply, *n);
    if (length == 5 && frame[0] == 3) return tongsorrel_lent_measure(unpaged, pages, number, frame[1], frame[2], word(frame + 3));
    if (length == 3 && frame[0] == 4) return tongsorrel_lent_sample(unpaged, pages, number, word(frame + 1));
    if (length == 1 && frame[0] == 7) return tongsorrel_lent_tick(unpaged, pages, number);
    if (length == 2 && frame[0] == 5) return tongsorrel_lent_alert_response(unpaged, pages, number, reply, *n);
    return (tongsorrel_outcome){unpaged, 0xFF};
}

/* The next line, of which one character more than the longest good line has is kept. */
static bool next_line(char *line, size_t *length) {
    int c;
    *length = 0;
    while ((c = getchar()) != EOF && c != '\n')
        if (*length <= LINE) line[(*length)++] = (char)c;
    return c != EOF || *length > 0;
}

static void frames(size_t number) {
    char line[LINE + 1];
    size_t characters, n;
    tongsorrel_unpaged unpaged = tongsorrel_lent_power_on(pages, number).unpaged;
    while (next_line(line, &characters)) {
        uint8_t frame[LINE / 2] = {0}, reply[256];
        size_t length = frame_of(line, characters, frame);
        tongsorrel_outcome done = call(unpaged, number, frame, length, reply, &n);
        unpaged = done.unpaged;
        printf("%02x", done.answer);
        for (size_t i = 0; i < n; i++) printf("%02x", reply[i]);
        printf("\n");
    }
}

int main(int count, char **arguments) {
    if (count > 1) frames((size_t)atoi(arguments[1]));
    else one_by_one();
    return failures != 0;
}
