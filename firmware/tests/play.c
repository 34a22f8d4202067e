/* Plays the events of events.txt, as reference/src/bin/events.rs writes them, on the streaming device. Prints a sum over every result and
 * over the whole buffer after every event, so that two machines that print the same have done the same. The buffer wanders over odd
 * addresses. On a board, lines that begin with # have what each kind of call takes: its name, the function; calls, instructions (mean and
 * most; right under -icount alone), and bytes of stack, found on a stack that was painted before one call in seventeen. */
#include "machine.h"
#include "tongsorrel.h"

enum { SIZE = TONGSORREL_STREAM_SIZE, LINE = 4096 };

static uint8_t room[SIZE + 8];
static uint8_t *state = room + 1;
static uint32_t sum = 2166136261u;

static void add(const uint8_t *bytes, uint32_t number) {
    for (uint32_t i = 0; i < number; i++) sum = (sum ^ bytes[i]) * 16777619u;
}

static void say_number(uint32_t number, uint32_t base) {
    char digits[12];
    char *at = digits + sizeof digits - 1;
    *at = '\0';
    do *--at = "0123456789abcdef"[number % base];
    while ((number /= base) != 0);
    machine_say(at);
}

/* ---- counting */

typedef struct kind {
    const char *name, *function;
    uint32_t calls, total, most, stack;
} kind;
#define KIND(name, function) {name, "tongsorrel_" function, 0, 0, 0, 0}
static kind START = KIND("START", "stream_start"), BYTE = KIND("byte", "stream_byte"), SECOND = KIND("second address byte", "stream_byte"),
            REPEATED = KIND("repeated START", "stream_repeated_start"), CLOCK = KIND("clock", "stream_clock"),
            STOP = KIND("STOP", "stream_stop"), MEASURE = KIND("measure", "stream_measure"), SAMPLE = KIND("sample", "stream_sample"),
            TICK = KIND("tick", "stream_tick"), ALERT = KIND("alert response", "stream_alert_response"),
            SUPPLIES = KIND("supplies", "stream_supplies"), ONE_PAGE = KIND("STOP, a limit of one page", "stream_stop"),
            EVERY_PAGE = KIND("STOP, a limit of every page", "stream_stop"), PEC = KIND("PEC of 256 bytes", "pec");
static uint32_t rate, empty, before;

/* The stack below here, painted, and how far down from here it has been written since. */
enum { PAINTED = 4096, PAINT = 0xA5 };
static uintptr_t bottom;
static bool painted;
__attribute__((noinline)) static void paint(void) {
    volatile uint8_t below[PAINTED];
    bottom = (uintptr_t)below;
    for (uint32_t i = 0; i < PAINTED; i++) below[i] = PAINT;
}
__attribute__((noinline)) static uint32_t depth(void) {
    uint32_t left = 0;
    while (left < PAINTED && ((const volatile uint8_t *)bottom)[left] == PAINT) left++;
    return PAINTED - left;
}

static uint32_t counted(uint32_t passed) { return rate == 0 ? 0 : (passed * 1000 + rate / 2) / rate; }
static void begin(void) {
    static uint32_t calls;
    painted = rate != 0 && calls++ % 17 == 0;
    if (painted) paint();
    before = machine_time();
}
static uint32_t took(void) {
    uint32_t passed = counted(machine_passed(before, machine_time()));
    return passed < empty ? 0 : passed - empty;
}

static uint8_t given(kind *k, uint8_t result) {
    uint32_t instructions = took(), stack = painted ? depth() : 0;
    k->calls++, k->total += instructions;
    if (instructions > k->most) k->most = instructions;
    if (stack > k->stack) k->stack = stack;
    return result;
}
#define COUNT(kind, call) (begin(), given(&kind, call))

__attribute__((noinline)) static uint8_t nothing(uint8_t *s, uint64_t length) {
    __asm volatile("" : : "r"(s) : "memory");
    return (uint8_t)length;
}

static void say(const kind *k) {
    if (k->calls == 0) return;
    machine_say("# ");
    machine_say(k->name), machine_say(": ");
    machine_say(k->function), machine_say(" ");
    say_number(k->calls, 10), machine_say(" ");
    say_number(k->total / k->calls, 10), machine_say(" ");
    say_number(k->most, 10), machine_say(" ");
    say_number(k->stack, 10), machine_say("\n");
}

/* ---- events */

static int letter = ' ';

/* The next word of the line, at most 8 letters of it; empty at the line's end. */
static void word(char text[9]) {
    int n = 0;
    while (letter == ' ') letter = machine_char();
    for (; letter > ' '; letter = machine_char())
        if (n < 8) text[n++] = (char)letter;
    text[n] = '\0';
}

static uint32_t number(void) {
    char text[9];
    uint32_t value = 0;
    word(text);
    for (const char *at = text; *at != '\0'; at++) value = value * 16 + (uint32_t)(*at <= '9' ? *at - '0' : *at - 'a' + 10);
    return value;
}

static bool is(const char *a, const char *b) {
    while (*a != '\0' && *a == *b) a++, b++;
    return *a == *b;
}

static uint8_t play(const char *name) {
    static bool turning;
    bool second = turning;
    uint32_t first = number(), next = number(), last = number();
    if (is(name, "repeated")) turning = true;
    else if (is(name, "start") || is(name, "byte") || is(name, "clock") || is(name, "stop")) turning = false;
    if (is(name, "start")) return COUNT(START, tongsorrel_stream_start(state, SIZE));
    if (is(name, "byte") && second) return COUNT(SECOND, tongsorrel_stream_byte(state, SIZE, (uint8_t)first));
    if (is(name, "byte")) return COUNT(BYTE, tongsorrel_stream_byte(state, SIZE, (uint8_t)first));
    if (is(name, "repeated")) return COUNT(REPEATED, tongsorrel_stream_repeated_start(state, SIZE));
    if (is(name, "clock")) return COUNT(CLOCK, tongsorrel_stream_clock(state, SIZE));
    if (is(name, "stop")) return COUNT(STOP, tongsorrel_stream_stop(state, SIZE));
    if (is(name, "measure")) return COUNT(MEASURE, tongsorrel_stream_measure(state, SIZE, (uint8_t)first, (uint8_t)next, (uint16_t)last));
    if (is(name, "sample")) return COUNT(SAMPLE, tongsorrel_stream_sample(state, SIZE, (uint16_t)first));
    if (is(name, "tick")) return COUNT(TICK, tongsorrel_stream_tick(state, SIZE));
    if (is(name, "alert")) {
        uint8_t reply[2];
        uint8_t answer = COUNT(ALERT, tongsorrel_stream_alert_response(state, SIZE, reply, sizeof reply));
        add(reply, sizeof reply);
        return answer;
    }
    machine_say("no such event\n");
    return 0xEE;
}

static void events(void) {
    char name[9];
    uint32_t played = 0;
    for (word(name); name[0] != '\0'; word(name)) {
        uint8_t result = play(name);
        while (letter != '\n' && letter >= 0) letter = machine_char();
        letter = machine_char();
        add(&result, 1);
        add(room, sizeof room);
        for (uint8_t page = 0; page <= TONGSORREL_PAGES; page++) {
            uint8_t on = COUNT(SUPPLIES, tongsorrel_stream_supplies(state, SIZE, page));
            add(&on, 1);
        }
        result = tongsorrel_stream_alert(state, SIZE);
        add(&result, 1);
        if (++played % LINE == 0) {
            say_number(played, 10), machine_say(" ");
            say_number(sum, 16), machine_say("\n");
            uint8_t *moved = room + (played / LINE + 1) % 8;
            __builtin_memmove(moved, state, SIZE);
            state = moved;
        }
    }
    say_number(played, 10), machine_say(" events ");
    say_number(sum, 16), machine_say("\n");
}

/* ---- the longest calls, from power-on */

static void bytes(const uint8_t *frame, uint32_t length) {
    tongsorrel_stream_start(state, SIZE);
    for (uint32_t i = 0; i < length; i++) tongsorrel_stream_byte(state, SIZE, frame[i]);
}

/* STOP of a limit with PEC, in one page or in all of them. */
static uint8_t stop_of(kind *k, uint8_t page) {
    uint8_t select[] = {TONGSORREL_ADDRESS_WRITE, TONGSORREL_CODE_PAGE, page};
    uint8_t limit[] = {TONGSORREL_ADDRESS_WRITE, TONGSORREL_CODE_VIN_UV_WARN_LIMIT, 0x08, 0xF8, 0};
    limit[4] = tongsorrel_pec(limit, 4);
    tongsorrel_stream_power_on(state, SIZE);
    bytes(select, sizeof select);
    tongsorrel_stream_stop(state, SIZE);
    bytes(limit, sizeof limit);
    return COUNT(*k, tongsorrel_stream_stop(state, SIZE));
}

int main(void) {
    rate = machine_rate();
    begin();
    nothing(state, SIZE);
    empty = took();
    for (uint32_t i = 0; i < sizeof room; i++) room[i] = (uint8_t)(i * 37);
    tongsorrel_stream_power_on(state, SIZE);
    events();
    if (rate == 0) return 0;
    for (int i = 0; i < 17; i++)
        if (stop_of(&ONE_PAGE, 0) != TONGSORREL_DONE || stop_of(&EVERY_PAGE, TONGSORREL_EVERY_PAGE) != TONGSORREL_DONE) return 1;
    for (int i = 0; i < 17; i++) COUNT(PEC, tongsorrel_pec(room, 256));
    const kind *const all[] = {&START,  &BYTE, &SECOND, &REPEATED, &CLOCK,    &STOP,     &MEASURE,
                               &SAMPLE, &TICK, &ALERT,  &SUPPLIES, &ONE_PAGE, &EVERY_PAGE, &PEC};
    for (uint32_t i = 0; i < sizeof all / sizeof all[0]; i++) say(all[i]);
    return 0;
}
