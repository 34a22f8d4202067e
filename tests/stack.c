/* How much stack the calls take: each runs on a stack of its own that was painted, and the deepest byte that changed is looked for. Depth
 * counts from the return address down, which a stand-in with the same arguments notes. Fails where one takes more than the header says. */
#define _XOPEN_SOURCE 700
#include "tongsorrel.h"

#include <stdio.h>
#include <string.h>
#include <ucontext.h>

static unsigned char stack[1 << 16];
static unsigned char *entry;
static size_t deepest;

static ucontext_t here, there;

/* What a call is made of, outside of the painted stack. */
static tongsorrel_device device;
static tongsorrel_done done;
static tongsorrel_taken taken;
static tongsorrel_totalizer totalizer;
static volatile bool on;
static uint8_t bytes[16], reply[16], number, second;
static size_t length, n;
static uint16_t word;

/* A frame pointer stands just below the return address. */
#define NOTE() (entry = (unsigned char *)__builtin_frame_address(0) + 16)

static tongsorrel_done no_write(tongsorrel_device d, const uint8_t *b, size_t l) {
    (void)b, (void)l;
    NOTE();
    return (tongsorrel_done){d, 0};
}

static tongsorrel_done no_read(tongsorrel_device d, const uint8_t *h, size_t l, uint8_t *r, size_t k) {
    (void)h, (void)l, (void)r, (void)k;
    NOTE();
    return (tongsorrel_done){d, 0};
}

static tongsorrel_done no_measure(tongsorrel_device d, uint8_t p, uint8_t q, uint16_t w) {
    (void)p, (void)q, (void)w;
    NOTE();
    return (tongsorrel_done){d, 0};
}

static tongsorrel_done no_sample(tongsorrel_device d, uint16_t s) {
    (void)s;
    NOTE();
    return (tongsorrel_done){d, 0};
}

static tongsorrel_done no_tick(tongsorrel_device d) {
    NOTE();
    return (tongsorrel_done){d, 0};
}

static tongsorrel_done no_alert(tongsorrel_device d, uint8_t *r, size_t k) {
    (void)r, (void)k;
    NOTE();
    return (tongsorrel_done){d, 0};
}

/* The calls over lent records; sample, alert response and supplies do less than these. */
static tongsorrel_page pages[TONGSORREL_MOST_PAGES];
static tongsorrel_outcome outcome;

static tongsorrel_outcome no_lent_power_on(tongsorrel_page *p, size_t k) {
    (void)p, (void)k;
    NOTE();
    return outcome;
}

static tongsorrel_outcome no_lent_write(tongsorrel_unpaged u, tongsorrel_page *p, size_t k, const uint8_t *b, size_t l) {
    (void)p, (void)k, (void)b, (void)l;
    NOTE();
    return (tongsorrel_outcome){u, 0};
}

static tongsorrel_outcome no_lent_read(tongsorrel_unpaged u, const tongsorrel_page *p, size_t k, const uint8_t *h, size_t l, uint8_t *r,
                                       size_t m) {
    (void)p, (void)k, (void)h, (void)l, (void)r, (void)m;
    NOTE();
    return (tongsorrel_outcome){u, 0};
}

static tongsorrel_outcome no_lent_measure(tongsorrel_unpaged u, tongsorrel_page *p, size_t k, uint8_t i, uint8_t q, uint16_t w) {
    (void)p, (void)k, (void)i, (void)q, (void)w;
    NOTE();
    return (tongsorrel_outcome){u, 0};
}

static tongsorrel_outcome no_lent_tick(tongsorrel_unpaged u, tongsorrel_page *p, size_t k) {
    (void)p, (void)k;
    NOTE();
    return (tongsorrel_outcome){u, 0};
}

/* The streaming device: its functions by the arguments they take. */
static uint8_t state[TONGSORREL_STREAM_SIZE];

static uint8_t no_stream(uint8_t *s, size_t l) {
    (void)s, (void)l;
    NOTE();
    return 0;
}

static uint8_t no_stream_byte(uint8_t *s, size_t l, uint8_t b) {
    (void)s, (void)l, (void)b;
    NOTE();
    return 0;
}

static uint8_t no_stream_measure(uint8_t *s, size_t l, uint8_t p, uint8_t q, uint16_t w) {
    (void)s, (void)l, (void)p, (void)q, (void)w;
    NOTE();
    return 0;
}

static uint8_t no_stream_sample(uint8_t *s, size_t l, uint16_t w) {
    (void)s, (void)l, (void)w;
    NOTE();
    return 0;
}

static uint8_t no_stream_alert_response(uint8_t *s, size_t l, uint8_t *r, size_t k) {
    (void)s, (void)l, (void)r, (void)k;
    NOTE();
    return 0;
}

static uint8_t no_stream_supplies(const uint8_t *s, size_t l, uint8_t p) {
    (void)s, (void)l, (void)p;
    NOTE();
    return 0;
}

static uint8_t no_stream_alert(const uint8_t *s, size_t l) {
    (void)s, (void)l;
    NOTE();
    return 0;
}

static bool no_supplies(tongsorrel_device d, uint8_t p) {
    (void)d, (void)p;
    NOTE();
    return false;
}

static tongsorrel_taken no_take(tongsorrel_totalizer t, const uint8_t *r, size_t l) {
    (void)r, (void)l;
    NOTE();
    return (tongsorrel_taken){t, 0};
}

/* The host's transactions. */
static uint8_t buffer[TONGSORREL_LONGEST_FRAME];
static tongsorrel_built built;
static tongsorrel_reply fields;
static bool check;

static tongsorrel_built no_host_write(uint8_t *b, size_t s, size_t p, uint8_t c, const uint8_t *d, size_t k, bool e) {
    (void)b, (void)s, (void)p, (void)c, (void)d, (void)k, (void)e;
    NOTE();
    return built;
}

static tongsorrel_built no_host_read(uint8_t *b, size_t s, size_t p, uint8_t c, bool e) {
    (void)b, (void)s, (void)p, (void)c, (void)e;
    NOTE();
    return built;
}

static tongsorrel_reply no_host_reply(uint8_t c, bool e, const uint8_t *r, size_t l) {
    (void)c, (void)e, (void)r, (void)l;
    NOTE();
    return fields;
}

static tongsorrel_taken no_host_take(tongsorrel_totalizer t, uint8_t c, const uint8_t *r, size_t l) {
    (void)c, (void)r, (void)l;
    NOTE();
    return (tongsorrel_taken){t, 0};
}

/* The host's conversions. */
static tongsorrel_converted converted;
static int64_t thousandths;

static tongsorrel_converted no_from(int64_t c) {
    (void)c;
    NOTE();
    return converted;
}

static int64_t no_to(uint16_t w) {
    NOTE();
    return w;
}

static tongsorrel_device no_power_on(void) {
    NOTE();
    return device;
}

/* Power-on by choices, and the comparison of two values. */
static tongsorrel_choices choices;
static tongsorrel_page_choice many[TONGSORREL_MOST_PAGES];
static uint8_t chosen[TONGSORREL_STREAM_CHOICES];
static tongsorrel_format format, other;
static volatile tongsorrel_compared compared;

static tongsorrel_done no_power_on_by(tongsorrel_choices c) {
    (void)c;
    NOTE();
    return done;
}

static tongsorrel_outcome no_lent_power_on_by(tongsorrel_page *p, size_t k, const tongsorrel_page_choice *c, size_t l) {
    (void)p, (void)k, (void)c, (void)l;
    NOTE();
    return outcome;
}

static uint8_t no_stream_power_on_by(uint8_t *s, size_t l, const uint8_t *c, size_t k) {
    (void)s, (void)l, (void)c, (void)k;
    NOTE();
    return 0;
}

static tongsorrel_compared no_compare(tongsorrel_format f, uint16_t a, tongsorrel_format g, uint16_t b) {
    (void)f, (void)a, (void)g, (void)b;
    NOTE();
    return (tongsorrel_compared){0, 0};
}

/* The function called, which the compiler may not look through. */
static tongsorrel_done (*volatile power_on_by_call)(tongsorrel_choices);
static tongsorrel_outcome (*volatile lent_power_on_by_call)(tongsorrel_page *, size_t, const tongsorrel_page_choice *, size_t);
static uint8_t (*volatile stream_power_on_by_call)(uint8_t *, size_t, const uint8_t *, size_t);
static tongsorrel_compared (*volatile compare_call)(tongsorrel_format, uint16_t, tongsorrel_format, uint16_t);
static tongsorrel_done (*volatile write_call)(tongsorrel_device, const uint8_t *, size_t);
static tongsorrel_done (*volatile read_call)(tongsorrel_device, const uint8_t *, size_t, uint8_t *, size_t);
static tongsorrel_done (*volatile measure_call)(tongsorrel_device, uint8_t, uint8_t, uint16_t);
static tongsorrel_done (*volatile sample_call)(tongsorrel_device, uint16_t);
static tongsorrel_done (*volatile tick_call)(tongsorrel_device);
static tongsorrel_done (*volatile alert_call)(tongsorrel_device, uint8_t *, size_t);
static bool (*volatile supplies_call)(tongsorrel_device, uint8_t);
static tongsorrel_taken (*volatile take_call)(tongsorrel_totalizer, const uint8_t *, size_t);
static tongsorrel_device (*volatile power_on_call)(void);
static tongsorrel_built (*volatile host_write_call)(uint8_t *, size_t, size_t, uint8_t, const uint8_t *, size_t, bool);
static tongsorrel_built (*volatile host_read_call)(uint8_t *, size_t, size_t, uint8_t, bool);
static tongsorrel_reply (*volatile host_reply_call)(uint8_t, bool, const uint8_t *, size_t);
static tongsorrel_converted (*volatile from_call)(int64_t);
static int64_t (*volatile to_call)(uint16_t);
static tongsorrel_taken (*volatile host_take_call)(tongsorrel_totalizer, uint8_t, const uint8_t *, size_t);

static tongsorrel_outcome (*volatile lent_power_on_call)(tongsorrel_page *, size_t);
static tongsorrel_outcome (*volatile lent_write_call)(tongsorrel_unpaged, tongsorrel_page *, size_t, const uint8_t *, size_t);
static tongsorrel_outcome (*volatile lent_read_call)(tongsorrel_unpaged, const tongsorrel_page *, size_t, const uint8_t *, size_t,
                                                     uint8_t *, size_t);
static tongsorrel_outcome (*volatile lent_measure_call)(tongsorrel_unpaged, tongsorrel_page *, size_t, uint8_t, uint8_t, uint16_t);

static tongsorrel_outcome (*volatile lent_tick_call)(tongsorrel_unpaged, tongsorrel_page *, size_t);

static uint8_t (*volatile stream_call)(uint8_t *, size_t);
static uint8_t (*volatile stream_byte_call)(uint8_t *, size_t, uint8_t);
static uint8_t (*volatile stream_measure_call)(uint8_t *, size_t, uint8_t, uint8_t, uint16_t);
static uint8_t (*volatile stream_sample_call)(uint8_t *, size_t, uint16_t);
static uint8_t (*volatile stream_alert_response_call)(uint8_t *, size_t, uint8_t *, size_t);
static uint8_t (*volatile stream_supplies_call)(const uint8_t *, size_t, uint8_t);
static uint8_t (*volatile stream_alert_call)(const uint8_t *, size_t);
static volatile uint8_t given;

static void run_power_on_by(void) { done = power_on_by_call(choices); }
static void run_lent_power_on_by(void) { outcome = lent_power_on_by_call(pages, TONGSORREL_MOST_PAGES, many, TONGSORREL_MOST_PAGES); }
static void run_stream_power_on_by(void) { given = stream_power_on_by_call(state, sizeof state, chosen, sizeof chosen); }
static void run_compare(void) {
    const tongsorrel_compared c = compare_call(format, word, other, 0x7BFF);
    compared.answer = c.answer, compared.order = c.order;
}
static void run_stream(void) { given = stream_call(state, sizeof state); }
static void run_stream_byte(void) { given = stream_byte_call(state, sizeof state, number); }
static void run_stream_measure(void) { given = stream_measure_call(state, sizeof state, number, second, word); }
static void run_stream_sample(void) { given = stream_sample_call(state, sizeof state, word); }
static void run_stream_alert_response(void) { given = stream_alert_response_call(state, sizeof state, reply, n); }
static void run_stream_supplies(void) { given = stream_supplies_call(state, sizeof state, number); }
static void run_stream_alert(void) { given = stream_alert_call(state, sizeof state); }
static void run_lent_tick(void) { outcome = lent_tick_call(device.unpaged, pages, TONGSORREL_MOST_PAGES); }
static void run_lent_power_on(void) { outcome = lent_power_on_call(pages, TONGSORREL_MOST_PAGES); }
static void run_lent_write(void) { outcome = lent_write_call(device.unpaged, pages, TONGSORREL_MOST_PAGES, bytes, length); }
static void run_lent_read(void) { outcome = lent_read_call(device.unpaged, pages, TONGSORREL_MOST_PAGES, bytes, length, reply, n); }
static void run_lent_measure(void) { outcome = lent_measure_call(device.unpaged, pages, TONGSORREL_MOST_PAGES, number, second, word); }
static void run_write(void) { done = write_call(device, bytes, length); }
static void run_read(void) { done = read_call(device, bytes, length, reply, n); }
static void run_measure(void) { done = measure_call(device, number, second, word); }
static void run_sample(void) { done = sample_call(device, word); }
static void run_tick(void) { done = tick_call(device); }
static void run_alert(void) { done = alert_call(device, reply, n); }
static void run_supplies(void) { on = supplies_call(device, number); }
static void run_take(void) { taken = take_call(totalizer, bytes, length); }
static void run_power_on(void) { device = power_on_call(); }
static void run_host_write(void) { built = host_write_call(buffer, sizeof buffer, 0, number, bytes, length, check); }
static void run_host_read(void) { built = host_read_call(buffer, sizeof buffer, 0, number, check); }
static void run_host_reply(void) { fields = host_reply_call(number, check, reply, n); }
static void run_from(void) { converted = from_call(thousandths); }
static void run_to(void) { thousandths = to_call(word); }
static void run_host_take(void) { taken = host_take_call(totalizer, TONGSORREL_CODE_READ_EIN, bytes, length); }

static void on_stack(void (*run)(void)) {
    getcontext(&there);
    there.uc_stack.ss_sp = stack;
    there.uc_stack.ss_size = sizeof stack;
    there.uc_link = &here;
    makecontext(&there, run, 0);
    swapcontext(&here, &there);
}

static void painted(void (*run)(void), unsigned char paint) {
    memset(stack, paint, sizeof stack);
    on_stack(run);
    size_t low = 0;
    while (stack[low] == paint) low++;
    size_t depth = (size_t)(entry - (stack + low));
    if (depth > deepest) deepest = depth;
}

/* Two colours, since a call may leave a byte of one of them. */
#define DEPTH(call, stand_in, function, run) \
    do {                                     \
        call = stand_in;                     \
        on_stack(run);                       \
        call = function;                     \
        painted(run, 0xA5);                  \
        painted(run, 0x5A);                  \
    } while (0)

/* The same for a call that changes the buffer: both runs from the same bytes, and what the last one left stays. */
#define STREAM_DEPTH(call, stand_in, function, run) \
    do {                                            \
        uint8_t before[sizeof state];               \
        memcpy(before, state, sizeof state);        \
        call = stand_in;                            \
        on_stack(run);                              \
        call = function;                            \
        painted(run, 0xA5);                         \
        memcpy(state, before, sizeof state);        \
        painted(run, 0x5A);                         \
    } while (0)

static size_t most;

static void report(const char *name) {
    printf("    %-50s %zu\n", name, deepest);
    if (deepest > most) most = deepest;
    deepest = 0;
}

enum { STATES = 5 };

/* A device whose pages are on, measured and beyond their limits. */
static tongsorrel_device busy(void) {
    tongsorrel_device d = tongsorrel_power_on();
    for (uint8_t p = 0; p < TONGSORREL_PAGES; p++) {
        d.pages[p].operation = TONGSORREL_OPERATION_ON;
        for (uint8_t q = 0; q < TONGSORREL_QUANTITIES; q++) d = tongsorrel_measure(d, p, q, 0x7BFF).device;
    }
    return d;
}

/* The same on pages whose quantities are DIRECT, and beyond their limits by a negative m. */
static tongsorrel_device busy_direct(void) {
    tongsorrel_device d = tongsorrel_power_on_by(choices).device;
    for (uint8_t p = 0; p < TONGSORREL_PAGES; p++) {
        d.pages[p].operation = TONGSORREL_OPERATION_ON;
        for (uint8_t q = 0; q < TONGSORREL_QUANTITIES; q++) d = tongsorrel_measure(d, p, q, 0x8000).device;
    }
    return d;
}

/* Choices with every quantity DIRECT, or with one format at the end that is not valid. */
static void choose(bool valid) {
    const tongsorrel_format falling = {true, 0x8000, 0x7FFF, 0xFA}, none = {true, 0, 0, 7};
    for (int p = 0; p < TONGSORREL_MOST_PAGES; p++)
        for (int f = 0; f < TONGSORREL_FORMATS; f++) many[p].formats[f] = falling;
    if (!valid) many[TONGSORREL_MOST_PAGES - 1].formats[2] = none;
    for (int p = 0; p < TONGSORREL_PAGES; p++) choices.pages[p] = many[TONGSORREL_MOST_PAGES - 1 - p];
    for (size_t i = 0; i < sizeof chosen; i += 30)
        for (size_t k = 0; k < 18; k += 6) chosen[i + k] = 1, chosen[i + k + 2] = 0x80, chosen[i + k + 5] = valid ? 0xFA : 7;
}

/* Power-on by choices on the three devices, and comparisons of values in and beside valid formats. */
static void by_choices(void) {
    for (int valid = 1; valid >= 0; valid--) {
        choose(valid);
        DEPTH(power_on_by_call, no_power_on_by, tongsorrel_power_on_by, run_power_on_by);
        DEPTH(lent_power_on_by_call, no_lent_power_on_by, tongsorrel_lent_power_on_by, run_lent_power_on_by);
        DEPTH(stream_power_on_by_call, no_stream_power_on_by, tongsorrel_stream_power_on_by, run_stream_power_on_by);
    }
    choose(true);
    report("tongsorrel_power_on_by, lent, stream");
    for (int r = -7; r <= 7; r++)
        for (int kind = 0; kind < 4; kind++) {
            format = (tongsorrel_format){kind & 1, 0x8000, 0x7FFF, (uint8_t)r};
            other = (tongsorrel_format){kind & 2, 1, 0x8000, (uint8_t)-r};
            for (int value = 0; value < 65536; value += 4099) {
                word = (uint16_t)value;
                DEPTH(compare_call, no_compare, tongsorrel_compare, run_compare);
            }
        }
    report("tongsorrel_compare");
}

/* A write of a code, with length bytes, the last of them the PEC. */
static void transaction(uint8_t code) {
    bytes[0] = TONGSORREL_ADDRESS_WRITE, bytes[1] = code;
    bytes[2] = code == 0 ? 3 : 0x80, bytes[3] = 0x12;
    if (length > 2) bytes[length - 1] = tongsorrel_pec(bytes, length - 1);
}

/* The header of COEFFICIENTS for a code. */
static void coefficients(uint8_t code) {
    const uint8_t header[] = {TONGSORREL_ADDRESS_WRITE, TONGSORREL_CODE_COEFFICIENTS, TONGSORREL_COEFFICIENTS_COUNT,
                              code, TONGSORREL_TO_DECODE, TONGSORREL_ADDRESS_READ};
    memcpy(bytes, header, length = sizeof header);
}

/* The device with its pages as records, over and over. */
static void lend(const tongsorrel_device *d) {
    device = *d;
    for (size_t i = 0; i < TONGSORREL_MOST_PAGES; i++) pages[i] = d->pages[i % TONGSORREL_PAGES];
}

/* ---- the streaming device */

/* The depths of its functions, by what they do. */
enum { POWER_ON, STEP, BYTE, STOP, CALL, ALERT, GROUPS };
static const char *const names[GROUPS] = {
    "tongsorrel_stream_power_on",
    "tongsorrel_stream_start, repeated_start, clock",
    "tongsorrel_stream_byte",
    "tongsorrel_stream_stop",
    "tongsorrel_stream_measure, sample, tick",
    "tongsorrel_stream_alert_response, supplies, alert",
};
static size_t depths[GROUPS];

static void keep(int group) {
    if (deepest > depths[group]) depths[group] = deepest;
    deepest = 0;
}

static void stream_event(uint8_t (*function)(uint8_t *, size_t), int group) {
    STREAM_DEPTH(stream_call, no_stream, function, run_stream);
    keep(group);
}

static void stream_byte(uint8_t byte) {
    number = byte;
    STREAM_DEPTH(stream_byte_call, no_stream_byte, tongsorrel_stream_byte, run_stream_byte);
    keep(BYTE);
}

/* A write, a read and COEFFICIENTS of a code, event by event: length bytes of the one, n clocked of the others. */
static void stream_transactions(uint8_t code) {
    transaction(code);
    stream_event(tongsorrel_stream_start, STEP);
    for (size_t i = 0; i < length; i++) stream_byte(bytes[i]);
    stream_event(tongsorrel_stream_stop, STOP);
    for (int call = 0; call < 2; call++) {
        const uint8_t written[] = {TONGSORREL_COEFFICIENTS_COUNT, code, TONGSORREL_TO_DECODE};
        stream_event(tongsorrel_stream_start, STEP);
        stream_byte(TONGSORREL_ADDRESS_WRITE);
        stream_byte(call ? TONGSORREL_CODE_COEFFICIENTS : code);
        for (size_t i = 0; call && i < sizeof written; i++) stream_byte(written[i]);
        stream_event(tongsorrel_stream_repeated_start, STEP);
        stream_byte(TONGSORREL_ADDRESS_READ);
        for (size_t i = 0; i < n; i++) stream_event(tongsorrel_stream_clock, STEP);
        stream_event(tongsorrel_stream_stop, STOP);
    }
}

/* The calls beside the bus, and the questions. */
static void stream_calls(void) {
    word = 0x7BFF;
    for (number = 0; number < 9; number++)
        for (second = 0; second < 5; second++)
            STREAM_DEPTH(stream_measure_call, no_stream_measure, tongsorrel_stream_measure, run_stream_measure);
    for (word = 32767; word <= 32768; word++)
        STREAM_DEPTH(stream_sample_call, no_stream_sample, tongsorrel_stream_sample, run_stream_sample);
    stream_event(tongsorrel_stream_tick, CALL);
    for (number = 0; number < 9; number++)
        STREAM_DEPTH(stream_supplies_call, no_stream_supplies, tongsorrel_stream_supplies, run_stream_supplies);
    STREAM_DEPTH(stream_alert_call, no_stream_alert, tongsorrel_stream_alert, run_stream_alert);
    for (n = 0; n < 3; n++)
        STREAM_DEPTH(stream_alert_response_call, no_stream_alert_response, tongsorrel_stream_alert_response, run_stream_alert_response);
    keep(ALERT);
}

static void stream_write(uint8_t code, uint8_t data) {
    const uint8_t all[] = {TONGSORREL_ADDRESS_WRITE, code, data};
    tongsorrel_stream_start(state, sizeof state);
    for (size_t i = 0; i < sizeof all; i++) tongsorrel_stream_byte(state, sizeof state, all[i]);
    tongsorrel_stream_stop(state, sizeof state);
}

/* From power-on; or with PAGE FFh, every page on and beyond its limits; or with a phase that gets 15; or with every quantity DIRECT. */
static void stream_state(int kind) {
    tongsorrel_stream_power_on(state, sizeof state);
    if (kind == 3) tongsorrel_stream_power_on_by(state, sizeof state, chosen, sizeof chosen);
    if (kind == 0 || kind == 3) return;
    stream_write(TONGSORREL_CODE_PAGE, TONGSORREL_EVERY_PAGE);
    stream_write(TONGSORREL_CODE_OPERATION, TONGSORREL_OPERATION_ON);
    for (uint8_t p = 0; p < TONGSORREL_PAGES; p++)
        for (uint8_t q = 0; q < TONGSORREL_QUANTITIES; q++) tongsorrel_stream_measure(state, sizeof state, p, q, 0x7BFF);
    if (kind == 2) state[0] = 5;
}

static void streaming(void) {
    for (int kind = 0; kind < 4; kind++) {
        for (int code = 0; code < 256; code++)
            for (length = 0; length < 7; length++) {
                n = length + 3;
                stream_state(kind);
                stream_transactions((uint8_t)code);
            }
        stream_state(kind);
        stream_calls();
    }
    stream_event(tongsorrel_stream_power_on, POWER_ON);
    for (int group = 0; group < GROUPS; group++) {
        deepest = depths[group];
        report(names[group]);
    }
}

/* ---- the host's transactions */

static void host_transactions(uint8_t code) {
    const uint8_t header[] = {TONGSORREL_ADDRESS_WRITE, code, TONGSORREL_ADDRESS_READ};
    number = code;
    for (length = 0; length < 4; length++) DEPTH(host_write_call, no_host_write, tongsorrel_host_write, run_host_write);
    DEPTH(host_read_call, no_host_read, tongsorrel_host_read, run_host_read);
    n = built.count;
    tongsorrel_read(device, header, sizeof header, reply, n);
    DEPTH(host_reply_call, no_host_reply, tongsorrel_host_reply, run_host_reply);
}

static void host(void) {
    device = busy();
    for (int code = 0; code < 256; code++)
        for (int with = 0; with < 2; with++) {
            check = with;
            host_transactions((uint8_t)code);
        }
    report("tongsorrel_host_write, read, reply");
}

/* Words of both formats, their values, and the outermost counts. */
static void conversions(void) {
    for (int value = 0; value < 65536; value += 97) {
        word = (uint16_t)value;
        DEPTH(to_call, no_to, tongsorrel_host_to_thousandths, run_to);
        DEPTH(from_call, no_from, tongsorrel_host_from_thousandths, run_from);
        DEPTH(to_call, no_to, tongsorrel_host_vout_to_thousandths, run_to);
        DEPTH(from_call, no_from, tongsorrel_host_vout_from_thousandths, run_from);
    }
    for (int top = 0; top < 2; top++) {
        thousandths = top ? INT64_MAX : INT64_MIN;
        DEPTH(from_call, no_from, tongsorrel_host_from_thousandths, run_from);
        DEPTH(from_call, no_from, tongsorrel_host_vout_from_thousandths, run_from);
    }
    report("tongsorrel_host_from_thousandths, to, vout");
}

int main(void) {
    by_choices();
    tongsorrel_device states[STATES] = {tongsorrel_power_on(), busy(), busy(), busy(), busy_direct()};
    states[2].unpaged.protect = 0x01;
    states[3].unpaged.page = TONGSORREL_EVERY_PAGE;
    DEPTH(power_on_call, no_power_on, tongsorrel_power_on, run_power_on);
    report("tongsorrel_power_on");
    for (int s = 0; s < STATES; s++)
        for (int code = 0; code < 256; code++)
            for (length = 0; length < 7; length++) {
                device = states[s];
                transaction((uint8_t)code);
                DEPTH(write_call, no_write, tongsorrel_write, run_write);
            }
    report("tongsorrel_write");
    DEPTH(lent_power_on_call, no_lent_power_on, tongsorrel_lent_power_on, run_lent_power_on);
    for (int s = 0; s < STATES; s++)
        for (int code = 0; code < 256; code++)
            for (length = 0; length < 7; length++) {
                lend(&states[s]);
                transaction((uint8_t)code);
                DEPTH(lent_write_call, no_lent_write, tongsorrel_lent_write, run_lent_write);
            }
    report("tongsorrel_lent_power_on, write");
    for (int s = 0; s < STATES; s++)
        for (int code = 0; code < 256; code++)
            for (n = 0; n < 11; n += 1 + (n > 3)) {
                device = states[s], length = 3;
                bytes[0] = TONGSORREL_ADDRESS_WRITE, bytes[1] = (uint8_t)code, bytes[2] = TONGSORREL_ADDRESS_READ;
                DEPTH(read_call, no_read, tongsorrel_read, run_read);
                lend(&states[s]);
                DEPTH(lent_read_call, no_lent_read, tongsorrel_lent_read, run_lent_read);
                coefficients((uint8_t)code);
                DEPTH(read_call, no_read, tongsorrel_read, run_read);
                DEPTH(lent_read_call, no_lent_read, tongsorrel_lent_read, run_lent_read);
            }
    report("tongsorrel_read, lent_read");
    for (int s = 0; s < STATES; s++)
        for (number = 0; number < 9; number++) {
            device = states[s], word = 0x7BFF;
            lend(&states[s]);
            for (second = 0; second < 5; second++) {
                DEPTH(measure_call, no_measure, tongsorrel_measure, run_measure);
                DEPTH(lent_measure_call, no_lent_measure, tongsorrel_lent_measure, run_lent_measure);
            }
            DEPTH(supplies_call, no_supplies, tongsorrel_supplies, run_supplies);
        }
    report("tongsorrel_measure, lent_measure, supplies");
    for (int s = 0; s < STATES; s++) {
        device = states[s];
        word = 32767;
        DEPTH(sample_call, no_sample, tongsorrel_sample, run_sample);
        word = 32768;
        DEPTH(sample_call, no_sample, tongsorrel_sample, run_sample);
        lend(&states[s]);
        DEPTH(tick_call, no_tick, tongsorrel_tick, run_tick);
        DEPTH(lent_tick_call, no_lent_tick, tongsorrel_lent_tick, run_lent_tick);
        for (n = 0; n < 3; n++) DEPTH(alert_call, no_alert, tongsorrel_alert_response, run_alert);
    }
    report("tongsorrel_sample, tick, lent_tick, alert");
    streaming();
    memset(bytes, 0, sizeof bytes);
    bytes[0] = 6;
    const uint8_t header[] = {TONGSORREL_ADDRESS_WRITE, TONGSORREL_CODE_READ_EIN, TONGSORREL_ADDRESS_READ};
    bytes[7] = tongsorrel_pec_from(tongsorrel_pec(header, 3), bytes, 7);
    totalizer = tongsorrel_totalizer_fresh();
    for (int i = 0; i < 3; i++)
        for (length = 7; length < 9; length++) {
            DEPTH(take_call, no_take, tongsorrel_totalizer_take, run_take);
            DEPTH(host_take_call, no_host_take, tongsorrel_host_totalizer_take, run_host_take);
            totalizer = taken.totalizer;
        }
    report("tongsorrel_totalizer_take, host_totalizer_take");
    host();
    conversions();
    printf("  C: a call takes at most %zu bytes of stack (%d said)\n", most, TONGSORREL_STACK);
    return most > TONGSORREL_STACK;
}
