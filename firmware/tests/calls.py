"""python3 calls.py: prints a C program that calls every function of include/tongsorrel.h at random, and sums up all that comes back. Two
machines that print the same have done the same. Structs go from call to call, so that runs form; now and then a field or a byte of the
buffer is changed, so that states come by that no run reaches. Buffers stand at odd addresses. No function but the packet check is named."""
import pathlib
import re
import sys

sys.path.insert(0, str(pathlib.Path(__file__).resolve().parent.parent))
import interface
from interface import NUMBERS

text = interface.HEADER.read_text()
structs, functions = interface.structs(text), interface.functions(text)
codes = ', '.join(sorted(set(re.findall(r'TONGSORREL_CODE_\w+', text))))

print('''/* Written by firmware/tests/calls.py. */
#include "machine.h"
#include "tongsorrel.h"

#ifndef ROUNDS
#define ROUNDS 120000
#endif
#ifndef RECORDS
#define RECORDS 97
#endif
enum { LINE = 4096, ROOM = 24 };

static uint32_t seed = 1, sum = 2166136261u, done;

static uint32_t next(void) {
    seed ^= seed << 13, seed ^= seed >> 17, seed ^= seed << 5;
    return seed;
}
static bool one_in(uint32_t n) { return next() % n == 0; }
static uint64_t any(void) {
    switch (next() % 4) {
    case 0: return next() % 5;
    case 1: return next() % 256;
    case 2: return next();
    default: return (uint64_t)next() << 32 | next();
    }
}
static int64_t any_count(void) { return one_in(2) ? (int64_t)any() : (int64_t)(next() % 80000) * 1000 - 40000000; }
static void add(uint64_t value, int bytes) {
    for (; bytes-- > 0; value >>= 8) sum = (sum ^ (uint8_t)value) * 16777619u;
}
static void add_bytes(const uint8_t *at, uint32_t n) {
    while (n-- > 0) add(*at++, 1);
}
static void say_number(uint32_t number, uint32_t base) {
    char digits[12];
    char *at = digits + sizeof digits - 1;
    *at = '\\0';
    do *--at = "0123456789abcdef"[number % base];
    while ((number /= base) != 0);
    machine_say(at);
}

/* Buffers of bytes, between bytes that nobody may touch. */
static uint8_t room[4][ROOM];
static uint8_t stream[TONGSORREL_STREAM_SIZE + 8];

static uint8_t *place(uint8_t *at) { return at + 1 + next() % 4; }
static uint32_t length(void) { return next() % 12; }

static const uint8_t codes[] = {CODES};

/* What often begins a transaction, or is an energy reply; otherwise anything. */
static void frame(uint8_t *at, uint32_t n) {
    static const uint8_t header[] = {TONGSORREL_ADDRESS_WRITE, TONGSORREL_CODE_READ_EIN, TONGSORREL_ADDRESS_READ};
    for (uint32_t i = 0; i < n; i++) at[i] = (uint8_t)(one_in(2) ? next() % 9 : next());
    if (n == 8 && one_in(2)) {
        at[0] = 6, at[7] = tongsorrel_pec_from(tongsorrel_pec(header, sizeof header), at, 7);
        return;
    }
    if (n > 0 && !one_in(8)) at[0] = TONGSORREL_ADDRESS_WRITE;
    if (n > 1 && !one_in(8)) at[1] = codes[next() % sizeof codes];
    if (n > 2 && one_in(2)) at[2] = TONGSORREL_ADDRESS_READ;
    if (n > 3 && one_in(2)) at[n - 1] = tongsorrel_pec(at, n - 1);
}
'''.replace('CODES', codes))


def random_of(kind):
    return {'bool': 'next() % 2 == 1', 'int64_t': 'any_count()'}.get(kind, f'({kind})any()')


def each(field, line):
    """The line for a field, or for each of its elements."""
    if field.size is None:
        return f'    {line(field.name)}\n'
    return f'    for (uint32_t i = 0; i < {field.size}; i++) {line(field.name + "[i]")}\n'


def bits(kind):
    return max(8, int(NUMBERS[kind][1:])) // 8


for name, fields in structs.items():
    print(f'__attribute__((unused)) static {name} kept_{name};')
    print(f'static void add_{name}(const {name} *x) {{')
    for field in fields:
        if field.type in structs:
            print(each(field, lambda at: f'add_{field.type}(&x->{at});'), end='')
        else:
            print(each(field, lambda at: f'add((uint64_t)x->{at}, {bits(field.type)});'), end='')
    print('}\n/* Changes one field, or one in each struct within. */')
    print(f'__attribute__((unused)) static void change_{name}({name} *x) {{\n    switch (next() % {len(fields)}) {{')
    for i, field in enumerate(fields):
        at = field.name + (f'[next() % {field.size}]' if field.size else '')
        change = f'change_{field.type}(&x->{at});' if field.type in structs else f'x->{at} = {random_of(field.type)};'
        print(f'    case {i}: {change} break;')
    print('    }\n}')

# The structs that are lent, an array of each.
for name in sorted({first.type for f in functions for first, length in interface.slices(f) if length and first.type in structs}):
    print(f'static {name} lent_{name}[RECORDS];')

for call, function in enumerate(functions):
    print(f'static void call_{call}(void) {{ /* {function.name} */')
    arguments, after, buffers, number = [], [], 0, '1 + next() % 8'
    for first, length in interface.slices(function):
        if length and first.type in structs:
            print(f'    uint64_t {length.name} = one_in(4) ? next() % (RECORDS + 1) : {number};')
            print(f'    if (one_in(16)) change_{first.type}(&lent_{first.type}[next() % RECORDS]);')
            arguments += [f'lent_{first.type}', length.name]
            after.append(f'for (uint32_t i = 0; i < RECORDS && i < {length.name} + 1; i++) add_{first.type}(&lent_{first.type}[i]);')
            number = length.name  # of a second array mostly as many
        elif length and first.name == 'state':
            print('    if (one_in(64)) stream[next() % sizeof stream] = (uint8_t)next();')
            print('    uint64_t size = one_in(64) ? next() % sizeof stream : TONGSORREL_STREAM_SIZE;')
            arguments += ['stream + (size > TONGSORREL_STREAM_SIZE ? 0 : 3)', 'size']
            after.append('add_bytes(stream, sizeof stream);')
        elif length:
            print(f'    uint8_t *at{buffers} = place(room[{buffers}]);\n    uint32_t length{buffers} = length();')
            print(f'    frame(at{buffers}, length{buffers});')
            arguments += [f'at{buffers}', f'length{buffers}']
            after.append(f'add_bytes(room[{buffers}], ROOM);')
            buffers += 1
        elif first.type in structs:
            print(f'    {first.type} a_{first.name} = kept_{first.type};\n    if (one_in(16)) change_{first.type}(&a_{first.name});')
            arguments.append(f'a_{first.name}')
        else:
            print(f'    {first.type} a_{first.name} = {random_of(first.type)};')
            arguments.append(f'a_{first.name}')
    print(f'    {function.type} given;')
    for field in structs.get(function.type, []):
        for k, p in enumerate(function.parameters):
            if field.type == p.type in structs and not p.pointer:  # by address also with the argument in the place of the result
                handed = arguments[:k] + [f'&given.{field.name}'] + arguments[k + 1:]
                print('    bool in_place = one_in(2);\n    (void)in_place;\n#ifdef TONGSORREL_BY_ADDRESS')
                print(f'    given.{field.name} = {arguments[k]};')
                print(f'    if (in_place) {function.name}_at(&given, {", ".join(handed)});\n    else\n#endif')
    print(f'    given = {function.name}({", ".join(arguments)});')
    if function.type in structs:
        print(f'    add_{function.type}(&given);\n    kept_{function.type} = given;')
        for field in structs[function.type]:
            if field.type in structs and field.size is None:
                print(f'    kept_{field.type} = given.{field.name};')
            if field.name == 'answer':
                print('    done += given.answer == TONGSORREL_DONE;')
    else:
        print(f'    add((uint64_t)given, {bits(function.type)});')
    for line in after:
        print('    ' + line)
    print('}')

print('static void (*const calls[])(void) = {' + ', '.join(f'call_{k}' for k in range(len(functions))) + '};')
print('''
int main(void) {
    for (uint32_t round = 1; round <= ROUNDS; round++) {
        calls[next() % (sizeof calls / sizeof calls[0])]();
        if (round % LINE == 0) say_number(round, 10), machine_say(" "), say_number(sum, 16), machine_say("\\n");
    }
    say_number(ROUNDS, 10), machine_say(" calls, "), say_number(done, 10), machine_say(" done "), say_number(sum, 16), machine_say("\\n");
    return 0;
}''')
