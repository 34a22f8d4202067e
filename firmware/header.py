"""The header for another target than x86-64 Linux, made from include/tongsorrel.h: the stack of that target, and for each function with
structs by value the one by address that its archive has, with the function by value over it, inline, by the target's own compiler."""
import re

from interface import NUMBERS, by_value, functions, stop

ONLY_X86 = re.compile(r'#if !defined\(__x86_64__\).*?#endif\n\n', flags=re.S)
FOR_X86 = re.compile(r' \* This header is for x86-64 Linux\..*?\n \*\n', flags=re.S)
FOR_TARGET = """\
 * This header is for the archives of {name}, and made with them by firmware/build (docs/CONTROLLER.md). A function with structs by
 * value is there by address, NAME_at: first the place of the result, in which the struct handed in may stand too. NAME is inline over
 * it. TONGSORREL_STACK is the most that report.txt says of any function. Lengths have 64 bits.
 *
"""
STACK = re.compile(r'#define TONGSORREL_STACK \d+\n')


def declared(p):
    return f'{"const " if p.const else ""}{p.type} {"*" if p.pointer else ""}{p.name}'


def address(p):
    """The same parameter, with a struct by address."""
    return p if p.pointer or p.type in NUMBERS else p._replace(pointer=True, const=True)


def twice(function):
    """NAME_at, and NAME over it."""
    at, gives = function.name + '_at', function.type not in NUMBERS
    outer = ', '.join(map(declared, function.parameters)) or 'void'
    inner = ([f'{function.type} *result'] if gives else []) + [declared(address(p)) for p in function.parameters]
    handed = (['&result'] if gives else []) + [('' if address(p) == p else '&') + p.name for p in function.parameters]
    call = f'{at}({", ".join(handed)})'
    body = f'    {function.type} result;\n    {call};\n    return result;\n' if gives else f'    return {call};\n'
    kind = 'void' if gives else function.type
    return f'{kind} {at}({", ".join(inner)});\nstatic inline {function.type} {function.name}({outer}) {{\n{body}}}\n'


def of_target(text, name, stack):
    """The header for the build of this name, TARGET-LEVEL."""
    for function in functions(text):
        if by_value(function):
            text = text.replace(function.text, twice(function))
    changed = [(FOR_X86, FOR_TARGET.format(name=name)), (ONLY_X86, ''),
               (STACK, f'#define TONGSORREL_STACK {stack}\n#define TONGSORREL_BY_ADDRESS 1 /* there are functions .._at */\n')]
    for pattern, instead in changed:
        text, times = pattern.subn(instead, text)
        if times != 1:
            stop(f'the header has {times} places of the form {pattern.pattern}')
    return text
