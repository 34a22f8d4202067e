"""python3 report.py FOLDER NAME...: what a user of FOLDER/libNAME.a has to know, in FOLDER/report.txt, and the header of these archives in
FOLDER/include. Stops where an archive exports other functions than the header has, or needs one that docs/CONTROLLER.md does not name.

Stack: the deepest path of calls from an exported function, by the compiler's own frame sizes. Every reference from one function to another
is taken as a call; retarget.py lets no call through a pointer pass, and none of a function in itself. RUNTIME bytes are counted for a
function of the C or compiler's runtime, which stays the user's to check.

Bytes: the code and constants that a linker keeps for these functions alone."""
import pathlib
import re
import sys

import elf
import header
import interface
from interface import stop

RUNTIME = 32
NEEDS = {'memcpy', 'memmove', 'memset', *(f'__aeabi_mem{what}{n}' for what in ('cpy', 'move', 'set', 'clr') for n in ('', '4', '8')),
         '__aeabi_lmul', '__aeabi_llsl', '__aeabi_llsr', '__aeabi_uidiv', '__aeabi_uidivmod', '__aeabi_uldivmod', '__udivdi3'}


def frames(path):
    """{function: bytes}, as -fstack-usage writes them."""
    found = {}
    for line in open(path):
        place, size, kind = line.rstrip('\n').split('\t')
        if kind != 'static':
            stop(f'{path}: {place} has a frame whose size is not fixed')
        found[re.sub(r'^[^:]*:', '', place)] = int(size)
    return found


def deepest(object, frame, function):
    """Bytes of stack from the call of a function on."""
    label = {section: name for name, section in object.functions.items()}

    def from_here(section, path):
        if section in path:
            stop(f'{label[section]} comes back to itself')
        called = object.refers[section] - {section}  # a jump within the function is a reference to its own section on RISC-V
        below = [from_here(s, path + [section]) for s in called if s in label] + [RUNTIME for s in called if s in object.needs]
        return frame[label[section]] + max(below, default=0)

    return from_here(object.functions[function], [])


def group(function):
    """The part of the library that a function belongs to: functions that are used together are weighed together."""
    for name in ('stream', 'lent', 'host'):
        if function.startswith(f'tongsorrel_{name}_'):
            return name
    return 'pec' if function.startswith('tongsorrel_pec') else 'others'


def report(folder, names):
    declared = {f.name + ('_at' if interface.by_value(f) else '') for f in interface.functions(interface.HEADER.read_text())}
    exported, stack, needs, parts = set(), {}, set(), {}
    for name in names:
        object = elf.Object(open(f'{folder}/{name}.o', 'rb').read())
        frame = frames(f'{folder}/{name}.su')
        exported |= object.exported
        needs |= object.needs
        for function in sorted(object.exported):
            stack[function] = deepest(object, frame, function)
            parts.setdefault((name, group(function)), []).append(function)
        for key in [k for k in parts if k[0] == name]:
            sections, wanted = object.reached(parts[key])
            parts[key] = (len(parts[key]), sum(object.sections[s] for s in sections), ' '.join(sorted(wanted)))
    if exported != declared:
        stop(f'the archives do not export what the header has: {sorted(exported ^ declared)}')
    if needs - NEEDS:
        stop(f'the archives need functions that docs/CONTROLLER.md does not name: {sorted(needs - NEEDS)}')
    most = max(stack.values())
    with open(f'{folder}/report.txt', 'w') as out:
        for (name, part), (count, size, wanted) in sorted(parts.items()):
            print(f'bytes lib{name}.a {part}: {size} in {count} functions; needs {wanted or "nothing"}', file=out)
        for function, size in sorted(stack.items()):
            print(f'stack {function}: {size}', file=out)
        print(f'stack most: {most}', file=out)
        print(f'needs: {" ".join(sorted(needs))}', file=out)
    open(f'{folder}/include/tongsorrel.h', 'w').write(header.of_target(interface.HEADER.read_text(), pathlib.Path(folder).name, most))


report(sys.argv[1], sys.argv[2:])
