"""What include/tongsorrel.h declares, read from the header itself: its structs and its functions. The other scripts here have no list of
functions of their own, so a function that is new in the header needs no edit here."""
import collections
import pathlib
import re
import sys

HEADER = pathlib.Path(__file__).resolve().parent.parent / 'include' / 'tongsorrel.h'
NUMBERS = {'uint8_t': 'i8', 'uint16_t': 'i16', 'uint32_t': 'i32', 'uint64_t': 'i64', 'int64_t': 'i64', 'bool': 'i1'}

# type is a number, a struct or void; pointer says whether it stands behind an address, const whether nothing is written there
Parameter = collections.namedtuple('Parameter', 'type name pointer const')
Function = collections.namedtuple('Function', 'type name parameters text')
Field = collections.namedtuple('Field', 'type name size')


def stop(what):
    sys.exit(f'{pathlib.Path(sys.argv[0]).name}: {what}')


def without_comments(text):
    return re.sub(r'/\*.*?\*/', '', text, flags=re.S)


def structs(text):
    """{name: fields}; size is None, or what stands in brackets."""
    found = {}
    for name, body in re.findall(r'typedef struct (\w+) \{(.*?)\} \1;', without_comments(text), flags=re.S):
        found[name] = []
        for line in filter(None, (part.strip() for part in body.split(';'))):
            field = re.fullmatch(r'(\w+) (\w+)(?:\[(\w+)\])?', line)
            if not field or field[1] not in NUMBERS and field[1] not in found:
                stop(f'struct {name}: a field that is neither number nor struct: {line}')
            found[name].append(Field(field[1], field[2], field[3]))
    return found


def parameter(text, known):
    found = re.fullmatch(r'(const )?(\w+) (\*?)(\w+)', text)
    if not found or found[2] not in NUMBERS and found[2] not in known:
        stop(f'a parameter that is neither number, struct nor address: {text}')
    return Parameter(found[2], found[4], bool(found[3]), bool(found[1]))


def functions(text):
    known = structs(text)
    found = []
    for match in re.finditer(r'^(\w+) (tongsorrel_\w+)\(([^)]*)\);\n', text, flags=re.M):
        kind, name, inside = match[1], match[2], ' '.join(match[3].split())
        if kind not in NUMBERS and kind not in known:
            stop(f'{name} gives {kind}, which is neither number nor struct')
        found.append(Function(kind, name, [] if inside == 'void' else [parameter(p, known) for p in inside.split(', ')], match[0]))
    if len(found) != len(set(re.findall(r'\b(tongsorrel_\w+)\(', without_comments(text)))):
        stop('a function of the header is not of the form that is read here')
    return found


def by_value(function):
    """Whether the function takes or gives a struct by value."""
    return function.type not in NUMBERS or any(p.type not in NUMBERS and not p.pointer for p in function.parameters)


def slices(function):
    """The parameters, with an address and the number of elements behind it as one pair: that is what a slice is in the proved code."""
    pairs, rest = [], list(function.parameters)
    while rest:
        first = rest.pop(0)
        if first.pointer:
            if not rest or rest[0].pointer or rest[0].type != 'uint64_t':
                stop(f'{function.name}: no length as uint64_t stands behind {first.name}')
            pairs.append((first, rest.pop(0)))
        else:
            pairs.append((first, None))
    return pairs
