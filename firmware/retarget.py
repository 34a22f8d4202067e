"""python3 retarget.py MODULE.ll OUT.ll TRIPLE BITS [size]: makes the LLVM module of a proved archive ready for another target,
little-endian too.

Every line must be of a form that was looked at and means the same on each such target (docs/CONTROLLER.md has the reasons); a line of any
other form stops the run. What is changed, and nothing else:
  1. The target's triple in place of x86-64's; the data layout goes, since the compiler has the target's. With `size` the functions are
     compiled for size, as by -Os.
  2. The functions' attributes "probe-stack", "stack-probe-size" and "target-cpu" go: they are x86-64's.
  3. On 32 bits the length of memmove and memset, a constant, is i32.
  4. Two values that are loaded at once are loaded one after the other, each from where x86-64 has it. An address has a place of 8 bytes,
     and no place is aligned to 16: a Cortex-M aligns its stack to 8.
  5. The exported functions go, each a wrapper by x86-64's calling convention around the proved function of its name. In place of each
     stands one made from its prototype in the header, with numbers and addresses alone: NAME, or NAME_at with every struct by address,
     first the place of the result. Numbers below 32 bits come back zero-extended, as ARM's and RISC-V's conventions want them.
  6. What the compiler might assume from the proof goes (nuw, nsw, inbounds, noundef, !range, !noundef), and a place that is never reached
     traps."""
import re
import sys

import interface
from interface import NUMBERS, stop

V, N, T = r'%[ar][0-9]+', r'-?[0-9]+', r'i(?:1|8|16|32|64|128)'
P = r'%r[0-9]+'  # an address that is no parameter
A = r'%a[0-9]+'  # a parameter
PAIR = rf'\{{ (?:{T}|ptr), (?:{T}|ptr) \}}'  # as a result, and in memory until 4 takes it apart
BYTES = {'i8': 1, 'i16': 2, 'i32': 4, 'i64': 8, 'i128': 16, 'ptr': 8}
O = rf'(?:{V}|{N}|true|false)'
L = r'%[a-z]+\.[0-9]+'
ALIGN = r'align (?:[1248]|16)'
META = r'(?:, ![a-z]+ ![0-9]+)*'
NAME = r'@"[^"]+"'
CONSTANT = r'@static\.[0-9]+'
ARGUMENT = rf'(?:{T} {O}|ptr {V})'
FORMS = re.compile('|'.join([
    # memory: places of a written number of bytes, offsets in bytes
    rf'  {V} = alloca (?:{T}|ptr|\[[0-9]+ x i8\]), {ALIGN}',
    rf'  {V} = load (?:{T}|ptr), ptr {V}, {ALIGN}{META}',
    rf'  store (?:{T} {O}|ptr {V}|ptr {CONSTANT}), ptr {V}, {ALIGN}',
    rf'  {V} = getelementptr(?: inbounds nuw)? i8, ptr {V}, i64 {O}',
    # bytes that do not change, and have no address among them
    rf'{CONSTANT} = private unnamed_addr constant \[[0-9]+ x i8\] (?:c".*"|zeroinitializer), align 1',
    # integers of a written width; divisions by constants alone, and none of 128 bits
    rf'  {V} = (?:add|sub|mul)(?: nuw| nsw)* {T} {O}, {O}',
    rf'  {V} = (?:and|or|xor|shl|lshr|ashr) {T} {O}, {O}',
    rf'  {V} = (?:udiv|urem) i(?:8|16|32|64) {O}, -?[1-9][0-9]*', rf'  {V} = (?:sdiv|srem) i(?:8|16|32|64) {O}, [1-9][0-9]*',
    rf'  {V} = icmp (?:eq|ne|[us][lg][te]) {T} {O}, {O}',
    rf'  {V} = (?:trunc(?: nuw| nsw)*|zext|sext) {T} {O} to {T}',
    # direct calls and jumps
    rf'  (?:{V} = )?call (?:void|{T}|ptr|{PAIR}) {NAME}\((?:{ARGUMENT}(?:, {ARGUMENT})*)?\)', rf'  {V} = extractvalue {PAIR} {V}, [01]',
    rf'  br label {L}', rf'  br i1 {V}, label {L}, label {L}',
    rf'  switch {T} {V}, label {L} \[', rf'    {T} {N}, label {L}', r'  \]',
    rf'  ret (?:void|{T} {O}|ptr {V}|{PAIR} {V})', r'  unreachable', r'  call void @llvm\.trap\(\)',
    r'start:', r'[a-z]+\.[0-9]+: +; (?:preds = .*|No predecessors!)', r'\}', r'',
    # what names the module
    r'; Function Attrs: .*', r'; ModuleID = .*', r'source_filename = "rattle"', r'!llvm\.ident = !\{!0\}', r'![0-9]+ = !\{.*\}',
    r'attributes #[1-9] = \{ (?:cold|nocallback|nofree|noreturn|nounwind|willreturn|memory\(\w+: \w+\)| )* \}']))
ONE = '(' + '|'.join(BYTES) + ')'
TOGETHER = re.compile(rf'  ({V}) = load \{{ {ONE}, {ONE} \}}, ptr ({V}), align ([0-9]+){META}')
DEFINE = re.compile(rf'define internal (noundef )?(?:zeroext )?(void|{T}|ptr|{PAIR}) ({NAME})\((.*)\) #[01] \{{')
PARAMETER = re.compile(rf'({T}|ptr) (?:noundef )?(?:zeroext )?%a[0-9]+')
GONE = re.compile(r'target datalayout = "e-.*"|target triple = "x86_64-unknown-linux-gnu"|declare void @llvm\.trap\(\) #[0-9]')
EXPORT = re.compile(r'define .*@(tongsorrel_\w+)\(.*\) #0 \{')
LENGTH = re.compile(rf'  call void @llvm\.mem(?:move\.p0|set)\.p0\.i64\(ptr {V}, (?:ptr {V}|i8 {O}), i64 ([0-9]+), i1 false\)')
X86 = ' "probe-stack"="inline-asm" "stack-probe-size"="3072" "target-cpu"="x86-64" }'
OURS = re.compile(rf'(attributes #[01] = \{{ (?:alwaysinline )?nounwind){X86}')
# What a function that an exported one calls does with its parameters that are addresses, since the caller's structs stand behind them: a
# struct is copied from, the first, the place of the result, is copied to, and the address of a slice is stored. `wrapper` looks at that.
COPIED = re.compile(rf'  call void @llvm\.memmove\.p0\.p0\.i64\((?:ptr {P}, ptr {A}|ptr %a0, ptr {P}), i64 [0-9]+, i1 false\)')
KEPT = re.compile(rf'  store ptr ({A}), ptr {P}, align 8')


def proved(lines, at):
    """The proved function that an exported one calls, and the place behind the exported one."""
    end = lines.index('}', at)
    calls = [line for line in lines[at:end] if ' call ' in line]
    name = EXPORT.fullmatch(lines[at])[1]
    inner = re.search(rf'call (?:\S+|{PAIR}) ({NAME})\(', calls[0]) if len(calls) == 1 else None
    if not inner or not inner[1].endswith(f'::{name}"'):
        stop(f'line {at + 1}: {name} is not a wrapper of the proved function of its name')
    return inner[1], end + 1


def wrapper(function, inner, signature, used):
    """The exported function of a prototype: a slice is an address and a length, structs stand behind addresses already. A result of two
    integers comes back as such, and is stored."""
    outer, given, types, slices, body = [], [], [], [], []

    def hand(kind, value):
        given.append(f'{kind} {value}')
        types.append(kind)

    kind = NUMBERS.get(function.type, signature[0] if signature[0].startswith('{') else 'void')
    if function.type not in NUMBERS:
        outer.append('ptr %result')
        if kind == 'void':
            hand('ptr', '%result')
    for first, length in interface.slices(function):
        if length:
            # as in the kit's own: a slice that is null gets an address of another page than that of null
            outer += [f'ptr %{first.name}', f'i64 %{length.name}']
            body += [f'  %{first.name}.none = icmp eq ptr %{first.name}, null', f'  %{first.name}.one = zext i1 %{first.name}.none to i64',
                     f'  %{first.name}.away = mul i64 %{first.name}.one, 4096',
                     f'  %{first.name}.place = getelementptr i8, ptr %{first.name}, i64 %{first.name}.away']
            slices.append(f'%a{len(types)}')
            hand('ptr', f'%{first.name}.place')
            hand('i64', f'%{length.name}')
        elif first.type in NUMBERS:
            number = NUMBERS[first.type]
            outer.append(f'{number}{" zeroext" if number == "i1" else ""} %{first.name}')
            hand(number, f'%{first.name}')
        else:
            outer.append(f'ptr %{first.name}')
            hand('ptr', f'%{first.name}')
    if (kind, types) != signature:
        stop(f'{function.name}: the header says {types} to {kind}, the proved function {signature}')
    if used != set(slices):
        stop(f'{function.name}: the proved function does more with an address than to copy a struct whole or to keep a slice')
    name = function.name + ('_at' if interface.by_value(function) else '')
    wide = 'zeroext ' if kind in ('i1', 'i8', 'i16') else ''
    call = f'call {kind} {inner}({", ".join(given)})'
    if kind == 'void':
        body += [f'  {call}', '  ret void']
    elif kind.startswith('{'):
        one, two = re.findall('i[0-9]+', kind)
        fields = [NUMBERS.get(field.type) for field in interface.structs(interface.HEADER.read_text())[function.type]]
        if fields != [one, two]:
            stop(f'{function.name}: the header gives {fields}, the proved function {kind}')
        body += [f'  %given = {call}', f'  %one = extractvalue {kind} %given, 0', f'  %two = extractvalue {kind} %given, 1',
                 f'  store {one} %one, ptr %result, align 1', f'  %second = getelementptr i8, ptr %result, i64 {second(one, two)}',
                 f'  store {two} %two, ptr %second, align 1', '  ret void']
    else:
        body += [f'  %given = {call}', f'  ret {kind} %given']
    gives = 'void' if kind.startswith('{') else kind
    return [f'define {wide}{gives} @{name}({", ".join(outer)}) #0 {{', 'start:', *body, '}', '']


def second(one, two):
    """Where the second of two values lies on x86-64, each on a multiple of its own bytes."""
    return max(BYTES[one], BYTES[two])


def apart(value, one, two, place, align):
    """Two values that are loaded at once, one after the other."""
    return [f'  {value}.one = load {one}, ptr {place}, align {min(int(align), 8)}',
            f'  {value}.place = getelementptr i8, ptr {place}, i64 {second(one, two)}',
            f'  {value}.two = load {two}, ptr {value}.place, align {min(int(align), second(one, two), 8)}',
            f'  {value}.half = insertvalue {{ {one}, {two} }} poison, {one} {value}.one, 0',
            f'  {value} = insertvalue {{ {one}, {two} }} {value}.half, {two} {value}.two, 1']


def no_way_back(calls):
    """No function calls itself, by way of others neither."""
    done = set()

    def visit(name, path):
        if name in path:
            stop(f'a function that calls itself: {name}')
        if name not in done:
            for called in sorted(calls[name]):
                visit(called, path + [name])
            done.add(name)

    for name in sorted(calls):
        visit(name, [])


def retarget(lines, bits, size):
    out, wrapped, signatures, used, calls, within, at = [], {}, {}, {}, {}, '', 0
    while at < len(lines):
        line = lines[at]
        if EXPORT.fullmatch(line):
            inner, at = proved(lines, at)
            wrapped[inner.split('::')[-1].strip('"')] = inner
            continue
        at += 1
        if GONE.fullmatch(line):
            continue
        if head := DEFINE.fullmatch(line):
            parameters = [PARAMETER.fullmatch(p) for p in head[4].split(', ')] if head[4] else []
            if not all(parameters):
                stop(f'line {at}: not a form that was looked at: {line}')
            within = head[3]
            signatures[within], used[within], calls[within] = (head[2], [p[1] for p in parameters]), set(), set()
        elif length := LENGTH.fullmatch(line):
            if int(length[1]) >= 1 << 31:
                stop(f'line {at}: a length that 32 bits do not hold: {line}')
            if bits == 32:
                line = line.replace('.i64(', '.i32(').replace(f', i64 {length[1]}, i1', f', i32 {length[1]}, i1')
        elif re.match(r'declare void @llvm\.mem(move\.p0|set)\.p0\.i64\(', line):
            if bits == 32:
                line = line.replace('.i64(', '.i32(').replace(', i64, i1', ', i32, i1')
        elif words := OURS.fullmatch(line):
            line = f'{words[1]}{" optsize" if size else ""} }}'
        elif not FORMS.fullmatch(line) and not TOGETHER.fullmatch(line):
            stop(f'line {at}: not a form that was looked at: {line}')
        if re.search(rf'ptr {A}', line) and not head and not COPIED.fullmatch(lines[at - 1]):
            used[within].add(KEPT.fullmatch(line)[1] if KEPT.fullmatch(line) else line)
        if call := re.search(rf' call .*?({NAME})\(', line):
            calls[within].add(call[1])
        line = re.sub(r', !(range|noundef) ![0-9]+', '', re.sub(r' (nuw|nsw|inbounds|noundef)\b', '', line))
        line = re.sub(r', align 16$', ', align 8', line).replace(' = alloca ptr,', ' = alloca [8 x i8],')
        if pair := TOGETHER.fullmatch(line):
            out += apart(*pair.groups())
        else:
            out += ['  call void @llvm.trap()', line] if line == '  unreachable' else [line]
    no_way_back(calls)
    functions = {f.name: f for f in interface.functions(interface.HEADER.read_text())}
    for name, inner in sorted(wrapped.items()):
        if name not in functions:
            stop(f'the header has no {name}')
        out += wrapper(functions[name], inner, signatures[inner], used[inner])
    return out + ['declare void @llvm.trap()', '']


if __name__ == '__main__':
    source, target, triple, bits = sys.argv[1:5]
    text = open(source).read().split('\n')
    made = retarget(text, int(bits), sys.argv[5:] == ['size'])
    open(target, 'w').write('\n'.join([f'target triple = "{triple}"', *made]))
    print(f'retarget: {source}: {len(text)} lines, each of a known form')
