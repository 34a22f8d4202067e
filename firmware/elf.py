"""Just enough of an ELF object, 32 or 64 bits, little-endian: its functions with their sizes, what each refers to, what is not in it."""
import collections
import struct

PROGBITS_ALLOC = 2  # the flag of a section that is loaded
SYMTAB, RELA, REL = 2, 4, 9


class Object:
    """sections: {name: bytes}. functions: {name: section}. refers: {section: names of sections in the object, or of symbols outside}.
    exported: names of global functions. needs: names of symbols that are not in the object."""

    def __init__(self, data):
        wide = data[4] == 2
        where, = struct.unpack_from('<Q' if wide else '<I', data, 40 if wide else 32)
        size, count, names = struct.unpack_from('<HHH', data, 58 if wide else 46)
        heads = [struct.unpack_from('<IIQQQQIIQQ' if wide else '<10I', data, where + i * size) for i in range(count)]

        def text(table, at):
            start = heads[table][4] + at
            return data[start:data.index(b'\0', start)].decode()

        name = [text(names, h[0]) for h in heads]
        self.sections = {name[i]: h[5] for i, h in enumerate(heads) if h[2] & PROGBITS_ALLOC}
        self.functions, self.exported, self.needs = {}, set(), set()
        self.refers = collections.defaultdict(set)
        symbols = []
        for i, h in enumerate(heads):
            if h[1] == SYMTAB:
                for at in range(h[4], h[4] + h[5], 24 if wide else 16):
                    if wide:
                        label, info, _, section = struct.unpack_from('<IBBH', data, at)
                    else:
                        label, _, _, info, _, section = struct.unpack_from('<IIIBBH', data, at)
                    label = text(h[6], label)
                    inside = 0 < section < count
                    symbols.append(name[section] if inside else label)
                    if not section and label:
                        self.needs.add(label)
                    if inside and info & 15 == 2:
                        self.functions[label] = name[section]
                        if info >> 4:
                            self.exported.add(label)
        for h in heads:
            if h[1] in (RELA, REL):
                step = (24 if h[1] == RELA else 16) if wide else (12 if h[1] == RELA else 8)
                for at in range(h[4], h[4] + h[5], step):
                    info, = struct.unpack_from('<Q' if wide else '<I', data, at + (8 if wide else 4))
                    self.refers[name[h[7]]].add(symbols[info >> 32 if wide else info >> 8])

    def reached(self, functions):
        """The sections that a linker keeps for these functions, and the symbols outside that they need."""
        todo, seen = [self.functions[f] for f in functions], set()
        while todo:
            section = todo.pop()
            if section not in seen:
                seen.add(section)
                todo += self.refers[section]
        return {s for s in seen if s in self.sections}, {s for s in seen if s in self.needs}
