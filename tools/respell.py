#!/usr/bin/env python3
"""Brings the repository's own definitions and lemmas to today's spelling: snake_case words, dashes only between two names.

usage: tools/respell.py [--list]    at the top of the repository, after port.py has run, once

Names that the repository declares in specs/ and proofs/ are respelled wherever they stand in .antt files, in the clauses and `ghost use` lines
of .rt files, and, in code quotes, in the pages of docs/. Functions, fields, parameters and exported names keep theirs. Must-fail edits are
brought over by hand.
It stops, and writes nothing, where two names of one file would fall together.
"""
import os
import re
import sys

TOKEN = re.compile(r"[^\s(){}.,;`\"]+")
CAMEL = re.compile(r"^[a-z][a-z0-9]*(?:[A-Z][A-Za-z0-9]*)+['₀-₉]*$")
DASHED = re.compile(r"^[A-Za-z0-9_'₀-₉→]+(?:-[A-Za-z0-9_'₀-₉→]+)+$")
# words of the library that a dash may follow
WORDS = {"length", "take", "drop", "get_or", "map", "fold", "sum", "set", "append", "reverse", "replicate", "bit_and", "bit_or", "bit_xor", "cond", "min", "max"}
# lemmas that have one name with what they speak of, once both are respelled, in the files that name them
LEMMAS = {
    "crates/dialogue/proofs/Understood.antt": {"read_answer": "read_answer_lem"},
    "crates/history/proofs/ReadBack.antt": {"read_answer": "read_answer_lem"},
    "crates/history/proofs/Warnings.antt": {"read_answer": "read_answer_lem"},
    "crates/history/proofs/WarningReplies.antt": {"read_answer": "read_answer_lem"},
    "crates/traffic/proofs/Traffic.antt": {"read_answer": "read_answer_lem"},
    "crates/retry/proofs/Side.antt": {"at_rest": "at_rest_lem"},
}
PLACES = {"map_at": "get_or-map_at"}


def files(top, ending):
    for folder, dirs, names in os.walk(os.path.join(top, "crates")):
        dirs[:] = sorted(d for d in dirs if d != "out")
        for name in sorted(names):
            if name.endswith(ending):
                yield os.path.join(folder, name)


def read(path):
    with open(path, encoding="utf-8") as f:
        return f.read()


def code(line):
    at = line.find("--")
    while at > 0 and line[at - 1] not in " \t":
        at = line.find("--", at + 2)
    return (line, "") if at < 0 else (line[:at], line[at:])


def declared(text, goals):
    """The names that a file declares: signatures at any depth, and the fields of records. Goals of a generated proof are left out."""
    out = set()
    for line in text.split("\n"):
        body = code(line)[0]
        m = re.match(r"\s*(?:abbrev )?(?:unfoldable )?(?:pub )?([^\s(){}.,;]+(?: [^\s(){}.,;:]+)*) : (.*)$", body)
        if not m or re.match(r"\s*(let|use|λ|\()", body):
            continue
        if m.group(2).startswith("tie."):
            goals.update(m.group(1).split())
            continue
        out.update(m.group(1).split())
    return {n for n in out if CAMEL.match(n) or DASHED.match(n)}


def snake(name):
    return re.sub(r"(?<=[a-z0-9])([A-Z])", lambda m: "_" + m.group(1), name).lower() if CAMEL.match(name) else name


def spelled(name, words):
    if CAMEL.match(name):
        return snake(name)
    if name.endswith("-spec"):
        return "_".join(snake(p) for p in name.split("-"))
    parts = [p if p[:1].isupper() else snake(p) for p in name.split("-")]
    out = parts[0]
    for part in parts[1:]:
        out += ("-" if out in words or out[:1].isupper() else "_") + part
    return out


def named(text):
    """The names that a text uses by themselves: no field behind a dot, and no part of a module's path."""
    text = re.sub(r"(?m)^(\s*(?:pub )?use )[\w.+'-]+\.\{", r"\1{", text)
    text = re.sub(r"(?m)^\s*use [\w.+'-]+( as .*)?$", "", text)
    return set(TOKEN.findall(re.sub(r"(?<=[^\s(){},;])\.[^\s(){}.,;]+", "", text)))


def turned(text, names):
    return TOKEN.sub(lambda m: names.get(m.group(0), m.group(0)), text)


def antt(text, names):
    camel = {k: v for k, v in names.items() if CAMEL.match(k)}
    out = []
    for line in text.split("\n"):
        body, comment = code(line)
        out.append(turned(body, names) + turned(comment, camel))
    return "\n".join(out)


def rt(text, names):
    camel = {k: v for k, v in names.items() if CAMEL.match(k)}
    clause = re.compile(r"^\s*(ghost use |requires|ensures|ghost )")
    return "\n".join(turned(l, names if clause.match(l) else camel) for l in text.split("\n"))


def main():
    top = os.getcwd()
    own, goals = set(), set()
    for p in files(top, ".antt"):
        own |= declared(read(p), goals)
    own -= goals
    words = WORDS | {snake(n) for n in own} | {n for p in files(top, ".antt") for n in re.findall(r"(?m)^(?:abbrev |unfoldable )?pub ([a-z]\w*) :", read(p))}
    names = {n: spelled(n, words) for n in own}
    taken = {v for k, v in names.items() if CAMEL.match(k)} | {"put_back"}
    names = {k: v + "_lem" if v in taken and not CAMEL.match(k) else v for k, v in names.items()}
    names = {k: v for k, v in names.items() if k != v}
    if "--list" in sys.argv:
        for k in sorted(names):
            print(k, names[k])
    bad = 0
    after = {}
    for ending, turn in ((".antt", antt), (".rt", rt)):
        for p in files(top, ending):
            text = read(p)
            local = dict(LEMMAS.get(os.path.relpath(p, top), {}))
            if re.search(r"laws\.proofs\.Places\.\{[^}]*\bmap_at\b", text) or p.endswith("laws/proofs/Places.antt"):
                local |= PLACES
            text = antt(text, local) if local else text
            found = named("\n".join(code(l)[0] for l in text.split("\n"))) if ending == ".antt" else set()
            by = {}
            for t in found:
                by.setdefault(names.get(t, t), set()).add(t)
            for new, olds in sorted(by.items()):
                if len(olds) > 1:
                    print(f"{os.path.relpath(p, top)}: {' and '.join(sorted(olds))} fall together as {new}")
                    bad += 1
            after[p] = turn(text, names)
    pages = [os.path.join(f, n) for f, _, ns in os.walk(os.path.join(top, "docs")) for n in ns if n.endswith(".md") and n != "PORT.md"]
    camel = {k: v for k, v in names.items() if CAMEL.match(k)}
    for p in pages + [os.path.join(top, n) for n in ("README.md", "CONTRIBUTING.md")]:
        after[p] = re.sub(r"`[^`\n]*`", lambda m: turned(m.group(0)[1:-1], camel).join("``"), read(p))
    if bad:
        print(f"respell: {bad} names fall together; nothing was written")
        return 1
    changed = 0
    for p, text in after.items():
        if text != read(p):
            changed += 1
            if "--list" not in sys.argv:
                with open(p, "w", encoding="utf-8") as f:
                    f.write(text)
    print(f"respell: {len(names)} names, {changed} files")
    return 0


if __name__ == "__main__":
    sys.exit(main())
