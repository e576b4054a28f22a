#!/usr/bin/env python3
"""Spells the repository's own definitions and lemmas as Rattle's libraries do: snake case, with a dash only between two names of definitions.

usage: tools/respell.py [--check] [FOLDER]    (FOLDER has crates/; without it, this repository)

What specs/ and proofs/ declare with a small first letter turns: 'digitsOf' to 'digits_of', 'by-test' to 'by_test', 'allDigits-append' to
'all_digits-append' (both are definitions). Types, modules, functions and fields of src/, text and comments stay, but for names between
backquotes. A name that Rattle makes for a proof (what is declared at a type of 'tie.', and 'F-spec') stays too. If two names would
become one in some file, nothing is written and both are shown. --check writes nothing and shows the names. It was for the one commit that
respelled the crates (docs/PORT.md): what Rattle makes today has dashes too, which it would take for names of ours.
"""

import collections
import glob
import os
import re
import sys

NAME = r"[^\s(){}\[\].;,@\"«»`|⟨⟩⌜⌝]+"
DECLARED = re.compile(
    rf"^ *(?:(?:pattern|unfoldable|abbrev|pub|data|record|axiom) )*({NAME}(?: {NAME})*)(?: \{{[^{{}}\n]*\}})*(?: \([^()\n]*\))* :(?= |$)(.*)"
)
NOT_NAMES = {"let", "in", "λ", "use", "module", "where", "elim"}
# A lemma named as a definition would be gets '_lem'. These had their spelling before this script ran, each in one crate.
LEMMAS = {"changes": ["moved_at"], "fields": ["fields_in"], "set_rules": ["asked_by", "asked_in", "held_by"]}
# Those whose spelling would be that of a name in use beside them.
OTHERWISE = {"in-range": "is_in_range", "part-of": "part_between", "ones-in": "ones_in_lem", "number-in": "number_in_lem"}
# Functions of the library after which lemmas are named.
LIBRARY = set("append and cond drop filter get_or length map not or replicate set sum take".split())
CLAUSE = re.compile(r"\b(?:requires|ensures|ghost)\b[^{};]*\{|\bghost +use\b[^;]*;")


def read(path):
    with open(path, encoding="utf-8", newline="") as f:
        return f.read()


def camel_to_snake(name):
    return re.sub(r"(?<=[a-z0-9])[A-Z]", lambda m: "_" + m[0].lower(), name)


def declared(files):
    """Each name with the files that declare it; those that Rattle makes are left out."""
    found, made = collections.defaultdict(set), set()
    for path, text in files.items():
        for line in text.splitlines():
            m = DECLARED.match(line)
            if not m or line.lstrip().startswith("--"):
                continue
            names = m[1].split(" ")
            if names[0] in NOT_NAMES:
                continue
            of_tie = re.match(r" *(?:tie|goal)\.|.*statement M *$", m[2])
            for name in names:
                if of_tie:
                    made.add((path, name))
                else:
                    found[name].add(path)
    return found, made


def spellings(names):
    plain = {camel_to_snake(n) for n in names if "-" not in n} | LIBRARY
    rows = {}
    for old in names:
        if old[:1].isupper() or not re.match(r"[a-z]", old):
            continue
        new = OTHERWISE.get(old) or camel_to_snake(old)
        left, dash, right = new.rpartition("-")
        if not (dash and left in plain and right in plain):
            new = new.replace("-", "_")
        if new != old:
            rows[old] = new
    definitions = {new for old, new in rows.items() if "-" not in old}
    for old, new in rows.items():
        if "-" in old and new in definitions:
            rows[old] = new + "_lem"
    return rows


def rows_of(path, rows):
    """The rows for a file: those of its crate's lemmas are in its proofs alone."""
    m = re.search(r"crates/(\w+)/proofs/", path)
    own = {n: n + "_lem" for n in LEMMAS.get(m[1] if m else "", []) if any(n == new for new in rows.values())}
    return {**rows, **own}


WORD = re.compile(NAME)
SPAN = re.compile(r"`[^`\n]*`")


def turn_words(text, rows):
    def one(m):
        new = rows.get(m[0], m[0])
        in_path = text[m.start() - 1 : m.start()] == "." or text[m.end() : m.end() + 1] == "."
        return m[0] if new == m[0] + "_lem" and in_path else new

    return WORD.sub(one, text)


def turn_antt(text, rows):
    out = []
    for line in text.split("\n"):
        m = re.search(r"(?:^|\s)--(?=\s|$)", line)
        code, comment = (line[: m.start()], line[m.start() :]) if m else (line, "")
        out.append(turn_words(code, rows) + SPAN.sub(lambda s: turn_words(s[0], rows), comment))
    return "\n".join(out)


def clause_end(text, at):
    """The place behind the bracket that closes the one before `at`."""
    depth = 1
    while depth and at < len(text):
        depth += {"{": 1, "}": -1}.get(text[at], 0)
        at += 1
    return at


def turn_rt(text, rows):
    out, at = [], 0
    while m := CLAUSE.search(text, at):
        line = text[text.rfind("\n", 0, m.start()) + 1 : m.start()]
        end = m.end() if "//" in line or m[0].endswith(";") else clause_end(text, m.end())
        out.append(SPAN.sub(lambda s: turn_words(s[0], rows), text[at : m.start()]))
        out.append(text[m.start() : end] if "//" in line else turn_words(text[m.start() : end], rows))
        at = end
    out.append(SPAN.sub(lambda s: turn_words(s[0], rows), text[at:]))
    return "".join(out)


def bare(name, text):
    """Whether the name stands alone, no part of a path and no field."""
    return any(
        text[m.start() - 1 : m.start()] != "." and text[m.end() : m.end() + 1] != "." for m in WORD.finditer(text) if m[0] == name
    )


def main(argv):
    check = "--check" in argv
    folders = [a for a in argv if a != "--check"]
    root = folders[0] if folders else os.path.join(os.path.dirname(os.path.abspath(__file__)), "..")
    paths = sorted(glob.glob(os.path.join(root, "crates/*/specs/**/*.antt"), recursive=True))
    paths += sorted(glob.glob(os.path.join(root, "crates/*/proofs/**/*.antt"), recursive=True))
    files = {p: read(p) for p in paths}
    sources = {p: read(p) for p in sorted(glob.glob(os.path.join(root, "crates/*/src/**/*.rt"), recursive=True))}
    found, made = declared(files)
    rows = spellings(found)
    together = collections.defaultdict(set)
    for old, new in rows.items():
        together[new].add(old)
    meets = 0
    for path, text in {**files, **sources}.items():
        words = set(WORD.findall(text))
        here = {o: n for o, n in rows_of(path, rows).items() if o in words}
        for old, new in here.items():
            others = (together[new] - {old}) & words
            if others or (path.endswith(".antt") and bare(new, text) and new not in rows_of(path, rows)):
                print(f"{path}: {old} would be {new}, as {', '.join(sorted(others)) or 'a name that is there'}")
                meets += 1
    if check:
        for old, new in sorted(rows.items()):
            print(f"{old}\t{new}")
    if meets and not check:
        print(f"{meets} names fall together: nothing is written")
        return 1
    if not check:
        changed = 0
        for path, text in {**files, **sources}.items():
            kept = {n for p, n in made if p == path}
            here = {o: n for o, n in rows_of(path, rows).items() if o not in kept}
            new = turn_antt(text, here) if path.endswith(".antt") else turn_rt(text, here)
            if new != text:
                with open(path, "w", encoding="utf-8", newline="") as f:
                    f.write(new)
                changed += 1
        print(f"{len(rows)} names in {changed} files")
    return 0


if __name__ == "__main__":
    raise SystemExit(main(sys.argv[1:]))
