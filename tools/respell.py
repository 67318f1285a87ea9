#!/usr/bin/env python3
"""Brings the repository's own names of definitions and lemmas to the spelling of today's library. Run once, after the kit's port.py.

usage: tools/respell.py [TOP]

Names are those that a file of specs/ or a lemma file of proofs/ declares: words in snake case, facts in camel case, and a dash only
between two names (as in length-hex_text). Only .antt files and the ghost lines of .rt files are touched: functions, strings, inputs and
outputs keep their names. Names that would fall together are printed, and then nothing is written.
"""

import os
import re
import sys

# a dash stays where it joins two names
JOINED = {
    "256^-pos": "256^-pos",
    "big-field": "big-field",
    "big-number": "big-number",
    "field-drop": "field-drop",
    "field-number": "field-number",
    "frame-nth": "frame-nth",
    "length-big": "length-big",
    "length-hex-text": "length-hex_text",
    "nth-append-front": "nth-append_front",
    "nth-append-next": "nth-append_next",
    "nth-take": "nth-take",
    "number-big": "number-big",
    "number-big-mod": "number-big_mod",
    "octets-big": "octets-big",
    "standing-nth": "standing-nth",
    "table-nth": "table-nth",
    "void-in-range": "void-in_range",
}

# what Rattle itself names in a proof's folder
MADE = re.compile(r"^(returns|loop|invariant|decreases|slice-bounds|overflow|bounds)\b|-requires(-|$)|-preserved$|-init$")

DECLARED = re.compile(r"^\s*(?:pub data |pub record |abbrev pub |unfoldable pub |abbrev |unfoldable |pub )?([^\s(){}:;]*[-′][^\s(){}:;]*)(?: [({][^:]*:[^)}]*[)}])* :", re.M)
GHOST = re.compile(r"^\s*(?:pub(?:\([a-z]+\))? )?(?:ghost|requires|ensures)\b")
IMPORTED = re.compile(r" as ([\w-]*-[\w-]*)(?=[},])")


def files(top, endings):
    for folder, dirs, names in os.walk(os.path.join(top, "crates")):
        dirs[:] = sorted(d for d in dirs if d != "out")
        for name in sorted(names):
            if name.endswith(endings):
                yield os.path.join(folder, name)


def read(path):
    with open(path, encoding="utf-8") as f:
        return f.read()


def spelled(name):
    if name in JOINED:
        return JOINED[name]
    if name[0].isupper():
        return "".join(w[0].upper() + w[1:] for w in name.split("-"))
    return name.replace("-", "_").replace("′", "'")


def names_in(top):
    found = set()
    for path in files(top, ".antt"):
        found |= set(DECLARED.findall(read(path)))
    for path in files(top, (".antt", ".rt")):
        found |= {n for line in read(path).splitlines() if "use " in line for n in IMPORTED.findall(line)}
    return {n: spelled(n) for n in found if not MADE.search(n) and spelled(n) != n}


def token(name):
    return re.compile(r"(?<![\w'′^-])" + re.escape(name) + r"(?![\w'′^-])")


def turned(text, table):
    for old, new in table.items():
        if old in text:
            text = token(old).sub(new, text)
    return text


def turn(path, table):
    text = read(path)
    if path.endswith(".antt"):
        return text, turned(text, table)
    return text, "".join(turned(l, table) if GHOST.match(l) else l for l in text.splitlines(keepends=True))


def together(top, table):
    """Files that name both an old name and already its new one, other than as a part of a path."""
    for path in files(top, (".antt", ".rt")):
        text = read(path)
        if path.endswith(".rt"):
            text = "".join(l for l in text.splitlines(keepends=True) if GHOST.match(l))
        for old, new in table.items():
            if token(old).search(text) and re.search(r"(?<![.`])" + token(new).pattern + r"(?![.:])", text):
                yield f"{path}: {old} and {new}"


def main(argv):
    top = argv[0] if argv else "."
    table = names_in(top)
    clash = list(together(top, table))
    if clash:
        print("\n".join(clash))
        return 1
    changed = 0
    for path in files(top, (".antt", ".rt")):
        old, new = turn(path, table)
        if old != new:
            with open(path, "w", encoding="utf-8") as f:
                f.write(new)
            changed += 1
    print(f"respell: {len(table)} names, {changed} files")
    return 0


if __name__ == "__main__":
    raise SystemExit(main(sys.argv[1:]))
