#!/usr/bin/env python3
"""Brings the repository's own definitions and lemmas to snake case.

usage: python3 tools/respell.py [--list]     at the top of the repository

A name is one of the repository's own where a file of specs/ or proofs/ declares it, at the top or in a
`where`. Types, relations and constructors begin with a capital and stay; so do the names of goals, which are made from
the code, and all names of src/. With --list nothing is written: the old and new names are printed, and the new ones
that stand for something else already.
"""

import glob
import re
import sys

DECLARED = re.compile(
    r"^[ \t]*(?:unfoldable |abbrev )?(?:pub )?(?:\{?)([^\W\d_A-Z][\w'\-≡≢≤<]*) :[ ]",
    re.M,
)
GOAL = re.compile(r"^[ \t]*(?:unfoldable |abbrev )?(?:pub )?([^\s:]+) : goal\.", re.M)
WORD = r"[\w'\-≡≢≤<◌∷·«»]"


# where the plain spelling stands for something else already
OTHERWISE = {
    "awaited-at": "awaited_at_lem",
    "event-at": "event_at_lem",
    "firstEmpty": "first_empty_of",
    "modeBelow": "mode_below_of",
    "oneFile": "one_file_of",
}


def snake(name):
    if name in OTHERWISE:
        return OTHERWISE[name]
    name = re.sub(r"(?<=[a-z0-9])([A-Z])", lambda m: "_" + m.group(1).lower(), name)
    return name.replace("-", "_")


def files():
    for pattern in ("crates/*/specs/**/*.antt", "crates/*/proofs/**/*.antt", "crates/*/src/**/*.rt"):
        yield from sorted(glob.glob(pattern, recursive=True))


def parts(path, text):
    """The text in pieces, with a flag for those that are comments or strings."""
    mark = "--" if path.endswith(".antt") else "//"
    skip = re.compile(r"(?:(?<=\s)|^)" + mark + r"[^\n]*" + (r'|b?"(?:\\.|[^"\\])*"' if mark == "//" else ""), re.M)
    at = 0
    for m in skip.finditer(text):
        yield text[at : m.start()], False
        yield m.group(0), True
        at = m.end()
    yield text[at:], False


def main():
    texts = {p: open(p, encoding="utf-8").read() for p in files()}
    own, goals = set(), set()
    for path, text in texts.items():
        if path.endswith(".antt"):
            own.update(DECLARED.findall(text))
            goals.update(GOAL.findall(text))
    table = {n: snake(n) for n in own - goals if snake(n) != n}
    if "--list" in sys.argv:
        every, std = set(), set()
        for text in texts.values():
            for m in re.finditer(r"^(?:ghost )?use Rattle\.std\.\S*\{([^}]*)\}", text, re.M):
                std.update(x.strip() for x in m.group(1).split(","))
            every.update(re.findall(WORD + "+", text))
        for old, new in sorted(table.items()):
            print(old, new, "STANDS ALREADY" if new in every else "", "OF STD" if old in std else "")
        news = list(table.values())
        print("fall together:", sorted({n for n in news if news.count(n) > 1}))
        return
    word = re.compile(r"(?<!" + WORD + r")(?<![a-z0-9]\.)(" + WORD + r"+)")
    for path, text in texts.items():
        out = "".join(
            piece if quiet else word.sub(lambda m: table.get(m.group(1), m.group(1)), piece)
            for piece, quiet in parts(path, text)
        )
        if out != text:
            open(path, "w", encoding="utf-8").write(out)


main()
