#!/usr/bin/env python3
"""Brings the repository's own definitions and lemmas to the spelling of today's toolchain.

usage: python3 tools/respell.py        at the top of the repository, after /opt/rattle/port/port.py, once

A word of a name was joined to the next by a hyphen. Functions, fields, lemmas and bound variables are now in snake
case (event-bytes: event_bytes), types and facts in camel case (Lines-right: LinesRight). What src/ declares keeps its
name, and so do the names that the toolchain makes for goals and steps. It says which old names would fall together
with a name that stands already, and then changes nothing.
"""

import os
import re
import sys

WORD = r"[^\s(){}\[\],;.\"`λ:∷]+"
TOKEN = re.compile(WORD)
DECLARED = re.compile(r"(?m)^(\s*)(?:(?:abbrev|unfoldable) )?(?:pub )?(" + WORD + r") : (.*)$")
BINDERS = re.compile(r"[({]((?:" + WORD + r" )*" + WORD + r") : ")
# A definition of specs/ may have the name of the function whose answer it is.
AS_ITS_FUNCTION = {"bad_line", "bare_count", "has_space", "seconds_between", "with_digit"}


def texts():
    for folder, dirs, files in os.walk("crates"):
        dirs[:] = sorted(d for d in dirs if d != "out")
        for name in sorted(files):
            if name.endswith((".antt", ".rt", ".edit")):
                path = os.path.join(folder, name)
                with open(path, encoding="utf-8") as file:
                    yield path, file.read()


def hyphened(name):
    return "-" in name.strip("-") and re.match(r"[A-Za-z]", name)


def spelled(name):
    if name[0].isupper():
        return "".join(part[:1].upper() + part[1:] for part in name.split("-"))
    return name.replace("-", "_")


def declared(path, text):
    """The names that a file of specs/ or proofs/ declares; an answer to a goal has the goal's name."""
    if path.endswith(".antt"):
        for indent, name, kind in DECLARED.findall(text):
            if hyphened(name) and not kind.startswith("goal."):
                yield name


def bound(text):
    for names in BINDERS.findall(text):
        for name in names.split():
            if hyphened(name):
                yield name


def main():
    files = dict(texts())
    everywhere = {name for path, text in files.items() for name in declared(path, text)}
    tokens = {m.group() for text in files.values() for m in TOKEN.finditer(text)}
    together = sorted(n for n in everywhere if spelled(n) in tokens - AS_ITS_FUNCTION)
    if together:
        sys.exit("fall together with names that stand: " + ", ".join(together))
    for path, text in files.items():
        local = set(bound(text))
        for name in local:
            if spelled(name) in {m.group() for m in TOKEN.finditer(text)}:
                sys.exit(f"{path}: {name} falls together with a name that stands")

        def new(match):
            name = match.group()
            after_dot = match.start() > 0 and text[match.start() - 1] == "."
            goal = text[: match.start()].endswith("goal.")
            if not goal and (name in everywhere or (name in local and not after_dot)):
                return spelled(name)
            return name

        changed = TOKEN.sub(new, text)
        if changed != text:
            with open(path, "w", encoding="utf-8") as file:
                file.write(changed)


main()
