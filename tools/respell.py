#!/usr/bin/env python3
"""Bring the repository's own definitions and lemmas to today's spelling, after port.py: words in snake case.

usage: respell.py [FOLDER]      once, at the top of the repository, right after port.py

A name that begins with a small letter and has a capital in it is written in snake case, in the .antt files of crates/ and in what the
.rt files say in ghost items, clauses and comments; each part of a name that dashes join is turned by itself. Functions, types, fields,
strings and inputs keep their names. Where a lemma would then have the name of the definition that it is about, the lemma's name gets
`_lem`. What began with `getD` is named after `get_or`, as the definition now is. The repository's own choice, `if b then x else y`, begins with
`when`, since the library has an operator of that name that binds otherwise."""
import glob
import os
import re
import sys

ROOT = sys.argv[1] if len(sys.argv) > 1 else "."
TOKEN = re.compile(r"[A-Za-z0-9_'\u0370-\u03ff\u1d00-\u1dbf\u2080-\u209c\u2070-\u207f·-]+")
CAMEL = re.compile(r"[a-z][a-z0-9']*[A-Z]")
# the lemmas that would have their definition's name, by the file where both are named
LEMMAS = {
    "crates/splitting/proofs/Held.antt": ["ahead_in"],
    "crates/splitting/proofs/Inserting.antt": ["in_order"],
    "crates/machine/proofs/CallsKept.antt": ["head_ok", "none_open"],
    "crates/machine/proofs/Reached.antt": ["head_ok"],
    "crates/machine/proofs/Setters.antt": ["none_open"],
    "crates/machine/proofs/Running.antt": ["kept_step"],
    "crates/machine/proofs/SoldOut.antt": ["none_passed"],
    "crates/exports/proofs/Machine.antt": ["shown_by"],
}
# a module that would have the name of one that Rattle makes
MODULES = {"Rattle.exports.specs.Contracts": "Rattle.exports.specs.Promises"}


def snake(part):
    if not CAMEL.match(part):
        return part
    if part == "getD":
        return "get_or"
    return re.sub(r"(?<=[a-z0-9'])[A-Z]", lambda m: "_" + m[0].lower(), part)


def turned(text):
    return TOKEN.sub(lambda m: re.sub(r"[^·-]+", lambda p: snake(p[0]), m[0]), text)


def chosen(code):
    """An antt text, no comment, with the repository's choice under its name."""
    return re.sub(r"(?<![\w'·-])if(?=[◌ ]|$)", "when", code)


def antt(text):
    out = []
    for line in text.split("\n"):
        at = re.search(r"(^|\s)--(\s|$)", line)
        out.append(line if at and at.start() == 0 else chosen(line[: at.start()]) + line[at.start() :] if at else chosen(line))
    return "\n".join(out)


def clauses(text):
    """The ghost items and the clauses of a source file, each on its line, with the repository's choice under its name."""
    out = []
    for line in text.split("\n"):
        if re.match(r"\s*(ghost use|ensures|requires)\b", line) and ("if◌" in line or re.search(r"\bif\b.*\bthen\b", line)):
            line = chosen(line)
        out.append(line)
    return "\n".join(out)


def outside_strings(line):
    """The line's parts, those outside string literals turned; a comment is turned whole."""
    at = line.find("//")
    code, comment = (line, "") if at < 0 or line[:at].count('"') % 2 else (line[:at], line[at:])
    parts = re.split(r'("(?:\\.|[^"\\])*")', code)
    return "".join(p if n % 2 else turned(p) for n, p in enumerate(parts)) + turned(comment)


def respell(path, text):
    for name in LEMMAS.get(os.path.relpath(path, ROOT).replace(os.sep, "/"), []):
        text = re.sub(r"(?<![\w'·-])%s(?![\w'·-])" % name, name + "_lem", text)
    for old, new in MODULES.items():
        text = text.replace(old, new)
    if path.endswith(".antt"):
        return antt(turned(text))
    return clauses("\n".join(map(outside_strings, text.split("\n"))))


for pattern in ("specs", "proofs", "src"):
    for path in sorted(glob.glob(os.path.join(ROOT, "crates", "*", pattern, "**", "*"), recursive=True)):
        if not path.endswith((".antt", ".rt")):
            continue
        old = open(path, encoding="utf-8").read()
        new = respell(path, old)
        if new != old:
            open(path, "w", encoding="utf-8").write(new)
for old, new in MODULES.items():
    _, crate, part, name = old.split(".")
    at = os.path.join(ROOT, "crates", crate, part, name + ".antt")
    if os.path.exists(at):
        os.rename(at, os.path.join(os.path.dirname(at), new.split(".")[-1] + ".antt"))
        lib = os.path.join(os.path.dirname(at), "Lib.antt")
        text = open(lib, encoding="utf-8").read()
        open(lib, "w", encoding="utf-8").write(re.sub(r"^(pub mod |mod )%s$" % name, r"\g<1>" + new.split(".")[-1], text, flags=re.M))
