#!/usr/bin/env python3
"""Write crates/NAME/specs/Computing.antt for each crate that has one: a name, `computing`, whose `unfolding` line opens every
`unfoldable` definition of the crate's specs and of the specs below, so that a theorem about closed terms says `unfolding computing`
and is proved by computation. With --check, say which file is not up to date and exit 1."""
import os
import re
import sys

ROOT = os.path.join(os.path.dirname(os.path.abspath(__file__)), "..")
HEAD = "-- Written by tools/computing.py. Under the line `unfolding computing` every definition of these specs computes.\n"


def specs(crate):
    return os.path.join(ROOT, "crates", crate, "specs")


def text(crate, deps):
    uses, names = [], []
    for line in open(os.path.join(specs(crate), "Lib.antt")):
        if not line.startswith("pub mod") or line.split()[2] == "Computing":
            continue
        mod = line.split()[2]
        found = re.findall(r"^unfoldable pub (\S+) ", open(os.path.join(specs(crate), mod + ".antt")).read(), re.M)
        if found:
            uses.append("use Rattle.%s.specs.%s.{%s}" % (crate, mod, ", ".join("%s as %s·%s" % (f, mod, f) for f in found)))
            names += ["%s·%s" % (mod, f) for f in found]
    for dep in deps:
        if os.path.exists(os.path.join(specs(dep), "Computing.antt")):
            uses.append("use Rattle.%s.specs.Computing.{computing as %s·computing}" % (dep, dep))
            names.append("%s·computing" % dep)
    return HEAD + "\n".join(uses) + "\n\nunfoldable pub computing : Unit {0}\nunfolding " + " ".join(names) + "\ncomputing = tt\n"


stale = []
for line in open(os.path.join(ROOT, "crates.txt")):
    line = line.split("#")[0].strip()
    if not line:
        continue
    crate, deps = line.split(":")
    path = os.path.join(specs(crate), "Lib.antt")
    if not os.path.exists(path) or "pub mod Computing" not in open(path).read():
        continue
    path = os.path.join(specs(crate), "Computing.antt")
    new = text(crate, deps.split())
    if not os.path.exists(path) or open(path).read() != new:
        stale.append(path)
        if "--check" not in sys.argv:
            open(path, "w").write(new)
if "--check" in sys.argv and stale:
    sys.exit("not up to date, run tools/computing.py: " + ", ".join(os.path.relpath(p, ROOT) for p in stale))
