#!/usr/bin/env python3
"""tools/times.py NAME [ROWS]: check one crate from nothing, as the gate does, and say which of its modules took longest.

The check saves each module when it is done with it, so the time between two saves is the time of the later one. `f.Lts` and `f.Tie` are what Rattle makes of
the function f, and grow with its statements: a call that lends a `&mut` slice or a text costs five to seven times as much as one by value. `f.Proof` is
its proof: `cc`, `rw` and `omega` look through all that is known at a place of the code, so a lemma over plain values, cited with paths, is far quicker."""
import collections
import glob
import os
import shutil
import subprocess
import sys
import tempfile
import time

os.chdir(os.path.join(os.path.dirname(os.path.abspath(__file__)), ".."))
name = sys.argv[1]
rows = int(sys.argv[2]) if len(sys.argv) > 2 else 20
kit = os.path.dirname(os.path.dirname(os.path.realpath(shutil.which("rt"))))
deps = {}
for line in open("crates.txt"):
    if ":" in line.split("#")[0]:
        crate, used = line.split("#")[0].split(":")
        deps[crate.split()[0]] = used.split()
# what the crate leans on is proved first, so that it is not counted
subprocess.run(["rt", "check"], cwd="crates/" + name, capture_output=True)
folder = os.path.abspath("crates")
root = "main" if os.path.exists("%s/%s/src/main.rt" % (folder, name)) else "lib"
words = [kit + "/bin/rattle", "check", "--crate-name", name, "src/%s.rt" % root, "--extern", "std=%s/rlibs/std.rlib" % kit, "-L", "dependency=%s/rlibs" % kit]
for dep in deps[name]:
    words += ["--extern", "%s=%s" % (dep, "%s/%s/out/rlib/%s.rlib" % (folder, dep, dep) if dep in deps else "%s/rlibs/%s.rlib" % (kit, dep))]
for dep in deps:
    words += ["-L", "dependency=%s/%s/out/rlib" % (folder, dep)] if os.path.isdir("%s/%s/out/rlib" % (folder, dep)) else []
words += ["--antt-project", kit + "/rattle/logic/antt-project.json", "--logic-built", kit + "/logic_built"]
# a folder of its own, since rt begins with what checks in other copies kept
with tempfile.TemporaryDirectory() as kept:
    began = time.time()
    said = subprocess.run(words + ["--incremental", kept], cwd="crates/" + name, stdout=subprocess.PIPE, stderr=subprocess.STDOUT, text=True).stdout
    took = time.time() - began
    saved = sorted((os.stat(f).st_mtime_ns / 1e9, os.path.basename(f)[: -len(".oantt")]) for f in glob.glob(kept + "/*/*.oantt"))
before = began
modules = []
kinds = collections.Counter()
for at, module in saved:
    modules.append((at - before, module.replace("Rattle-%s-proofs." % name, "")))
    last = module.split(".")[-1]
    kinds[last if last in ("Lts", "Tie", "Proof") else "all else"] += at - before
    before = at
last = [line for line in said.splitlines() if line.startswith("logic=")]
print("%s: %.1f s, %d modules, %s" % (name, took, len(modules), last[-1].split()[0] if last else "no verdict"))
print("  " + ", ".join("%s %.1f" % kind for kind in kinds.most_common()))
for took, module in sorted(modules, reverse=True)[:rows]:
    print("  %5.2f %s" % (took, module))
