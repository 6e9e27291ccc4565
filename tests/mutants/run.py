#!/usr/bin/env python3
"""Tries the generator's sharpness: builds the counts model with one mistake at a time and lets `compare` look for it. Mistakes in the model's ranking, in its
split and auction run alone and in its expected units are looked for by `rankings`, `parts` and `positions` of `linked`, beside the proved ones. Mistakes that let a reserve
out are looked for by `reserves`, which holds two runs to each other and knows nothing of what is right, and so are mistakes in the making of its pairs, which it finds as it asks
for the premise.

usage: mutants/run.py [--inputs N] [--seed S] [WORD ...]     only the mistakes whose name holds a WORD
Run from the tests folder, after `cargo build --release --offline`, and for those that `linked` looks for after `rt staticlib` of what it links.
"""

import re
import shutil
import subprocess
import sys
import tempfile
from pathlib import Path

from mistakes import IN_HOLDINGS, IN_PAIRS, IN_PARTS, IN_POSITIONS, IN_PREMISE, IN_RANKING, IN_SHOWN_PAIRS, IN_TEXT

TESTS = Path(__file__).resolve().parent.parent
COMPARE = TESTS / "target/release/compare"
RESERVES = TESTS / "target/release/reserves"


def edited(text, edits):
    for old, new in zip(edits[::2], edits[1::2]):
        if text.count(old) != 1:
            raise SystemExit(f"found {text.count(old)} times, not once: {old!r}")
        text = text.replace(old, new)
    return text


def build(workspace, *which):
    command = ["cargo", "build", "--offline", "--quiet", *which]
    done = subprocess.run(command, cwd=workspace, capture_output=True, text=True)
    if done.returncode != 0:
        raise SystemExit(done.stderr)


def look(command, inputs, seed):
    done = subprocess.run([*command, "--inputs", inputs, "--seed", seed], capture_output=True, text=True)
    found = re.search(r"DIFFERENCE at seed (\d+), profile (\w+)", done.stdout)
    shrunk = re.search(r"shrunk to, (\d+) in all", done.stdout)
    if done.returncode not in (0, 1) or (done.returncode == 1) != bool(found):
        raise SystemExit(done.stdout[-3000:] + done.stderr[-3000:])
    if not found:
        return None
    length = shrunk.group(1) if shrunk else "?"
    return f"found at list {int(found.group(1)) - int(seed) + 1} ({found.group(2)}), shrunk to {length} calls"


def look_in_text(copy, inputs, seed):
    build(copy, "-p", "model")
    return look([COMPARE, "--program", copy / "target/debug/ledger-model", "--model", "roll"], inputs, seed)


def look_in_holdings(copy, inputs, seed):
    build(copy, "-p", "compare")
    return look([copy / "target/debug/compare", "--self"], inputs, seed)


def look_by(command, pattern):
    """A program that stops at a difference that the pattern tells of."""
    done = subprocess.run(command, capture_output=True, text=True)
    found = re.search(pattern, done.stderr + done.stdout)
    if (done.returncode != 0) != bool(found):
        raise SystemExit(done.stdout[-3000:] + done.stderr[-3000:])
    return found and f"found at {', '.join(found.groups())}"


def look_beside(copy, program, arguments, pattern):
    """A program of `linked`."""
    build(copy / "linked", "--bin", program)
    return look_by([copy / "linked/target/debug" / program, *arguments], pattern)


def look_in_ranking(copy, inputs, seed):
    return look_beside(copy, "rankings", [inputs, seed], r"ranking (\d+ by \[.*?\]) .*, the model")


def look_in_parts(copy, inputs, seed):
    return look_beside(copy, "parts", [inputs], r"((?:split|lent|flat) -?\d+ .{,60}).*, the model")


def look_in_positions(copy, inputs, seed):
    return look_beside(copy, "positions", [inputs, seed], r"(run \d+) from seed \d+ differs")


def look_in_pairs(copy, inputs, seed):
    build(copy, "-p", "model")
    return look_by([RESERVES, copy / "target/debug/ledger-model", "-", inputs, seed], r"FAILED: (seed \d+): .*\n((?:ledger|broken).*)")


def look_by_a_copy(copy, inputs, seed, what):
    """`reserves` and the model's program, both with the mistake."""
    build(copy, "-p", "model", "-p", "generator")
    programs = [copy / "target/debug" / name for name in ("reserves", "ledger-model")]
    return look_by([*programs, "-", inputs, seed], rf"FAILED: (seed \d+): .*\n({what})")


def look_in_shown_pairs(copy, inputs, seed):
    return look_by_a_copy(copy, inputs, seed, r"counts after call \d+")


def look_in_premise(copy, inputs, seed):
    return look_by_a_copy(copy, inputs, seed, "the pair does not meet the premise.*")


LOOKS = [(mistake, look_in_text) for mistake in IN_TEXT]
LOOKS += [(mistake, look_in_holdings) for mistake in IN_HOLDINGS]
LOOKS += [(mistake, look_in_ranking) for mistake in IN_RANKING]
LOOKS += [(mistake, look_in_parts) for mistake in IN_PARTS]
LOOKS += [(mistake, look_in_positions) for mistake in IN_POSITIONS]
LOOKS += [(mistake, look_in_pairs) for mistake in IN_PAIRS]
LOOKS += [(mistake, look_in_shown_pairs) for mistake in IN_SHOWN_PAIRS]
LOOKS += [(mistake, look_in_premise) for mistake in IN_PREMISE]


def main():
    arguments = sys.argv[1:]
    options = {"--inputs": "2000", "--seed": "1"}
    words = []
    while arguments:
        first = arguments.pop(0)
        if first in options:
            options[first] = arguments.pop(0)
        else:
            words.append(first)
    missed = []
    count = 0
    with tempfile.TemporaryDirectory() as folder:
        copy = Path(folder) / "tests"
        shutil.copytree(TESTS, copy, ignore=shutil.ignore_patterns("target"))
        # Where the copy of `linked` looks for the proved libraries.
        (Path(folder) / "target").symlink_to(TESTS.parent / "target")
        for (name, file, *edits), look_for in LOOKS:
            if words and not any(word in name for word in words):
                continue
            original = (TESTS / file).read_text()
            (copy / file).write_text(edited(original, edits))
            result = look_for(copy, options["--inputs"], options["--seed"])
            print(f"{name}: {result or 'NOT FOUND'}", flush=True)
            count += 1
            if result is None:
                missed.append(name)
            (copy / file).write_text(original)
    print(f"{count - len(missed)} of {count} mistakes found in {options['--inputs']} lists each")
    sys.exit(1 if missed else 0)


if __name__ == "__main__":
    main()
