#!/usr/bin/env python3
"""tools/forms.py [POINT] [--list]: the places of src/ and proofs/ that docs/DESIGN-PASS.md counts, by point; --list prints each."""
import glob
import re
import sys

FUNCTION = re.compile(r"^(?: {4})?(?:pub )?(?:extern \"C\" )?fn (\w+)")
STRUCT = re.compile(r"^(?:pub )?(struct|enum) (\w+)")


def sources():
    for path in sorted(glob.glob("crates/*/src/*.rt")):
        yield path, open(path).read().split("\n")


def functions():
    """Each function: file, line, name, head (up to the body), body."""
    for path, lines in sources():
        i = 0
        while i < len(lines):
            found = FUNCTION.match(lines[i])
            if not found:
                i += 1
                continue
            indent = len(lines[i]) - len(lines[i].lstrip())
            head, j = [], i
            while not lines[j].startswith(" " * indent + "{") and not (lines[j].endswith("{") and j >= i and "{ " not in lines[j]):
                head.append(lines[j])
                j += 1
            head.append(lines[j])
            body, k = [], j + 1
            while k < len(lines) and not lines[k].startswith(" " * indent + "}"):
                body.append(lines[k])
                k += 1
            yield path, i + 1, found.group(1), head, body
            i = k + 1


def structs():
    for path, lines in sources():
        i = 0
        while i < len(lines):
            found = STRUCT.match(lines[i])
            if found and lines[i].endswith("{"):
                j = i + 1
                while not lines[j].startswith("}"):
                    j += 1
                yield path, i + 1, found.group(1), found.group(2), lines[i + 1:j]
                i = j
            i += 1


def flags():
    """1. A struct with a flag or an answer beside what it tells of."""
    for path, line, kind, name, fields in structs():
        if kind == "struct":
            marks = [f.strip() for f in fields if re.search(r"\b\w+: bool,|\b(?:answer|reason): u8,", f)]
            if marks:
                yield path, line, name + ": " + " ".join(marks)


def codes():
    """1. A function whose result is a number for a kind, a refusal or a reason."""
    for path, line, name, head, body in functions():
        text = " ".join(head)
        if re.search(r"\) -> u8\b", text) and re.search(r"answer|refusal|reason|why|letter|kind|tag|alone|allot|^split|ledger_|expected|^end$|^run$|split", name):
            yield path, line, name


def counted():
    """3. A `while` whose test reads a number that its body counts by one, and a set taken apart member by member."""
    for path, line, name, head, body in functions():
        for k, text in enumerate(body):
            found = re.match(r"^( *)while (.*) \{$", text)
            if not found:
                continue
            inner = []
            for later in body[k + 1:]:
                if later.startswith(found.group(1) + "}"):
                    break
                inner.append(later)
            inside = "\n".join(inner)
            by_one = [v for v in re.findall(r"\b(\w+) [+-]= 1;", inside) if re.search(r"\b%s\b" % v, found.group(2))]
            if by_one or "without_least" in inside:
                yield path, line + len(head) + k, name + ": while " + found.group(2)


def loops():
    """3, in another way: every `while`."""
    for path, lines in sources():
        for i, text in enumerate(lines):
            if re.match(r"^\s*while ", text):
                yield path, i + 1, text.strip()


def casts():
    """4. A conversion by `as`, and a function that only converts."""
    for path, lines in sources():
        for i, text in enumerate(lines):
            if text.strip().startswith("//"):
                continue
            for found in re.finditer(r"\bas (?:u8|u16|u32|u64|usize|i32|i64)\b", text):
                yield path, i + 1, text.strip()


def own_words():
    """4. A call of a function of `lists` for which std has a method."""
    for path, lines in sources():
        for i, text in enumerate(lines):
            for found in re.finditer(r"lists::(?:wide16|wide32|narrow16|narrow32|place|smaller|less|add_at16|add_at32)\b", text):
                yield path, i + 1, found.group(0)


def repeated():
    """5. A clause that the contracts of three or more functions of one crate have word for word."""
    seen = {}
    for path, line, name, head, body in functions():
        crate = path.split("/")[1]
        for text in head:
            found = re.match(r"^\s+requires (?:\w+ )?\{ (.*) \}$", text)
            if found:
                seen.setdefault((crate, found.group(1)), []).append((path, line, name))
    for (crate, clause), places in seen.items():
        if len(places) >= 3:
            for path, line, name in places:
                yield path, line, name + ": " + clause


def buffers():
    """6. A function that takes a lent buffer and a place in it."""
    for path, line, name, head, body in functions():
        text = " ".join(h.strip() for h in head)
        if re.search(r"&mut \[u8\], (?:\w+: &\[u8\], )?(?:at|len|end|start|k): usize|at: usize.*&mut \[u8\]|&mut \[u8\].*\bat: usize", text):
            yield path, line, name


def short_answers():
    """8. An answer of one tactic or word."""
    for path in sorted(glob.glob("crates/*/proofs/**/Answers.antt", recursive=True)):
        for i, text in enumerate(open(path).read().split("\n")):
            if re.match(r"^\S+ c = (tt|refl|search rules|omega arith)$", text):
                yield path, i + 1, text


def twice():
    """8. A head comment that stands in Invariants.antt and in Answers.antt."""
    for path in sorted(glob.glob("crates/*/proofs/**/Answers.antt", recursive=True)):
        other = path.replace("Answers.antt", "Invariants.antt")
        try:
            a, b = open(path).read().split("\n")[0], open(other).read().split("\n")[0]
        except FileNotFoundError:
            continue
        if a.startswith("--") and a == b:
            yield path, 1, a


POINTS = {
    "1": [flags, codes], "3": [counted, loops], "4": [casts, own_words], "5": [repeated], "6": [buffers], "8": [short_answers, twice],
}

if __name__ == "__main__":
    wanted = [a for a in sys.argv[1:] if a in POINTS] or sorted(POINTS)
    for point in wanted:
        for count in POINTS[point]:
            places = list(count())
            print("%s %4d %s" % (point, len(places), count.__doc__[3:] if count.__doc__[1] in ".," else count.__doc__))
            if "--list" in sys.argv:
                for path, line, text in places:
                    print("    %s:%d: %s" % (path, line, text))
