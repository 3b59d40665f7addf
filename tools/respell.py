#!/usr/bin/env python3
"""Brings the names of this repository's own definitions and lemmas to the spelling of the toolchain: words in snake case, types and
modules in camel case, a prime as an apostrophe.

usage: python3 tools/respell.py        at the top of the checkout, after the toolchain's own script for older repositories

A name counts as the repository's own where a file of crates/*/specs or crates/*/proofs gives it a signature, in a where block too.
A name that is spelled so already stays. Functions of src/, exported names, strings, inputs and outputs keep their names. A law that
would fall together with the definition or the library's function it speaks of gets `_lem` after its name. It prints each new name,
and each file in which a new name fell together with one that was there.
"""

import os
import re
import sys

WORD = r"[^\W\d_][\w'′-]*"
SIGNATURE = re.compile(rf"^\s*(?:(?:pub|abbrev|unfoldable|record|data|mutual)\s+)*({WORD})\s*(?::(?!:)|\{{|\((?=[^)]*:))", re.M)
CONSTRUCTOR = re.compile(rf"^\s+\|\s*({WORD})\s*:", re.M)
BINDER = re.compile(rf"[(\{{]((?:{WORD}\s+)+):(?!:)")
RENAMED = re.compile(rf"\bas\s+({WORD})")
FUNCTION = re.compile(r"\bfn\s+(\w+)")
TOKEN = re.compile(rf"(?<![\w'′-])({WORD})(?![\w'′-])")

# Laws whose new name is that of what they speak of: of a definition of this repository, of a function, of the library.
LAWS = "bit-and bit-or bit-xor first-line number-at passed-at place-of".split()
# Laws that were spelled anew before, under the new name of a definition: the file, and the name.
BEFORE = {"crates/digits/proofs/Digits.antt": "no_byte", "crates/paper/proofs/Agree.antt": "done_at"}


def sources(kinds):
    for folder, dirs, files in os.walk("crates"):
        dirs[:] = sorted(d for d in dirs if d not in ("out", "must-fail"))
        for name in sorted(files):
            path = os.path.join(folder, name)
            if name.endswith(kinds):
                yield path


def plain(text):
    """The text without its comments."""
    return re.sub(r"--.*", "", text)


def snake(name):
    name = name.replace("′", "'")
    if re.match(r"[A-Z][a-z]", name):
        return "".join(w[:1].upper() + w[1:] for w in name.split("-"))
    head, *rest = name.split("-")
    parts = []
    for part in [head, *rest]:
        if part[:1].isupper() or part.isupper():
            parts.append(part)
        else:
            parts.append(re.sub(r"(?<=[a-z0-9])([A-Z])", lambda m: "_" + m.group(1).lower(), part))
    return "_".join(parts)


def names():
    """Own names that are to be spelled anew. A walk of a function by hand, proofs/F/Proof.antt, has only names of its own."""
    found = set()
    for path in sources((".antt",)):
        if path.endswith("/Proof.antt"):
            continue
        with open(path, encoding="utf-8") as f:
            text = plain(f.read())
        found.update(SIGNATURE.findall(text))
        found.update(CONSTRUCTOR.findall(text))
        found.update(RENAMED.findall(text))
        for bound in BINDER.findall(text):
            found.update(bound.split())
    new = {n: snake(n) for n in found if snake(n) != n}
    taken = {s for n, s in new.items() if "-" not in n}
    return {n: s + "_lem" if n in LAWS or "-" in n and s in taken else s for n, s in new.items()}


def turned(text, new, rust, functions=()):
    """The text with the new names; strings of the code stay, and what a proof reads off a call by the call's name."""
    def one(m):
        old = m.group(1)
        if snake(old) in functions and new.get(old, "").endswith("_lem") and m.string[: m.start()].endswith("."):
            return old
        return new.get(old, old)

    if not rust:
        return TOKEN.sub(one, text)
    pieces = re.split(r'(b?"(?:[^"\\]|\\.)*")', text)
    return "".join(p if i % 2 else TOKEN.sub(one, p) for i, p in enumerate(pieces))


def turned_edit(text, new):
    """A must-fail edit whose lines are spelled as the file that it speaks of, where that is enough to make them fit."""
    found = re.search(r"^file: (\S+)$", text, re.M)
    with open(os.path.join(new["crate"], found.group(1)), encoding="utf-8") as f:
        there = f.read()
    words = set(TOKEN.findall(there))

    def one(m):
        old = m.group(1)
        spelled = new["names"].get(old, snake(old))
        return spelled if old not in words and (spelled in words or old in new["names"]) else old

    lines = []
    for line in text.split("\n"):
        if not line.startswith(("file: ", "old: ", "new: ")):
            line = turned(line, new["names"], False)
        if line.startswith(("old: ", "new: ")) and line[5:] not in there and found.group(1).endswith(".antt"):
            line = line[:5] + re.sub(r"(?<=[\w)]) \.(?=[\w])", ".", TOKEN.sub(one, line[5:]).replace("getD", "get_or"))
        lines.append(line)
    return "\n".join(lines), there


def edits(names):
    """Turns each must-fail edit, and prints those whose old text does not stand once in its file."""
    for folder in sorted(os.listdir("crates")):
        inside = os.path.join("crates", folder, "must-fail")
        for name in sorted(os.listdir(inside)) if os.path.isdir(inside) else []:
            path = os.path.join(inside, name)
            with open(path, encoding="utf-8") as f:
                text = f.read()
            after, there = turned_edit(text, {"crate": os.path.join("crates", folder), "names": names})
            if after != text:
                with open(path, "w", encoding="utf-8") as f:
                    f.write(after)
            for old, to in re.findall(r"^old: (.*)\nnew: (.*)$", after, re.M):
                if there.count(old) != 1:
                    print(f"edit: {path}: the old text stands {there.count(old)} times: {old}")
                there = there.replace(old, to)


def main():
    if not os.path.isdir("crates"):
        print("respell: run it at the top of the checkout", file=sys.stderr)
        return 2
    new = names()
    targets = {}
    for old, spelled in new.items():
        targets.setdefault(spelled, []).append(old)
    for spelled, olds in sorted(targets.items()):
        if len(olds) > 1:
            print(f"together: {' and '.join(sorted(olds))} are both {spelled}")
    functions = set()
    for path in sources((".rt",)):
        with open(path, encoding="utf-8") as f:
            functions.update(FUNCTION.findall(f.read()))
    for path in sources((".antt", ".rt")):
        with open(path, encoding="utf-8") as f:
            text = f.read()
        if path in BEFORE:
            text = turned(text, {BEFORE[path]: BEFORE[path] + "_lem"}, False)
        seen = set(TOKEN.findall(text))
        for spelled, olds in targets.items():
            if spelled in seen and any(o in seen for o in olds):
                print(f"look: {path} has {' and '.join(olds)}, and {spelled} besides")
        after = turned(text, new, path.endswith(".rt"), functions)
        if after != text:
            with open(path, "w", encoding="utf-8") as f:
                f.write(after)
    edits(new)
    for old in sorted(new):
        print(f"{old} -> {new[old]}")
    return 0


if __name__ == "__main__":
    raise SystemExit(main())
