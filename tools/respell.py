#!/usr/bin/env python3
"""Turns this repository's own definitions and lemmas to snake case: `begin-step` becomes `begin_step`.

usage: python3 tools/respell.py [ROOT]     (ROOT: the repository's top, by default this one)
       python3 tools/respell.py --list     what it would rename, and what it leaves

Run once, right after the toolchain's own script has turned the older spelling. It renames what
specs/ and proofs/ of the crates define: definitions, lemmas, records' fields, constructors, and the
names bound in them. It leaves the names of functions, types and fields of src/, the names that the
checker gives to goals and steps of a proof, and the library's names. In src/ it turns the lines that
begin a ghost import, a clause or a ghost item, and not those that go on below them. It names, and
turns all the same, what shares a file with the name that it would get: look there.
"""

import collections
import os
import re
import sys

# A name of antt: all but blanks, brackets and the signs that end a name.
NAME = r"[^\s(){}\[\];,.:⌜⌝\"λ→×≡∷+*<>=|&]+"
TOKEN = re.compile(r"(\.?)(" + NAME + r")")
# What the checker calls goals and the steps of a proof, and so no name of ours.
MADE = re.compile(
    r"^(returns|returns-.*|loop-.*|invariant-.*|invariant_of-.*|decreases-.*|.*-requires(-.*)?|overflow_.*|bounds-.*"
    r"|slice-bounds-.*|slice_bounds-.*|offset_bounds-.*|ghost-.*|if-.*|in-[A-Z].*|in_.*-.*|the_impl|-.*|.*-)$"
)
IMPORT = re.compile(r"^(?:pub )?(?:ghost )?use (Rattle\.[\w.+]+|[\w.]+)\.\{(.*)\}")


def texts(root):
    for folder, dirs, files in os.walk(os.path.join(root, "crates")):
        dirs[:] = sorted(d for d in dirs if d not in ("out", "must-fail"))
        for f in sorted(files):
            if f.endswith((".antt", ".rt")):
                yield os.path.join(folder, f)


def code(line, path):
    """A line without its comment."""
    return line.split("//")[0] if path.endswith(".rt") else re.split(r"(?:^|\s)--(?:\s|$)", line)[0]


def heads(path, lines):
    """The names that a file of antt defines at its margin, or as a field, a constructor or a bound name."""
    for line in lines:
        text = code(line, path)
        if re.match(r"^(?:pub )?(?:use|mod) ", text):
            continue
        m = re.match(r"^(?:(?:pub|abbrev|unfoldable|record|data|ruleset)\s+)*(" + NAME + r")", text)
        if m and not text.startswith((" ", "\t")):
            yield m.group(1)
        m = re.match(r"^\s+(?:(?:pub|abbrev|unfoldable)\s+)*(" + NAME + r") : ", text)
        if m:
            yield m.group(1)
        m = re.match(r"^\s*" + NAME + r" ([^:=]*) =(?:\s|$)", text)
        if m:
            yield from re.findall(NAME, m.group(1))
        for m in re.finditer(r"[({]([^(){}:]+) : ", text):
            yield from m.group(1).split()
        for m in re.finditer(r"λ ([^.]*)\.", text):
            yield from m.group(1).split()
        for m in re.finditer(r"\blet (" + NAME + r") ", text):
            yield m.group(1)


def library_names(lines):
    out = set()
    for line in lines:
        m = IMPORT.match(line)
        if m and m.group(1).startswith(("Rattle.std", "Rattle.core", "Rattle.logic")):
            out |= {w.split(" as ")[0].strip() for w in m.group(2).split(",")}
    return out


def snake(name):
    return name.replace("-", "_")


def plan(root):
    files = {}
    for p in texts(root):
        with open(p, encoding="utf-8") as f:
            files[p] = f.read().split("\n")
    own, library = collections.defaultdict(set), set()
    for p, lines in files.items():
        library |= library_names(lines)
        if p.endswith(".antt"):
            for n in heads(p, lines):
                if re.search(r"[a-z']-[a-z]", n) and not MADE.match(n):
                    own[n].add(p)
    return files, own, library


def names_in(files):
    out = collections.defaultdict(set)
    for p, lines in files.items():
        if p.endswith(".antt"):
            for line in lines:
                for m in TOKEN.finditer(code(line, p)):
                    out[m.group(2)].add(p)
    return out


def turn(lines, path, own, library):
    mine = library_names(lines)
    at_bounds = re.compile(r"(?<![^\s(){}\[\];,.:⌜⌝\"λ→×≡∷+*<>=|&])(" + "|".join(re.escape(n) for n in sorted(own, key=len, reverse=True)) + r")(?![^\s(){}\[\];,.:⌜⌝\"λ→×≡∷+*<>=|&])")
    out = []
    for line in lines:
        text = code(line, path)
        rest = line[len(text):]
        if path.endswith(".rt") and not re.match(r"\s*(ghost |requires|ensures|law)", text):
            out.append(line)
            continue
        out.append(at_bounds.sub(lambda m: m.group(1) if m.group(1) in mine else snake(m.group(1)), text) + rest)
    return out


def main(argv):
    listing = "--list" in argv
    argv = [a for a in argv if a != "--list"]
    root = os.path.abspath(argv[0] if argv else os.path.join(os.path.dirname(__file__), ".."))
    files, own, library = plan(root)
    every = names_in(files)
    clashes = sorted(n for n in own if any(p in every[n] for p in every.get(snake(n), ())))
    if listing:
        print("renamed:", *sorted(own))
        print("\nalso the library's, and left where a file imports it:", *sorted(set(own) & library))
        left = collections.defaultdict(set)
        for n, ps in every.items():
            if re.search(r"[a-z]-[a-z]", n) and n not in own and n not in library and not MADE.match(n):
                left[n] |= ps
        print("\nleft:", *sorted(left))
    if clashes:
        print("\nin one file with the name that it would get:", *clashes)
    if listing:
        return 0
    for p, lines in files.items():
        new = turn(lines, p, own, library)
        if new != lines:
            with open(p, "w", encoding="utf-8") as f:
                f.write("\n".join(new))
    print(f"respell: {len(own)} names")
    return 0


if __name__ == "__main__":
    raise SystemExit(main(sys.argv[1:]))
