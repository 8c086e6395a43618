#!/usr/bin/env python3
"""Brings the repository's own definitions and lemmas to one spelling: words in snake case, a dash only between two names.

Run once, at the top, after the kit's own port script. It reads every name that a file of specs/ or proofs/ declares, makes the
new spelling, and replaces whole words in those files, in the clauses of src/ and in what they cite. Names of types keep their
capitals. A new spelling that another name has already is refused, and the old one stays.
"""
import collections
import glob
import re
import sys

WORD = re.compile(r"[^\s(){};,.@\"`]+")
GOAL = re.compile(r":\s*tie\.|: \{M : Type 1\} → statement")


def files():
    return sorted(glob.glob("crates/*/specs/**/*.antt", recursive=True) + glob.glob("crates/*/proofs/**/*.antt", recursive=True))


def declared(paths):
    """Every name that stands left of a colon at the head of a line, but for what answers a goal, and whether specs/ has it."""
    own, goals = collections.defaultdict(set), set()
    for path in paths:
        for line in open(path, encoding="utf-8"):
            if line.lstrip().startswith("--"):
                continue
            if "→ statement M" not in line:
                line = re.sub(r"\{[^}]*\}", "", line)
            m = re.match(r"^\s*((?:[^\s(){};,.@\"]+\s+)+): ", line) or re.match(r"^\s*(?:\|\s*)?(.*\S) :$", line)
            if not m or re.search(r"→|λ|∷|≡|=|\buse\b|\belim\b", m.group(1)):
                continue
            names = [w for w in m.group(1).split() if w not in ("pub", "abbrev", "unfoldable", "data", "record", "module", "where", "let", "in")]
            if re.search(r"\b(let|module)\b", m.group(1)):
                continue
            for name in names:
                (goals if GOAL.search(line) else own[name]).add(path if not GOAL.search(line) else name)
    return own, goals


def imported(paths):
    found = set()
    for path in paths:
        for line in open(path, encoding="utf-8"):
            m = re.match(r"^(?:pub )?use (?!Rattle\.(?!std))[^{]*\{(.*)\}", line)
            if m:
                for item in m.group(1).split(","):
                    found.update(item.split())
    return found


def snake(name):
    name = re.sub(r"(?<=[a-z0-9])([A-Z])", lambda m: "_" + m.group(1), name)
    return name.lower()


def spelled(name, functions):
    if not re.match(r"[a-z]", name):
        return name
    parts = [snake(p) for p in name.split("-")]
    for i in range(1, len(parts)):
        left, right = "_".join(parts[:i]), "_".join(parts[i:])
        if left in functions and right in functions:
            return left + "-" + right
    return "_".join(parts)


def main():
    paths = files()
    own, goals = declared(paths)
    std = imported(paths)
    sources = sorted(glob.glob("crates/*/src/**/*.rt", recursive=True))
    functions = {snake(n) for n in own if len(n) > 1 and any("/specs/" in p for p in own[n])} | {n for n in std if len(n) > 1 and "-" not in n}
    inner = {w for path in paths for w in WORD.findall(open(path, encoding="utf-8").read())} - set(own)
    new, taken = {}, collections.defaultdict(set)
    for name in own:
        if name not in std and not (name in goals and "-" in name):
            taken[spelled(name, functions)].add(name)
    for to, names in sorted(taken.items()):
        used = set()
        for name in sorted(names, key=lambda n: (n == snake(n), "-" in n, n)):
            # A lemma that would have its function's name, or the library's, gets a word more.
            free = to if to not in used and to not in std else to + "_lem"
            used.add(free)
            if free != name:
                new[name] = free
            if len(names) > 1 or to in std or to in inner:
                print("falls together:", name, "→", free, file=sys.stderr)
    if "--list" in sys.argv:
        for name in sorted(new):
            print(name, "→", new[name])
        return
    for path in paths + sources:
        text = open(path, encoding="utf-8").read()
        out = "".join(turned(line, new, path.endswith(".rt")) for line in text.splitlines(True))
        if out != text:
            open(path, "w", encoding="utf-8").write(out)


def turned(line, new, source):
    """One line in the new spelling: not the path of a module, and of code only names that no code can have."""
    path = re.match(r"\s*(?:pub |ghost )?use [^{;]*", line)
    head, rest = (path.group(0), line[path.end():]) if path else ("", line)

    def word(m):
        name = m.group(0)
        return new.get(name, name) if not source or re.search(r"[A-Z-]", name) else name

    return head + WORD.sub(word, rest)


main()
