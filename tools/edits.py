#!/usr/bin/env python3
"""Brings the must-fail edits to the spelling that the sources have now.

Run once, at the top, after the kit's port script and tools/respell.py. It sets each file of specs/ and src/ beside itself at the commit
before, line by line, and learns from lines of as many words what became of each name. It writes those names, and fields and primes as
today's Rattle does, in each edit's texts, and says where an old text does not stand exactly once, in the line that it stood in before.
"""
import collections
import difflib
import glob
import re
import subprocess
import sys

BEFORE = "610f2fc"
WORD = re.compile(r"[^\W\d][\w′'-]*")
ATOM = re.compile(r"\.\w+|[^\W\d][\w']*\.(?= )|[\w']+(?:[.-][\w']+)*|\[\]|[()]|-ℤ|[^\s\w()']+|\s+")
# Texts whose line has another layout now.
ANEW = {
    "intervals/must-fail/semitones_descending.edit": {"    17,": "15, 17, 18,", "    13,": "15, 13, 18,"},
    "intervals/must-fail/st_eleventh_too_small.edit": {"    17,": "15, 17, 18,", "    16,": "15, 16, 18,"},
}


def before(path):
    return subprocess.run(["git", "show", f"{BEFORE}:{path}"], capture_output=True, text=True, check=True).stdout.split("\n")


def now(path):
    with open(path, encoding="utf-8") as it:
        return it.read().split("\n")


def pairs(old, new):
    """The place in the new lines of each old line that has one there."""
    same = [[re.sub(r"[^a-z0-9=≡→{}]", "", line.lower()) for line in lines] for lines in (old, new)]
    at = {}
    for _, i1, i2, j1, j2 in difflib.SequenceMatcher(None, *same, autojunk=False).get_opcodes():
        if i2 - i1 == j2 - j1:
            at.update(zip(range(i1, i2), range(j1, j2)))
    return at


def learned(old, new, at):
    """What became of each name of the old lines."""
    names = collections.defaultdict(collections.Counter)
    for i, j in at.items():
        a, b = WORD.findall(old[i]), WORD.findall(new[j])
        if len(a) == len(b):
            for x, y in zip(a, b):
                names[x][y] += 1
    return names


def fields(text):
    """The text with each field written `x.f`: a run of atoms before ` .f` is one term."""
    levels = [[]]

    def close(level):
        """The level's items, runs of atoms with their fields brought together."""
        out, run = [], []
        for item in level + [""]:
            if item.startswith(".") and run:
                run = [(run[0] if len(run) == 1 else "(" + " ".join(run) + ")") + item]
            elif item and (item[0] in "([" or item[0].isalnum() or item[0] == "_") and not item.endswith("."):
                run.append(item)
            else:
                if len(run) == 2 and run[0] == "now":
                    run = [run[1] + ".now"]
                out += run + [item]
                run = []
        return out[:-1]

    for item in ATOM.findall(text):
        if item == "(":
            levels.append([])
        elif item == ")" and len(levels) > 1:
            inner = close(levels.pop())
            levels[-1].append(inner[0] if len(inner) == 1 else "(" + " ".join(inner) + ")")
        elif not item.isspace():
            levels[-1].append(item)
    out = close(levels.pop())
    while levels:
        out = close(levels.pop()) + ["("] + out
    return " ".join(out)


def spelled(text, line, known, spec):
    """A text of a line, in today's spelling; the layout of the blanks is the text's own."""
    said = WORD.sub(lambda m: known(m.group(0)), text).replace("′", "'")
    if re.search(r"(?<![\w.)])[\w')]+ \.\w|\(now ", said):
        made = fields(said)
        said = re.match(r" *", said).group(0) + re.sub(r" (?=[;,])|(?<=\() | (?=\))", "", made)
        if not spec:
            said = re.sub(r"\br\.", "result.", said) if "λ r. ⌜" in line else said
            said = said.replace(".entry.now", ".now")
    return said


def main():
    changed = wrong = 0
    edits = sorted(glob.glob("crates/*/must-fail/*.edit"))
    files = sorted(glob.glob("crates/*/specs/**/*.antt", recursive=True) + glob.glob("crates/*/src/**/*.rt", recursive=True))
    olds, news, ats, names = {}, {}, {}, {}
    every = collections.defaultdict(collections.Counter)
    for path in files:
        olds[path], news[path] = before(path), now(path)
        ats[path] = pairs(olds[path], news[path])
        names[path] = learned(olds[path], news[path], ats[path])
        for name, to in names[path].items():
            every[name].update(to)
    for edit in edits:
        folder, _, name = edit.partition("must-fail/")
        out, was, path, old, lines, today = [], now(edit), None, None, {}, {}
        for text in was:
            kind, _, said = text.partition(": ")
            if kind == "file":
                path = folder + said
                lines.setdefault(path, list(olds[path]))
                today.setdefault(path, "\n".join(news[path]))
            elif kind in ("old", "new"):
                if kind == "old":
                    [i] = [i for i, line in enumerate(lines[path]) if said in line]
                    line, old = lines[path][i], said
                else:
                    lines[path][i] = line.replace(old, said)

                def known(word):
                    to = names[path].get(word) or every.get(word)
                    # A name that only definitions have, in a source's code, is the code's own.
                    return to.most_common(1)[0][0] if to and word != "now" and not (path.endswith(".rt") and "⌜" not in line) else word

                there = ANEW.get(edit[len("crates/"):], {}).get(said) if path.endswith(".rt") else None
                to = there or spelled(said, line, known, path.endswith(".antt"))
                if kind == "old":
                    stands = to
                    places = [j for j, one in enumerate(today[path].split("\n")) if to in one]
                    if today[path].count(to) != 1 or not there and places != [ats[path].get(i)]:
                        print(f"{edit}: {to!r} stands {today[path].count(to)} times, at {places}, not at {ats[path].get(i)}", file=sys.stderr)
                        wrong += 1
                else:
                    today[path] = today[path].replace(stands, to)
                text = f"{kind}: {to}"
            out.append(text)
        if out != was:
            changed += 1
            if "--list" in sys.argv:
                print(edit, *(f"  {a}\n  {b}" for a, b in zip(was, out) if a != b), sep="\n")
            else:
                with open(edit, "w", encoding="utf-8") as it:
                    it.write("\n".join(out))
    print(f"{len(edits)} edits, {changed} of them in another spelling now, {wrong} texts that do not stand", file=sys.stderr)


main()
