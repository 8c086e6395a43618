#!/usr/bin/env python3
"""spell.py: reads lines of the oracle's listing and prints for each the house spelling of its four by document 01's rules, or the
number of the refusal. It shares nothing with the crates: the names are those of `to_chord_notation`, with Maj7 for Ma7."""
import sys

NAMES = "1 b2 2 b3 3 4 #4 b5 5 #5 b6 6 bb7 7 Maj7 8 b9 9 #9 11 #11 b13 13".split()
LETTERS = "CDEFGAB"
SIGNS = {-1: "b", 0: "", 1: "#"}


def note(letter, alteration):
    return LETTERS[letter] + SIGNS[alteration]


def shown_instead(n, d):
    """K: the one of b2, 2, #4 that the display list shows for b9, 9, #11 in N, or none."""
    for low, high in ("b2", "b9"), ("2", "9"), ("#4", "#11"):
        if high in n and high not in d and low in d:
            return low, high
    return None, None


def parts(n, d):
    k, given = shown_instead(n, d)
    if "b5" in n and "bb7" not in n:
        yield "b5"
    for name in "#5", "7":
        if name in n:
            yield name
    if k:
        yield "sus" + k
    if not k and (("3" not in n and "b3" not in n) or ("3" in n and "bb7" in n)):
        yield "omit3"
    if not {"5", "b5", "#5"} & n and ("b13" not in n or "bb7" in n):
        yield "omit5"
    for name in "2 3 4 b6 6 Maj7 b9 9 #9 11 #11 b13 13".split():
        if name not in n or name == given:
            continue
        if name == "3" and not (k or "bb7" in n):
            continue
        yield "add" + name


def spelling(v):
    root, bass, rest = v[2:4], v[4:6], v[6:]
    if root[0] < 0:
        return ""  # no chord, by document 02 [4]
    n = {NAMES[i] for i in rest[1 : 1 + rest[0]]}
    rest = rest[1 + rest[0] :]
    d = {NAMES[i] for i in rest[1 : 1 + rest[0]]}
    text = note(*root)
    if "bb7" in n:
        text += "dim7"
    elif "b3" in n:
        text += "m"
    text += "".join("," + p for p in parts(n, d))
    return text + ("/" + note(*bass) if bass[0] >= 0 else "")


for line in sys.stdin:
    if line.startswith("PANIC"):
        print("PANIC")
        continue
    v = [int(x) for x in line.split("|")[0].split()]
    print(spelling(v) if v[1] == 0 else v[1])
