#!/usr/bin/env python3
"""Turns a proof of the older form (Proof.antt, which answers `tie.Need-..`) into Invariants.antt and Answers.antt.

usage: tools/answers.py NAMES CRATE [FUNCTION ..]    at the top of the repository

NAMES/CRATE/names.json is what `rattle check --generated NAMES/CRATE --old-names` writes: each goal's and each step's old and new name.
An answer that only searched is left out, since the check searches by itself. With --all they are kept.
"""
import json
import os
import re
import sys

NAME = r"[A-Za-z0-9_'₀-₉\-]+"
PATH = re.compile(r"(?<![\w.'\-])(" + NAME + r")((?:\." + NAME + r")+)")


def norm(name):
    name = name.replace("-", "_")
    for tail in ("_lem",):
        if name.endswith(tail):
            name = name[: -len(tail)]
    return name


def need_key(name):
    name = norm(name)
    for head in ("overflow_", "nonzero_", "bounds_"):
        if name.startswith(head):
            name = name[len(head):]
    return name


class Names:
    """What names.json says of one function."""

    def __init__(self, entry):
        self.entry = entry
        self.needs = {}
        for old, new in entry["needs"]:
            self.needs.setdefault(need_key(old), new)
        self.order = [new for _, new in entry["needs"]]
        self.steps, self.inner, self.fields, self.arm_paths, self.own, self.told, self.callee = {}, {}, {}, [], {}, {}, {}
        for i, place in enumerate(entry["places"]):
            old_place, _, (old, new), _, renames = place
            if old and norm(old) not in self.steps:
                self.steps[norm(old)] = new
                self.callee[norm(old)] = place[3]
            if old:
                self.inner.setdefault(norm(old), {}).update(map(tuple, renames))
                clauses = entry["clauses"][i]
                if clauses:
                    self.fields.setdefault(norm(old), clauses["fields"])
            arm = entry["arms"][i]
            if arm:
                for field, step, path in arm[2]:
                    if step != "match":
                        self.told.setdefault(norm(step), arm[0])
                    if path:
                        self.arm_paths.append((norm(step), path, arm[0], field))
                    elif field.endswith("-own"):
                        m = re.match(r"At-match\d*-(keys\d+|rest.*)$", old_place)
                        if m:
                            self.own.setdefault(m.group(1), f"{arm[0]}.{field}")
        self.arm_paths.sort(key=lambda a: -len(a[1]))
        self.args = {}
        for old, new in entry["args"]:
            m = re.match(r"\.args \.(\S+)$", old)
            n = re.match(r"\.args \.(\S+)$", new)
            if m and n:
                self.args[m.group(1)] = n.group(1)
        self.loops = {}
        for (pair, variables), changed in zip(entry["loops"], entry["changed"] or [None] * len(entry["loops"])):
            self.loops[norm(pair[0])] = (pair[1], variables, changed)

    def named_parameter(self, callee, rest):
        """`new.1.1.0` is what the third parameter holds afterwards."""
        i = 1
        while i < len(rest) and rest[i] == "1":
            i += 1
        params = self.entry["params"].get(callee, [])
        if i < len(rest) and rest[i] == "0" and i - 1 < len(params):
            return [rest[0], params[i - 1], *rest[i + 1:]]
        return rest

    def path(self, parts, root):
        """A path of the old record in the new one."""
        while parts and parts[0] == "before":
            parts = parts[1:]
        if not parts:
            return root
        head, rest = parts[0], list(parts[1:])
        if head == "args":
            if rest and rest[0] in self.args:
                rest[0] = self.args[rest[0]]
            elif rest and rest[0].replace("-", "_") != rest[0]:
                rest[0] = rest[0].replace("-", "_")
            return ".".join([root, "args", *rest])
        if head == "requires":
            pre = self.entry.get("pre")
            fields = pre["fields"] if isinstance(pre, dict) else pre
            if fields and rest and rest[0].isdigit():
                rest[0] = fields[int(rest[0])]
            return ".".join([root, "requires", *rest])
        key = norm(head)
        if key == "match" and rest and rest[0] in self.own:
            return ".".join([root, self.own[rest[0]], *rest])
        if rest == ["given"] and key in self.told:
            return ".".join([root, self.told[key], "is"])
        for step, path, arm, field in self.arm_paths:
            if step == key and rest[: len(path)] == path:
                return ".".join([root, arm, field, *rest[len(path):]])
        if key in self.steps:
            renames = self.inner.get(key, {})
            if rest and rest[0] in ("taken", "left") and key.startswith(("if", "loop_test")):
                rest[0] = {"taken": "true", "left": "false"}[rest[0]]
            if rest and rest[0] in renames:
                rest[0] = renames[rest[0]]
            fields = self.fields.get(key)
            if fields and len(fields) > 1 and len(rest) > 1 and rest[0] == "ensures" and rest[1].isdigit():
                i = int(rest[1])
                if i < len(fields):
                    rest[1] = fields[i]
            if len(rest) > 1 and rest[0] in ("new", "auto"):
                rest = self.named_parameter(self.callee.get(key), rest)
            return ".".join([root, self.steps[key], *rest])
        return ".".join([root, key if key in ("well_formed", "type_inv") else head, *rest])


def blocks(text):
    """Top-level blocks: a run of lines that begins at the margin after a blank line."""
    out, now = [], []
    for line in text.split("\n"):
        if not line.strip():
            now.append(line)
            continue
        if now and not line[0].isspace() and any(not l.strip() for l in now[-1:]):
            out.append("\n".join(now).strip("\n"))
            now = []
        now.append(line)
    if now:
        out.append("\n".join(now).strip("\n"))
    return [b for b in out if b.strip()]


def split_tuple(body):
    """The parts of a tuple in parentheses, or None."""
    body = body.strip()
    if not body.startswith("("):
        return None
    depth, parts, start = 0, [], 1
    for i, ch in enumerate(body):
        if ch in "([{":
            depth += 1
        elif ch in ")]}":
            depth -= 1
            if depth == 0:
                if i != len(body) - 1:
                    return None
                parts.append(body[start:i])
        elif ch == "," and depth == 1:
            parts.append(body[start:i])
            start = i + 1
    return [p.strip() for p in parts] if len(parts) > 1 else None


def tail_expression(body):
    """Splits leading lets from what they lead to."""
    pos = 0
    depth = 0
    last = 0
    for m in re.finditer(r"[(\[{]|[)\]}]|\bin\b|\blet\b", body):
        t = m.group(0)
        if t in "([{":
            depth += 1
        elif t in ")]}":
            depth -= 1
        elif t == "in" and depth == 0:
            last = m.end()
    return body[:last], body[last:]


def substitute(names, body, roots):
    def one(m):
        if m.group(1) not in roots:
            return m.group(0)
        return names.path(m.group(2)[1:].split("."), "c")

    return PATH.sub(one, body)


def convert(proof, names, module, keep_all):
    text = open(proof, encoding="utf-8").read()
    parts = blocks(text)
    header, imports, items = [], [], []
    for block in parts:
        lines = block.split("\n")
        while lines and (lines[0].startswith("--") or lines[0].startswith("use ")):
            if lines[0].startswith("use "):
                imports.append(lines.pop(0))
            elif not items and not imports:
                header.append(lines.pop(0))
            else:
                break
        if "\n".join(lines).strip():
            items.append("\n".join(lines))
    imports = [i for i in imports if not i.endswith(".Statement.{statement}") and not i.endswith(".Tie as tie")]
    answers, invariants, locals_, notes = [], [], [], []
    renamed = {}
    for item in items:
        lines = item.split("\n")
        comment = []
        while lines and lines[0].startswith("--"):
            comment.append(lines.pop(0))
        if not lines:
            locals_.append(("", item))
            continue
        m = re.match(r"^(abbrev )?(pub )?(\S+) : tie\.(\S+)(.*)$", lines[0])
        if re.search(r"→ statement M", lines[0]) or re.search(r"tie\.close|tie\.spec", item):
            continue
        if not m:
            d = re.match(r"^(?:abbrev |unfoldable |pub )*(?:data |record |module )?(\S+)", lines[0])
            locals_.append((d.group(1) if d else "", item))
            continue
        _, _, own, kind, _ = m.groups()
        rest = lines[1:]
        unfolding = []
        while rest and rest[0].startswith("unfolding"):
            unfolding.append(rest.pop(0))
        body = "\n".join(rest)
        eq = re.match(r"^(\S+)((?:\s+[^\s=]+)*)\s+=\s*", body)
        if not eq:
            notes.append(f"not read: {own}")
            continue
        params, value = eq.group(2).split(), body[eq.end():]
        loop = re.match(r"(invariant|decreases)-(.*)$", kind)
        if loop:
            key = norm(loop.group(2))
            if key not in names.loops:
                notes.append(f"no loop {kind}")
                continue
            new, variables, changed = names.loops[key]
            moving = [v for v, moves in zip(variables, changed or []) if moves]
            first, last = params[: len(params) - len(moving)], params[len(params) - len(moving):]
            if len(first) == len(variables):
                table = {p: f"l.initial.{v}" if v in moving else f"l.{v}" for p, v in zip(first, variables)}
                table.update({p: f"l.{v}" for p, v in zip(last, moving)})
            else:
                table = {p: f"l.initial.{p[:-1]}" if p.endswith("₀") else f"l.{p}" for p in params}
                notes.append(f"{kind}: {params} for {variables} {changed}")
            value = re.sub(NAME, lambda w: w.group(0) if w.start() and value[w.start() - 1] == "." else table.get(w.group(0), w.group(0)), value)
            name = f"{loop.group(1)}-{new}"
            renamed[own] = name
            invariants.append("\n".join([*comment, f"abbrev pub {name} : goal.{name}", *unfolding, f"{name} l = {value}"]))
            continue
        key = need_key(re.sub(r"^Need-", "", kind))
        new = names.needs.get(key)
        if new is None:
            notes.append(f"no goal {kind}")
            continue
        renamed[own] = new
        if not keep_all and not unfolding and re.fullmatch(r"search (rules|\(rules\))|omega arith|tt|refl", value.strip()):
            continue
        roots = {params[0]} if params else set()
        more = [p for p in params[1:] if p != "κs"]
        changed_ = True
        while changed_:
            changed_ = False
            for al in re.finditer(r"let (" + NAME + r") = (" + NAME + r")((?:\.before)*) in\s*", value):
                if al.group(2) in roots:
                    roots.add(al.group(1))
                    value = value[: al.start()] + value[al.end():]
                    changed_ = True
                    break
        value = substitute(names, value, roots)
        # The library's step says of `if !x` that x holds in the other branch.
        value = re.sub(r"\(not-false _ (c\.[\w'.\-]+\.false)-raw\)", r"\1", value)
        asked = None
        for k, fields in names.entry["asked"].items():
            if need_key(k) == key:
                asked = fields
        if asked and len(asked) > 1:
            lead, tail = tail_expression(value)
            tup = split_tuple(tail)
            if tup and len(tup) == len(asked):
                lead = lead.rstrip()
                value = (lead + "\n    " if lead else "") + "record { " + "; ".join(f"{f} = {t}" for f, t in zip(asked, tup)) + " }"
            else:
                notes.append(f"{new}: clauses {asked} of one term")
        gap = "\n" if value.startswith("\n") or value.startswith(" ") and "\n" in value else ""
        if "\n" in value.strip() and not value.startswith("\n"):
            value = "\n    " + value.lstrip()
        answers.append("\n".join([*comment, f"pub {new} : goal.{new}", *unfolding, f"{new} {' '.join(['c', *more])} = {value}".replace("= \n", "=\n")]))

    def again(body):
        return re.sub(r"(?<![\w.'\-])" + "(" + "|".join(sorted(map(re.escape, renamed), key=len, reverse=True)) + ")" + r"(?![\w'\-])",
                      lambda m: renamed[m.group(1)], body) if renamed else body

    inv_text = "\n\n".join(invariants)
    shared, todo = [], [inv_text]
    while todo:
        now = todo.pop()
        for name, body in locals_:
            if name and name not in shared and re.search(r"(?<![\w.'\-])" + re.escape(name) + r"(?![\w'\-])", now):
                shared.append(name)
                todo.append(body)
    local_text = [body for name, body in locals_ if name not in shared]
    shared_text = [body for name, body in locals_ if name in shared]
    folder = os.path.dirname(proof)
    if invariants:
        made = [re.sub(r"(?m)^(abbrev |unfoldable )?(pub )?(?=\S+ :)", r"\1pub ", b, count=1) for b in shared_text]
        open(f"{folder}/Invariants.antt", "w", encoding="utf-8").write(
            "\n".join([*header, *imports, f"use {module}.Given as goal", "", "\n\n".join([*made, *invariants])]) + "\n")
    if answers:
        more = [f"use {module}.Invariants.{{{', '.join(shared)}}}"] if shared else []
        open(f"{folder}/Answers.antt", "w", encoding="utf-8").write(
            "\n".join([*header, *imports, *more, f"use {module}.Goals as goal", "", "\n\n".join([*local_text, *answers])]) + "\n")
    elif local_text:
        notes.append("locals without answers: " + ", ".join(n for n, _ in locals_ if n not in shared))
    os.remove(proof)
    return notes


def main():
    words = [w for w in sys.argv[1:] if not w.startswith("--")]
    keep_all = "--all" in sys.argv
    data = json.load(open(f"{words[0]}/{words[1]}/names.json"))
    crate, only = words[1], words[2:]
    top = f"crates/{crate}/proofs"
    for folder, _, files in sorted(os.walk(top)):
        if "Proof.antt" not in files:
            continue
        function = os.path.relpath(folder, top).replace("/", ".")
        if only and function not in only:
            continue
        key = f"Rattle-{crate}-proofs.{function}.Lts"
        proof = f"{folder}/Proof.antt"
        if key not in data or "tie." not in open(proof, encoding="utf-8").read():
            print(f"{crate} {function}: by hand")
            continue
        for note in convert(proof, Names(data[key]), f"Rattle.{crate}.proofs.{function}", keep_all):
            print(f"{crate} {function}: {note}")


main()
