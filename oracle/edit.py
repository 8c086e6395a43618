#!/usr/bin/env python3
"""edit.py FROM TO [LEFT_OUT]: copies the Rust in FROM to TO and edits the copy, so that rustc alone can build it. The edit with the
name LEFT_OUT is not made.

Each edit is a pattern, what takes its place, and how often it must be found; the reasons stand in docs/DIFFERENCES.md,
under the same names. An edit that is found more or less often stops everything with its name: the Rust is then not the one that
these edits were written for, and nothing may be concluded from it.
"""
import os
import re
import shutil
import sys

# Edits: name, pattern, what takes its place, and how often it is found in each file.
EDITS = [
    ('serde: use lines', r'^use serde.*;\n', '',
     {'chord/interval.rs': 2, 'chord/mod.rs': 2, 'chord/note.rs': 1, 'chord/quality.rs': 1, 'parsing/parser_error.rs': 1}),
    ('serde: Serialize in derives', r'(?<=, )Serialize, ', '',
     {'chord/mod.rs': 1, 'chord/note.rs': 4, 'chord/quality.rs': 1, 'parsing/parser_error.rs': 2}),
    ('serde: Deserialize in derives', r', Deserialize(?=[,)])', '',
     {'chord/interval.rs': 2, 'chord/mod.rs': 1, 'chord/note.rs': 4, 'chord/quality.rs': 1}),
    ('serde: attributes', r'^ *#\[serde\([^\]]*\)\]\n', '',
     {'chord/mod.rs': 2, 'chord/note.rs': 1}),
    ('serde: impl for Interval', r'^impl Serialize for Interval \{\n(?s:.*?)^\}\n', '',
     {'chord/interval.rs': 1}),
    ('serde: functions of NoteModifier', r'^    pub fn (?:serialize_as|deserialize_from)_string<(?s:.*?)^    \}\n', '',
     {'chord/note.rs': 2}),
    ('serde_json: call', r'serde_json::to_string\(self\)', 'Err::<String, ()>(())',
     {'chord/mod.rs': 1}),
    ('enum_bitset: use lines', r'^use enum_bitset::EnumBitset;\n', '',
     {'chord/interval.rs': 1, 'chord/quality.rs': 1}),
    ('enum_bitset: derives', r', EnumBitset(?=[,)])', '',
     {'chord/interval.rs': 2, 'chord/quality.rs': 1}),
    ('sign: first byte', r'(?<=, )self\.current(?=, 1, tokens\),$)', 'self.current - c.len_utf8()',
     {'parsing/lexer.rs': 11}),
    ('evaluate: stop after validate', r'(?<=\.validate\(\)\n        )\.build_chord\(\)', '.stop()',
     {'parsing/evaluator.rs': 1}),
    ('kind 3: priority', r'Exp::from_priority\(key\)(?=\.to_string\(\))', 'key',
     {'parsing/validator.rs': 1}),
    ('kind 10: interval numbers', r'(?<=", )(intervals\[[iab]\]\.unwrap\(\))', r'*\1 as u8',
     {'parsing/validator.rs': 3}),
]

# Lines that are added at the end of a file: the stand-in sets, and the module that reaches the private parts.
ADDED = [
    ('chord/interval.rs', 'crate::bitset::bitset!(Interval, IntervalSet);'),
    ('chord/interval.rs', 'crate::bitset::bitset!(IntDegree, IntDegreeSet);'),
    ('chord/quality.rs', 'crate::bitset::bitset!(Pc, PcSet);'),
    ('parsing/mod.rs', 'pub(crate) mod tap;'),
]


def stop(message):
    """Ends the build with one line that says why."""
    sys.exit(f'oracle/edit.py: {message}')


def change(folder, path, edit):
    """Rewrites one file of the copy; `edit` takes its text to the new text."""
    name = os.path.join(folder, path)
    if not os.path.isfile(name):
        stop(f'{path} is missing in the Rust')
    with open(name, encoding='utf-8', newline='') as f:
        text = f.read()
    with open(name, 'w', encoding='utf-8', newline='') as f:
        f.write(edit(text))


def replace(folder, path, name, pattern, new, expected):
    """Applies one edit to one file, or stops if it is not found exactly `expected` times."""
    def edit(text):
        out, found = re.subn(pattern, new, text, flags=re.M)
        if found != expected:
            stop(f'edit "{name}" is found {found} times in {path}, not {expected}')
        return out
    change(folder, path, edit)


def main():
    if len(sys.argv) not in (3, 4):
        stop('usage: edit.py FROM TO [LEFT_OUT]')
    source, copy, *left_out = sys.argv[1:]
    # The Rust may be read-only; the copy must not be.
    shutil.copytree(source, copy, copy_function=shutil.copyfile)
    for base, _, _ in os.walk(copy):
        os.chmod(base, 0o755)
    if not set(left_out) <= {edit[0] for edit in EDITS}:
        stop(f'there is no edit "{left_out[0]}"')
    for name, pattern, new, files in EDITS:
        if name in left_out:
            continue
        for path, expected in files.items():
            replace(copy, path, name, pattern, new, expected)
    for path, line in ADDED:
        change(copy, path, lambda text: text + line + '\n')


main()
