#!/usr/bin/env python3
"""Gives the definitions and lemmas of specs/ and proofs/ one spelling.

Types and statements are written in camel case (WellFormed), everything else in snake case (codes_at, product_push).
Names are taken from where they stand defined, in the .antt files below crates/, and changed as whole words there, in the
clauses and ghost lines of .rt files, and in backticks in README.md and docs/. Run it once, at the top of the repository.
"""
import glob
import os
import re
import sys

# Names whose plain spelling is that of a function of src/, or of another definition.
CHOSEN = {
    "atFirst": "refused_at_first",
    "blockEnd": "end_of_block",
    "blockStart": "start_of_block",
    "childCount": "count_of_children",
    "childOf": "child_holding",
    "child-start": "child_starts",
    "codes-end": "end_of_codes",
    "events-end": "end_of_events",
    "eventsOf": "events_of_children",
    "halfStart": "start_of_half",
    "known-cases": "known_cases_hold",
    "outerPiece": "piece_in_layer",
    "partingRow": "row_of_parting",
    "partingStep": "step_of_parting",
    "piece-of": "piece_is",
    "stepCount": "count_of_steps",
    "wholeCells": "cells_of_whole",
}

ENDS = r"[\s(){}\[\],.;⌜⌝`]"
SIGNATURE = re.compile(r"^(\s*)(?:(?:pub|unfoldable|abbrev)\s+)*([^\s:(){}=→λ,.;|\[\]]+)\s+:\s+(.*)$")
DECLARED = re.compile(r"^\s*(?:(?:pub|mutual)\s+)*(?:data|record)\s+(?:pub\s+)?([^\s:({]+)")


def code_of(line):
    """A line without its comment."""
    return re.sub(r"(^|\s)--(\s.*)?$", "", line)


def definitions(paths):
    """Each name that is defined, with whether it is a type."""
    names = {}
    for path in paths:
        for line in open(path, encoding="utf-8").read().split("\n"):
            line = code_of(line)
            found = DECLARED.match(line)
            if found and not re.search(r"=\s*record", line):
                names[found.group(1)] = True
                continue
            found = SIGNATURE.match(line)
            if found and not found.group(3).startswith("goal."):
                name = found.group(2)
                if name not in ("let", "in", "use"):
                    names.setdefault(name, name[0].isupper())
    return names


def snake(name):
    name = name.replace("-", "_")
    return re.sub(r"([a-z0-9])([A-Z])", lambda m: m.group(1) + "_" + m.group(2).lower(), name)


def camel(name):
    parts = re.split(r"[-_]", name)
    return "".join(part[:1].upper() + part[1:] for part in parts)


def respelled(names):
    """Old names with their new ones."""
    new = {}
    for name, is_type in names.items():
        if not re.match(r"^[A-Za-z][A-Za-z0-9'?]*([-_][A-Za-z0-9'?]+)*$", name):
            continue
        other = CHOSEN.get(name) or (camel(name) if is_type else snake(name))
        if other != name:
            new[name] = other
    return new


def words_of(text):
    return set(re.split(ENDS + "+", text))


def put(text, new):
    """The text with each whole word respelled."""
    pieces = re.split("(" + ENDS + ")", text)
    return "".join(new.get(piece, piece) for piece in pieces)


def put_antt(text, new):
    lines = []
    for line in text.split("\n"):
        code = code_of(line)
        lines.append(put(code, new) + line[len(code):])
    return "\n".join(lines)


def put_ticks(text, new):
    return re.sub(r"`[^`\n]+`", lambda m: put(m.group(0), new), text)


def put_rust(text, new):
    """Clauses and ghost lines stand outside of comments; no Rust name has such a spelling."""
    lines = []
    for line in text.split("\n"):
        if line.lstrip().startswith("//"):
            lines.append(put_ticks(line, new))
        else:
            lines.append(put(line, new))
    return "\n".join(lines)


def main():
    antt = sorted(glob.glob("crates/*/specs/**/*.antt", recursive=True) + glob.glob("crates/*/proofs/**/*.antt", recursive=True))
    rust = sorted(glob.glob("crates/*/src/**/*.rt", recursive=True))
    pages = ["README.md"] + sorted(glob.glob("docs/*.md"))
    new = respelled(definitions(antt))
    taken = set()
    for path in antt + rust:
        taken |= words_of(open(path, encoding="utf-8").read())
    clashes = sorted(name for name, other in new.items() if other in taken)
    twins = {}
    for name, other in new.items():
        twins.setdefault(other, []).append(name)
    twins = {other: names for other, names in twins.items() if len(names) > 1}
    for name in clashes:
        print("falls together with a name that stands:", name, new[name])
    for other, names in twins.items():
        print("fall together:", other, names)
    for path in antt + rust + pages:
        text = open(path, encoding="utf-8").read()
        if path.endswith(".antt"):
            other = put_antt(text, new)
        elif path.endswith(".rt"):
            other = put_rust(text, new)
        else:
            other = put_ticks(text, new)
        if other != text and "--dry" not in sys.argv:
            open(path, "w", encoding="utf-8").write(other)
    print(len(new), "names respelled")


main()
