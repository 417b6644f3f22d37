#!/usr/bin/env python3
"""Pairs of functions in crates/*/src whose bodies are alike once names are left out, the most alike first.

usage: tools/twins.py [COMMIT]     (no commit: the files as they stand)
"""

import difflib
import re
import subprocess
import sys

COMMIT = sys.argv[1] if len(sys.argv) > 1 else None
KEPT = {"for", "in", "if", "else", "match", "let", "mut", "return", "while", "as", "Some", "None", "Ok", "Err"}


def run(*words):
    return subprocess.check_output(words, text=True)


def sources():
    listed = run("git", "ls-tree", "-r", "--name-only", COMMIT) if COMMIT else run("git", "ls-files")
    return [f for f in listed.split("\n") if re.fullmatch(r"crates/\w+/src/.*\.rt", f)]


def text(file):
    whole = run("git", "show", f"{COMMIT}:{file}") if COMMIT else open(file).read()
    return re.sub(r"//[^\n]*", "", whole)


def body(source, at):
    """The braces after a signature, or none where it ends in a semicolon."""
    opened = re.compile(r"\{\n").search(source, at)
    ended = source.find(";\n", at)
    if not opened or (ended != -1 and ended < opened.start()):
        return None
    depth = 0
    for i in range(opened.start(), len(source)):
        depth += {"{": 1, "}": -1}.get(source[i], 0)
        if depth == 0:
            return source[opened.start() : i + 1]
    return None


def functions():
    for file in sources():
        source = text(file)
        for found in re.finditer(r"\bfn (\w+)", source):
            inner = body(source, found.end())
            words = re.findall(r"[A-Za-z_]\w*|\d\w*|\S", inner or "")
            shape = ["_" if re.match("[A-Za-z_]", w) and w not in KEPT else w for w in words]
            if len(shape) >= 14:
                yield f"{file[7:]}::{found[1]}", words, shape


def alike(a, b):
    return difflib.SequenceMatcher(None, a, b, autojunk=False).ratio()


every = list(functions())
pairs = []
for i, (name, words, shape) in enumerate(every):
    for other, other_words, other_shape in every[i + 1 :]:
        if abs(len(shape) - len(other_shape)) <= 0.3 * max(len(shape), len(other_shape)):
            by_shape = alike(shape, other_shape)
            if by_shape > 0.88:
                pairs.append((alike(words, other_words), by_shape, name, other))
for by_word, by_shape, name, other in sorted(pairs, reverse=True):
    print(f"{by_shape:.2f} {by_word:.2f}  {name}  {other}")
