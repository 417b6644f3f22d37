#!/usr/bin/env python3
"""Lemmas and definitions of crates/*/{specs,proofs} that nothing cites.

usage: tools/uncited.py [COMMIT]     (no commit: the files as they stand)
"""

import re
import subprocess
import sys

COMMIT = sys.argv[1] if len(sys.argv) > 1 else None
DECLARED = re.compile(r"^(?:(?:unfoldable|abbrev) )?(?:pub )?(?:record |data )?([A-Za-z][\w-]*)(?= [^=\n]*:)", re.M)
WORDS = {"use", "pub", "where", "unfolding", "mod", "let", "in"}


def run(*words):
    return subprocess.check_output(words, text=True)


def text(file):
    return run("git", "show", f"{COMMIT}:{file}") if COMMIT else open(file).read()


listed = run("git", "ls-tree", "-r", "--name-only", COMMIT) if COMMIT else run("git", "ls-files")
texts = {f: text(f) for f in listed.split("\n") if re.fullmatch(r"crates/.*\.(antt|rt)", f)}
declared = {}
for file, whole in texts.items():
    if file.endswith(".antt") and not file.endswith(("Answers.antt", "Invariants.antt", "Proof.antt")):
        for found in DECLARED.finditer(whole):
            if found[1] not in WORDS:
                declared.setdefault(found[1], set()).add(file)
lines = [line for whole in texts.values() for line in whole.split("\n") if not re.match(r"\s*(ghost )?use ", line)]
for name, files in sorted(declared.items()):
    word = re.compile(r"(?<![\w-])" + re.escape(name) + r"(?![\w-])")
    head = re.compile(r"^(?:(?:unfoldable|abbrev) )?(?:pub )?(?:record |data )?" + re.escape(name) + r"(?![\w-])")
    if not any(word.search(head.sub("", line)) for line in lines):
        print(name, *sorted(files))
