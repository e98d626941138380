#!/usr/bin/env python3
"""Brings this repository's own definitions and lemmas to the spelling of today's Rattle.

usage: tools/respell.py      at the top of the repository, once, after port.py

A name that begins small and joins its words by capitals gets underscores: `faceOf` becomes `face_of`, `faceOf-next`
becomes `face_of-next`. Facts, that is what ends in `Type 0`, get a capital first. Words of the code (functions,
exported names, strings) have no such names and stay. A document's prime becomes an apostrophe.
"""

import glob
import os
import re

# Facts that began small.
FACTS = {"numberFits": "NumberFits", "stepFits": "StepFits"}
CAMEL = re.compile(r"(?<![\w'\u2032-])[a-z][\w'-]*?[a-z0-9][A-Z][\w'-]*")


def snake(word):
    parts = []
    for part in word.split("-"):
        if re.match(r"[a-z]", part):
            part = re.sub(r"([a-z0-9])([A-Z])", lambda m: m.group(1) + "_" + m.group(2).lower(), part)
        parts.append(part)
    return "-".join(parts)


def proof_files():
    for part in ("specs", "proofs"):
        yield from sorted(glob.glob(f"crates/*/{part}/**/*.antt", recursive=True))


def text_files():
    yield from proof_files()
    yield from sorted(glob.glob("crates/*/src/**/*.rt", recursive=True))
    yield from sorted(glob.glob("crates/*/must-fail/*.edit"))
    yield "README.md"
    yield from sorted(glob.glob("docs/**/*.md", recursive=True))


def respelled(match):
    return FACTS.get(match.group(0), snake(match.group(0)))


def main():
    if not os.path.isdir("crates"):
        raise SystemExit("run it at the top of the repository")
    old = {}
    changed = 0
    for path in text_files():
        with open(path, encoding="utf-8") as f:
            text = f.read()
        for match in CAMEL.finditer(text):
            old.setdefault(respelled(match), set()).add(match.group(0))
        after = CAMEL.sub(respelled, text)
        if path.endswith(".md"):
            after = after.replace("\u2032", "'")
        if after != text:
            with open(path, "w", encoding="utf-8") as f:
                f.write(after)
            changed += 1
    for now, olds in sorted(old.items()):
        if len(olds) > 1:
            print("fall together:", now, sorted(olds))
    print(f"{len(old)} names respelled in {changed} files")


if __name__ == "__main__":
    main()
