#!/usr/bin/env python3
"""Respells the repository's own definitions and lemmas: words in snake case, types in camel case.

usage: python3 tools/respell.py [--list]      at the top of the repository, once, after the kit's port.py

A name is respelled where one of crates/*/specs or crates/*/proofs defines or binds it with a dash, or a file imports
something under it, and a type where it has a low dash. Goals that the check names (loop-i-preserved and the like) and
the library's names keep theirs. It stops, and writes nothing, where two names would fall together; only a function of
src/ may have the name of the definition that mirrors it. Comments stay as they are. --list prints old and new names.
"""

import glob
import os
import re
import sys

NAME = r"[A-Za-z][A-Za-z0-9_'₀-₉]*(?:-[A-Za-z0-9_'₀-₉]+)*"
WORD = re.compile(r"(?<![A-Za-z0-9_'₀-₉◌-])" + NAME + r"(?![A-Za-z0-9_'◌-])")
HEAD = re.compile(r"^\s*(?:abbrev |unfoldable )?(?:pub )?(?:abbrev |unfoldable )?(?:(record|data) )?(" + NAME + r")\s*(?:[:({].*)?$")
FUNCTION = re.compile(r"\bfn (\w+)")
COMMENT = re.compile(r"(?m)(?:^|(?<=\s))(?:--|//).*$")
BOUND = re.compile(r"\blet (" + NAME + r")(?=\s*[:=])")
EQUATION = re.compile(r"(?m)^\s*" + NAME + r"((?: [^=:\n]*)?) =(?=\s)")
GOAL = re.compile(r":\s*(?:\{[^}]*\}\s*→\s*)?(?:goal|given|need)\.")


def sources():
    for pattern in ("specs/**/*.antt", "proofs/**/*.antt", "src/**/*.rt"):
        yield from sorted(glob.glob("crates/*/" + pattern, recursive=True))


def respelled(name):
    if name[0].isupper():
        return "".join(p[:1].upper() + p[1:] for p in re.split("[-_]", name))
    return name.replace("-", "_")


def is_old(name):
    return "-" in name or (name[0].isupper() and "_" in name)


def defined(path, text):
    """The names that a file of specs/ or proofs/ defines or binds."""
    text = COMMENT.sub("", text)
    yield from BOUND.findall(text)
    for bound in EQUATION.findall(text):
        yield from (w for w in WORD.findall(bound) if w[0].islower())
    for line in text.splitlines():
        at = HEAD.match(line)
        if not at or GOAL.search(line):
            continue
        if at[1] or re.match(r"^\s*(?:abbrev |unfoldable |pub )*" + re.escape(at[2]) + r"\s*[:({]", line):
            yield at[2]


def renamed(text):
    """The dashed names that a file gives what it imports."""
    for line in re.findall(r"(?m)^(?:ghost )?use [^;\n]*\{([^}\n]*)\}", text):
        yield from re.findall(r" as (" + NAME + r")(?=\s*(?:,|$))", line)


def outside_comments(text, change):
    """The text with each part that is no comment changed."""
    at, out = 0, []
    for comment in COMMENT.finditer(text):
        out += [change(text[at:comment.start()]), comment[0]]
        at = comment.end()
    return "".join(out) + change(text[at:])


def imported(text):
    """The names that a file takes from the library."""
    for line in re.findall(r"use Rattle\.std\.[^;\n]*\{([^}]*)\}", text):
        yield from (n.strip() for n in line.split(",") if " as " not in n)


def main():
    texts = {}
    for path in sources():
        with open(path, encoding="utf-8") as f:
            texts[path] = f.read()
    names, library, words, functions = {}, set(), {}, set()
    for path, text in texts.items():
        library.update(imported(text))
        if path.endswith(".rt"):
            functions.update(FUNCTION.findall(text))
        found = set(WORD.findall(COMMENT.sub("", text)))
        for word in found:
            words.setdefault(word, set()).add(path)
        for name in [*renamed(text), *(defined(path, text) if path.endswith(".antt") else [])]:
            if is_old(name):
                names[name] = respelled(name)
    names = {old: new for old, new in names.items() if old not in library}
    together = []
    for old, new in sorted(names.items()):
        others = {p for p in words.get(new, set()) & words.get(old, set()) if new not in functions or p.endswith(".antt")}
        if others:
            together.append(f"{old} -> {new}, which stands beside it in {', '.join(sorted(others))}")
    if "--list" in sys.argv:
        for old, new in sorted(names.items()):
            print(old, new)
    if together:
        print("\n".join(together), file=sys.stderr)
        print(f"respell: {len(together)} names would fall together; nothing was written", file=sys.stderr)
        return 1
    changed = 0
    for path, text in texts.items():
        new = outside_comments(text, lambda part: WORD.sub(lambda m: names.get(m[0], m[0]), part))
        if new != text:
            changed += 1
            if "--list" not in sys.argv:
                with open(path, "w", encoding="utf-8") as f:
                    f.write(new)
    print(f"respell: {len(names)} names in {changed} of {len(texts)} files")
    return 0


if __name__ == "__main__":
    raise SystemExit(main())
