#!/usr/bin/env python3
"""Respells the repository's own antt names, once, after the kit's port.py: functions, lemmas and record fields in snake case, facts and types as they are.

usage: tools/respell.py [FOLDER] [--list]      in FOLDER (here by default); --list only prints the names, old and new

A dash stays where it joins the names of two functions, as in length-kept. Names that Rattle makes from the source (goals, steps) are left alone.
"""

import os
import re
import sys

WORD = re.compile(r"[\w'\-]+")
KEEPS = set("length append map drop take set reverse head tail sum min max pow mul add sub div mod get insert push".split())
# names whose new spelling another name has already
FIXED = {"or-else": "few_else"}


def files(root, endings):
    for folder, dirs, names in os.walk(os.path.join(root, "crates")):
        dirs[:] = sorted(d for d in dirs if d != "out")
        for name in sorted(names):
            if name.endswith(endings):
                yield os.path.join(folder, name)


def read(path):
    with open(path, encoding="utf-8") as f:
        return f.read()


def code(text, mark):
    """The text with comments blanked."""
    return re.sub(re.escape(mark) + r".*", lambda m: " " * len(m[0]), text)


def declared(root):
    """Own names: the words that stand before a colon at the head of a declaration, and those that a let or an as binds."""
    functions, others = set(), set()
    for path in files(root, ".antt"):
        text = code(read(path), "--")
        for m in re.finditer(r"^\s*(?:(abbrev|unfoldable)\s+)?(?:pub\s+)?([\w'\-]+) :(?=\s)(.*)$", text, re.M):
            name, rest = m[2], m[3].strip()
            if rest.startswith("goal.") or name in ("record", "data"):
                continue
            (functions if m[1] else others).add(name)
        for m in re.finditer(r"\blet ([\w'\-]+)\s*[:=]", text):
            others.add(m[1])
        for m in re.finditer(r"\bas ([\w'\-]+)", text):
            others.add(m[1])
    for path in files(root, ".rt"):
        for line in read(path).split("\n"):
            if line.startswith("ghost use"):
                for m in re.finditer(r"\bas ([\w'\-]+)", line):
                    others.add(m[1])
    return functions, others


def snake(part):
    """A word in snake case; one that begins with a capital is a type or a fact, and stays."""
    if not part or not part[0].islower():
        return part
    return re.sub(r"(?<=[a-z0-9'])([A-Z])(?=[a-z0-9]|$)", lambda m: "_" + m[1].lower(), part)


def respelled(name, functions, joined):
    if name in FIXED:
        return FIXED[name]
    parts = [snake(p) for p in name.split("-")]
    if len(parts) == 1:
        return parts[0]
    if len(parts[0]) > 1 and parts[0][0].isupper():
        return "".join(p[0].upper() + p[1:] for p in parts)
    if joined and len(parts) == 2 and all(p.rstrip("'") in functions for p in parts):
        return "-".join(parts)
    return "_".join(parts)


def names(root):
    functions, others = declared(root)
    known = {snake(f) for f in functions if "-" not in f} | KEEPS
    table = {}
    for name in sorted(functions | others):
        new = respelled(name, known, name not in functions)
        if new != name:
            table[name] = new
    return table


def aliases(line, table):
    """`old as alias` becomes the new name alone where the alias was there only for the dash."""
    def one(m):
        a, b = table.get(m[1], m[1]), table.get(m[2], m[2])
        return a if a == b else f"{a} as {b}"
    return re.sub(r"([\w'\-]+) as ([\w'\-]+)", one, line)


def turned(text, table, mark):
    out = []
    for line in text.split("\n"):
        at = line.find(mark)
        head, tail = (line, "") if at < 0 else (line[:at], line[at:])
        if re.match(r"\s*(ghost )?use ", head):
            head = aliases(head, table)
        head = WORD.sub(lambda m: table.get(m[0], m[0]), head)
        out.append(head + tail)
    return "\n".join(out)


def main():
    words = [w for w in sys.argv[1:] if w != "--list"]
    root = words[0] if words else "."
    table = names(root)
    if "--list" in sys.argv:
        for old, new in sorted(table.items()):
            print(old, new)
        return
    changed = 0
    for path in files(root, (".antt", ".rt")):
        text = read(path)
        new = turned(text, table, "--" if path.endswith(".antt") else "//")
        if new != text:
            with open(path, "w", encoding="utf-8") as f:
                f.write(new)
            changed += 1
    print(f"{len(table)} names, {changed} files")


main()
