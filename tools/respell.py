#!/usr/bin/env python3
"""Writes the repository's own names as Rattle spells them: definitions, lemmas, fields and constructors in snake case.

usage: python3 tools/respell.py          at the top of the repository, once, after /opt/rattle/port/port.py

A name counts as the repository's own where an .antt file below crates/ declares it with a dash in it; the names of
goals, which Rattle makes, are left alone. Each is written with `_` for the dash wherever it stands as a whole name:
in .antt files and in the ghost text of .rt files, in comments only between back quotes. Two names that would fall
together stop it, and so does a name that exists already. It prints each name with what it became.
"""

import os
import re
import sys

DECLARED = re.compile(r"^\s*(?:(?:abbrev|unfoldable)\s+)?(?:pub\s+)?(?:(?:record|data)\s+)?([^\s(){}\[\]:;,.\"«»]+)(?:\s+[({].*)?\s*:(?!=)\s*(.*)$")
NAME = re.compile(r"[^\s(){}\[\].,;:\"«»@|`]+")
TYPES = {"by_number": "ByNumber", "in_order": "InOrder", "in-some-order": "InSomeOrder"}


def files():
    for folder, dirs, names in os.walk("crates"):
        dirs[:] = sorted(d for d in dirs if d != "out")
        for name in sorted(names):
            if name.endswith((".rt", ".antt")):
                yield os.path.join(folder, name)


def read(path):
    with open(path, encoding="utf-8") as f:
        return f.read()


def declared():
    """Every name that an .antt file declares; a goal's answer is no declaration of ours."""
    found = set()
    for path in files():
        if not path.endswith(".antt"):
            continue
        for line in read(path).splitlines():
            if line.lstrip().startswith("--"):
                continue
            m = DECLARED.match(line)
            if m and m.group(2).strip() not in (f"goal.{m.group(1)}", f"given.{m.group(1)}"):
                found.add(m.group(1))
    return found


def renamings():
    own = declared()
    to = dict(TYPES)
    for name in sorted(own):
        if "-" in name and name not in to:
            to[name] = name.replace("-", "_")
    new = list(to.values())
    twice = sorted({n for n in new if new.count(n) > 1} | {n for n in new if n in own and n not in to})
    if twice:
        sys.exit("respell: these names would fall together: " + ", ".join(twice))
    return to


def turned(text, to, comment, strings):
    """The text with the names turned; a comment keeps its words but for what stands between back quotes."""
    def name(m):
        return to.get(m.group(0), m.group(0))

    def code(part):
        return NAME.sub(name, part)

    def line(whole):
        parts = re.split(r'("(?:[^"\\]|\\.)*")', whole) if strings else [whole]
        out = ""
        for i, part in enumerate(parts):
            if i % 2:
                out += part
                continue
            head, mark, tail = part.partition(comment)
            if mark:
                rest = mark + tail + "".join(parts[i + 1:])
                return out + code(head) + re.sub(r"`([^`]*)`", lambda m: "`" + code(m.group(1)) + "`", rest)
            out += code(part)
        return out

    return "\n".join(line(l) for l in text.split("\n"))


def main():
    if not os.path.isdir("crates"):
        sys.exit("respell: run it at the top of the repository")
    to = renamings()
    changed = 0
    for path in files():
        before = read(path)
        rust = path.endswith(".rt")
        after = turned(before, to, "//" if rust else "--", rust)
        if after != before:
            changed += 1
            with open(path, "w", encoding="utf-8") as f:
                f.write(after)
    for name in sorted(to):
        print(f"{name} -> {to[name]}")
    print(f"respell: {len(to)} names, {changed} files")


if __name__ == "__main__":
    main()
