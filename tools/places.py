#!/usr/bin/env python3
"""Lists places of the sources whose form may be older than the language allows.

usage: python3 tools/places.py [POINT..]     (from the top of the repository)

A line is a place to read, not a verdict. Without a point all are listed, and a count of each closes the list:
  1 enums, flags beside values, numbers for kinds    5 repeated facts, parameters that travel together
  2 names that stand for more than one thing         6 arrays with lengths, reserved lists, indices
  3 loops over numbers and counters                  7 traits that may be closures, function tables
  4 comparisons and conversions by hand              8 answers and lemmas of proofs
"""
import collections
import glob
import re
import sys

SOURCES = sorted(glob.glob("crates/*/src/**/*.rt", recursive=True))


def grep(pattern):
    """Each line of a source that has the pattern."""
    for path in SOURCES:
        for number, line in enumerate(open(path), 1):
            if re.search(pattern, line) and not line.lstrip().startswith("//"):
                yield f"{path}:{number}: {line.strip()}"


def functions():
    """Each function of a source: its path, its name, and its parameters."""
    for path in SOURCES:
        text = open(path).read()
        for found in re.finditer(r"\bfn (\w+)(?:<[^(]*>)?\(([^)]*)\)", text):
            parts = re.split(r",(?![^<]*>)", found.group(2))
            names = [re.sub(r"\s+", " ", part.strip()) for part in parts if part.strip()]
            yield path, found.group(1), [name for name in names if "self" not in name]


def enums_and_numbers():
    yield from grep(r"^\s*(pub(\(\w+\))? )?enum ")
    yield from grep(r", bool\)|\(bool, ")
    yield from grep(r"fn number\(|const \w+: u8\b")


def names_of_many():
    """Functions and types outside impls of traits that have one name in two files or crates."""
    where = collections.defaultdict(list)
    for path in SOURCES:
        for number, line in enumerate(open(path), 1):
            found = re.match(r"(?:    )?(?:pub(?:\(\w+\))? )?(fn|struct|enum|trait) (\w+)", line)
            if found:
                where[found.group(2)].append(f"{path}:{number}: {line.strip()}")
    for name in sorted(where):
        if len(where[name]) > 1:
            yield from where[name]


def counted_loops():
    yield from grep(r"\bfor \w+ in \d+\.\.")
    yield from grep(r"\bwhile ")
    yield from grep(r"\+= 1;|saturating_add\(1\)")


def by_hand():
    yield from grep(r"^\s*impl.* (PartialEq|Eq|PartialOrd|Ord|Clone|Drop|fmt::\w+) for")
    yield from grep(r"^\s*impl.* (From|TryFrom)<.*> for")
    yield from grep(r"fn (number|namespaces|\w+_of|\w+_info|describe)\b")


def repeated():
    facts = collections.defaultdict(list)
    for line in grep(r"^\s*(requires|ensures) "):
        fact = re.sub(r".*?(requires|ensures) *\w* *", "", line, count=1)
        facts[fact].append(line)
    for fact in facts:
        if len(facts[fact]) > 2:
            yield from facts[fact]
    pairs = collections.defaultdict(list)
    for path, name, parameters in functions():
        for one in parameters:
            for other in parameters:
                if one < other:
                    pairs[one, other].append(f"{path}: {name}")
    for pair in pairs:
        if len(pairs[pair]) > 4:
            yield f"{len(pairs[pair])} functions take {pair[0]} and {pair[1]}: {pairs[pair][0]} .."


def buffers():
    yield from grep(r"\[\w+; \w+\]|\blen: usize|with_capacity|\.truncate\(|push_reserved")
    yield from grep(r"\bfrom: usize|\blimit: ")


def closures():
    yield from grep(r"^\s*(pub(\(\w+\))? )?trait ")
    yield from grep(r"\bdyn |: fn\(")


def proofs():
    for path in sorted(glob.glob("crates/*/proofs/**/*.antt", recursive=True)):
        for number, line in enumerate(open(path), 1):
            if re.match(r"(abbrev )?(unfoldable )?(pub )?[\w'?-]+( [^:]*)? : ", line):
                yield f"{path}:{number}: {line.strip()}"


POINTS = [enums_and_numbers, names_of_many, counted_loops, by_hand, repeated, buffers, closures, proofs]

chosen = [int(word) for word in sys.argv[1:]] or range(1, len(POINTS) + 1)
counts = []
for point in chosen:
    places = list(POINTS[point - 1]())
    counts.append(f"point {point}: {len(places)}")
    print("\n".join(places))
print("; ".join(counts))
