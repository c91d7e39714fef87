#!/usr/bin/env python3
"""Prints the lines of crates/*/src that may be a place of an older form, under the seven points of docs/DESIGN-PASS.md.

    python3 tools/forms.py [TOP]

A line printed here is a candidate: the page says which are places, and what became of them.
"""
import collections
import glob
import os
import re
import sys

TOP = sys.argv[1] if len(sys.argv) > 1 else "."

POINTS = [
    ("1. own Option or Result, flags with a value, numbers for kinds", [
        r"^\s*(pub(\(\w+\))? )?enum \w+",
        r"\b\w+: bool\b",
        r"-> bool\b",
        r"\bconst (NO_\w+|FILLER|BLANK)\b",
    ]),
    ("2. twins: functions or types of one name or one shape (read them side by side)", [
        r"^\s*(pub(\(\w+\))? )?(fn|struct|enum) (unit|new|of|row|guess|counted|clear_\w+|set_\w+|positive_of|negative_of"
        r"|register_\w+|number_fits|offset_of|heading_of|entry_of|\w*Choice\w*|\w*Rack|Line|Ring\w*|Bare|Keyed|Row|Known|\w*Name)\b",
        r"^const [A-Z]+: Uses",
    ]),
    ("3. loops that count an index by hand", [
        r"^\s*while\b",
        r"^\s*for \w+ in [^{]*\.\.",
    ]),
    ("4. equality, order, copying, conversion, printing by hand", [
        r"\bas (u8|u16|u32|u64|usize|i64)\b",
        r"fn (of|of_word|number|before|same|pad|kind|name|sentence)\b",
        r"\bimpl .*\b(PartialEq|PartialOrd|Ord|Clone|Default)\b",
        r"Some\(\w+\) => Some\(",
    ]),
    ("6. buffers with a length beside, parallel arrays, arenas", [
        r"^\s+(pub(\(\w+\))? )?\w+: \[[^\]]+; [^\]]+\],?$",
        r"^\s+(pub(\(\w+\))? )?(count|top|first|depth|len|next): usize",
    ]),
    ("7. switches on which step to run, tables of functions", [
        r"\bmatch (self|command|name|code|\*self)\b.*\{$",
        r"\bfn\(|\bdyn \b",
    ]),
]


def sources():
    for path in sorted(glob.glob(os.path.join(TOP, "crates/*/src/**/*.rt"), recursive=True)):
        with open(path, encoding="utf-8") as f:
            yield os.path.relpath(path, TOP), f.read().splitlines()


def candidates(files, patterns):
    for path, lines in files:
        for number, line in enumerate(lines, 1):
            code = line.split("//", 1)[0]
            if any(re.search(pattern, code) for pattern in patterns):
                yield f"  {path}:{number}: {line.strip()}"


def clauses():
    """Facts that stand in the clauses of three or more functions of one file's crate."""
    seen = collections.defaultdict(set)
    for path, lines in sources():
        crate = path.split(os.sep)[1]
        fn = None
        for number, line in enumerate(lines, 1):
            m = re.match(r"\s*(pub(\(\w+\))? )?fn (\w+)", line)
            if m:
                fn = m.group(3)
            m = re.match(r"\s*(requires|ensures)\s*\w*\s*\{(.*)\}\s*;?$", line)
            if m and fn:
                for fact in re.split(r"\)\s*×\s*\(|\s×\s", m.group(2)):
                    fact = re.sub(r"\b(self|cuts|text|order|heap|rack)\.(now|old|new)", r"\1", fact).strip(" ()")
                    seen[crate, fact].add((path, fn))
    for (crate, fact), at in sorted(seen.items()):
        if len(at) >= 3:
            yield crate, fact, sorted(fn for _, fn in at)


def main():
    files = list(sources())
    for title, patterns in POINTS:
        found = list(candidates(files, patterns))
        print(f"{title}: {len(found)}")
        print("\n".join(found))
    facts = list(clauses())
    print(f"5. facts in the clauses of three or more functions: {len(facts)}")
    for crate, fact, functions in facts:
        print(f"  {crate}: {fact}: {', '.join(functions)}")


main()
