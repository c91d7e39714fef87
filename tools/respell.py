#!/usr/bin/env python3
"""Respells the repository's own definitions and lemmas, once, after the kit's scripts: words in snake case, types in camel case.

usage: python3 tools/respell.py [--dry]      at the top of the repository

A name counts as the repository's own where a file of crates/*/specs or crates/*/proofs declares it, and its type is no goal of a
function's proof. Of these, each name with a capital inside or a dash is turned: hasLine and one-low become has_line and one_low.
In .rt files only ghost items and clauses are turned: code, strings and comments with spaces in them stay. --dry lists the names alone.
"""

import os
import re
import sys

# Where the plain rule would give two things one name, or a type the name of a function.
OTHERWISE = {
    "Both-keep": "BothKeep",
    "book-answers": "book_answers_lem",
    "book-registers": "book_registers_lem",
    "in-registers": "in_registers_lem",
    "living-blocks": "living_blocks_lem",
    "machine-answers": "machine_answers_lem",
    "machine-registers": "machine_registers_lem",
    "number-or": "number_or_lem",
    "or-else": "or_else_lem",
    "register-in": "register_in_lem",
}
# The same, in one file alone.
IN_FILE = {"crates/model/specs/Promise.antt": {"passes": "Passes"}}
DECLARES = re.compile(
    r"^\s*(?:(?:abbrev|unfoldable|opaque|pub|private)\s+)*(?:(?:record|data)\s+)?([^\s:(){},.=|;λ\"]+)(?:\s[^=]*?)?\s:(?:\s|$)(.*)"
)
TOKEN = re.compile(r"[^\s(){}\[\],;.λ|«»\"`]+")
RESERVED = {"use", "mod", "open", "module", "infixl", "infixr", "infix", "let", "where", "elim", "in", "ghost"}


def files(ending):
    for folder, dirs, names in os.walk("crates"):
        dirs[:] = sorted(d for d in dirs if d not in ("out", "target", ".git"))
        for name in sorted(names):
            if name.endswith(ending):
                yield os.path.join(folder, name)


def text_of(path):
    with open(path, encoding="utf-8") as f:
        return f.read()


def snake(name):
    if name in OTHERWISE:
        return OTHERWISE[name]
    name = re.sub(r"([a-z0-9])([A-Z])", lambda m: m[1] + "_" + m[2].lower(), name)
    return name.replace("-", "_")


def is_goal(path, name, type_):
    return "/proofs/" in path and re.match(r"(?:goal|need)\.", type_.strip()) is not None


def own_names():
    goals, own = set(), {}
    for path in files(".antt"):
        for line in text_of(path).split("\n"):
            m = DECLARES.match(line)
            if not m or m[1] in RESERVED:
                continue
            if is_goal(path, m[1], m[2]):
                goals.add(m[1])
            elif m[1] in OTHERWISE or (m[1][0].islower() and re.search(r"[a-z0-9][A-Z]|-", m[1])):
                own[m[1]] = snake(m[1])
    return {old: new for old, new in own.items() if old not in goals}


def turned(line, names):
    return TOKEN.sub(lambda m: names.get(m[0], m[0]), line)


def antt(text, names):
    out = []
    for line in text.split("\n"):
        code, mark, comment = line.partition("--")
        if line.lstrip().startswith("use ") or not mark or (code and not code.endswith(" ")):
            out.append(turned(line, names) if not line.lstrip().startswith("--") else line)
        else:
            out.append(turned(code, names) + mark + comment)
    return "\n".join(out)


def rt(text, names):
    """Ghost items, and clauses from their word to their closing brace, over as many lines as they have."""
    out, deep, inside = [], 0, False
    for line in text.split("\n"):
        plain = line.split("//")[0]
        starts = re.match(r"\s*(?:pub\s+)?(?:ghost|requires|ensures)\b", plain)
        if inside or starts:
            line = turned(plain, names) + line[len(plain) :]
            deep += plain.count("{") - plain.count("}")
            inside = deep > 0
            if not inside:
                deep = 0
        out.append(line)
    return "\n".join(out)


def page(text, names):
    """A page turns what stands between backticks."""
    return re.sub(r"`[^`\n]*`", lambda m: turned(m[0], names), text)


def main(argv):
    names = own_names()
    if "--dry" in argv:
        for old, new in sorted(names.items()):
            print(old, new)
        return 0
    pages = ["README.md"] + ["docs/" + name for name in sorted(os.listdir("docs")) if name.endswith(".md")]
    for paths, turn in ((files(".antt"), antt), (files(".rt"), rt), (pages, page)):
        for path in paths:
            before = text_of(path)
            after = turn(before, names | IN_FILE.get(path, {}))
            if after != before:
                with open(path, "w", encoding="utf-8") as f:
                    f.write(after)
    print(f"respell: {len(names)} names")
    return 0


if __name__ == "__main__":
    sys.exit(main(sys.argv[1:]))
