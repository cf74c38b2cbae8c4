#!/usr/bin/env python3
"""Spells the definitions and lemmas of this repository as today's Rattle does: words in snake case.

usage: python3 tools/respell.py        at the top of the repository, once, right after port.py

It renames what specs/ and proofs/ declare, the variables and record fields there that are in camel case, and the same
names in clauses, in comments and between backticks in documents. Names of functions in src/, of C and of the library
stay. A law that had its definition's name but for the dash gets `_lem` after it.
"""

import glob
import os
import re

# Laws whose names would fall together with the definitions that they are about.
LEMMAS = {
    "answered-by", "cell-sigma", "cells-in", "count-over", "cut-done", "grid-length", "group-items", "group-x",
    "group-y", "high-most", "in-limits", "is-empty", "is-lent", "is-low", "is-power", "judged-qf", "lengths-fit",
    "less-of", "natural-store", "or-ended", "order-by", "parameters-fit", "place-cell", "qf-fit", "qf-u32",
    "read-bits", "read-list", "sides-fit", "stretch-at", "strip-lines", "three-of", "three-times", "too-high",
    "wide-most", "spot-small", "varblock-small", "params-fit", "layout-fits", "lent-fits",
}
# Names that the scripts of the kit had turned already, in the crates where they fall together with a definition.
TURNED = {
    "order_call": {"by_digits": "by_digits_lem"},
    "lent_likeness": {"not_finite": "not_finite_lem"},
    "marked": {"says": "Says"},
}
# A definition that would have the name of a parameter beside it.
APART = {"groupBw": "bw_of_group", "groupBh": "bh_of_group"}

TOKEN = re.compile(r"[^\s(){}\[\];,.:\"`⌜⌝]+")
WORD = re.compile(r"^[A-Za-z][\w₀-₉'-]*$")
CAMEL = re.compile(r"^[a-z][a-z0-9₀-₉]*[A-Z][\w₀-₉']*$")
DECLARED = re.compile(r"^\s*((?:abbrev |unfoldable |pub |record |data |ruleset )*)([^\s:(){},;.]+)\s*(.*)$")


def snake(name):
    if name in APART:
        return APART[name]
    if name in LEMMAS:
        return name.replace("-", "_") + "_lem"
    if name[0].islower():
        name = re.sub(r"([a-z0-9])([A-Z])", lambda it: it[1] + "_" + it[2].lower(), name)
        name = re.sub(r"([A-Z])", lambda it: it[1].lower(), name)
    return name.replace("-", "_")


def read(path):
    with open(path, encoding="utf-8") as f:
        return f.read()


def antt_files():
    return [p for p in sorted(glob.glob("crates/**/*.antt", recursive=True)) if "/out/" not in p]


def names():
    """The declared names that are to be turned, the fields of records, and the camel-case words."""
    found, fields, camel, library = set(), set(), set(), set()
    for path in antt_files():
        text = read(path)
        for use in re.finditer(r"^\s*(?:pub )?use ([^{\n]*)\{([^}]*)\}", text, re.M):
            if not re.match(r"Rattle\.(?!std\b)", use[1]):
                library |= {it.strip().split(" as ")[0] for it in use[2].split(",")}
        record = None
        for line in text.split("\n"):
            plain = line.strip()
            if plain.startswith("--") or plain.startswith("use ") or plain.startswith("pub use "):
                continue
            depth = len(line) - len(line.lstrip())
            if record is not None and plain and depth <= record:
                record = None
            it = DECLARED.match(line)
            if it and it[3].startswith(":") and not it[3].startswith(":="):
                found.add(it[2])
                if record is not None:
                    fields.add(it[2])
            if re.match(r"\s*(pub )?record \S", line) and plain.endswith("where"):
                record = depth
            camel |= {t for t in TOKEN.findall(line) if CAMEL.match(t)}
    turned = {n for n in found if WORD.match(n) and (CAMEL.match(n) or "-" in n)}
    return {n: snake(n) for n in (turned | camel) - library}, {f: snake(f) for f in fields if snake(f) != f}


def turn(line, table, fields, extra):
    """The line with its names turned; a name after a dot only where it is a record's field or stands in a use line."""
    use = re.match(r"\s*(pub |ghost |unfoldable )*use ", line)
    given = bool(re.match(r"\s*(pub |abbrev |unfoldable )*[^\s:]+ :", line))
    out, at = [], 0
    for it in TOKEN.finditer(line):
        word = it[0]
        before = line[it.start() - 1] if it.start() else ""
        new = word
        if before == "." and not use and not re.search(r"(λ[^.]*|∀[^.]*)\.$", line[: it.start()]):
            # a projection: a field of a record of the repository's own
            new = fields.get(word, snake(word) if CAMEL.match(word) and word in table else word)
        elif word in extra:
            new = extra[word]
        elif word in table:
            new = table[word]
        out.append(line[at : it.start()] + new)
        at = it.end()
    return "".join(out) + line[at:]


def comment(text, table):
    """A comment's camel-case words, and what stands between backticks."""
    text = re.sub(r"`([^`]*)`", lambda it: "`" + TOKEN.sub(lambda t: table.get(t[0], t[0]), it[1]) + "`", text)
    return TOKEN.sub(lambda t: table[t[0]] if CAMEL.match(t[0]) and t[0] in table else t[0], text)


def split_comment(line, mark):
    inside = False
    for i, ch in enumerate(line):
        if ch == '"' and (i == 0 or line[i - 1] not in "\\'"):
            inside = not inside
        if not inside and line.startswith(mark, i) and (mark == "//" or i == 0 or line[i - 1].isspace()):
            return line[:i], line[i:]
    return line, ""


def main():
    table, fields = names()
    for path in antt_files() + sorted(glob.glob("crates/*/src/**/*.rt", recursive=True)):
        extra = TURNED.get(path.split("/")[1], {})
        mark = "--" if path.endswith(".antt") else "//"
        lines = []
        for line in read(path).split("\n"):
            code, said = split_comment(line, mark)
            if mark == "//":
                pieces = re.split(r'("(?:[^"\\]|\\.)*")', code)
                code = "".join(p if i % 2 else turn(p, table, fields, extra) for i, p in enumerate(pieces))
            else:
                code = turn(code, table, fields, extra)
            lines.append(code + comment(said, table))
        with open(path, "w", encoding="utf-8") as f:
            f.write("\n".join(lines))
    pages = ["README.md", "CONTRIBUTING.md"] + sorted(glob.glob("docs/*.md"))
    for path in [p for p in pages if os.path.exists(p)]:
        text = read(path)
        text = re.sub(r"`([^`\n]*)`", lambda it: "`" + TOKEN.sub(lambda t: table.get(t[0], t[0]), it[1]) + "`", text)
        with open(path, "w", encoding="utf-8") as f:
            f.write(text)


if __name__ == "__main__":
    main()
