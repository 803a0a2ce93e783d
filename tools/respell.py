#!/usr/bin/env python3
"""Spells the repository's own definitions and lemmas as Rattle's style has it: words in snake case, types and modules in camel case.

usage: python3 tools/respell.py [FOLDER]

It was run once, after the kit's port.py, at the top of the repository (FOLDER). tools/respell.tsv beside it has a row for each name: old, a tab, new.
In .antt it turns whole words, in .rt and in edits too; a word with a dash turns in a comment or a page only between backquotes. In a Proof.antt
a name that the file declares for a part that Rattle asks for stays. Behind a dot only words with a capital turn: the others there are Rattle's.
"""
import pathlib
import re
import sys

HERE = pathlib.Path(__file__).resolve().parent
WORD = re.compile(r"[^\s(){}.;,@\"«»`]+")
MADE = re.compile(r"(?m)^(\S+) : tie\.\S+")
SPAN = re.compile(r"`[^`\n]+`|^ *```.*?^ *```", re.S | re.M)


def turned(text, table, kept=frozenset()):
    def one(m):
        behind_a_dot = text[m.start() - 1 : m.start()] == "." and not re.search("[A-Z]", m[0])
        return m[0] if m[0] in kept or behind_a_dot else table.get(m[0], m[0])

    return WORD.sub(one, text)


def comment(text, table):
    """Of a comment or a page: code spans whole, and elsewhere the words that can't be plain English."""
    camel = {a: b for a, b in table.items() if "-" not in a}
    out, last = [], 0
    for m in SPAN.finditer(text):
        out += [spaced(text[last : m.start()], camel), spaced(m[0], table)]
        last = m.end()
    return "".join(out) + spaced(text[last:], camel)


def spaced(text, table):
    return re.sub(r"(?<![\w-])[A-Za-z][\w'-]*(?![\w-])", lambda m: table.get(m[0], m[0]), text)


def code(text, table, mark, kept=frozenset()):
    lines = []
    for line in text.split("\n"):
        at = line.find(mark)
        if at >= 0 and (at == 0 or line[at - 1] == " "):
            lines.append(turned(line[:at], table, kept) + comment(line[at:], table))
        else:
            lines.append(turned(line, table, kept))
    return "\n".join(lines)


def main():
    top = pathlib.Path(sys.argv[1] if len(sys.argv) > 1 else ".")
    table = dict(l.split("\t") for l in (HERE / "respell.tsv").read_text().split("\n") if l and not l.startswith("#"))
    source = {a: b for a, b in table.items() if re.search("[A-Z-]", a)}
    for p in sorted([*top.glob("crates/**/*"), *top.glob("docs/*.md"), *top.glob("*.md")]):
        if not p.is_file() or "out" in p.relative_to(top).parts:
            continue
        text = p.read_text(errors="surrogateescape") if p.suffix in (".antt", ".rt", ".edit", ".mistyped", ".md") else None
        if text is None:
            continue
        if p.suffix == ".antt":
            new = code(text, table, "--", frozenset(MADE.findall(text)))
        elif p.suffix == ".rt":
            new = code(text, source, "//")
        elif p.suffix == ".md":
            new = comment(text, table)
        else:
            new = turned(text, source)
        if new != text:
            p.write_text(new, errors="surrogateescape")


main()
