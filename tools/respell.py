#!/usr/bin/env python3
"""Spells the repository's own definitions and lemmas as the library does: words in snake case, types in camel case.

respell.tsv has a line for each name: the old spelling, the new one, and where it holds only there, a path's beginning.
Run once, at the top, after the kit's port.py. It turns names in antt files, in the ghost text of .rt files and in edits.
"""
import pathlib
import re

root = pathlib.Path(__file__).resolve().parent.parent
everywhere, at = {}, {}
for line in (root / "tools/respell.tsv").read_text(encoding="utf-8").splitlines():
    old, new, *where = line.split("\t")
    if where:
        at.setdefault(where[0], {})[old] = new
    else:
        everywhere[old] = new

TOKEN = re.compile(r"[^\s(){}\[\].;,\"«»λ]+")
RUST = re.compile(r'//.*|"(?:[^"\\]|\\.)*"')
ANTT = re.compile(r"(?:^|(?<=\s))--(?:\s.*)?$")


def spelled(text, names):
    return TOKEN.sub(lambda m: names.get(m.group(), m.group()), text)


def outside(text, names, quiet):
    """The text with comments and strings as they were."""
    lines = []
    for line in text.split("\n"):
        parts, last = [], 0
        for m in quiet.finditer(line):
            parts += [spelled(line[last : m.start()], names), m.group()]
            last = m.end()
        lines.append("".join(parts) + spelled(line[last:], names))
    return "\n".join(lines)


for path in sorted((root / "crates").rglob("*")):
    if path.suffix not in (".antt", ".rt", ".edit") or "out" in path.parts:
        continue
    here = path.relative_to(root).as_posix()
    names = dict(everywhere)
    for where, some in at.items():
        if here.startswith(where):
            names |= some
    text = path.read_text(encoding="utf-8")
    turned = outside(text, names, ANTT if path.suffix == ".antt" else RUST)
    if turned != text:
        path.write_text(turned, encoding="utf-8")
