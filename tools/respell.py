#!/usr/bin/env python3
"""Spells this repository's own names as today's Rattle does, by respell.tsv beside this script: words in snake case, a dash only between two names.

usage: tools/respell.py            once, at the top of the repository, after the kit's port.py

A row is the old spelling, a tab, the new one, and where only some files have it so, a tab and these files below crates/.
It turns whole words of .antt files and, in .rt files, of clauses and `ghost use` items; of comments the code spans.
A word that a file brings in from a library of the kit stays there. Strings stay.
"""
import os
import re

HERE = os.path.dirname(os.path.realpath(__file__))
ROOT = os.path.join(os.path.dirname(HERE), "crates")
WORD = re.compile(r'[^\s(){}.;,@"«»`]+')
QUIET = re.compile(r'"(?:[^"\\\n]|\\.)*"|(?<![^\s(){}.;,@"«»])--[^\n]*|\{-.*?-\}', re.S)
RUST = re.compile(r'"(?:[^"\\\n]|\\.)*"|//[^\n]*')
SPAN = re.compile(r"`[^`\n]*`")
USE = re.compile(r"(?m)^\s*(?:pub |ghost )?(?:ghost )?use ([^\s;{]+?)\.?\{([^}]*)\}")
CRATES = set(os.listdir(ROOT))


def rows():
    everywhere, some = {}, {}
    with open(os.path.join(HERE, "respell.tsv"), encoding="utf-8") as f:
        for line in f:
            old, new, *files = line.rstrip("\n").split("\t")
            if files:
                for name in files[0].split():
                    some.setdefault(name, {})[old] = new
            else:
                everywhere[old] = new
    return everywhere, some


def brought_in(text):
    """The words that come from libraries of the kit."""
    words = set()
    for m in USE.finditer(text):
        steps = m[1].split(".")
        if steps[0] != "Rattle" or len(steps) < 2 or steps[1] not in CRATES:
            words |= {w for item in m[2].split(",") for w in WORD.findall(item)[:1]}
    return words


def turn(text, table, quiet, only):
    def word(m):
        new = table.get(m[0])
        if new is None:
            return m[0]
        behind = m.start() and m.string[m.start() - 1] == "." and m.string[m.start() - 2 : m.start()] != "{."
        return m[0] if behind and m[0] in only else new

    def words(part):
        return WORD.sub(word, part)

    out, at = [], 0
    for m in quiet.finditer(text):
        out.append(words(text[at : m.start()]))
        out.append(m[0] if m[0].startswith('"') else SPAN.sub(lambda s: words(s[0]), m[0]))
        at = m.end()
    out.append(words(text[at:]))
    text = "".join(out)
    return re.sub(r'(?<![^\s{,])([^\s(){}.;,@"«»]+) as \1(?=[\s,};]|$)', r"\1", text)


def main():
    everywhere, some = rows()
    for folder, dirs, files in os.walk(ROOT):
        dirs[:] = sorted(d for d in dirs if d != "out")
        for name in sorted(files):
            if not name.endswith((".antt", ".rt")):
                continue
            path = os.path.join(folder, name)
            with open(path, encoding="utf-8") as f:
                old = f.read()
            here = some.get(os.path.relpath(path, ROOT), {})
            table = everywhere | here
            for w in brought_in(old):
                table.pop(w, None)
            only = {w for w in here if "-" not in w and w == w.lower() and w not in ("chain_fits", "token_end")}
            new = turn(old, table, QUIET if name.endswith(".antt") else RUST, only)
            if new != old:
                with open(path, "w", encoding="utf-8") as f:
                    f.write(new)


if __name__ == "__main__":
    main()
