#!/usr/bin/env python3
"""Checks functions of a crate over the sources of the crates below it, so that these need not be proved yet.

    python3 ../../tools/check_over_sources.py [flags of `rattle check`]

Run it in the crate's folder, as with --only MODULE::FUNCTION --allow-holes; --only '' tells type errors alone. It gives
no verdict: `rt check` and `rt ci` do.
"""
import os
import pathlib
import shutil
import sys


def listed(path):
    """Yields the name, whether it is a static library, and the crates below, of each line."""
    for line in path.read_text().splitlines():
        head, colon, below = line.partition("#")[0].partition(":")
        if colon:
            name, *words = head.split()
            yield name, "staticlib" in words, below.split()


def main():
    folder = pathlib.Path.cwd()
    root = folder.parent.parent
    kit = pathlib.Path(os.path.realpath(shutil.which("rattle"))).parent.parent
    crates = {name: (static, below) for name, static, below in listed(root / "crates.txt")}
    order = []

    def visit(name):
        for it in crates[name][1]:
            visit(it)
        if name not in order:
            order.append(name)

    visit(folder.name)
    order.remove(folder.name)
    root_file = "src/main.rt" if (folder / "src/main.rt").exists() else "src/lib.rt"
    words = ["rattle", "check", "--crate-name", folder.name, root_file, "-L", f"dependency={kit}/rlibs"]
    for name in ("std", "core"):
        words += ["--extern", f"{name}={kit}/rlibs/{name}.rlib"]
    for name in order:
        uses = ",".join(["core", "std", *crates[name][1]])
        words += ["--lib", f"{name}:{uses}={root}/crates/{name}/src/lib.rt"]
    words += ["--antt-project", f"{kit}/rattle/logic/antt-project.json", "--logic-built", f"{kit}/logic_built"]
    words += ["--crate-type", "staticlib"] if crates[folder.name][0] else []
    (folder / "out").mkdir(exist_ok=True)
    words += ["--incremental", "out/over-sources"]
    flags = sys.argv[1:]
    if not any(it.startswith("--jobs") for it in flags):
        words += ["--jobs", "2"]
    os.execvp(words[0], words + flags)


if __name__ == "__main__":
    main()
