#!/usr/bin/env python3
"""Prints in Markdown what changed between two checkouts, crate by crate, old and new: signatures and clauses of
functions, invariants of types, and definitions of specs/.

    python3 tools/design_changes.py CONTRACTS OLD NEW [--public]

CONTRACTS is the path of a file contracts.py, which comes with the language's kit for ports and reads a checkout; OLD
and NEW are checkouts. With --public the functions are the public ones alone. Lines are at most 120 columns wide.
"""
import collections
import importlib.util
import re
import sys
import textwrap

WIDTH = 120


def load(path):
    spec = importlib.util.spec_from_file_location("contracts", path)
    module = importlib.util.module_from_spec(spec)
    spec.loader.exec_module(module)
    return module


def paired(contracts, old, new):
    """Pairs each old function with a new one: the same place first, then the type and name, then the name in the crate,
    then the type, name and contract in any crate. Gives the pairs, the old ones alone and the new ones alone."""
    plain = lambda them: [(k, f) for k, fs in sorted(them.items()) for f in fs if not f["test"] and not f["in tests"]]  # noqa: E731
    olds, news = plain(old), plain(new)
    same = lambda x, y: contracts.clauses(x) == contracts.clauses(y)  # noqa: E731
    tests = (
        lambda a, x, b, y: a == b and same(x, y),
        lambda a, x, b, y: a == b,
        lambda a, x, b, y: (a[0], a[2], a[3]) == (b[0], b[2], b[3]),
        lambda a, x, b, y: (a[0], a[1], a[3]) == (b[0], b[1], b[3]),
        lambda a, x, b, y: (a[0], a[3]) == (b[0], b[3]) and (same(x, y) or x["pub"] == y["pub"]),
        lambda a, x, b, y: a[2:] == b[2:] and same(x, y),
    )
    pairs = []
    for test in tests:
        by, alone = collections.defaultdict(list), []
        for item in news:
            by[item[0][3]].append(item)
        for a, x in olds:
            found = next((it for it in by[a[3]] if test(a, x, *it)), None)
            if found is None:
                alone.append((a, x))
            else:
                by[a[3]].remove(found)
                news.remove(found)
                pairs.append((a, x, *found))
        olds = alone
    return pairs, olds, news


def line(sign, text):
    """A line of a diff, wrapped."""
    return textwrap.wrap(
        text, WIDTH, initial_indent=f"{sign} ", subsequent_indent=f"{sign}     ", break_long_words=True, break_on_hyphens=False
    )


def place(key):
    return f"{key[1]}: {key[2] + ' ' if key[2] else ''}{key[3]}"


def head(key, function):
    sign = re.sub(r",? *\)", ")", re.sub(r"\( ", "(", function["sign"].strip()))
    return f"{'pub ' if function['pub'] else ''}fn {key[3]}{sign}"


def parts(function):
    return [f"{word}{' ' + name if name else ''} {{ {text} }}" for word, name, text in function["requires"] + function["ensures"]]


def alone(sign, key, function):
    out = [f"  {place(key)}", *line(sign, head(key, function))]
    for part in parts(function):
        out += line(sign, part)
    return [*out, ""]


def beside(a, x, b, y):
    """The lines of a pair that differs."""
    out = []
    if (head(a, x), a[2]) != (head(b, y), b[2]):
        out += line("-", head(a, x)) + line("+", head(b, y))
    before, after = parts(x), parts(y)
    for word in ("requires", "ensures"):
        for part in before:
            if part.startswith(word) and part not in after:
                out += line("-", part)
        for part in after:
            if part.startswith(word) and part not in before:
                out += line("+", part)
    if not out:
        return []
    moved = f", now {place(b)}" if a[1:] != b[1:] else ""
    return [*textwrap.wrap(f"{place(a)}{moved}", WIDTH, initial_indent="  ", subsequent_indent="    "), *out, ""]


def items(old, new, crate, name):
    """The lines of a crate's items by their names, each a list of texts, where the texts differ."""
    out = []
    for key in sorted({k for k in [*old, *new] if k[0] == crate}):
        before, after = old.get(key, []), new.get(key, [])
        gone = [it for it in before if it not in after]
        come = [it for it in after if it not in before]
        if not gone and not come:
            continue
        moved = lambda them, text, key=key: any(k != key and k[1:] == key[1:] and text in ts for k, ts in them.items())  # noqa: E731
        gone = [it for it in gone if not moved(new, it)]
        come = [it for it in come if not moved(old, it)]
        if gone or come:
            for text in gone:
                out += line("-", f"{name(key)}{text}")
            for text in come:
                out += line("+", f"{name(key)}{text}")
            out.append("")
    return out


def section(title, lines):
    if lines:
        print(f"\n#### {title}\n\n```diff")
        print("\n".join(lines[:-1] if lines[-1] == "" else lines))
        print("```")


def main(argv):
    names = [it for it in argv if not it.startswith("--")]
    if len(names) != 3:
        print(__doc__, file=sys.stderr)
        return 2
    contracts = load(names[0])
    crates, of, og, od, _, _ = contracts.read(names[1])
    new_crates, nf, ng, nd, _, _ = contracts.read(names[2])
    shown = lambda f: f["pub"] or "--public" not in argv  # noqa: E731
    pairs, gone, come = paired(contracts, of, nf)
    ghosts = lambda them: {k: v for k, v in them.items() if k[1] != "const"}  # noqa: E731
    for crate in sorted({*crates, *new_crates}):
        changed = [it for a, x, b, y in sorted(pairs, key=lambda it: it[0]) if a[0] == crate and (shown(x) or shown(y)) for it in beside(a, x, b, y)]
        olds = [it for a, x in sorted(gone, key=lambda it: it[0]) if a[0] == crate and shown(x) for it in alone("-", a, x)]
        news = [it for b, y in sorted(come, key=lambda it: it[0]) if b[0] == crate and shown(y) for it in alone("+", b, y)]
        invariants = items(ghosts(og), ghosts(ng), crate, lambda key: f"{key[1]}: ghost {key[2]} ")
        definitions = items(od, nd, crate, lambda key: "")
        if changed or olds or news or invariants or definitions:
            print(f"\n### `{crate}`")
        section("Functions changed", changed)
        section("Functions gone", olds)
        section("Functions new", news)
        section("Invariants and what types are seen as", invariants)
        section("Definitions", definitions)
    return 0


if __name__ == "__main__":
    sys.exit(main(sys.argv[1:]))
