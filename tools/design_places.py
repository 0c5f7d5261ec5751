#!/usr/bin/env python3
"""Counts in src/ the places that docs/DESIGN-PASS.md speaks of, point by point.

    python3 tools/design_places.py [--list]

With --list each place is printed. Run it at the top of a checkout.
"""
import collections
import pathlib
import re
import sys

ROOT = pathlib.Path("crates")
FILES = sorted(ROOT.glob("*/src/**/*.rt"))
LISTED = "--list" in sys.argv[1:]


def code(path):
    """Yields the number and the text of each line that is no comment."""
    for number, line in enumerate(path.read_text().splitlines(), 1):
        if not line.lstrip().startswith("//"):
            yield number, line


def show(title, places):
    print(f"{title}: {len(places)}")
    if LISTED:
        for place in places:
            print(f"    {place}")


def matching(pattern, comments=False):
    found = []
    for path in FILES:
        lines = enumerate(path.read_text().splitlines(), 1) if comments else code(path)
        found += [f"{path}:{n}: {line.strip()}" for n, line in lines if re.search(pattern, line)]
    return found


def functions():
    """Yields the place, the name, the parameters and the clauses of each function with a body."""
    head = re.compile(r"^(?:    )?(?:pub )?(?:extern \"C\" )?fn ([a-z_0-9]+)", re.M)
    for path in FILES:
        text = path.read_text()
        for match in head.finditer(text):
            body = re.compile(r"^(?:    )?\{|\{$", re.M)
            end = text.find("\n{", match.start())
            inner = text.find("\n    {", match.start())
            one = text.find(" {\n", match.start())
            ends = [it for it in (end, inner, one) if it >= 0]
            front = text[match.start() : min(ends)] if ends else text[match.start() :]
            depth, start = 0, front.find("(")
            stop = start
            for stop in range(start, len(front)):
                depth += {"(": 1, ")": -1}.get(front[stop], 0)
                if depth == 0:
                    break
            params = [it.strip() for it in re.split(r",\s*(?![^<\[(]*[>\])])", front[start + 1 : stop])]
            params = [it for it in params if it]
            line = text.count("\n", 0, match.start()) + 1
            yield f"{path}:{line}", match.group(1), params, front[stop + 1 :]


print("Point 1")
show("  own enums", matching(r"^(pub )?enum "))
show("  0 for none, said in a comment", matching(r"\b0 (if (there is none|it is absent|they are absent|it has no|absent)|for none|for no |where (there is none|it is absent|one is absent))|; 0 if |, 0 (for|if|where) ", comments=True) and [
    it for it in matching(r"^\s*//.*\b0 (if |for |where )", comments=True)])
kinds = collections.Counter(it.split(":")[0] for it in matching(r"^(pub )?const [A-Z_0-9]+: (u8|u32|u64|usize) = (0x)?[0-9]+;"))
show("  files with three numbers or more as constants", [f"{k}: {n}" for k, n in kinds.items() if n >= 3])

print("Point 2")
names = collections.defaultdict(list)
widths = collections.defaultdict(list)
for place, name, params, front in functions():
    names[name].append(place)
show("  names of functions that stand in more than one crate", [
    f"{name}: {', '.join(at)}" for name, at in sorted(names.items()) if len({it.split('/')[1] for it in at}) > 1])
pairs = []
for name, at in sorted(names.items()):
    for a, b in (("schema", "message"), ("short", "long"), ("two", "four"), ("message", "schema")):
        twin = re.sub(rf"(^|_){a}(_|$)", rf"\1{b}\2", name)
        if twin != name and twin in names and (twin, name) not in pairs:
            pairs.append((name, twin))
show("  pairs of functions by a word of their names", [f"{a}, {b}" for a, b in pairs])

print("Point 3")
loops = []
for path in FILES:
    lines = path.read_text().splitlines()
    for n, line in enumerate(lines):
        match = re.match(r"^(\s*)(while|loop)\b", line)
        if match:
            body = []
            for more in lines[n + 1 :]:
                if re.match(rf"^{match.group(1)}\}}", more):
                    break
                body.append(more)
            counts = any(re.search(r"\b\w+ [+-]= 1;", it) for it in body)
            loops.append((f"{path}:{n + 1}: {line.strip()}", counts))
show("  loops by while or loop", [it for it, _ in loops])
show("  of these, loops that count by one", [it for it, counts in loops if counts])

print("Point 4")
show("  small conversions and comparisons by hand", [
    f"{at}: {name}" for name, ats in sorted(names.items()) for at in ats
    if name in ("wide narrow number same_bytes same_few same_parts order_of within least is_blank is_digit is_letter hex_digit hex_at "
                "digit_value starts_with_digit c_byte both mark schema_refusal message_refusal said_number verdict_of").split()])

print("Point 5")
facts = collections.defaultdict(list)
many = []
groups = collections.defaultdict(list)
for place, name, params, front in functions():
    for clause in re.findall(r"requires \w*\s*\{ (.*) \}", front):
        for fact in re.split(r" × ", clause):
            fact = fact.strip()
            if fact.startswith("(") and fact.endswith(")"):
                fact = fact[1:-1]
            facts[re.sub(r"\.(now|old)", "", fact)].append(f"{place} {name}")
    if len(params) > 8:
        many.append(f"{place} {name}: {len(params)}")
    bare = [re.sub(r"<'\w+>|&'\w+ ", lambda m: "&" if m.group(0).startswith("&") else "", it) for it in params]
    for size in (2, 3, 4, 5):
        for i in range(len(bare) - size + 1):
            groups[tuple(bare[i : i + size])].append(f"{place} {name}")
show("  facts in the requires of three functions or more", [f"{k}: {len(v)}" for k, v in sorted(facts.items(), key=lambda it: -len(it[1])) if len(v) >= 3])
large = {k: v for k, v in groups.items() if len(v) >= 3}
whole = [k for k in large if not any(k != o and len(o) > len(k) and any(o[i : i + len(k)] == k for i in range(len(o) - len(k) + 1)) and len(large[o]) == len(large[k]) for o in large)]
show("  runs of two parameters or more in three functions or more", [f"{', '.join(k)}: {len(large[k])}" for k in sorted(whole, key=lambda it: -len(large[it]))])
show("  functions of more than eight parameters", many)

print("Point 6")
show("  functions that take bytes and a place to put at", [
    f"{place} {name}" for place, name, params, _ in functions()
    if any(re.match(r"(out|room|carry|buffer): &mut \[u8\]", it) for it in params) and any(re.match(r"(at|kept): usize", it) for it in params)])
show("  functions that take heads and links", [
    f"{place} {name}" for place, name, params, _ in functions()
    if any(it.startswith("heads:") for it in params) and any(it.startswith("links:") for it in params)])

print("Point 7")
switches = []
for place, name, params, front in functions():
    for it in params:
        if re.match(r"\w+: (Rule|Like|Sense|Against|Style|Dialect|Container)$", it):
            switches.append(f"{place} {name}: {it}")
by = collections.Counter(it.rsplit(": ", 1)[1] for it in switches)
show("  types by value that say which step to run, with the functions that take them", [f"{k}: {n}" for k, n in by.items()])

print("Point 8")
answers = sorted(ROOT.glob("*/proofs/**/Answers.antt"))
lines = sum(1 for f in answers for it in f.read_text().splitlines() if it.strip())
laws = sorted(it for it in ROOT.glob("*/proofs/*.antt") if it.name != "Lib.antt")
print(f"  files of answers: {len(answers)}, lines that are not blank: {lines}")
print(f"  files of laws: {len(laws)}, lines that are not blank: {sum(1 for f in laws for it in f.read_text().splitlines() if it.strip())}")
