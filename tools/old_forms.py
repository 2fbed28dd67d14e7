#!/usr/bin/env python3
"""Counts the places in crates/*/src that are written in an older form, by the points of docs/DESIGN-PASS.md.

    tools/old_forms.py          the counts
    tools/old_forms.py POINT    the places of one point (1a, 1b, 1c, 2, 3, 4a, 4b, 5a, 5b, 6a, 6b, 7, 8)

It goes by text: a place that it lists may be there with a reason, which then stands beside it as a line `// Kept: ..`.
"""
import collections
import glob
import os
import re
import sys

os.chdir(os.path.join(os.path.dirname(os.path.abspath(__file__)), ".."))
FILES = {name: open(name).read() for name in sorted(glob.glob("crates/*/src/*.rt"))}
CRATE = {name: name.split("/")[1] for name in FILES}
# Programs that try the library, by hand-written texts: their loops fill buffers.
CASES = {"layout_cases", "history_cases", "certificate_cases", "check_cases"}


def line_of(text, at):
    return text.count("\n", 0, at) + 1


def code(text):
    """The text without comments and contract lines, line for line."""
    out = []
    for line in text.split("\n"):
        bare = line.strip()
        hidden = bare.startswith("//") or bare.startswith("ghost use") or re.match(r"(requires|ensures)\b", bare)
        out.append("" if hidden else line)
    return "\n".join(out)


def functions():
    for name, text in FILES.items():
        for m in re.finditer(r"^( *)(?:pub(?:\(crate\))? )?fn (\w+)(?:<[^>]*>)?\((.*?)\)(.*?)^\1\{\n(.*?)^\1\}", text, re.S | re.M):
            yield name, line_of(text, m.start()), m.group(2), m.group(3), m.group(4), m.group(5)


def types(word):
    for name, text in FILES.items():
        for m in re.finditer(r"^(?:pub(?:\(crate\))? )?" + word + r" (\w+)[^{;(]*\{\n(.*?)^\}", text, re.S | re.M):
            body = [line.strip() for line in m.group(2).split("\n") if line.strip() and not line.strip().startswith("//")]
            yield name, line_of(text, m.start()), m.group(1), body


def matching(pattern, of=code):
    for name, text in FILES.items():
        for i, line in enumerate(of(text).split("\n"), 1):
            if re.search(pattern, line):
                yield f"{name}:{i}: {line.strip()}"


def enums_of_the_shape():
    for name, line, enum, body in types("enum"):
        with_data = [v for v in body if "(" in v or "{" in v]
        nothing = [v for v in body if re.match(r"(Nothing|Neither|None|Short)\b", v)]
        if nothing or (len(with_data) == 1 and len(body) > 1):
            yield f"{name}:{line}: enum {enum}"


def flags_with_values():
    for name, line, struct, body in types("struct"):
        found = [f for f in body if re.match(r"(pub(\(crate\))? )?(fault|number|refusal): u8|(pub(\(crate\))? )?(known|spelt|below|few|dash|lost): bool", f)]
        if found and len(body) > 1:
            yield f"{name}:{line}: struct {struct}"


def numbers_for_none():
    said = r"or (64|n|m)[.,;]| or (64|n|m)$|or the length of|or n where|9 where|value 100 where|the bound where|\b4294967295\b"
    for name, text in FILES.items():
        if CRATE[name] in CASES:
            continue
        for i, line in enumerate(text.split("\n"), 1):
            bare = line.strip()
            if re.search(said, bare) and not re.match(r"(requires|ensures|ghost use)", bare):
                yield f"{name}:{i}: {bare[:100]}"


def twins():
    """Functions with the same body but for names, types and numbers, in groups."""
    groups = collections.defaultdict(list)
    for name, line, fn, params, rest, body in functions():
        if CRATE[name] in CASES:
            continue
        bare = re.sub(r"//.*", "", body)
        if bare.count("\n") < 3:
            continue
        shape = re.sub(r"\b\d\w*\b", "0", re.sub(r"b?\"[^\"]*\"|b'.'", "0", bare))
        order = {}
        keep = {"let", "mut", "while", "for", "in", "if", "else", "return", "match", "as", "true", "false", "loop"}
        shape = re.sub(r"[A-Za-z_]\w*", lambda m: m.group(0) if m.group(0) in keep else order.setdefault(m.group(0), f"n{len(order)}"), shape)
        groups[re.sub(r"\s+", " ", shape)].append(f"{name}:{line}: {fn}")
    for group in groups.values():
        if len(group) > 1:
            yield from group


def tables_by_hand():
    """A bool of each variant, arm by arm, and a bool of a `return` in an `if` that is that bool."""
    for name, line, fn, params, rest, body in functions():
        arms = re.findall(r"=> (true|false),", body)
        if len(arms) >= 3:
            yield f"{name}:{line}: {fn}"


def bytes_by_number():
    for place in matching(r"(==|!=|<|<=|>|>=) (10|32|44|45|48|57|63)\b|\b(10|32|44|48|57) (<|<=) |, (10|32|44)\)|part\[\w+\] = (10|32|44)\b"):
        if not any(f"crates/{c}/" in place for c in CASES):
            yield place


def many_parameters():
    for name, line, fn, params, rest, body in functions():
        n = len(re.findall(r"\w+: ", params))
        if n >= 6:
            yield f"{name}:{line}: {fn} ({n})"


def repeated_facts():
    """A fact of the requires of three or more functions of a crate."""
    facts = collections.defaultdict(set)
    for name, line, fn, params, rest, body in functions():
        for m in re.finditer(r"requires \w* ?\{(.*)\}", rest):
            for fact in re.split(r" × ", m.group(1)):
                facts[(CRATE[name], fact.strip().strip("()"))].add(fn)
    for (crate, fact), where in sorted(facts.items()):
        if len(where) >= 3:
            yield f"{crate}: {fact} ({len(where)})"


def arrays_with_lengths():
    for name, line, fn, params, rest, body in functions():
        arrays = re.findall(r"(\w+): &?(?:mut )?\[[^;\]]*(?:\[[^\]]*\])?; *\d+\]", params)
        if arrays and re.search(r"\w+: usize", params):
            yield f"{name}:{line}: {fn}"


def counts_beside_arrays():
    for name, line, struct, body in types("struct"):
        count = any(re.match(r"(pub(\(crate\))? )?(count|length|declared|size|head|tail): ", f) for f in body)
        if count and any("; " in f and "[" in f for f in body):
            yield f"{name}:{line}: struct {struct}"


def switches():
    for name, line, fn, params, rest, body in functions():
        flags = re.findall(r"(\w+): bool", params)
        if flags:
            yield f"{name}:{line}: {fn} ({', '.join(flags)})"


def answers():
    for name in sorted(glob.glob("crates/*/proofs/**/Answers.antt", recursive=True)):
        yield name


POINTS = [
    ("1a", "own enums of the shape of Option or Result", enums_of_the_shape),
    ("1b", "structs of a flag or a number code and a value", flags_with_values),
    ("1c", "numbers that stand for none", numbers_for_none),
    ("2", "functions that differ in names, types and numbers", twins),
    ("3", "while and loop", lambda: matching(r"^\s*('\w+: )?(while|loop)\b")),
    ("4a", "tables of true and false", tables_by_hand),
    ("4b", "bytes written as numbers", bytes_by_number),
    ("5a", "functions of six parameters or more", many_parameters),
    ("5b", "facts that three contracts of a crate require", repeated_facts),
    ("6a", "functions that take an array and a length", arrays_with_lengths),
    ("6b", "structs of an array and a count", counts_beside_arrays),
    ("7", "functions that take a bool", switches),
    ("8", "files of answers", answers),
]

if len(sys.argv) > 1:
    for point, what, find in POINTS:
        if point == sys.argv[1]:
            print("\n".join(find()))
else:
    for point, what, find in POINTS:
        print(f"{point:3} {len(list(find())):4}  {what}")
    print(f"    {sum(1 for _ in matching(r'Kept:', lambda t: t)):4}  lines `// Kept:`")
