#!/usr/bin/env python3
"""Spells the repository's own definitions and lemmas as today's Rattle does: words in snake case, modules in camel case.

usage: python3 tools/respell.py     at the top of a checkout, once, after /opt/rattle/port/port.py

It changes names in specs/, proofs/ and in the clauses of src/, and nothing else: no name of src/, no string, no text of a test.
It stops, and changes nothing, where a new name stands already in a file that would get it.
"""
import glob
import re
import sys

TOKEN = re.compile(r"[^\s(){}:;,.«»λ\[\]|`]+")
CAMEL = re.compile(r"^[a-z][A-Za-z0-9_]*[A-Z]")
DEFINED = re.compile(r"^\s*(?:unfoldable |abbrev )?(?:pub )?(?:abbrev )?([^\s(){}:;,.]+)\s*(?:[({].*)?:", re.M)
# Module names that a `use .. as` gives, and fields with a dash.
OTHERS = {
    "written-history": "WrittenHistory", "written-certificate": "WrittenCertificate", "written-event": "WrittenEvent",
    "text-record": "TextRecord", "on-lists": "OnLists", "history-theorems": "HistoryTheorems", "history-readable": "HistoryReadable",
    "history-guarantees": "HistoryGuarantees", "certificate-guarantees": "CertificateGuarantees", "criteria-records": "CriteriaRecords",
    "is-weakened": "is_weakened", "meets-certified": "meets_certified", "certified-meets": "certified_meets", "is-line": "is_line",
    "no-pasts": "no_pasts", "in-one-line": "in_one_line",
}
# Words that must not be cut at a capital, and those whose plain new name stands for something else.
FIXED = {"getD": "get_or", "inV": "in_v"}
TAKEN = {"in-one-line": "accepted_in_line"}
# Lemmas that make room for a word that gets their name, by the file where they stand.
FIRST = {"crates/checker/proofs/OneLine.antt": {"one_line": "one_line_lem"}, "crates/criteria/proofs/OneLine.antt": {"one_line": "one_line-good"}}


def snake(part):
    if part in FIXED:
        return FIXED[part]
    if not CAMEL.match(part):
        return part
    return re.sub(r"(?<=[a-z0-9])([A-Z])", lambda m: "_" + m.group(1).lower(), part)


def new_name(name):
    if name in TAKEN:
        return TAKEN[name]
    if name in OTHERS:
        return OTHERS[name]
    return "-".join(snake(p) for p in name.split("-"))


def antt_files():
    return sorted(f for d in ("specs", "proofs") for f in glob.glob(f"crates/*/{d}/**/*.antt", recursive=True))


def code(text):
    return re.sub(r"(?m)(^|\s)--.*$", r"\1", text)


def main():
    antts = antt_files()
    rts = sorted(glob.glob("crates/*/src/**/*.rt", recursive=True))
    texts = {f: open(f, encoding="utf-8").read() for f in antts + rts}
    for f, lemmas in FIRST.items():
        texts[f] = TOKEN.sub(lambda m: lemmas.get(m.group(0), m.group(0)), texts[f])
    old = set(OTHERS)
    for f in antts:
        for t in TOKEN.findall(code(texts[f])):
            if any(CAMEL.match(p) for p in t.split("-")) and not t.startswith("is_"):
                old.add(t)
    names = {n: new_name(n) for n in old}
    by_new = {}
    for n, m in names.items():
        by_new.setdefault(m, []).append(n)
    bad = [f"{m}: {' and '.join(ns)} fall together" for m, ns in by_new.items() if len(ns) > 1]
    for f, t in texts.items():
        # A word of a contract may have the name of a function, which no clause can name: so only local names of src/ count, and no path
        # or field of a proof.
        if f.endswith(".antt"):
            plain = re.sub(r"(?m)^use .*$|\.[^\s(){}:;,.]+", "", code(t))
        else:
            plain = " ".join(a or b for a, b in re.findall(r"(\w+): |let (?:mut )?(\w+)", re.sub(r"//.*", "", t)))
        here = set(TOKEN.findall(plain))
        all_here = set(TOKEN.findall(code(t)))
        for n in all_here & set(names):
            if names[n] in here:
                bad.append(f"{f}: {names[n]} stands already, beside {n}")
    if bad:
        print("\n".join(sorted(bad)))
        return 1
    changed = 0
    for f, t in texts.items():
        u = TOKEN.sub(lambda m: names.get(m.group(0), m.group(0)), t)
        if u != t:
            changed += 1
            with open(f, "w", encoding="utf-8") as out:
                out.write(u)
    print(f"{len(names)} names, {changed} files")
    return 0


sys.exit(main())
