#!/usr/bin/env python3
"""Turns a function's Proof.antt into Invariants.antt and Answers.antt.

usage: python3 tools/turn_proofs.py NAMES CRATE [FOLDER..]     at the top of the repository

NAMES is the names.json of the crate that `rt check --generated DIR --old-names` writes; FOLDER is a folder of crates/CRATE/proofs, all if
none is given. A folder that has an Answers.antt or an Invariants.antt is passed over. What could not be turned is marked TODO.
"""
import glob
import json
import os
import re
import sys

NAME = r"[^\s(){}:;,.«»λ\[\]|=]+"


def norm(s):
    return re.sub("_lem$", "", s.replace("-", "_").lower())


class Fn:
    def __init__(self, row):
        self.row = row
        self.places = row["places"]
        self.index = {p[0]: i for i, p in enumerate(self.places)}
        self.needs = {norm(a): (b, at) for (a, b), at in zip(row["needs"], row["asked_at"])}
        self.by_new = {b: (b, at) for (a, b), at in zip(row["needs"], row["asked_at"])}
        self.args = row["args"]

    def parent(self, place):
        return self.places[self.index[place]][1]

    def chain(self, place):
        while place:
            yield place
            place = self.parent(place)

    def arms_of(self, place):
        rows = []
        i = self.index[place]
        if self.row["arms"][i]:
            rows.append(self.row["arms"][i])
        return rows

    def resolve(self, place, path):
        """The new path of c at a goal, for the old path from a place. The steps up are not counted where the code has other steps now."""
        r = self.exactly(place, path)
        if r is None and "before" in path:
            rest = [p for p in path if p != "before"]
            r = self.exactly(place, rest) if rest else ("place", place)
        return r

    def exactly(self, place, path):
        path = list(path)
        while path and path[0] == "before":
            up = self.parent(place)
            if up is None:
                return None
            place = up
            path.pop(0)
        if not path:
            return ("place", place)
        f = path[0] = {"is_IsWord": "is_word", "is_Within": "is_within"}.get(path[0], path[0])
        # an arm's step
        for at in self.chain(place):
            arm = self.row["arms"][self.index[at]]
            if not arm:
                continue
            best = None
            for new, step, old in arm[2]:
                if norm(step) == norm(f) and path[1:1 + len(old)] == old:
                    if best is None or len(old) > len(best[2]):
                        best = (new, step, old)
            if best and best[2]:
                # the deepest place of the chain that has this arm
                return ("step", [arm[0], best[0]] + path[1 + len(best[2]):])
        for at in self.chain(place):
            p = self.places[self.index[at]]
            if p[2][0] and norm(p[2][0]) == norm(f):
                rest = path[1:]
                for old, new in p[4]:
                    if rest and norm(rest[0]) == norm(old):
                        rest[0] = new
                        break
                if p[3] and len(rest) > 1 and rest[0] in ("new", "auto") and rest[1].isdigit():
                    rest[1] = lent(p[3], int(rest[1]))
                return ("step", [p[2][1]] + rest)
        if norm(f) in ("args", "requires", "ranges", "well_formed", "lifetimes"):
            f = norm(f)
            rest = path[1:]
            for a, b in self.args:
                x, y = a.split(), b.split()
                if len(x) == 2 and x[0] == "." + f and rest and "." + norm(rest[0]) == norm(x[1]):
                    rest[0] = y[1][1:]
                    break
            return ("step", [f] + rest)
        return None


def lent(callee, n):
    """The name of the callee's parameter that is its n-th `&mut`."""
    parts = callee.split("::")
    for f in glob.glob(f"crates/{parts[0]}/src/**/*.rt", recursive=True):
        m = re.search(rf"fn {parts[-1]}\(([^{{]*?)\)\s*(?:->|requires|ensures|\{{)", open(f, encoding="utf-8").read())
        if m:
            names = re.findall(r"(\w+): &mut|(&mut self)", m.group(1))
            names = [a or "self" for a, b in names]
            if n < len(names):
                return names[n]
    return str(n)


def split_items(text):
    """The comment at the head, the use lines, and the declarations with their text."""
    lines = text.split("\n")
    head, uses, rest = [], [], []
    i = 0
    while i < len(lines) and (lines[i].startswith("--") or not lines[i].strip()):
        if lines[i].strip():
            head.append(lines[i])
        i += 1
    items, cur = [], []
    for line in lines[i:]:
        if line.startswith("use "):
            uses.append(line)
            continue
        if not line.strip():
            if cur and not cur[-1].strip():
                continue
            cur.append(line)
            continue
        cur.append(line)
    # blocks between blank lines
    block, blocks = [], []
    for line in cur:
        if not line.strip():
            if block:
                blocks.append("\n".join(block))
                block = []
        else:
            block.append(line)
    if block:
        blocks.append("\n".join(block))
    return head, uses, blocks


def turn_body(fn, place, var, body, todo):
    """Replaces paths from var, and from names that a let binds to such a path."""
    alias = {var: ("place", place)}

    def value(root, path):
        kind = alias[root]
        if kind[0] == "place":
            r = fn.resolve(kind[1], path)
        else:
            r = fn.resolve(kind[1], list(kind[2]) + list(path))
        return r

    out = ""
    i = 0
    path_re = re.compile(r"(?<![\w.'₀-])(" + NAME + r")((?:\.(?:[\w₀']|-(?=[\w]))+)*)")
    let_re = re.compile(r"let (" + NAME + r") = (" + NAME + r")((?:\.[\w₀'-]+)*) in\s*")
    while i < len(body):
        m = let_re.match(body, i) if body.startswith("let ", i) and (i == 0 or not re.match(r"[\w.'-]", body[i - 1])) else None
        if m and m.group(2) in alias:
            name, root, path = m.group(1), m.group(2), [p for p in m.group(3).split(".") if p]
            if not path:
                alias[name] = alias[root]
                i = m.end()
                continue
            kind = alias[root]
            full = (list(kind[2]) if kind[0] == "old" else []) + path
            at = kind[1]
            r = fn.resolve(at, full)
            if r is None:
                alias[name] = ("old", at, full)
                i = m.end()
                continue
            if r[0] == "place":
                alias[name] = ("place", r[1])
                i = m.end()
                continue
            # is it a part of an arm's old step that is used with different ends?
            alias[name] = ("old", at, full)
            i = m.end()
            continue
        m = path_re.match(body, i)
        if m and (i == 0 or not re.match(r"[\w.'-]", body[i - 1])):
            root, path = m.group(1), [p for p in m.group(2).split(".") if p]
            if root in alias and not (root == var and False):
                kind = alias[root]
                full = (list(kind[2]) if kind[0] == "old" else []) + path
                r = fn.resolve(kind[1], full) if full else ("place", kind[1])
                r = r or fn.resolve(place, [p for p in full if p != "before"])
                if r is None:
                    todo.append(f"{root}.{'.'.join(path)}: {kind}")
                    out += f"c.TODO.{'.'.join(full)}"
                elif r[0] == "place":
                    out += "c"
                else:
                    out += "c." + ".".join(r[1])
                i = m.end()
                continue
            out += m.group(0)
            i = m.end()
            continue
        out += body[i]
        i += 1
    return out


def shorten(body):
    """Names a long path that stands three times or more."""
    return body


def invariant(fn, name, params, body, todo):
    for (old, new), vars in fn.row["loops"]:
        if norm(old) == norm(name):
            break
    else:
        todo.append(f"no loop {name}")
        return None, None
    k = [norm(l[0][0]) for l in fn.row["loops"]].index(norm(name))
    changed = fn.row["changed"][k]
    names = {}
    n = len(vars)
    later = [v for v, c in zip(vars, changed) if c]
    if len(params) != n + len(later):
        for p in params:
            v = p.rstrip("₀").replace("-", "_")
            if v in vars:
                names[p] = f"l.initial.{v}" if p.endswith("₀") else f"l.{v}"
        params = []
    for j, p in enumerate(params):
        if j < n:
            v = vars[j]
            names[p] = f"l.initial.{v}" if changed[j] else f"l.{v}"
        elif j - n < len(later):
            names[p] = f"l.{later[j - n]}"
        else:
            todo.append(f"more parameters than variables in {name}")
    tok = re.compile(r"(?<![\w.'₀-])(" + NAME + r")")
    body = tok.sub(lambda m: names.get(m.group(1), m.group(1)) if m.group(1) not in ("c",) or "c" in names else m.group(1), body)
    return new, body


def uses_of(name, text):
    return re.search(r"(?<![\w.'-])" + re.escape(name) + r"(?![\w'-])", text)


def with_helpers(fn, row, answers, rows):
    """A lemma over a place stays one where all that cite it stand at that place, and else becomes a `let` of each answer that cites it."""
    new_name = dict(zip([p[0] for p in fn.places], row["places_by_name"]))
    asked = {at[0] for at in row["asked_at"]}
    inline = set()
    grew = True
    while grew:
        grew = False
        for name, place, *_ in rows:
            if name in inline:
                continue
            bad = place not in asked
            bad = bad or any(uses_of(name, a[5]) and a[2] != place for a in answers)
            bad = bad or any(uses_of(name, r[3] + r[6]) and (r[1] != place or r[0] in inline) for r in rows)
            own = next(r[3] + r[6] for r in rows if r[0] == name)
            bad = bad or any(uses_of(n, own) for n in inline)
            if bad:
                inline.add(name)
                grew = True
    placed = []
    for name, place, comment, typ, unf, more, body in rows:
        if name in inline:
            continue
        at = new_name[place]
        placed.append("\n".join(comment + [f"{name} : (c : goal.{at}) → {typ}"]) + "\n" + unf + f"{name} c{more} =" + body)
    out = []
    for comment, new, old_at, unf, more, body in answers:
        lets, words = [], [w for w in unf.split()[1:]]
        need, text = [], body
        grew = True
        while grew:
            grew = False
            for r in rows:
                if r[0] in inline and r not in need and uses_of(r[0], text):
                    need.append(r)
                    text += "\n" + r[3] + r[6]
                    grew = True
        for r in [r for r in rows if r in need]:
            name, place, c, typ, u, m, b = r
            words += [w for w in u.split()[1:] if w not in words]
            lam = f"λ{m}. " if m else ""
            lets.append(f"    let {name} : {typ.strip()} = {lam}{b.strip()} in")
        if lets:
            for r in need:
                strip = lambda t: re.sub(r"(?<![\w.'-])" + re.escape(r[0]) + r" (?:c|\(c\))(?![\w.'-])", r[0], t)
                body, lets = strip(body), [strip(l) for l in lets]
            body = "\n" + "\n".join(lets) + "\n    " + body.strip()
        unf = f"unfolding {' '.join(words)}\n" if words else ""
        out.append("\n".join(comment + [f"pub {new} : goal.{new}"]) + "\n" + unf + f"{new} c{more} =" + body)
    return out, placed


def step_out(name, text):
    """Text without a function that only steps up to an earlier place."""
    text = re.sub(r"\(" + re.escape(name) + r" ([\w.]+|\([^()]*\))\)", lambda m: m.group(1).strip("()"), text)
    return re.sub(r"(?<![\w.'-])" + re.escape(name) + r" ([\w.]+|\([^()]*\))", lambda m: m.group(1).strip("()"), text)


def turn(folder, row, path):
    fn = Fn(row)
    text = open(f"{path}/Proof.antt", encoding="utf-8").read()
    head, uses, blocks = split_items(text)
    todo, invs, answers, helpers, placed_rows = [], [], [], [], []
    steps, goals = {}, {}
    dropped = 0
    first_inv = []
    for b in blocks:
        lines = b.split("\n")
        comment = []
        while lines and lines[0].startswith("--"):
            comment.append(lines.pop(0))
        if not lines:
            helpers.append(b)
            continue
        sig = lines[0]
        if re.match(r"pub \S+[-_]spec\b", sig) and "statement" in sig:
            continue
        m = re.match(r"abbrev (?:pub )?(invariant|decreases)-(\S+) : tie\.\S+$", sig)
        if m:
            kind, loop = m.group(1), m.group(2)
            rest = "\n".join(lines[1:])
            unf = ""
            mm = re.match(r"((?:unfolding .*\n)?)" + re.escape(f"{kind}-{loop}") + r"((?: \S+)*?) =([\s\S]*)", rest)
            if not mm:
                todo.append(f"invariant {loop} not read")
                helpers.append(b)
                continue
            new, body = invariant(fn, loop, mm.group(2).split(), mm.group(3), todo)
            if new is None:
                helpers.append(b)
                continue
            invs.append("\n".join(comment + [f"abbrev pub {kind}-{new} : goal.{kind}-{new}"]) + "\n" + mm.group(1) + f"{kind}-{new} l =" + body)
            continue
        m = re.match(r"(\S+) : tie\.Need-(\S+?)(?: invariant-\S+| decreases-\S+)*$", sig)
        if m:
            name, need = m.group(1), m.group(2)
            hit = None
            for k in (need, re.sub("^overflow-", "", need), re.sub("^slice-bounds-", "part-", need), name):
                hit = hit or fn.needs.get(norm(k)) or fn.by_new.get(k)
            rest = "\n".join(lines[1:])
            mm = re.match(r"((?:unfolding .*\n)?)" + re.escape(name) + r"((?: \S+)*?) =([\s\S]*)", rest)
            if mm and not hit and mm.group(3).strip() == "search rules":
                dropped += 1
                continue
            if not hit or not mm:
                todo.append(f"goal {need} not found")
                helpers.append("-- TODO goal\n" + b)
                continue
            new, (old_at, new_at) = hit
            body = mm.group(3)
            if body.strip() == "search rules":
                dropped += 1
                continue
            if new in fn.row["settled"]:
                dropped += 1
                continue
            ps = mm.group(2).split()
            ps = [p for p in ps if p != "κs"]
            for n in steps:
                body = step_out(n, body)
            body = turn_body(fn, old_at, ps[0] if ps else "c", body, todo)
            more = "".join(" " + p for p in ps[1:])
            answers.append([comment, new, old_at, mm.group(1), more, body])
            goals[name] = new
            continue
        whole = "\n".join(lines)
        loops = r"(?:\s+invariant-\S+?|\s+decreases-\S+?)*"
        m = re.match(r"(?:abbrev )?(?:pub )?(\S+) :\s+(?:\((\S+) : tie\.(\S+?)" + loops + r"\)|tie\.(\S+?)" + loops + r")(?=[\s)])\s*(→|(?=[({]))\s*([\s\S]*?)\n(unfolding .*\n)?\1 (\S+)((?: \S+)*?) =([\s\S]*)$", whole)
        if m:
            name, tv, place, place2, _, typ, unf, bv, more, body = m.groups()
            place = place or place2
            hit = next((p[0] for p in fn.places if norm(p[0]) == norm(place)), None)
            to = re.match(r"tie\.(\S+?)(?: invariant-\S+| decreases-\S+)*$", typ.strip())
            if hit and to:
                steps[name] = hit
                continue
            if hit:
                for n in steps:
                    typ, body = step_out(n, typ), step_out(n, body)
                typ = turn_body(fn, hit, tv or "c", typ, todo)
                body = turn_body(fn, hit, bv, body, todo)
                placed_rows.append((name, hit, comment, typ, unf or "", more, body))
                continue
            todo.append(f"place {place} not found")
        if "tie." in b:
            todo.append("tie in a helper")
        helpers.append(("PLAIN", b))
    plain = [h[1] if isinstance(h, tuple) else h for h in helpers]
    for a in answers:
        for old, new in goals.items():
            a[5] = re.sub(r"(?<![\w.'-])" + re.escape(old) + r" c(?![\w.'-])", f"{new} c", a[5])
    answers, placed = with_helpers(fn, row, answers, placed_rows)
    keep = [u for u in uses if not re.search(r"\.(Statement|Tie|Need\w*)\b", u)]
    mod = folder.replace("/", ".")
    if invs:
        cited = "\n".join(invs)
        own = []
        # helpers that an invariant cites go with it
        names = {}
        for h in plain:
            hm = re.search(r"^(?:abbrev |unfoldable )?(?:pub )?(\S+) :", h, re.M)
            if hm:
                names[hm.group(1)] = h
        go, grew = [], True
        while grew:
            grew = False
            for n, h in names.items():
                if h not in go and re.search(r"(?<![\w.'-])" + re.escape(n) + r"(?![\w'-])", cited):
                    go.append(h)
                    cited += "\n" + h
                    grew = True
        go = [h for h in plain if h in go]
        made = []
        for h in go:
            made.append(re.sub(r"^((?:abbrev |unfoldable )?)(?!pub )(\S+ :)", r"\1pub \2", h, count=1, flags=re.M))
        plain = [h for h in plain if h not in go]
        used = {n for n, h in names.items() if h in go and re.search(r"(?<![\w.'-])" + re.escape(n) + r"(?![\w'-])", "\n".join(answers + plain + placed))}
        inv_uses = pick(keep, "\n".join(invs + made))
        with open(f"{path}/Invariants.antt", "w", encoding="utf-8") as f:
            f.write("\n".join(head + inv_uses + [f"use {mod}.Given as goal"]) + "\n\n" + "\n\n".join(made + invs) + "\n")
        if used:
            keep.append(f"use {mod}.Invariants.{{{', '.join(sorted(used))}}}")
    if answers:
        all_text = "\n\n".join(plain + placed + answers)
        a_uses = pick(keep, all_text)
        with open(f"{path}/Answers.antt", "w", encoding="utf-8") as f:
            f.write("\n".join(head + a_uses + [f"use {mod}.Goals as goal"]) + "\n\n" + all_text + "\n")
    return todo, dropped


def pick(uses, text):
    """The use lines, each with the names that the text has."""
    out = []
    words = set(re.findall(NAME, text))
    for u in uses:
        m = re.match(r"use (\S+?)\.\{(.*)\}$", u)
        if not m:
            out.append(u)
            continue
        names = [n.strip() for n in m.group(2).split(",")]
        kept = []
        for n in names:
            base = n.split(" as ")[-1]
            op = base.strip("◌")
            if base in words or (base == "[]" and "[]" in text) or ("◌" in base and op in text) or op in text and "◌" in base:
                kept.append(n)
        if kept:
            out.append(f"use {m.group(1)}.{{{', '.join(kept)}}}")
    return out


def main():
    names, crate = sys.argv[1:3]
    only = sys.argv[3:]
    rows = json.load(open(names))
    base = f"crates/{crate}/proofs"
    for key, row in sorted(rows.items()):
        m = re.match(rf"Rattle-{crate}-proofs\.(.*)\.Lts$", key)
        if not m:
            continue
        folder = m.group(1).replace(".", "/")
        path = f"{base}/{folder}"
        if only and folder not in only:
            continue
        if not os.path.exists(f"{path}/Proof.antt"):
            continue
        if os.path.exists(f"{path}/Answers.antt") or os.path.exists(f"{path}/Invariants.antt"):
            continue
        todo, dropped = turn(f"Rattle.{crate}.proofs.{folder}", row, path)
        os.remove(f"{path}/Proof.antt")
        print(f"{crate}/{folder}: {len(todo)} left, {dropped} dropped" + "".join("\n    " + t for t in todo))


main()
