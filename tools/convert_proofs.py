#!/usr/bin/env python3
"""Turns proofs/F/Proof.antt of an older Rattle into Invariants.antt and Answers.antt.

usage: python3 tools/convert_proofs.py NAMES CRATE [FUNCTION..]    at the top of the repository

NAMES is a file that `rt check --generated DIR --old-names` or `rt names DIR` wrote: old and new names of goals, steps and
places. Answers that are only a search are left out, since the check finds them. What it cannot turn it says.
"""

import json
import os
import re
import sys

PATH = re.compile(r"(?<![\w.'⟧-])((?:⟦[^⟧]*⟧)|[A-Za-zκα-ω][\w'₀-₉-]*)((?:\.[\w'₀-₉-]+)*)")
DECL = re.compile(r"^((?:(?:pub|abbrev|unfoldable) )*)([^\s:(){}]+)((?: [({].*?[)}])*) ?: ", re.S)


def norm(s):
    return s.replace("-", "").replace("_", "").lower()


def blocks(text):
    out, cur = [], []
    for l in text.split("\n"):
        if l.strip() == "" and cur:
            out.append("\n".join(cur))
            cur = []
        elif l.strip():
            cur.append(l)
    if cur:
        out.append("\n".join(cur))
    # a block that begins with an indented line belongs to the one before
    res = []
    for b in out:
        if b[0] in " \t" and res:
            res[-1] += "\n\n" + b
        else:
            res.append(b)
    return res


class Fn:
    def __init__(self, d, source, fname):
        self.d = d
        self.places = d["places"]
        self.idx = {}
        for i, p in enumerate(self.places):
            self.idx[p[0]] = i
        self.parent = [self.idx[p[1]] if p[1] is not None else None for p in self.places]
        self.new_place = d["places_by_name"]
        self.needs = {norm(o): (n, i, o) for i, (o, n) in enumerate(d["needs"])}
        for i, (o, n) in enumerate(d["needs"]):
            self.needs.setdefault(norm(n), (n, i, o))
        self.ensures = clause_names(source, fname, "ensures")
        self.requires = clause_names(source, fname, "requires")
        self.said = []

    def by_place(self, name):
        for i, p in enumerate(self.places):
            if norm(p[0]) == norm(name):
                return i
        return None

    def depth(self, a, b):
        """how many steps from place a up to place b"""
        n = 0
        while a is not None and a != b:
            a = self.parent[a]
            n += 1
        return n if a is not None else None


def clause_names(source, fname, kind):
    m = re.search(r"\bfn " + re.escape(fname) + r"\b.*?\n\{", source, re.S)
    if not m:
        return []
    return re.findall(r"^\s+" + kind + r" (\w+) \{", m.group(0), re.M)


def pick(fields, rest):
    """Turns nested projections into the name of a clause: (name, what is left of the path)."""
    n = len(fields)
    k = 0
    while k < n - 1 and k < len(rest) and rest[k] == "1":
        k += 1
    if k == n - 1:
        return fields[k], rest[k:]
    if k < len(rest) and rest[k] == "0":
        return fields[k], rest[k + 1:]
    return None, rest


def several(base, names, rest, fn):
    """Clauses that were one nested pair, as that pair."""
    k = 0
    while k < len(rest) and rest[k] == "1":
        k += 1
    if k != len(rest):
        fn.said.append("clauses: " + base + "." + ".".join(rest))
        return ".".join([base] + rest)
    out = f"{base}.{names[-1]}"
    for n in reversed(names[k:-1]):
        out = f"({base}.{n}, {out})"
    return out


def resolve(fn, root, place, fields, rootplace=None):
    """A path of the older Rattle from the record at a place, in today's names; or a place."""
    i = 0
    while i < len(fields) and fields[i] == "before":
        if fn.parent[place] is not None:
            place = fn.parent[place]
        i += 1
    fields = fields[i:]
    if not fields:
        return place, None
    f, rest = fields[0], fields[1:]
    if f == "pre":
        f = "requires"
    if f in ("requires", "args", "ranges", "fits", "lifetimes", "well_formed", "type_inv"):
        if f == "requires":
            pre = fn.d.get("pre")
            if pre and len(pre.get("fields", [])) == 1:
                return None, ".".join([root, f, pre["fields"][0]] + rest)
            if pre and len(pre.get("fields", [])) > 1:
                name, left = pick(pre["fields"], rest)
                if name is None:
                    return None, several(root + ".requires", pre["fields"], rest, fn)
                return None, ".".join([root, f, name] + left)
        return None, ".".join([root, f] + rest)
    # the step's name, at this place or above
    if f.endswith("_lem") and not any(norm(p[2][0]) == norm(f) for p in fn.places):
        f = f[:-4]
    at = place
    while at is not None:
        arms = fn.d["arms"][at]
        if arms:
            best = None
            for new, old, path in arms[2]:
                if norm(old) == norm(f) and rest[:len(path)] == path and (best is None or len(path) > len(best[2])):
                    best = (new, old, path)
            if best:
                return None, ".".join([root, arms[0], best[0]] + rest[len(best[2]):])
        old, new = fn.places[at][2]
        if norm(old) == norm(f):
            callee = fn.places[at][3]
            if arms and not callee:
                new = arms[0]
            if callee:
                names = fn.d["params"].get(callee)
                cl = fn.d["clauses"][at]
                if rest[:1] == ["ensures"] and cl and len(cl["fields"]) == 1:
                    return None, ".".join([root, new, "ensures", cl["fields"][0]] + rest[1:])
                if rest[:1] == ["ensures"] and cl and len(cl["fields"]) > 1:
                    name, left = pick(cl["fields"], rest[1:])
                    if name is None:
                        return None, several(f"{root}.{new}.ensures", cl["fields"], rest[1:], fn)
                    else:
                        return None, ".".join([root, new, "ensures", name] + left)
                if rest[:1] and rest[0] in ("new", "auto", "kept", "exits", "last") and names:
                    head = {"kept": "auto", "exits": "new", "last": "new"}.get(rest[0], rest[0])
                    k = 1
                    while k < len(rest) and rest[k] == "1":
                        k += 1
                    if k < len(rest) and rest[k] == "0" and k - 1 < len(names):
                        return None, ".".join([root, new, head, names[k - 1]] + rest[k + 1:])
            return None, ".".join([root, new] + rest)
        at = fn.parent[at]
    if rootplace is not None and rootplace != place:
        return resolve(fn, root, rootplace, fields, None)
    if f[-1:].isdigit():
        short = re.sub(r"[-_]?\d+$", "", f)
        if any(norm(p[2][0]) == norm(short) for p in fn.places):
            return resolve(fn, root, place, [short] + rest, rootplace)
    fn.said.append("step " + ".".join(fields))
    return None, ".".join([root, f] + rest)


def argument(text, i):
    """The argument that begins at i, after spaces: (start, end), or None."""
    while i < len(text) and text[i] in " \n":
        i += 1
    if i >= len(text):
        return None
    if text[i] in "({":
        d = 0
        for k in range(i, len(text)):
            if text[k] in "({[":
                d += 1
            if text[k] in ")}]":
                d -= 1
                if d == 0:
                    k += 1
                    while k < len(text) and re.match(r"[\w.'-]", text[k]):
                        k += 1
                    return i, k
        return None
    m = re.compile(r"(?:⟦[^⟧]*⟧[\w.'-]*|[^\s(){},;\[\]]+)").match(text, i)
    return (i, m.end()) if m else None


BASE = r"((?:⟦[^⟧]*⟧)|[A-Za-z][\w'₀-₉-]*)"


def turn(fn, text, env, rootplace, helpers, lemmas, want):
    """Turns the paths of a body. env: variable -> (root, place); rootplace: root -> the place of its record; helpers:
    functions from place to place; lemmas: name -> (index of the place among its arguments, its place); want(name, P)
    gives the name of a lemma at the place P."""
    env = dict(env)

    def place_of(base, fields):
        if base.startswith("⟦"):
            root, k = base[1:-1].split(":")
            k = int(k)
        elif base in env:
            root, k = env[base]
        else:
            return None
        for f in fields:
            if f != "before":
                return None
            if fn.parent[k] is not None:
                k = fn.parent[k]
        return root, k

    def split(path):
        return [x for x in path.split(".") if x]

    changed = True
    while changed:
        changed = False

        def apply(h, base, path, whole):
            nonlocal changed
            p = place_of(base, split(path))
            if p is None:
                return whole
            k = helpers[h]
            if fn.depth(rootplace[p[0]], k) is None:
                return whole
            changed = True
            return f"⟦{p[0]}:{k}⟧"
        if helpers:
            hs = "|".join(sorted(map(re.escape, helpers), key=len, reverse=True))
            text = re.sub(r"\((" + hs + r")\s+" + BASE + r"((?:\.before)*)\)", lambda m: apply(m.group(1), m.group(2), m.group(3), m.group(0)), text)
            text = re.sub(r"(= )(" + hs + r") " + BASE + r"((?:\.before)*)(?= in\b)", lambda m: m.group(1) + apply(m.group(2), m.group(3), m.group(4), m.group(2) + " " + m.group(3) + m.group(4)), text)
        text = re.sub(r"\((⟦[^⟧]*⟧)\)", r"\1", text)

        def gap(m):
            whole = m.group(0)
            starts = m.start() == 0 or m.string[m.start() - 1] == "\n"
            ends = whole.endswith("\n")
            if starts:
                return "" if ends else whole[:len(whole) - len(whole.lstrip())]
            return "\n" if ends else " "

        def let(m):
            nonlocal changed
            v, base, path = m.group(1), m.group(2), split(m.group(3))
            p = place_of(base, path)
            if p is not None:
                env[v] = p
                changed = True
                return gap(m)
            p = place_of(base, [])
            if p is None:
                return m.group(0)
            # a variable for a step, or for clauses: written out
            k, rest = p[1], list(path)
            while rest and rest[0] == "before" and fn.parent[k] is not None:
                k = fn.parent[k]
                rest = rest[1:]
            tail = [x for x in rest if not x.isdigit()]
            step = len(rest) == 1 and any(norm(q[2][0]) == norm(rest[0]) and q[3] for q in fn.places)
            if step or (tail and tail[-1] in ("requires", "pre", "ensures") and len(tail) <= 2):
                written[v] = base + "".join("." + x for x in path)
                if not base.startswith("⟦"):
                    written[v] = f"⟦{p[0]}:{p[1]}⟧" + "".join("." + x for x in path)
                changed = True
                return gap(m)
            return m.group(0)
        written = {}
        text = re.sub(r"[ \t]*\blet ([^\s:=]+)(?: : [^=\n]*)? = " + BASE + r"((?:\.[\w'-]+)*)\s+in\b[ \t]*\n?", let, text)
        for v, w in written.items():
            text = re.sub(r"(?<![\w.'⟧-])" + re.escape(v) + r"(?![\w'-])", lambda m: w, text)

    # lemmas at a place
    at = 0
    names = "|".join(sorted(map(re.escape, lemmas), key=len, reverse=True))
    if names:
        pat = re.compile(r"(?<![\w.'-])(" + names + r")(?![\w'-])")
        while True:
            m = pat.search(text, at)
            if not m:
                break
            h = m.group(1)
            i = m.end()
            spans = []
            for _ in range(lemmas[h][0] + 1):
                g = argument(text, i)
                if g is None:
                    break
                if text[g[0]] == "{":
                    i = g[1]
                    g = argument(text, i)
                    if g is None:
                        break
                spans.append(g)
                i = g[1]
            if len(spans) <= lemmas[h][0]:
                fn.said.append(f"{h} with no argument for its place")
                at = m.end()
                continue
            x, y = spans[lemmas[h][0]]
            arg = text[x:y]
            q = re.fullmatch(r"\(?" + BASE + r"((?:\.before)*)\)?", arg)
            p = place_of(q.group(1), split(q.group(2))) if q else None
            if p is None:
                fn.said.append(f"{h} at {arg}")
                at = m.end()
                continue
            if p[1] != lemmas[h][1]:
                fn.said.append(f"{h} wants {fn.places[lemmas[h][1]][0]} and gets {fn.places[p[1]][0]}")
            name = want(h, rootplace[p[0]])
            text = text[:m.start()] + name + text[m.end():x] + p[0] + text[y:]
            at = m.start() + len(name)
            env.setdefault(p[0], (p[0], rootplace[p[0]]))

    def path(m):
        base, fields = m.group(1), split(m.group(2))
        p = place_of(base, [])
        if p is None:
            return m.group(0)
        root, k = p
        got, s = resolve(fn, root, k, fields, rootplace[root])
        if s is not None:
            return s
        n = fn.depth(rootplace[root], got)
        if n is None:
            fn.said.append(f"no way from {root} to {fn.places[got][0]}")
            return m.group(0)
        return ".".join([root] + ["before"] * n) if not (base == root and not fields) else root
    text = PATH.sub(path, text)
    text = re.sub(r"\.inv\b(?!ariant)", ".invariant", text)
    text = re.sub(r"((?:loop-[\w'-]+-test|if-[\w'-]+))\.taken\b", r"\1.true", text)
    text = re.sub(r"((?:loop-[\w'-]+-test|if-[\w'-]+))\.left\b", r"\1.false", text)
    text = re.sub(r"\(not[-_](?:true|false) [^ ()]+ ([\w'-]+\.if-not-[\w'-]+\.(?:true|false))\)", r"\1", text)
    text = re.sub(r"(?<![\w-])not[-_](?:true|false) [^ ()]+ ([\w'-]+\.if-not-[\w'-]+\.(?:true|false))", r"\1", text)
    return text


def tuple_parts(s):
    """The parts of a tuple, or None."""
    s = s.strip()
    if not (s.startswith("(") and s.endswith(")")):
        return None
    depth, parts, cur = 0, [], ""
    for i, ch in enumerate(s):
        if ch in "([{":
            depth += 1
            if depth == 1:
                continue
        if ch in ")]}":
            depth -= 1
            if depth == 0 and i != len(s) - 1:
                return None
            if depth == 0:
                continue
        if ch == "," and depth == 1:
            parts.append(cur)
            cur = ""
        else:
            cur += ch
    if cur.strip():
        parts.append(cur)
    return parts if len(parts) > 1 else None


def named(fn, body, fields):
    """A body that ends in a tuple, as a record by the clauses' names."""
    if len(fields) < 2:
        return body
    # what stands before the tuple
    for m in re.finditer(r"(^|\bin\b|\n)\s*(?=\()", body):
        head, tail = body[:m.end()], body[m.end():]
        if re.search(r"\blet\b(?!.*\bin\b)", head.split("\n")[-1]):
            continue
        got, rest = [], tail
        ok = True
        for k in range(len(fields) - 1):
            parts = tuple_parts(rest)
            if parts is None:
                ok = False
                break
            if len(parts) == len(fields) - k and len(parts) > 2:
                got += parts
                rest = None
                break
            if len(parts) != 2:
                ok = False
                break
            got.append(parts[0])
            rest = parts[1]
        if ok:
            if rest is not None:
                got.append(rest)
            if len(got) == len(fields):
                return head.rstrip(" ") + " record {\n" + "".join(f"      {f} = {' '.join(g.split(chr(10))).strip()};\n" for f, g in zip(fields, got)) + "    }"
    if body.strip() not in ("search rules",):
        fn.said.append("not a tuple of " + " ".join(fields))
    return body


def top_arrows(t):
    out, d, cur = [], 0, ""
    for ch in t:
        if ch in "([{":
            d += 1
        if ch in ")]}":
            d -= 1
        if ch == "→" and d == 0:
            out.append(cur)
            cur = ""
        else:
            cur += ch
    return [x for x in out + [cur] if x.strip()]


def binders(part):
    """The binders of a telescope, (name, type, explicit), or None where the part is a type."""
    t, out, i = part.strip(), [], 0
    if not t or t[0] not in "({":
        return None
    while i < len(t):
        if t[i] in " \n":
            i += 1
            continue
        if t[i] not in "({":
            return None
        d = 0
        for k in range(i, len(t)):
            if t[k] in "([{":
                d += 1
            if t[k] in ")]}":
                d -= 1
                if d == 0:
                    break
        inner = t[i + 1:k]
        q = re.match(r"([^:()]+?) : (.*)$", inner, re.S)
        if not q:
            return None
        for n in q.group(1).split():
            out.append((n, q.group(2), t[i] == "("))
        i = k + 1
    return out


def order_lemmas(items, made):
    names = {made[key]: (key, it) for key, it in items}
    done, out = set(), []

    def put(n):
        if n in done:
            return
        done.add(n)
        for o in names:
            if o != n and re.search(r"(?<![\w.'-])" + re.escape(o) + r"(?![\w'-])", names[n][1][1]):
                put(o)
        out.append(names[n][1])
    for n in names:
        put(n)
    return out


def convert(crate, fname, folder, d, source):
    text = open(os.path.join(folder, "Proof.antt"), encoding="utf-8").read()
    fn = Fn(d, source, fname.split(".")[-1])
    bs = blocks(text)
    head, uses, decls = [], [], []
    for b in bs:
        lines = b.split("\n")
        k = 0
        while k < len(lines) and lines[k].startswith("--"):
            k += 1
        if k < len(lines) and (lines[k].startswith("use ")):
            head += [l for l in lines[:k] if not decls]
            uses.append("\n".join(lines[k:]))
        else:
            decls.append(b)
    helpers = {}
    invariants, answers, kept = [], [], []
    loops = {norm(l[0][0]): (l, d["changed"][i]) for i, l in enumerate(d["loops"])}
    parsed = []
    for b in decls:
        lines = b.split("\n")
        k = 0
        while lines[k].startswith("--"):
            k += 1
        comment, body = "\n".join(lines[:k]), "\n".join(lines[k:])
        m = DECL.match(body)
        parsed.append((comment, body, m))
    # place helpers: name : tie.A .. → tie.B .., name x = x.before..
    for comment, body, m in parsed:
        if not m:
            continue
        name = m.group(2)
        h = re.match(re.escape(m.group(0)) + r"\s*tie\.([\w-]+)[^→]*→\s*tie\.([\w-]+)[^\n]*\n(?:unfolding[^\n]*\n)?" + re.escape(name) + r" (\w+) =\s+([^\n]+)$", body)
        h = h or re.match(r"(?:abbrev )?" + re.escape(name) + r" : \([\w']+ : tie\.([\w-]+)[^→]*\)\s*→\s*tie\.([\w-]+)[^\n]*\n(?:unfolding[^\n]*\n)?" + re.escape(name) + r" (\w+) =\s+([^\n]+)$", body)
        if h and "let " not in h.group(4):
            k = fn.by_place(h.group(2))
            if k is not None:
                helpers[name] = k
    # an answer that another cites, by its old name
    goal_of = {}
    for comment, body, m in parsed:
        t = m and re.match(r"tie\.Need-([\w-]+)", body[m.end():])
        if t:
            for key in (t.group(1), re.sub("^overflow-", "", t.group(1))):
                if norm(key) in fn.needs:
                    goal_of[m.group(2)] = fn.needs[norm(key)][0]
    cited = set()
    for comment, body, m in parsed:
        if m and not re.search(r"tie\s*\.close|statement M", body):
            for w in set(re.findall(r"(?<![\w.'-])[A-Za-z][\w'-]*", body[m.end():])):
                if w in goal_of and w != m.group(2):
                    cited.add(w)
    lemmas, texts, made, queue = {}, {}, {}, []
    for comment, body, m in parsed:
        if not m or m.group(2) in helpers or re.search(r"tie\s*\.close|statement M", body):
            continue
        name, typ = m.group(2), body[m.end():]
        if re.match(r"tie\.(Need|invariant|decreases)", typ):
            continue
        dfn = re.search(r"^" + re.escape(name) + r"((?: [^\s=]+)*) =[ \t]*(\n?)(.*)$", typ, re.M | re.S)
        if not dfn:
            continue
        sig = body[body.index(name) + len(name):m.end()].rstrip().rstrip(":") + " → " + typ[:dfn.start()]
        sig = re.sub(r"\nunfolding[^\n]*\n?$", "", sig)
        k, here = 0, None
        for part in top_arrows(sig):
            bs2 = binders(part)
            if bs2 is None:
                q = re.match(r"\s*tie\.([\w-]+)", part)
                if q and here is None and fn.by_place(q.group(1)) is not None:
                    here = (k, fn.by_place(q.group(1)))
                k += 1
            else:
                for n, ty, explicit in bs2:
                    q = re.match(r"\s*tie\.([\w-]+)", ty)
                    if q and here is None and fn.by_place(q.group(1)) is not None:
                        here = (k, fn.by_place(q.group(1)))
                    k += 1 if explicit else 0
        if here:
            lemmas[name] = here
            texts[name] = (comment, body, m, dfn)

    def want(h, place):
        if (h, place) not in made:
            n = sum(1 for x in made if x[0] == h)
            made[(h, place)] = h if n == 0 else f"{h}_{n + 1}"
            queue.append((h, place))
        return made[(h, place)]

    for comment, body, m in parsed:
        if m and m.group(2) in lemmas:
            continue
        if not m:
            kept.append((comment, body))
            fn.said.append("left as it is: " + body.split("\n")[0])
            continue
        name = m.group(2)
        typ = body[m.end():]
        if name in helpers:
            continue
        if re.search(r"tie\s*\.close|statement M", body):
            continue
        t = re.match(r"tie\.((?:invariant|decreases)[\w-]*)", typ)
        if t:
            kind = "invariant" if t.group(1).startswith("invariant") else "decreases"
            key = norm(re.sub(r"^(invariant|decreases)[-_]", "", t.group(1)))
            if key not in loops:
                fn.said.append("no loop " + t.group(1))
                invariants.append((comment, body))
                continue
            (names, live), changed = loops[key]
            dfn = re.search(r"^" + re.escape(name) + r"((?: [^\s=]+)*) =\s*(.*)$", body[m.end():], re.M | re.S)
            if not dfn:
                fn.said.append("no definition of " + name)
                invariants.append((comment, body))
                continue
            ps = dfn.group(1).split()
            vars_of = list(live) + [v for v, c in zip(live, changed) if c]
            sub = {}
            if len(ps) == len(vars_of):
                for p, v, c in zip(ps[:len(live)], live, changed):
                    sub[p] = f"l.initial.{v}" if c else f"l.{v}"
                for p, v in zip(ps[len(live):], [v for v, c in zip(live, changed) if c]):
                    sub[p] = f"l.{v}"
            elif len(ps) == len(live) + sum(map(bool, changed)):
                pass
            else:
                fn.said.append(f"{name} takes {len(ps)}, and not {len(vars_of)}: {vars_of}")
            e = dfn.group(2)
            e = PATH.sub(lambda q: (sub[q.group(1)] + q.group(2)) if q.group(1) in sub else q.group(0), e)
            unf = re.search(r"^(unfolding [^\n]*)\n", body[m.end():], re.M)
            new = f"{kind}-{names[1]}"
            invariants.append((comment, f"abbrev pub {new} : goal.{new}\n" + (unf.group(1) + "\n" if unf else "") + f"{new} l = {e.strip()}" if "\n" not in e.strip() else f"abbrev pub {new} : goal.{new}\n" + (unf.group(1) + "\n" if unf else "") + f"{new} l =\n    {e.strip()}"))
            continue
        t = re.match(r"tie\.Need-([\w-]+)", typ)
        dfn = re.search(r"^" + re.escape(name) + r"((?: [^\s=]+)*) =[ \t]*(\n?)(.*)$", body[m.end():], re.M | re.S)
        unf = re.search(r"^(unfolding [^\n]*)\n", body[m.end():], re.M)
        if t:
            key = t.group(1)
            if key.startswith("overflow-") and norm(key) not in fn.needs and norm(key[9:]) in fn.needs:
                key = key[9:]
            if norm(key) not in fn.needs:
                alt = [k for k in fn.needs if norm("overflow" + k) == norm(key)]
                if not alt:
                    if dfn and dfn.group(3).strip() != "search rules":
                        fn.said.append("no goal " + t.group(1))
                    continue
                key = alt[0]
            new, i, old = fn.needs[norm(key)]
            if not dfn:
                fn.said.append("no definition of " + name)
                continue
            e = dfn.group(3)
            if e.strip() in ("search rules", "search needs") and name not in cited:
                continue
            place = fn.by_place(d["asked_at"][i][0])
            ps = dfn.group(1).split()
            c0 = ps[0] if ps and ps[0] != "_" else "c"
            e = turn(fn, e, {c0: (c0, place)}, {c0: place}, helpers, lemmas, want)
            if new.endswith("requires") or "-requires-" in new:
                fields = next((v for k, v in d["asked"].items() if norm(k) == norm(old)), [])
                e = named(fn, e, fields)
            elif re.match(r"returns", new):
                e = named(fn, e, fn.ensures)
            more = [p for p in ps[1:] if p not in ("κs", "_")]
            if more:
                e = "λ " + " ".join(more) + ". " + e.lstrip()
            for p in [p for p in ps[1:] if p == "κs"]:
                if re.search(r"(?<![\w.])" + re.escape(p) + r"(?![\w])", e):
                    fn.said.append(f"{new} used {p}")
            c = ps[0] if ps else "c"
            sep = "\n" if "\n" in e.strip() or len(e) > 90 else ""
            e = e.strip("\n")
            answers.append((comment, f"pub {new} : goal.{new}\n" + (unf.group(1) + "\n" if unf else "") + f"{new} {c} =" + ("\n" + (e if e[:1] == " " else "    " + e) if sep else " " + e.strip())))
            continue
        # a lemma of its own, at no place
        if "tie." in body:
            fn.said.append("still tie: " + name)
        kept.append((comment, body))
    lem_out = []
    while queue:
        h, place = queue.pop(0)
        comment, body, m, dfn = texts[h]
        k, declared_at = lemmas[h]
        ps = [x for x in dfn.group(1).split() if not x.startswith("{")]
        typ = body[m.end():]
        var = ps[k] if k < len(ps) else None
        if var is None or not re.fullmatch(r"[A-Za-z][\w'-]*", var):
            fn.said.append(f"{h}: no variable for its place")
            var = var or "c"
        def place_type(q):
            if fn.by_place(q.group(1)) == declared_at:
                return "goal." + fn.new_place[place]
            fn.said.append("another place " + q.group(1) + " in " + h)
            return q.group(0)
        sig = body[:m.end()] + typ[:dfn.start()]
        q = re.search(r"\(([\w'-]+) : tie\.", sig)
        sv = q.group(1) if q else var
        envs = {sv: (sv, declared_at)}
        sig = re.sub(r"tie\.((?!Need)[A-Z][\w-]*)((?: (?:invariant|decreases)[\w-]*)*)", place_type, sig)
        sig = turn(fn, sig, envs, {sv: place}, helpers, {n: v for n, v in lemmas.items() if n != h}, want)
        e = turn(fn, typ[dfn.start():], {var: (var, declared_at)}, {var: place}, helpers, {n: v for n, v in lemmas.items() if n != h}, want)
        out = sig + e
        if made[(h, place)] != h:
            out = re.sub(r"(?<![\w.'-])" + re.escape(h) + r"(?![\w'-])", made[(h, place)], out)
        lem_out.append(((h, place), (comment, out)))
    # the later ones are cited by the earlier ones
    kept = kept + order_lemmas(lem_out, made)

    def cites(t):
        for w in cited:
            t = re.sub(r"(?<![\w.'-])" + re.escape(w) + r"(?![\w'-])(?! :)", goal_of[w], t)
        return t
    answers = [(c, cites(b)) for c, b in answers]
    kept = [(c, cites(b)) for c, b in kept]
    # definitions that the invariants cite stand with them
    shared = []
    again = True
    while again:
        again = False
        for it in list(kept):
            m = DECL.match(it[1])
            if m and any(re.search(r"(?<![\w.'-])" + re.escape(m.group(2)) + r"(?![\w'-])", b) for _, b in invariants + shared):
                kept.remove(it)
                shared.insert(0, it)
                again = True
    shared_names = [DECL.match(b).group(2) for _, b in shared]
    shared = [(c, b if re.match(r"(abbrev |unfoldable )?pub ", b) else re.sub(r"^(abbrev |unfoldable )?", lambda q: (q.group(1) or "") + "pub ", b, count=1)) for c, b in shared]
    invariants = shared + invariants
    inv_text = "\n\n".join((c + "\n" if c else "") + b for c, b in invariants)
    ans_text = "\n\n".join((c + "\n" if c else "") + b for c, b in kept + answers)
    # local definitions that the invariants name go to them
    own = "proofs." + fname
    clean = [u for u in uses if not re.search(r"\.(Statement|Tie)( as \w+|\.\{[^}]*\})?$", u.strip(), re.M)]
    use_lines = []
    for u in uses:
        for x in re.split(r"\n(?=use )", u):
            if re.search(r"\.Statement\.\{statement\}|\.Tie as tie", x):
                continue
            use_lines.append(x)

    def wanted(t, goals):
        out = []
        for u in use_lines:
            m = re.search(r"\{(.*)\}", u, re.S)
            if m:
                items = [x.strip() for x in m.group(1).split(",") if x.strip()]
                def used(x):
                    n = x.split(" as ")[-1].strip()
                    if "◌" in n:
                        return all(s in t for s in n.split("◌") if s)
                    return re.search(r"(?<![\w'₀-₉-])" + re.escape(n) + r"(?![\w'₀-₉-])", t) is not None
                items = [x for x in items if used(x)]
                if items:
                    out.append(u[:m.start()] + "{" + ", ".join(items) + "}" + u[m.end():])
            else:
                n = u.strip().split(" ")[-1].split(".")[-1]
                if re.search(r"(?<![\w'])" + re.escape(n) + r"\.", t):
                    out.append(u)
        cited_here = [n for n in shared_names if re.search(r"(?<![\w.'-])" + re.escape(n) + r"(?![\w'-])", t)]
        if goals == "Goals" and cited_here:
            out.append(f"use Rattle.{crate}.proofs.{fname}.Invariants.{{{', '.join(cited_here)}}}")
        out.append(f"use Rattle.{crate}.proofs.{fname}.{goals} as goal")
        return "\n".join(out)
    intro = "\n".join(head)
    os.remove(os.path.join(folder, "Proof.antt"))
    if inv_text:
        moved = []
        with open(os.path.join(folder, "Invariants.antt"), "w", encoding="utf-8") as f:
            f.write((intro + "\n" if intro else "") + wanted(inv_text, "Given") + "\n\n" + inv_text + "\n")
    if ans_text and (answers or kept):
        with open(os.path.join(folder, "Answers.antt"), "w", encoding="utf-8") as f:
            f.write((intro + "\n" if intro else "") + wanted(ans_text, "Goals") + "\n\n" + ans_text + "\n")
    if not os.listdir(folder):
        os.rmdir(folder)
    return fn.said


def convert_cycle(crate, fname, folder, data, source):
    """The proof of functions that call one another, in proofs/+NAME/."""
    text = open(os.path.join(folder, "Proof.antt"), encoding="utf-8").read()
    said, answers, measures, head, uses, fns, params = [], [], [], [], [], {}, {}
    for k in data:
        m = re.fullmatch(re.escape(f"Rattle-{crate}-proofs.{fname}.Lts-") + r"(\w+)", k)
        if m:
            fns[m.group(1)] = Fn(data[k], source, m.group(1))
            params.update({q.split("::")[-1]: v for q, v in data[k]["params"].items()})
    for b in blocks(text):
        lines = b.split("\n")
        k = 0
        while k < len(lines) and lines[k].startswith("--"):
            k += 1
        if k < len(lines) and lines[k].startswith("use "):
            head += lines[:k]
            uses += re.split(r"\n(?=use )", "\n".join(lines[k:]))
            continue
        comment, body = "\n".join(lines[:k]), "\n".join(lines[k:])
        m = re.match(r"(?:abbrev )?μ-([\w-]+) : Measures[^\n]*\nμ-[\w-]+ κs a = (.*)$", body, re.S)
        if m:
            f = next(x for x in fns if norm(x) == norm(m.group(1)))
            e = re.sub(r"\ba((?:\.1)*)\.0\b", lambda q: "l." + params[f][q.group(1).count("1")], m.group(2))
            measures.append(f"abbrev pub decreases-{f} : goal.decreases-{f}\ndecreases-{f} l = {e.strip()}")
            continue
        m = re.match(r"(\w+) : \(t : ℕ\) → (\w+)_lts\.Need-([\w-]+)", body)
        if m:
            name, f, key = m.groups()
            fn = fns[f]
            d = re.search(r"^" + name + r" t (\w+)((?: κs)?) =[ \t]*\n?(.*)$", body, re.M | re.S)
            e, c = d.group(3), d.group(1)
            if e.strip() in ("search rules", "search needs"):
                continue
            for alt in (key, re.sub("^overflow-", "", key)):
                if norm(alt) in fn.needs:
                    key = alt
                    break
            else:
                said.append(f"no goal {f} {key}")
                continue
            new, i, old = fn.needs[norm(key)]
            place = fn.by_place(fn.d["asked_at"][i][0])
            e = turn(fn, e, {c: (c, place)}, {c: place}, {}, {}, None)
            if new.endswith("requires") or "-requires-" in new:
                e = named(fn, e, next((v for q, v in fn.d["asked"].items() if norm(q) == norm(old)), []))
            elif new.startswith("returns"):
                e = named(fn, e, fn.ensures)
            e = e.strip("\n")
            sep = "\n" if "\n" in e.strip() or len(e) > 90 else " "
            answers.append((comment, f"pub {f}-{new} : goal.{f}-{new}\n{f}-{new} t {c} =" + (sep + (e if e[:1] == " " else "    " + e) if sep == "\n" else " " + e.strip())))
            continue
        if re.match(r"abbrev \w+_(at|below) :", body) or "_spec :" in body or "-spec :" in body:
            continue
        said.append("left: " + body.split("\n")[0])
        answers.append((comment, body))
    for f in fns.values():
        said += f.said
    keep = [u for u in uses if not re.search(r"\.(Kinds|Reads|Tie|Lts-\w+)( as |\.\{)|PlainCycle|Fn\.Kinds|\.\{\s*statement", u)]

    def wanted(t, goals):
        out = []
        for u in keep:
            m = re.search(r"\{(.*)\}", u, re.S)
            items = [x.strip() for x in m.group(1).split(",") if x.strip()] if m else []
            items = [x for x in items if (all(q in t for q in x.split("◌") if q) if "◌" in x else re.search(r"(?<![\w'-])" + re.escape(x) + r"(?![\w'-])", t))]
            if items:
                out.append(u[:m.start()] + "{" + ", ".join(items) + "}")
        return "\n".join(out + [f"use Rattle.{crate}.proofs.{fname}.{goals} as goal"])
    os.remove(os.path.join(folder, "Proof.antt"))
    intro = "\n".join(head)
    for file, goals, t in (("Invariants", "Given", "\n\n".join(measures)), ("Answers", "Goals", "\n\n".join((c + "\n" if c else "") + b for c, b in answers))):
        with open(os.path.join(folder, file + ".antt"), "w", encoding="utf-8") as f:
            f.write((intro + "\n" if intro else "") + wanted(t, goals) + "\n\n" + t + "\n")
    return said


def main(argv):
    names, crate, only = argv[0], argv[1], argv[2:]
    data = json.load(open(names))
    base = os.path.join("crates", crate)
    source = ""
    for folder, _, fs in os.walk(os.path.join(base, "src")):
        for f in sorted(fs):
            source += open(os.path.join(folder, f), encoding="utf-8").read() + "\n"
    for folder, dirs, fs in os.walk(os.path.join(base, "proofs")):
        if "Proof.antt" not in fs:
            continue
        fname = os.path.relpath(folder, os.path.join(base, "proofs")).replace("/", ".")
        if only and fname not in only:
            continue
        if fname.startswith("+"):
            for said in convert_cycle(crate, fname, folder, data, source):
                print(f"{fname}: {said}")
            continue
        key = f"Rattle-{crate}-proofs.{fname}.Lts"
        if key not in data:
            print(f"{fname}: no names")
            continue
        for s in convert(crate, fname, folder, data[key], source):
            print(f"{fname}: {s}")


if __name__ == "__main__":
    main(sys.argv[1:])
