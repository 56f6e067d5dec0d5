#!/usr/bin/env python3
"""Brings the repository's own definitions and lemmas to today's spelling: words in snake case, types in camel case.

usage: python3 tools/respell.py        at the top of the repository, once, after port.py

It goes by text. A name is the repository's own where a file of specs/ or proofs/ declares it; in a file that imports a
name of the same spelling from a library, that name stays. Names of Rust code, strings and paths of files stay. What falls
together with another name of a file is printed as 'meets:'.
"""

import os
import re
import sys

TOKEN = re.compile(r"[^\s(){}\[\],;.⌜⌝`\"\\:=@→λ∙×]+")
DECL = re.compile(r"^(\s*)((?:(?:pub|abbrev|unfoldable|record|data|module|ruleset) )*)([^\s:(){}\[\],;=.]+)((?: [^:=\n]*?(?:\([^\n]*\)|\{[^\n]*\}))?) ?:(?: |$)")
RECORD = re.compile(r"^\s*(?:pub )?(?:record|data) ([^\s:(){}]+)")
LET = re.compile(r"\blet ([^\s:(){}\[\],;=.]+) (?::|=) ")
ALIAS = re.compile(r"^(?:ghost )?use [^{]* as ([^\s:(){};]+)")
USE = re.compile(r"use ([^\s{;]+?)\.?\{([^}]*)\}", re.S)
KEPT = {"clear-cell", "drop-slot", "new-empty", "read_cell", "set-cell", "in-second", "start-count"}
CHOSEN = {"well-formed": "well_formed_lem", "in-hand": "held_in_hand", "bit-and": "bit_and_lem", "bit-or": "bit_or_lem", "bit-xor": "bit_xor_lem"}
WORDS = {"record", "data", "module", "use", "pub", "where", "let", "in", "abbrev", "unfoldable"}


def own_crates():
    with open("crates.txt") as f:
        return {l.split(":")[0].split()[0] for l in f if ":" in l and not l.startswith("#")}


def files(ends):
    for folder, dirs, names in os.walk("crates"):
        dirs[:] = sorted(d for d in dirs if d != "out")
        for n in sorted(names):
            if n.endswith(ends):
                yield os.path.join(folder, n)


def read(p):
    with open(p, encoding="utf-8") as f:
        return f.read()


def snake(n):
    n = n.replace("-", "_")
    n = re.sub(r"(?<=[a-z0-9'₀-₉])([A-ZℤℕΣ])", lambda m: "_" + m.group(1), n)
    return "".join(c if c in "ℤℕΣ" else c.lower() for c in n)


def camel(n):
    return "".join(w[:1].upper() + w[1:] for w in re.split("[-_]", n) if w)


def declared(text):
    """The names that a file declares: name -> whether it is a type."""
    found = {}
    lines = text.split("\n")
    for i, l in enumerate(lines):
        if l.lstrip().startswith("--"):
            continue
        m = RECORD.match(l)
        if m:
            found[m.group(1)] = True
            continue
        m = DECL.match(l)
        if m and m.group(3) not in WORDS and not m.group(3).startswith(("←", "(")):
            if "module" in m.group(2):
                continue
            said = l[m.end():]
            k = i + 1
            while k < len(lines) and lines[k].strip() and len(lines[k]) - len(lines[k].lstrip()) > len(m.group(1)):
                said += " " + lines[k].strip()
                k += 1
            is_type = bool(re.search(r"(^|→ )Type( \d)?$", said.strip())) and bool(m.group(2)) or bool(re.search(r"→ Type( \d)?$", said.strip()))
            found.setdefault(m.group(3), is_type)
        for n in LET.findall(l) + ALIAS.findall(l):
            found.setdefault(n, False)
    return found


def main():
    crates = own_crates()
    names = {}
    texts = {}
    for p in list(files(".antt")) + list(files(".rt")) + list(files(".edit")):
        texts[p] = read(p)
    local = {}
    for p in texts:
        if p.endswith(".antt"):
            d = declared(texts[p])
            local[p] = d
            for n, t in d.items():
                names[n] = names.get(n, False) or t
    turn = {}
    for n, t in names.items():
        if t:
            new = camel(n) if (n[0].islower() or "-" in n) else n
        elif n[0].isupper() and "-" not in n:
            new = n
        else:
            parts = n.split("-")
            new = "_".join(x if (x[:1].isupper() and x[1:2].islower()) else snake(x) for x in parts)
        if new != n and re.match(r"[a-zA-Z]", n):
            turn[n] = new
    # a lemma that would have its function's name gets `_lem`; fields keep the plain name
    fields = KEPT
    for n in sorted(turn):
        plain = turn[n]
        rivals = [m for m in names if m != n and turn.get(m, m) == plain]
        if n in CHOSEN:
            turn[n] = CHOSEN[n]
        elif rivals and "-" in n and n not in fields:
            turn[n] = plain + "_lem"
    for n in names:
        if n not in turn and n not in fields and any(v == n and "-" not in m for m, v in turn.items()):
            turn[n] = n + "_lem"
    for p, t in texts.items():
        foreign = set()
        for path, items in USE.findall(t):
            parts = path.split(".")
            if not (parts[0] == "Rattle" and len(parts) > 1 and parts[1] in crates):
                foreign |= {re.split(r"\s+as\s+", x.strip())[0] for x in items.split(",")}
        mine = {n: v for n, v in turn.items() if n not in foreign or n in local.get(p, {})}
        before = set(TOKEN.findall(t))
        out = []
        for l in t.split("\n"):
            s = l.lstrip()
            comment = s.startswith("--") or (p.endswith(".rt") and s.startswith("//")) or (p.endswith(".edit") and s.startswith("#"))
            if comment:
                l = re.sub(r"`([^`]*)`", lambda m: "`" + TOKEN.sub(lambda k: mine.get(k.group(0), k.group(0)), m.group(1)) + "`", l)
                l = TOKEN.sub(lambda k: mine.get(k.group(0), k.group(0)) if re.search("[a-z][A-Z]", k.group(0)) else k.group(0), l)
            elif p.endswith(".edit") and s.startswith("file:"):
                pass
            else:
                l = TOKEN.sub(lambda k: mine.get(k.group(0), k.group(0)), l)
            out.append(l)
        new = "\n".join(out)
        for n in sorted(before & set(mine)):
            if mine[n] in before and mine[n] != n:
                print(f"meets: {p}: {n} -> {mine[n]}")
        if new != t:
            with open(p, "w", encoding="utf-8") as f:
                f.write(new)
    for n in sorted(turn):
        print(f"turned: {n} -> {turn[n]}")
    back = {}
    for n, v in turn.items():
        back.setdefault(v, []).append(n)
    for v, ns in sorted(back.items()):
        if len(ns) > 1 or v in names:
            print(f"together: {v}: {' '.join(sorted(ns + ([v] if v in names else [])))}")


if __name__ == "__main__":
    sys.exit(main())
