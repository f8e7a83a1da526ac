#!/usr/bin/env python3
"""Writes the repository's own names of specs/ and proofs/ in snake case: definitions, lemmas, fields and constructors.

usage: tools/respell.py [--check] [ROOT]

It runs after port.py, once. A name is the repository's own where an .antt file below crates/ declares it; in a file that imports the same
spelling from a library, it stays. Names of Rattle's source, and those that Rattle makes for proofs, stay. It also turns must-fail edits.
It prints each name that would fall together with another one, and then writes nothing.
"""
import os
import re
import sys

TOKEN = re.compile(r"«[^»]*»|[^\s(){}.;,@\"«»\[\]\\⦃⦄]+")
DECLARED = re.compile(r"^( *)((?:(?:pub|abbrev|unfoldable|opaque) )*)(?:(data|record) )?([^\s(){}.;,@\"\[\]\\:=]+)(?= :(?:\s|$)| \()", re.M)
MADE = re.compile(r"Need-|\bstatement M|tie\.|-lts\.|\bMeasures \d|\bIn \d")
USE = re.compile(r"^[ \t]*(?:pub |ghost )*use ([^\s{;]+?)(?:\.\{([^}]*)\})?(?: as (\S+?))?;?[ \t]*$", re.M)


def snake(name):
    """The name with words joined by underscores; a name that begins with a capital is a type's or a fact's, and stays."""
    if re.match(r"[A-Z]", name) or not re.search(r"[a-z]", name):
        return name
    if re.search(r"[^\w'-]", name):
        return name
    name = re.sub(r"(?<=[a-z0-9])([A-Z])(?=[a-z]|$|[-'_])", lambda m: "_" + m[1].lower(), name)
    name = re.sub(r"(?<=[a-z0-9])([A-Z]+)", lambda m: "_" + m[1].lower(), name)
    return re.sub(r"(?<=\w)['-]?-(?=\w)", lambda m: m[0].replace("-", "_"), name)


def files(root):
    for at, folders, names in os.walk(os.path.join(root, "crates")):
        folders[:] = sorted(f for f in folders if f != "out")
        for n in sorted(names):
            if n.endswith((".antt", ".rt", ".edit")):
                yield os.path.join(at, n)


def own_crates(root):
    return {c for c in os.listdir(os.path.join(root, "crates"))}


def declared(path, text):
    """The names that the file declares, and in a proof of a function those of its helpers alone."""
    found = set()
    is_walk = os.path.basename(path) == "Proof.antt" or os.sep + "Proof" + os.sep in path
    for m in DECLARED.finditer(text):
        if m[4] in ("use", "mod", "let", "in", "where", "module"):
            continue
        if is_walk:
            if m[1]:
                continue
            if MADE.search(text[m.end() : text.find("\n", m.end())]):
                continue
        found.add(m[4])
    return found


def imported(text, own):
    """The names that the file takes from a library, and those from crates of the repository."""
    theirs, ours = set(), set()
    for m in USE.finditer(text):
        parts = m[1].split(".")
        mine = (parts[0] == "Rattle" and parts[1] in own) if len(parts) > 1 else False
        each = [x.strip().split(" as ")[-1].strip() for x in (m[2] or "").split(",") if x.strip()]
        (ours if mine else theirs).update(each)
    return theirs, ours


# Names whose snake form has another meaning where they are used.
CHOSEN = {"tag-at": "tag_there", "rows-of": "rows_of_lem", "bit-or": "bit_or_lem"}


def choose(defined, lemmas):
    """Old name to new: a definition gets the snake form of its name, a lemma too, or that with _lem where another name has it."""
    turned = {n: snake(n) for n in defined if snake(n) != n}
    taken = {turned.get(n, n) for n in defined} | {n for n in lemmas if snake(n) == n}
    for n in sorted(lemmas - defined, key=lambda n: ("-" in n, n)):
        new = snake(n)
        if new == n:
            continue
        if new in taken:
            new += "_lem"
        taken.add(new)
        turned[n] = new
    return turned | {a: b for a, b in CHOSEN.items() if a in turned}


def main(words):
    check = "--check" in words
    root = next((w for w in words if not w.startswith("--")), ".")
    own = own_crates(root)
    texts = {p: open(p, encoding="utf-8").read() for p in files(root)}
    defined, lemmas, local = set(), set(), {}
    for p, t in texts.items():
        if not p.endswith(".antt"):
            continue
        names = declared(p, t)
        if os.path.basename(p) == "Proof.antt" or os.sep + "Proof" + os.sep in p:
            local[p] = {n: snake(n) for n in names if snake(n) != n}
        elif os.sep + "specs" + os.sep in p:
            defined |= names
        else:
            lemmas |= names
    turned = choose(defined, lemmas)
    # Lemmas whose name a definition gets now: only where a file declares or imports them, since functions of the source have such names too.
    moved = {n: n + "_lem" for n in lemmas - defined if snake(n) == n and n in {turned[d] for d in defined if d in turned}}
    bad, tables = [], {}
    old = {}
    for a, b in turned.items():
        old.setdefault(b, []).append(a)
    bad += [f"{' and '.join(sorted(each))} would both be {b}" for b, each in old.items() if len(each) > 1]
    for p, t in texts.items():
        theirs, ours = imported(t, own)
        table = {a: b for a, b in {**local.get(p, {}), **turned}.items() if a not in theirs}
        table.update({a: b for a, b in moved.items() if p.endswith(".antt") and (a in ours or a in declared(p, t))})
        tables[p] = table
        there = {m[0] for m in TOKEN.finditer(re.sub(r"(?m)(^|\s)--.*$", "", t))}
        if p.endswith(".antt") and p not in local:
            bad += [f"{os.path.relpath(p, root)}: {a} would fall together with {b}" for a, b in table.items() if a in there and b in there and b not in table]
    print("\n".join(sorted(bad)))
    print(f"respell: {len(turned)} names, {sum(map(len, local.values()))} in proofs of functions, {len(bad)} that fall together")
    if check or bad:
        return int(bool(bad))
    changed = 0
    for p, t in texts.items():
        new = TOKEN.sub(lambda m: tables[p].get(m[0], m[0]), t)
        if new != t:
            changed += 1
            with open(p, "w", encoding="utf-8") as f:
                f.write(new)
    print(f"respell: {changed} files")
    return 0


if __name__ == "__main__":
    sys.exit(main(sys.argv[1:]))
