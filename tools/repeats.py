#!/usr/bin/env python3
"""Repetition in .rt and .antt files.

    tools/repeats.py [--since REV] [--lines N] [--most N]

Prints top-level statements with the same type under different names or in different files, and runs of N or more equal lines (default 8;
white space folded) that stand twice, at most --most of each (default 25). With --since, only where one of the places is in a file changed
since REV. A row is a place to look.
"""
import argparse
import collections
import re
import subprocess
import sys

import proofs

HEAD = re.compile(r"^(?:private |pub |unfoldable |abbrev |opaque )*([^\s:(){}=]+) : (.*)$")
PASSED = re.compile(r"^\s*(--|//|use |ghost use |pub mod |mod )")
SHORTEST = 80


def fold(text):
    return re.sub(r"\s+", " ", text).strip()


def statements(lines):
    """The types of the top-level declarations of an .antt file, with their lines."""
    i = 0
    while i < len(lines):
        head = HEAD.match(lines[i])
        if not head:
            i += 1
            continue
        text, j = head.group(2), i + 1
        while j < len(lines) and lines[j].startswith("    "):
            text += " " + lines[j]
            j += 1
        if len(fold(text)) > SHORTEST:
            yield fold(text), i + 1
        i = j


def runs(lines, count):
    """Each run of this many lines that say something, with its first line."""
    code = [(n + 1, fold(line)) for n, line in enumerate(lines) if fold(line) and not PASSED.match(line)]
    for k in range(len(code) - count + 1):
        key = "\n".join(text for _, text in code[k:k + count])
        if len(key) > 20 * count:
            yield key, code[k][0]


def show(places, most):
    print("  " + "  ".join(f"{p}:{n}" for p, n in places[:most]))


def main():
    ap = argparse.ArgumentParser(description=__doc__, formatter_class=argparse.RawDescriptionHelpFormatter)
    ap.add_argument("--since")
    ap.add_argument("--lines", type=int, default=8)
    ap.add_argument("--most", type=int, default=25)
    a = ap.parse_args()
    changed = None
    if a.since:
        out = subprocess.run(["git", "diff", "--name-only", a.since, "--", "crates"], cwd=proofs.ROOT, capture_output=True, text=True)
        if out.returncode:
            sys.exit(out.stderr)
        changed = set(out.stdout.split("\n"))
    same, equal = collections.defaultdict(list), collections.defaultdict(list)
    for path in sorted(p for p in (proofs.ROOT / "crates").rglob("*") if p.suffix in (".antt", ".rt")):
        name = path.relative_to(proofs.ROOT).as_posix()
        lines = path.read_text().split("\n")
        if path.suffix == ".antt":
            for text, n in statements(lines):
                same[text].append((name, n))
        for key, n in runs(lines, a.lines):
            equal[key].append((name, n))

    def wanted(places):
        return len(places) > 1 and (changed is None or any(p in changed for p, _ in places))

    rows = sorted(((len(t) * (len(ps) - 1), t, ps) for t, ps in same.items() if wanted(ps)), key=lambda r: -r[0])
    print(f"{len(rows)} statements stand more than once")
    for _, text, places in rows[:a.most]:
        show(places, 5)
        print("      " + text[:140])
    # runs that overlap are one: the same two files, a dozen lines on
    seen, shown = set(), 0
    print(f"runs of {a.lines} or more equal lines:")
    for places in (ps for ps in equal.values() if wanted(ps)):
        (p, n), (q, m) = places[:2]
        known = {(p, q, n // 12, m // 12), (p, q, (n - 1) // 12, (m - 1) // 12)} & seen
        seen.add((p, q, n // 12, m // 12))
        if not known:
            shown += 1
            if shown <= a.most:
                show(places, 4)
    print(f"  {shown} in all")


main()
