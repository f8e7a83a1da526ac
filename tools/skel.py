#!/usr/bin/env python3
"""Writes the proof files that `rt dev` prints for functions without one, each need answered by `search needs`.

    tools/skel.py CRATE [FUNCTION..]       all functions without a proof, or these

A file that exists is never written over. Loops' invariants and measures, and the measures of a cycle, stay `?`.
"""
import re
import sys
from pathlib import Path

import proofs


def printed(text):
    """The files that the check prints, by path."""
    files, at = {}, None
    for line in text.split("\n"):
        new = re.match(r"help: write (\S+) with these lines", line)
        if new:
            at = new.group(1)
            files[at] = []
        elif at is not None and (line.startswith("    ") or not line.strip()):
            files[at].append(line[4:])
        else:
            at = None
    return files


def answered(lines):
    """The same with `search needs` for each hole that is a need's."""
    text = "\n".join(lines).rstrip() + "\n"
    if "borrow.Author.Needs" not in text:
        text = "use borrow.Author.Needs.{needs}\n" + text
    return re.sub(r"^(?!(?:\S+-)?(?:Inv|μ)-)(.* = )\?$", r"\1search needs", text, flags=re.M)


proofs.usage(__doc__)
crate, only = sys.argv[1], sys.argv[2:]
status, text = proofs.dev(crate)
for name, lines in printed(text).items():
    path = Path(name)
    function = path.parent.name
    if only and function not in only and not set(proofs.members(function)) & set(only):
        continue
    if path.exists():
        print("exists", name)
        continue
    path.parent.mkdir(parents=True, exist_ok=True)
    path.write_text(answered(lines))
    print("wrote", name)
for line in text.split("\n"):
    if line.startswith(("fn ", "logic=")) and ": proved" not in line:
        print(line[:300])
