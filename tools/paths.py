#!/usr/bin/env python3
"""The places before each need of a function, nearest first, with the number of `.before` that leads to each.

    tools/paths.py CRATE FUNCTION [NEED..] [--all] [--kept]       as: tools/paths.py checker_nodes apply returns-2

`3:loop(u,i,inv)` is `c .before .before .before .loop`, with the fields u, i and inv; setp.py writes it `c ^3 .loop`. The last place is the
function's entry, with `.args` and `.pre`. Places that answers seldom name (`slice-known`, `expr-arg`, ..) are counted and, without --all, not
shown. --kept takes the modules that the last call wrote.
"""
import re
import sys

import proofs

SELDOM = re.compile(r"(?:(?:shared-)?slice|struct|row)-known\d*|\S+-arg\d*")


def chains(text, wanted, everything):
    for need, places in proofs.needs(text).items():
        if wanted and need not in wanted:
            continue
        shown = [f"{depth}:{thing}({','.join(fields)})" for depth, (thing, fields) in enumerate(places) if everything or not SELDOM.fullmatch(thing)]
        print(need, "  ", "  ".join(shown))


proofs.usage(__doc__)
words = [w for w in sys.argv[1:] if w not in ("--all", "--kept")]
if len(words) < 2:
    proofs.fail("CRATE FUNCTION [NEED..]")
crate, function, needs = words[0], words[1], words[2:]
folder = proofs.OUTPUT / "generated" / crate if "--kept" in sys.argv else proofs.generated(crate)
found = proofs.derivations(folder, crate, function)
if not found:
    proofs.fail(f"{function} has no module Lts in {folder}")
for path in found:
    print("==", path.relative_to(folder / f"Rattle·{crate}·proofs" / "proofs").parent.as_posix()[:80], path.name)
    chains(path.read_text(), needs, "--all" in sys.argv)
