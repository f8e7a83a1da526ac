#!/usr/bin/env python3
"""Single goals of the last run of dev.py.

    tools/goal.py NAME..            as: tools/goal.py apply-returns-2

NAME is the declaration that has the hole. Put `?` in the place of an answer and run `tools/dev.py CRATE --allow-holes` first.
"""
import re
import sys

import proofs

proofs.usage(__doc__)
if not proofs.LAST.exists():
    proofs.fail("run dev.py first")
text = proofs.pretty(proofs.LAST.read_text())
for name in sys.argv[1:]:
    found = re.search(r"goal \?\S* in `" + re.escape(name) + r"`\n((?: .*\n)*)", text)
    print("==", name)
    print(found.group(1)[:2600] if found else "none")
