#!/usr/bin/env python3
"""Shortens a cycle's proof file as `rt dev` prints it: what each member is given of its callees becomes `MEMBER-calls t`.

    tools/compact.py CRATE MEMBER          as: tools/skel.py CRATE even; tools/compact.py CRATE even; tools/split.py CRATE even

MEMBER is one function of the cycle. The file is written in place. Run it once, before answers are filled in.
"""
import re
import sys

import proofs

proofs.usage(__doc__)
if len(sys.argv) != 3:
    proofs.fail("CRATE MEMBER")
folder = proofs.cycle_folder(*sys.argv[1:])
path = folder / "Proof.antt"
text = path.read_text()
if "-calls t" in text or (folder / "Proof").is_dir():
    proofs.fail(f"{path} is shortened already")

names = "|".join(re.escape(m.replace("_", "-")) for m in proofs.members(folder))
TUPLE = r"[^()]*(?:\([^()]*\)[^()]*)*?"
NEED = re.compile(rf"(\(t : ℕ\) → )({names})-lts\.(\S+)\s+\(\s*({TUPLE})\)\s+\(\2-at t\)\s+\2\.Post")
SPEC = re.compile(rf"({names})-lts\.spec\s+\(\s*({TUPLE})\)\s+\(\1-at t\)\s+\1\.Post")
calls = {}


def need(m):
    calls[m.group(2)] = re.sub(r"\s+", " ", m.group(4)).strip().rstrip(",")
    return f"{m.group(1)}{m.group(2)}-lts.{m.group(3)} ({m.group(2)}-calls t) ({m.group(2)}-at t) {m.group(2)}.Post"


text = NEED.sub(need, text)
text = SPEC.sub(r"\1-lts.spec (\1-calls t) (\1-at t) \1.Post", text)
given = "".join(f"abbrev {m}-calls : ℕ → {m}-lts.Claims\n{m}-calls t = ({t})\n\n" for m, t in calls.items())
first = text.index("\n-- src/")
text = text[:first] + "\n" + given + text[first + 1:]
text = re.sub(r"^-- src/[^\n]*\n", "", text, flags=re.M)
path.write_text(text)
print(len(text.split("\n")), "lines")
