#!/usr/bin/env python3
"""Replaces answers in a function's proof file by those on standard input.

    tools/setp.py CRATE FUNCTION <<'END'
    @@ returns-2 :: rw (← (c ^3 .word .ensures)) (search tests)
    @@ returns-3 :: unfolding scan
    refl
    @@ loop-again ::
        let l = c ^5 .loop in
        (omega arith, l .inv .1)
    @@ use native.Mathlib.Omega.{arith}
    END

A block is `@@ NAME :: BODY`; NAME is a declaration of the file, and its clause's arguments stay. `c ^5` stands for c with five `.before`
(paths.py says how many), for any one-letter variable. An `unfolding` line comes first, and a block that is a `use` line goes to the top of the
file. FUNCTION is a name, or a path below proofs/; a member of a cycle has its own file.
"""
import re
import sys

import proofs


def expanded(text):
    return re.sub(r"\b([a-z]) \^(\d+)", lambda m: m.group(1) + " .before" * int(m.group(2)), text)


def replaced(text, name, body):
    """The file with this answer, or None where the declaration is not there."""
    unfolding = ""
    if body.startswith("unfolding "):
        unfolding, body = body.split("\n", 1)
        unfolding += "\n"
    named = re.escape(name)
    clause = re.compile(
        rf"^({named} :[^\n]*\n(?:    [^\n]*\n)*)(?:unfolding [^\n]*\n)?({named}(?: [^=\n]*?)? =)[^\n]*\n(?:[ ]+[^\n]*\n)*", re.M)
    if not clause.search(text):
        return None
    space = "" if body.startswith("\n") else " "
    return clause.sub(lambda m: m.group(1) + unfolding + m.group(2) + space + body + "\n", text)


proofs.usage(__doc__)
if len(sys.argv) != 3:
    proofs.fail("CRATE FUNCTION")
path = proofs.proof_file(*sys.argv[1:])
text = path.read_text()
wrong = 0
for block in re.split(r"\n@@ ?", "\n" + sys.stdin.read()):
    block = expanded(block.strip("\n"))
    if not block:
        continue
    if block.startswith("use "):
        text = re.sub(r"^use ", lambda m: block + "\nuse ", text, count=1, flags=re.M)
        continue
    parts = re.match(r"(\S+) ::(?: |(?=\n))(.*)", block, re.S)
    if not parts:
        proofs.fail(f"a block is `@@ NAME :: BODY`: {block[:60]}")
    name, body = parts.groups()
    new = replaced(text, name, body)
    if new is None:
        print("no declaration", name)
        wrong = 1
    else:
        text = new
path.write_text(text)
sys.exit(wrong)
