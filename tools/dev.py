#!/usr/bin/env python3
"""`rt dev` with a short view: errors, goals, verdict lines, seconds.

    tools/dev.py CRATE [--allow-holes] [--omega] [--most N]

--omega adds what a failing `omega` says; --most N prints at most N characters (default 14000). The whole output is kept in
target/tools/dev.out, and goal.py prints single goals of it. The exit status is that of `rt dev`.
"""
import argparse
import re
import sys
import time

import proofs


def short(text, omega):
    """The lines that say what is wrong, each cut to a readable length."""
    out, mode = [], None
    for line in text.split("\n"):
        if line.startswith("help: write"):
            mode = "help"
            out.append(line[:120])
            continue
        if mode == "help":
            if line.startswith("    ") or not line.strip():
                continue
            mode = None
        if "goal ?" in line:
            mode = "goal"
            out.append(line)
            continue
        if mode == "goal":
            if line.startswith(" "):
                out.append(line[:1500])
                continue
            mode = None
        if ": error: " in line:
            mode = "error"
            out.append(line[:180] if "no proof of" in line else line[:400])
            continue
        if re.search(r"is not admitted: (unsolved|rejected)", line) or "unsolved ?" in line or "to decide it" in line:
            out.append(line[:300])
            continue
        if line.startswith("fn ") and ": proved" not in line and "no holes" not in line:
            out.append(line[:160])
            continue
        if line.startswith(("logic=", "holes=")):
            out.append(line)
            continue
        if mode == "error":
            if line.startswith("  ") and (re.search("expected|differ|In its own words|but this has|atom", line) or "= " in line[:6]):
                if omega:
                    at = line.find("In its own words")
                    out.append("  .. " + line[at:at + 500] if at >= 0 else line[:500])
                continue
            if not line.startswith(" "):
                mode = None
        if re.match(r"^\S+\.(antt|rt):\d+:\d+: (?!note)", line) and "has-holes" not in line:
            out.append(line[:300])
    return "\n".join(out)


def main():
    proofs.usage(__doc__)
    ap = argparse.ArgumentParser()
    ap.add_argument("crate")
    ap.add_argument("--allow-holes", action="store_true")
    ap.add_argument("--omega", action="store_true")
    ap.add_argument("--most", type=int, default=14000)
    a = ap.parse_args()
    start = time.time()
    status, text = proofs.dev(a.crate, *(["--allow-holes"] if a.allow_holes else []))
    seconds = time.time() - start
    text = proofs.pretty(text).replace(f"{proofs.ROOT}/crates/", "")
    text = re.sub(r"proofs/((?:\w+/)*)(\+[a-z_0-9-]+){4,}", r"proofs/\1CYCLE", text)
    text = "\n".join(line for line in text.split("\n") if "was not admitted (it has holes" not in line)
    print(short(text, a.omega)[:a.most])
    print(f"seconds: {seconds:.1f}")
    sys.exit(status)


main()
