#!/usr/bin/env python3
"""Splits a cycle's proof file, once compact.py has shortened it: an edit of one member is then rechecked in seconds.

    tools/split.py CRATE MEMBER [--inline]

Proof.antt ends in `close`; Proof/Env.antt has the measures, and what each member is given and asks; Proof/MEMBER.antt has a member's answers.
With --inline, for a cycle that is proved, an answer that is only `search needs` moves into the member's call of `spec`. MEMBER is one function
of the cycle. Run `rt fmt` and `tools/dev.py CRATE` afterwards.
"""
import re
import sys

import proofs


def blocks(text):
    return re.split(r"\n\n+", text.strip("\n"))


def declared(block):
    return re.match(r"(?:abbrev )?(?:pub )?(\S+) :", block).group(1)


def used(name, text):
    return re.search(rf"(?<![\w·-]){re.escape(name)}(?![\w·-])", text) is not None


def owner(name, names):
    """The member whose answers have this declaration; none for the measures and what is given."""
    if name.startswith("μ-"):
        return None
    for m in sorted(names, key=len, reverse=True):
        if name in (f"{m}-at", f"{m}-below", f"{m}-calls"):
            return None
        if name.startswith(f"{m}-"):
            return m
    return None


def arguments(final, member):
    """The answers that the member's `spec` takes, in order."""
    at = re.search(rf"{re.escape(member)}-lts\.spec \({re.escape(member)}-calls t\) \({re.escape(member)}-at t\) {re.escape(member)}\.Post", final)
    if not at:
        proofs.fail(f"the call of {member}'s spec is not in the form that compact.py writes")
    return re.findall(r"\([^()]*\)|[^\s()]+", final[at.end():].split("λ t.")[0])


def member_file(member, answers, final, uses, given, env, inline):
    plain, kept = {}, []
    for block in answers:
        if inline and re.search(r"= search needs$", block) and "\n    " not in block:
            plain[declared(block)] = "(λ c κs. search needs)" if " κs =" in block else "(λ c. search needs)"
        else:
            kept.append(block)
    spec = [plain.get(a.strip("()").split(" ")[0], a) for a in arguments(final, member)]
    kept.append(
        f"pub {member}-closed : {{M : Type 1}} (t : ℕ) → {member}-lts.Closed ({member}-calls t) ({member}-at t) {member}.Post M\n"
        f"{member}-closed t =\n    {member}-lts.spec ({member}-calls t) ({member}-at t) {member}.Post\n" + "\n".join("    " + a for a in spec))
    body = "\n\n".join(kept) + "\n"
    names = [n for n in given if used(n, body)]
    lines = []
    for line in uses:
        alias = re.match(r"use \S+ as (\S+)$", line)
        if not alias or re.search(rf"(?<![\w·-]){re.escape(alias.group(1))}[. ]", body):
            lines.append(line)
    return f"-- The answers of `{member}`.\n" + "\n".join(lines) + f"\nuse {env}.{{{', '.join(names)}}}\n\n" + body


def main():
    proofs.usage(__doc__)
    words = [w for w in sys.argv[1:] if w != "--inline"]
    if len(words) != 2:
        proofs.fail("CRATE MEMBER [--inline]")
    crate = words[0]
    folder = proofs.cycle_folder(*words)
    text = (folder / "Proof.antt").read_text()
    if "-calls t" not in text:
        proofs.fail("run compact.py first")
    names = [m.replace("_", "-") for m in proofs.members(folder)]
    base = proofs.ROOT / "crates" / crate
    library = f"Rattle·{crate}·proofs." + ".".join(folder.relative_to(base).parts)
    start = text.index("abbrev μ-")
    head = [line for line in text[:start].split("\n") if line]
    uses = [line for line in head if line.startswith("use ") and not re.search(r"Tie\.\{close\}$|\.\{statement\}$", line)]
    *body, final = blocks(text[start:])
    own = {m: [] for m in names}
    env = []
    for block in body:
        m = owner(declared(block), names)
        (env if m is None else own[m]).append(block)
    given = [f"μ-{m}" for m in names] + [f"{m}-{x}" for m in names for x in ("at", "below", "calls")]
    out = folder / "Proof"
    out.mkdir(exist_ok=True)
    for_env = [u for u in uses if "Needs.{needs}" not in u]
    (out / "Env.antt").write_text(
        "-- The measures of the cycle, and what each member is given and asks below the measure.\n" + "\n".join(for_env) + "\n\n"
        + "\n\n".join(b.replace("abbrev ", "abbrev pub ", 1) for b in env) + "\n")
    for m in names:
        (out / (proofs.module_name(m) + ".antt")).write_text(member_file(m, own[m], final, uses, given, f"{library}.Proof.Env", "--inline" in sys.argv))
    spec = re.search(r"^pub (\S+) :", final, re.M).group(1)
    (folder / "Proof.antt").write_text(
        "\n".join([line for line in head if line.startswith("--")] + [f"use {library}.{{statement}}", f"use {library}.Tie.{{close}}", "use Prim.Native.Nat.{ℕ}", "mod Env"]
                  + [f"mod {proofs.module_name(m)}" for m in names] + ["use Env.{" + ", ".join(f"μ-{m}" for m in names) + "}"]
                  + [f"use {proofs.module_name(m)}.{{{m}-closed}}" for m in names])
        + f"\n\npub {spec} : {{M : Type 1}} → statement M\n{spec} =\n    close " + " ".join(f"μ-{m}" for m in names) + "\n"
        + "".join(f"    {m}-closed\n" for m in names))
    print("wrote", ", ".join(["Proof.antt", "Proof/Env.antt"] + [f"Proof/{proofs.module_name(m)}.antt" for m in names]))


main()
