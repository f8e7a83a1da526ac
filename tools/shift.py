#!/usr/bin/env python3
"""Moves the chains of `.before` in a function's proof to where their places are after a change of its code.

    tools/shift.py CRATE --keep                     before the code is changed: keeps the places of all functions of the crate
    tools/shift.py CRATE FUNCTION [OLD=NEW..]       after it: rewrites the function's proof file

Needs and places are found again in the order of the code, whatever their numbers: `c .before .before .word2` becomes the chain of the same
call, which may be `word3` now. OLD=NEW says it where that goes wrong, as `returns-2=returns-3 word2=word3`. The call of `spec` gets the needs of
the changed code in order, a new one answered by `search needs`. What got another name is printed, and what is new or not found again; that is
left as it is. A chain is one on `c`, or on a variable that a `let` binds to a place. Where a member of a cycle has other callees, its tuple
`MEMBER-calls` is changed by hand.
"""
import difflib
import re
import shutil
import sys

import proofs

BEFORE = re.compile(r"((?: \.before)*)(?: \.([\w·-]+))?")


def aligned(old, new, stem, said):
    """Which of the new names each old one is, by the order of both; `said` goes first."""
    known = {}
    for a, b, size in difflib.SequenceMatcher(None, [stem(n) for n in old], [stem(n) for n in new], autojunk=False).get_matching_blocks():
        known.update(zip(old[a:a + size], new[b:b + size]))
    known.update((o, n) for o, n in said.items() if o in old)
    return known


def need_stem(name):
    return re.sub(r"-\d+$", "", re.sub(r"-t\d+(?=$|-)", "-t", name))


def thing_stem(name):
    return re.sub(r"\d+$", "", name)


def things_of(needs):
    """All places of a function in the order of the code."""
    return list(dict.fromkeys(thing for chain in needs.values() for thing, _ in reversed(chain)))


def calls(renamed):
    """The calls that got another number with what they require: `word2` with `word-requires-2`."""
    asks = re.compile(r"(.+)-requires(?:-(\d+))?")
    both = ((asks.fullmatch(o), asks.fullmatch(n)) for o, n in renamed.items())
    return {o.group(1) + (o.group(2) or ""): n.group(1) + (n.group(2) or "") for o, n in both if o and n}


def depth_of(chain, depth, things, new):
    """The depth in the new chain of the place that had this depth in the old one; None where it is gone."""
    if depth == len(chain) - 1:
        return len(new) - 1
    name = things.get(chain[depth][0])
    return next((i for i, (thing, _) in enumerate(new[:-1]) if thing == name), None)


def shifted(text, old, new, things, wrong):
    """An answer with its chains moved from the places `old` to the places `new`."""
    base = {"c": (0, 0)}
    for name, steps in re.findall(r"let (\w+) = \(?c((?: \.before)*)\)? in", text):
        depth = steps.count(".before")
        to = depth_of(old, depth, things, new) if depth < len(old) else None
        if to is not None:
            base[name] = (depth, to)

    def move(m):
        if not m.group(2) and m.group(3) is None:
            return m.group(0)
        start, begin = base[m.group(1)]
        depth = start + m.group(2).count(".before")
        thing = m.group(3)
        if depth >= len(old):
            wrong.append(m.group(0))
            return m.group(0)
        to = depth_of(old, depth, things, new)
        if to is None or to < begin:
            wrong.append(f"{old[depth][0]} at {depth}")
            return m.group(0)
        moved = m.group(1) + " .before" * (to - begin)
        if thing is None:
            return moved
        return f"{moved} .{things[thing] if thing == old[depth][0] else thing}"

    return re.sub(r"(?<![\w.·-])(" + "|".join(base) + r")(?![\w·′-])" + BEFORE.pattern, move, text)


def tokens(text, at):
    """The arguments of an application from here on, each with its end: names and groups in parentheses."""
    out = []
    while at < len(text):
        if text[at].isspace():
            at += 1
        elif text[at] == ")" or text.startswith("λ", at):
            break
        else:
            end, open_ = at, 0
            while end < len(text) and (open_ or not (text[end].isspace() or text[end] == ")")):
                open_ += {"(": 1, ")": -1}.get(text[end], 0)
                end += 1
            out.append((text[at:end], at, end))
            at = end
    return out


def spec_call(text, member):
    """The arguments of `spec` that answer needs or give invariants, for a function alone or a member of a cycle."""
    alone = re.search(r"tie\.spec\b", text)
    at = alone or re.search(rf"(?<![\w-]){re.escape(member)}-lts\.spec\b", text)
    if not at:
        proofs.fail("the file has no call of `spec`")
    return tokens(text, at.end())[0 if alone else 3:]


def search(need):
    return "(λ c κs. search needs)" if re.search(r"-requires(-\d+)?$", need) else "(λ c. search needs)"


def answers(text, member, old, new, renamed, things, wrong):
    """The file with the declarations of answers moved, and renamed with their needs."""
    names = {}
    owned = re.compile(rf"(?<![\w-])(?:tie|{re.escape(member)}-lts)\.Need-(\S+)")

    def block(part):
        need = owned.search(part)
        if not need or need.group(1) not in old or not re.match(r"\S+ :", part):
            return part
        was = need.group(1)
        now = renamed.get(was)
        if now not in new:
            wrong.append(f"the need {was}")
            return part
        found = []
        part = shifted(part, old[was], new[now], things, found)
        wrong.extend(f"{w}, in {was}" for w in found)
        name = re.match(r"(\S+) :", part).group(1)
        if now != was and name.endswith(was):
            names[name] = name[:-len(was)] + now
        return re.sub(rf"\bNeed-{re.escape(was)}(?![\w-])", f"Need-{now}", part)

    text = "\n\n".join(block(part) for part in text.split("\n\n"))
    if names:
        known = "|".join(re.escape(n) for n in sorted(names, key=len, reverse=True))
        text = re.sub(rf"(?<![\w.·-])({known})(?![\w·-])", lambda m: names[m.group(1)], text)
    return text


def main():
    proofs.usage(__doc__)
    crate, words = sys.argv[1], sys.argv[2:]
    kept = proofs.OUTPUT / "before" / crate
    if words == ["--keep"]:
        shutil.rmtree(kept, ignore_errors=True)
        shutil.copytree(proofs.generated(crate), kept)
        print("kept", kept.relative_to(proofs.ROOT))
        return
    if not words or not all("=" in w for w in words[1:]):
        proofs.fail("CRATE FUNCTION [OLD=NEW..]")
    function, said = words[0], dict(w.split("=", 1) for w in words[1:])
    modules = [proofs.derivations(f, crate, function) for f in (kept, proofs.generated(crate))]
    if [len(m) for m in modules] != [1, 1]:
        proofs.fail(f"{function} has {len(modules[0])} modules Lts kept (run --keep first) and {len(modules[1])} now")
    old, new = (proofs.needs(m[0].read_text()) for m in modules)
    renamed = aligned(list(old), list(new), need_stem, said)
    things = aligned(things_of(old), things_of(new), thing_stem, {**calls(renamed), **said})
    path = proofs.proof_file(crate, function)
    wrong = []
    member = function.split("/")[-1].replace("_", "-")
    text = answers(path.read_text(), member, old, new, renamed, things, wrong)
    given = spec_call(text, member)
    loops = sum(1 for token, _, _ in given if re.search(r"(?:^|-)(?:Inv|μ)-", token))
    given = given[loops:]
    if len(given) != len(old):
        proofs.fail(f"spec has {len(given)} answers, and the code that was kept {len(old)} needs")
    by_need = {}
    for need, (token, _, _) in zip(old, given):
        now = renamed.get(need)
        if now in new:
            by_need[now] = shifted(token, old[need], new[now], things, wrong) if token.startswith("(λ") else token
    added = [need for need in new if need not in by_need]
    listed = [by_need.get(need, search(need)) for need in new]
    text = text[:given[0][1]] + "\n    ".join(listed) + text[given[-1][2]:]
    path.write_text(text)
    print("wrote", path.relative_to(proofs.ROOT).as_posix()[-80:])
    changed = [f"{o}={n}" for known in (renamed, things) for o, n in known.items() if o != n]
    if changed:
        print("renamed", *changed)
    for need in added:
        print("new need", need)
    for w in wrong:
        print("not found again:", w)


main()
