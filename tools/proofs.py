"""Where a crate's proof files are, and `rt dev` with its output kept. The tools for proofs import this; it is no command."""
import os
import re
import shutil
import subprocess
import sys
from pathlib import Path

ROOT = Path(__file__).resolve().parent.parent
OUTPUT = ROOT / "target" / "tools"
LAST = OUTPUT / "dev.out"


def fail(message):
    sys.exit(f"{Path(sys.argv[0]).name}: {message}")


def usage(doc):
    """Ends with the tool's own text where it is asked for, or where there are no arguments."""
    if len(sys.argv) < 2 or sys.argv[1] in ("-h", "--help"):
        print(doc.strip())
        sys.exit(0 if len(sys.argv) > 1 else 2)


def dev(crate, *words):
    """Runs `rt dev`; the whole output is kept for goal.py. Returns its exit status and output."""
    if not (ROOT / "crates" / crate).is_dir():
        fail(f"there is no crate {crate}")
    OUTPUT.mkdir(parents=True, exist_ok=True)
    ran = subprocess.run(["rt", "dev", crate, *words], cwd=ROOT, capture_output=True, text=True, env=dict(os.environ, RT_CUT="0"))
    text = ran.stdout + ran.stderr
    LAST.write_text(text)
    return ran.returncode, text


def generated(crate):
    """The folder of what the toolchain makes of a crate, written anew."""
    folder = OUTPUT / "generated" / crate
    shutil.rmtree(folder, ignore_errors=True)
    status, text = dev(crate, "--generated", str(folder))
    if not folder.is_dir():
        print(text[-2000:])
        fail("`rt dev` wrote no modules")
    return folder


def pretty(text):
    """The toolchain's own script: numerals in decimal, modules without their prefixes."""
    guide = subprocess.run(["rt", "doc"], capture_output=True, text=True).stdout.strip()
    script = Path(guide).parent.parent / "tools" / "pretty.py"
    return subprocess.run([sys.executable, str(script)], input=text, capture_output=True, text=True).stdout


def members(cycle):
    """The functions of a cycle of calls, whose folder is named after them: +even+odd."""
    return [m for m in Path(cycle).name.split("+") if m]


def cycle_folder(crate, name):
    """The folder of the cycle that has the member, or of the name itself."""
    found = [p for p in sorted((ROOT / "crates" / crate / "proofs").rglob("+*")) if p.is_dir() and (p.name == name or name in members(p))]
    if len(found) != 1:
        fail(f"{len(found)} cycles of {crate} have the member {name}")
    return found[0]


def module_name(member):
    """each_part has its answers in Proof/EachPart.antt."""
    return "".join(part.capitalize() for part in re.split("[_-]", member))


def proof_file(crate, function):
    """The file with the answers of a function, given by its name or by its path below proofs/."""
    base = ROOT / "crates" / crate / "proofs"
    last = Path(function).name
    found = [p for p in base.rglob("Proof.antt") if p.parent == base / function or (function == last and p.parent.name == last)]
    for cycle in base.rglob("+*"):
        if cycle.is_dir() and last in members(cycle):
            split = cycle / "Proof" / (module_name(last) + ".antt")
            found.append(split if split.exists() else cycle / "Proof.antt")
    if len(found) != 1:
        fail(f"{len(found)} proof files of {function} in {crate}" + "".join(f"\n  {p.relative_to(base)}" for p in found))
    return found[0]


def derivations(folder, crate, function):
    """The generated modules `Lts` of a function, or of it as a member of a cycle."""
    base = folder / f"Rattle·{crate}·proofs" / "proofs"
    last = Path(function).name
    return [p for p in sorted(base.rglob("Lts*.antt"))
            if p.parent == base / function or p.parent.name == last or p.stem in (f"Lts-{last}", f"Lts-{last.replace('_', '-')}")]


OWN = re.compile(r"pub record (\S+)·own\b[^\n]*\n((?: +pub [^\n]*\n(?: {12,}[^\n]*\n)*)*)")
PLACE = re.compile(r"pub record (\S+) : Type 0 where\n\s+pub before : (\S+)[^\n]*\n\s+pub (\S+) : ")
NEED = re.compile(r"Need-(\S+) =\n?\s*\(c : (\S+?)\)")


def needs(text):
    """The needs of a module `Lts` in order, each with the places before it, nearest first: thing and fields. The last is the entry, `Start`."""
    own = {m.group(1): re.findall(r"pub (\S+) :", m.group(2)) for m in OWN.finditer(text)}
    own.update((name, ["result", "ensures", "last", "kept"]) for name in re.findall(r"(\S+)·own =\s+Called\.", text))
    place = {m.group(1): (m.group(2), m.group(3)) for m in PLACE.finditer(text)}
    found = {}
    for m in NEED.finditer(text):
        record, chain = m.group(2).rstrip(")"), []
        while record in place:
            before, thing = place[record]
            chain.append((thing, own.get(record, [])))
            record = before
        found[m.group(1)] = chain + [(record, ["args", "pre", ".."])]
    return found
