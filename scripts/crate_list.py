"""What crates there are, what each stands on, and what the gate spends on each, for the scripts of this repository."""
import re
from pathlib import Path

TOP = Path(__file__).resolve().parent.parent
GATE = TOP / "docs" / "GATE.md"
SPENT = re.compile(r"^\| `(\w+)` \| ([\d.]*|–) \| ([\d.]*|–) \| ([\d.]*|–) \| [\d.]+ \|$", re.M)


def stands_on():
    """Each crate of crates.txt, in its order, with the crates of this repository that its line names."""
    lines = (line.split("#")[0].strip() for line in (TOP / "crates.txt").read_text(encoding="utf-8").splitlines())
    named = {words.split()[0]: uses.split() for words, _, uses in (line.partition(":") for line in lines if line)}
    return {name: [used for used in uses if used in named] for name, uses in named.items()}


def crates():
    """The crates of crates.txt, in its order."""
    return list(stands_on())


def spent():
    """The minutes of docs/GATE.md for each crate that it has: of its proof, of the proof with its tests, and of its planted bugs. None stands
    where nothing was measured whole, or nothing is to be."""
    text = GATE.read_text(encoding="utf-8") if GATE.exists() else ""
    return {row[0]: [None if cell in ("–", "") else float(cell) for cell in row[1:]] for row in SPENT.findall(text)}
