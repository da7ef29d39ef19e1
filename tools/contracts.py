"""The contracts that docs/CLAIMS.md names: whether each crate, function and clause of its tables' last column is in the code.

A cell there has parts, with `;` between them. A part is a crate, where it is another than in the part before; then functions in
backquotes, as `name`, `Type::name` or `Trait::name`, or a type alone; and after a colon clauses, which all of these have. A
function has the clauses of its `ensures`, and of the trait's where it implements one. A type has those of its functions, and
what its impls say by `ghost NAME`.
"""
import functools
import re

from edits import FUNCTION, without_brackets
from programs import TOP

CLAIMS = TOP / "docs" / "CLAIMS.md"
CRATES = TOP / "crates"

# A part of a cell: its crate, its functions and its clauses.
PART = re.compile(r"(?:(\w+) )?(`[\w:]+`(?:, `[\w:]+`)*)(?:: (\w+(?:, \w+)*))?")

# An impl or a trait that begins on a line, without what stands in angle brackets; a clause; what an impl says of its type.
OWNER = re.compile(r"(?:unsafe )?impl (?:(?:\w+::)*(\w+) for )?&?(?:mut )?(?:\w+::)*(\w+)\b|(?:pub(?:\(crate\))? )?trait (\w+)")
CLAUSE = re.compile(r" +ensures\*? (\w+) \{")
GHOST = re.compile(r" +ghost (\w+)\s*[:=]")


def owner_of(line):
    """The type and the trait of an impl that begins on this line, a trait as both, or None."""
    found = OWNER.match(without_brackets(line))
    return found and (found[2] or found[3], found[1] or found[3])


def clauses_in(text):
    """What has clauses in a source file: of each its type, its trait, its name where it is a function, and its clauses."""
    found, owner, clauses = [], (None, None), set()
    for line in text.split("\n"):
        owner = owner_of(line) or owner
        begins, ghost, clause = FUNCTION.match(line), GHOST.match(line), CLAUSE.match(line)
        if begins:
            clauses = set()
            found.append((*(owner if begins[1] else (None, None)), begins[2], clauses))
        elif ghost:
            found.append((*owner, None, {ghost[1]}))
        elif clause:
            clauses.add(clause[1])
    return found


@functools.cache
def listed(crate):
    """What has clauses in a crate."""
    return [it for file in sorted((CRATES / crate / "src").rglob("*.rt")) for it in clauses_in(file.read_text())]


@functools.cache
def clauses_of_traits():
    """Of each function of the crates' traits its clauses, by the trait and its name."""
    found = (it for crate in CRATES.iterdir() for it in listed(crate.name))
    return {(trait, name): said for kind, trait, name, said in found if trait and kind == trait}


def clauses_of(crate, named):
    """The clauses of what a part names in a crate, or None where nothing there has this name."""
    kind, _, name = named.rpartition("::")
    found = [it for it in listed(crate) if it[2] == name and (not kind or kind in it[:2])]
    if not found and not kind:
        found = [it for it in listed(crate) if name in it[:2]]
    said = (own | clauses_of_traits().get((trait, function), set()) for _, trait, function, own in found)
    return set().union(*said) if found else None


def faults_of(part, crate):
    """The crate of a part after one of this crate, how many contracts it names, and a text for each that is not there."""
    read = PART.fullmatch(part)
    crate = read and read[1] or crate
    if not read or not crate or not (CRATES / crate).is_dir():
        return crate, 0, [f"{part!r} names no contract of a crate"]
    names, clauses, faults = read[2].replace("`", "").split(", "), read[3].split(", ") if read[3] else [], []
    for name in names:
        said = clauses_of(crate, name)
        missing = [] if said is None else [it for it in clauses if it not in said]
        faults += [f"{crate} has no {name}"] * (said is None) + [f"{name} of {crate} has no clause {it}" for it in missing]
    return crate, len(names), faults


def claim_faults():
    """How many contracts the rows of CLAIMS name, and a text for each that is not there."""
    count, crate, found = 0, None, []
    for number, line in enumerate(CLAIMS.read_text().splitlines(), 1):
        crate = None if line.startswith("## ") else crate
        cells = line.split("|")
        if len(cells) > 1 and len(cells) != 4:
            found.append(f"docs/CLAIMS.md, line {number}: a row has a promise and its contracts")
        elif len(cells) == 4 and cells[2].strip(" -") not in ("", "contract"):
            for part in cells[2].strip().split("; "):
                crate, named, faults = faults_of(part, crate)
                count, found = count + named, found + [f"docs/CLAIMS.md, line {number}: {it}" for it in faults]
    return count, found
