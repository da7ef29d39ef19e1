"""The record of wrong bodies: on which texts, and by which prover, each was refused."""
import functools
import hashlib

from named_files import seen_below, texts_of
from programs import TOP, said_by
from prover import all_below, kit

RECORD = TOP / "tried.txt"

# The number of the judge: what counts as refused, and what is asked of the prover. Raise it with each change of the tools after
# which another judgement may come out (tools/test-clauses tries the judge); all wrong bodies are then tried again.
JUDGE = 1

# How the record begins.
HEAD = """\
# Of each wrong body a sum of all that decides what the prover says of it, as it was when the prover refused it.
# tools/try-edits writes this file, by --record.
"""


def library_lines(name):
    """The lines that a library of the kit has of itself: the sum of its files, which the prover compares, and what it uses."""
    return (kit() / "rlibs" / f"{name}.rlib" / "format").read_text().split("\n")


@functools.cache
def library_sums(name):
    """The sum of a library of the kit, and those of the libraries below it, by their names."""
    lines = library_lines(name)
    found = {name: next(it for it in lines if it.startswith("sum "))}
    for line in lines:
        word, _, below = line.partition(" ")
        found |= library_sums(below) if word == "dep" else {}
    return found


def kit_sums(name, uses):
    """The sums of the kit's libraries that a crate stands on: std, those that it uses, and those of the crates below it."""
    found = library_sums("std")
    for it in dict.fromkeys(library for crate in (name, *all_below(name, uses)) for library in uses[crate]):
        found = found | (library_sums(it) if it not in uses else {})
    return sorted(found.items())


class Record:
    """What is recorded, and what would be of the texts as they stand."""

    def __init__(self, uses):
        self.uses = uses
        # Another build of the toolchain may search otherwise.
        self.toolchain = said_by("rt", "version")
        lines = RECORD.read_text().split("\n") if RECORD.is_file() else []
        self.sums = dict(it.split() for it in lines if it and not it.startswith("#"))

    @functools.cache
    def sum_below(self, crate):
        """A sum of the judge, of the toolchain, of the kit's libraries that the crate stands on, of its texts, and of what
        these name of the crates below it."""
        found = hashlib.sha256(repr((JUDGE, self.toolchain, kit_sums(crate, self.uses))).encode())
        own = ((it, it.read_text()) for it in texts_of(crate, ("src", "specs", "proofs")))
        for file, text in (*own, *seen_below(crate, self.uses)):
            found.update(repr((str(file.relative_to(TOP)), text)).encode())
        return found.hexdigest()

    def sum_of(self, crate, edit):
        """A sum of all that decides what the prover says of this edit of the crate."""
        return hashlib.sha256(repr((self.sum_below(crate), edit.file.read_text())).encode()).hexdigest()[:32]

    def has(self, crate, edit):
        """Whether the prover refused this edit of the crate on the texts as they stand."""
        return self.sums.get(f"{crate}/{edit.name}") == self.sum_of(crate, edit)

    def note(self, crate, sums):
        """Records that the prover refused the crate's edits of these names, on the texts of these sums."""
        self.sums |= {f"{crate}/{name}": sum for name, sum in sums.items()}

    def write(self, names):
        """Writes the record, in the order of crates.txt, of the edits with these names alone."""
        order = {it: at for at, it in enumerate(self.uses)}
        kept = sorted((it for it in self.sums if it in names), key=lambda it: (order[it.partition("/")[0]], it))
        RECORD.write_text(HEAD + "".join(f"{it} {self.sums[it]}\n" for it in kept))
