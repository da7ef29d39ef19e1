"""What was built, of which texts, and whether it was proved: a file of out/built for each thing.

A record holds as long as the texts that the thing was built of, the toolchain, and the files that were built are the same.
"""
import functools
import hashlib
import json

from named_files import texts_of
from programs import TOP, said_by
from prover import all_below, crates, kit

RECORDS = TOP / "out" / "built"
PROGRAM = TOP / "crates" / "pfair" / "out" / "pfair"
LIBRARIES = tuple(TOP / "out" / "faces" / it for it in ("libpf_face.a", "libpfair.a", "libpfair.so"))

# What else the desk's library is made of.
FACE_TEXTS = ("include/pfair.h", "include/pfair_shared.h", "faces/c/heap.c", "faces/c/heap.h", "tools/faces", "tools/elf_names.py")


def sum_of(path):
    """The SHA-256 of a file."""
    return hashlib.sha256(path.read_bytes()).hexdigest()


@functools.cache
def toolchain():
    """The toolchain's line."""
    return said_by("rt", "version")


def sum_of_texts(names, others=()):
    """A sum of the toolchain, of the texts of these crates and of those below them, and of other files."""
    uses = crates()
    found = hashlib.sha256(repr((toolchain(), (kit() / "WHAT").read_bytes())).encode())
    for name in dict.fromkeys(it for crate in names for it in (*all_below(crate, uses), crate)):
        files = texts_of(name, ("src", "specs", "proofs"))
        found.update(repr((name, uses[name], [(str(it.relative_to(TOP)), sum_of(it)) for it in files])).encode())
    found.update(repr([(it, sum_of(TOP / it)) for it in others]).encode())
    return found.hexdigest()


class Build:
    """A thing that is built: its name, the crates and the other texts that it is built of, and its files."""

    def __init__(self, name, names, files, others=()):
        self.name, self.crates, self.files, self.others = name, names, files, others
        self.path = RECORDS / f"{name}.json"

    def texts(self):
        """The sum of its texts as they stand, for `note` to take when they have been built."""
        return sum_of_texts(self.crates, self.others)

    def note(self, texts):
        """Notes that the files were built of the texts with this sum."""
        self.path.parent.mkdir(parents=True, exist_ok=True)
        self.path.write_text(json.dumps({"texts": texts, "files": self.sums()}, indent=1) + "\n")

    def sums(self):
        return {it.name: sum_of(it) for it in self.files}

    def is_current(self):
        """Whether the files are those that were built, of the texts as they stand."""
        if not (self.path.is_file() and all(it.is_file() for it in self.files)):
            return False
        noted = json.loads(self.path.read_text())
        return noted["files"] == self.sums() and noted["texts"] == self.texts()


# The proved program, the proved library for other languages, and the program that is built without a proof.
PROVED = Build("pfair", ["pfair"], [PROGRAM])
FACES = Build("faces", ["pf_c_api", "pf_shared_c_api"], LIBRARIES, FACE_TEXTS)
QUICK = Build("quick", ["pfair"], [TOP / "out" / "quick" / "pfair"], ["tools/quick_program.py"])
