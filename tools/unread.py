"""What each command must answer where its file can't be read, by the kind of the fault: docs/COMMANDS.md, "Notes".

A file that may not be read is tried as nobody, since whoever is root may read any.
"""
import os
import tempfile
from dataclasses import dataclass
from pathlib import Path

from long_files import COMMANDS
from programs import run_to_end

NOBODY = 65_534

# Commands that can't be asked to be quiet.
LOUD = ("fit", "convert")


def denied(room):
    (room / "plan").write_bytes(b"plan,1\n")
    (room / "plan").chmod(0)
    return "plan"


def below_a_file(room):
    (room / "plan").write_bytes(b"plan,1\n")
    return "plan/one"


def link(to):
    def make(room):
        (room / "plan").symlink_to(to)
        return "plan"
    return make


def folder(room):
    (room / "plan").mkdir()
    return "plan"


# What a path leads to, and what is told of it.
FAULTS = {
    "nothing": (lambda room: "plan", "no such file"),
    "a link that leads nowhere": (link("none"), "no such file"),
    "a folder": (folder, "is a folder"),
    "a link to a folder": (link("."), "is a folder"),
    "a file that may not be read": (denied, "permission denied"),
    "a file of a file": (below_a_file, "a part of its path is no folder"),
    "a link to itself": (link("plan"), "cannot be read"),
    "a name that is too long": (lambda room: "n" * 256, "cannot be read"),
}


@dataclass
class UnreadFile:
    """The words of a command whose file plan.csv can't be read."""
    words: list
    what: str

    def fault(self, program):
        """What the program did instead, if it did."""
        make, why = FAULTS[self.what]
        with tempfile.TemporaryDirectory(prefix="unread-") as name:
            room = Path(name)
            room.chmod(0o755)
            # Another process copies it: what this one has open to write, a run that begins meanwhile would keep open.
            copy = room / "pfair"
            run_to_end(["cp", program, copy], "a copy of the program")
            path = make(room)
            words = [path if it == "plan.csv" else it for it in self.words]
            how = {"user": NOBODY, "group": NOBODY, "extra_groups": []} if os.geteuid() == 0 else {}
            try:
                runs = [run_to_end([copy, *words, *quiet], f"{self.words}: {self.what}", input=b"", cwd=room, **how) for quiet in ([], *([] if self.words[0] in LOUD else [["-q"]]))]
            except PermissionError:
                print(f"{self.words}: whoever is nobody can't run a program here, so no file of this kind is tried: {self.what}")
                return None
        got = [(it.stdout, it.stderr, it.returncode) for it in runs]
        if any(it != (b"", f"{path}: {why}\n".encode(), 3) for it in got):
            return f"{self.words}, {self.what}: {got}"


def unread_files():
    """Each command with a file of each kind that can't be read."""
    return [UnreadFile(words, what) for _, words in COMMANDS for what in FAULTS]
