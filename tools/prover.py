"""The prover, run on a copy of a crate over the libraries that the repository has built."""
import pathlib
import re
import shutil
import subprocess
import sys

from edits import ROOTS
from programs import TOP


def kit():
    """The toolchain's folder."""
    found = shutil.which("rt")
    if not found:
        sys.exit("no rt: README says which toolchain it takes")
    return pathlib.Path(found).resolve().parent.parent


def crates():
    """What each crate of the repository uses, by its name, lowest first as in crates.txt."""
    lines = [it.partition("#")[0].strip() for it in (TOP / "crates.txt").read_text().split("\n")]
    return {line.partition(":")[0].split()[0]: line.partition(":")[2].split() for line in lines if line}


def static_libraries():
    """The crates that other languages link: no crate stands on one."""
    return set(re.findall(r"^(\w+) staticlib:", (TOP / "crates.txt").read_text(), re.M))


def all_below(name, uses):
    """The crates of the repository below this one, each after those that it uses."""
    found = {}

    def visit(crate):
        for it in uses[crate]:
            if it in uses and it not in found:
                visit(it)
                found[it] = None

    visit(name)
    return list(found)


def words_for(name, uses):
    """The prover's words for this crate, over the libraries as they were built."""
    home = kit()
    root = next(it for it in ROOTS if (TOP / "crates" / name / it).is_file())
    words = ["--crate-name", name, root, "--extern", f"std={home}/rlibs/std.rlib"]
    for it in uses[name]:
        if it not in uses:
            words += ["--extern", f"{it}={home}/rlibs/{it}.rlib"]
    words += ["-L", f"dependency={home}/rlibs"]
    for it in all_below(name, uses):
        built = TOP / "crates" / it / "out" / "rlib"
        if not (built / f"{it}.rlib").is_dir():
            sys.exit(f"{it} is not built: run rt ci, or rt check in crates/{name}")
        words += ["-L", f"dependency={built}"]
        words += ["--extern", f"{it}={built}/{it}.rlib"] if it in uses[name] else []
    project = home / "rattle" / "logic" / "antt-project.json"
    words += ["--crate-type", "staticlib"] if name in static_libraries() else []
    return words + ["--antt-project", str(project), "--logic-built", str(home / "logic_built"), "--links", f"{name}="]


class Prover:
    """Checks copies of one crate, each over what the checks before it kept, and at first over what `rt check` has."""

    def __init__(self, name, uses, room):
        self.words = words_for(name, uses)
        self.room = pathlib.Path(room, name)
        self.kept = pathlib.Path(room, f"{name}-kept")
        own = TOP / "crates" / name / "out" / "incremental"
        shutil.copytree(own, self.kept) if own.is_dir() else self.kept.mkdir()

    def check(self, texts, only):
        """What the prover says of these functions and modules of a crate with these texts."""
        shutil.rmtree(self.room, ignore_errors=True)
        for path, text in texts.items():
            file = self.room / path
            file.parent.mkdir(parents=True, exist_ok=True)
            file.write_text(text)
        words = [str(kit() / "bin" / "rattle"), "check", *self.words, "--jobs", "1", "--incremental", str(self.kept)]
        for it in sorted(only):
            words += ["--only", it]
        how = {"stdin": subprocess.DEVNULL, "stdout": subprocess.PIPE, "stderr": subprocess.STDOUT, "errors": "replace"}
        return Said(subprocess.run(words, cwd=self.room, **how).stdout)


# How a function stands whose own goals are proved, but which calls one that is not. With a fault of its own it stands otherwise.
WAITS = "no proof: it calls "


class Said:
    """What the prover said."""

    def __init__(self, text):
        self.text = text
        # Of each function for which it was asked, how it stands.
        self.functions = dict(re.findall(r"^fn ([\w:+]+): (.*)$", text, re.M))

    def standings(self, names):
        """How the functions with these names, or in these modules, stand."""
        return [it for function, it in self.functions.items()
                if any(function == name or function.startswith(f"{name}::") for name in names)]

    def is_refused(self, names):
        """Whether one of these functions is not proved, and not only for want of a proof of what it calls."""
        return any(it.startswith(("not proved", "no proof")) and not it.startswith(WAITS) for it in self.standings(names))

    def waits(self, names):
        """Whether one of these functions lacks nothing but a proof of what it calls."""
        return any(it.startswith(WAITS) for it in self.standings(names))

    def first_error(self):
        """The first line that tells of an error."""
        lines = [it for it in self.text.split("\n") if "error" in it]
        return (lines or self.text.strip().split("\n"))[0][:200]
