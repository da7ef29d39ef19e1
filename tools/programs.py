"""Built programs: where they stand, and runs of them that must end."""
import os
import pathlib
import subprocess
import sys

TOP = pathlib.Path(__file__).resolve().parent.parent
CASES = TOP / "crates" / "pfair" / "cases"

# The formats of `run` whose answers scripts of the cases and examples have, in a part of that name; those that show a part of these,
# and have none; and of the first those that may show some of the slots.
FORMATS = ("schedule", "tables", "json", "events", "script", "processors", "stats", "chart", "svg", "windows", "jobs",
           "load", "quanta", "c")
PARTS = ("replies", "lags", "misses", "denials", "report")
# Those whose answers are in cases with words alone (tools/told-cases).
TOLD = ("trace", "full", "html")
RANGED = ("schedule", "chart", "svg", "windows", "load", "quanta")

# Seconds after which a run is stopped, and the tool with it.
LONGEST_RUN = 120


def said_by(*words):
    """What a program wrote, or nothing where it failed."""
    done = subprocess.run(words, cwd=TOP, stdin=subprocess.DEVNULL, capture_output=True, text=True)
    return done.stdout.strip() if done.returncode == 0 else ""


def commit_number():
    """The number that is this commit's name, or None where there is no commit."""
    commit = said_by("git", "rev-parse", "HEAD")
    return int(commit, 16) if commit else None


def commit_count():
    """How many commits there are up to this one; 0 where there is none."""
    return int(said_by("git", "rev-list", "--count", "HEAD") or 0)


def seed_of(words):
    """The seed that these words give, or that this commit's name draws, of nine digits at most; 1 where there is no commit."""
    if words:
        return int(words[0])
    number = commit_number()
    return 1 if number is None else number % 10**9


def built(path, maker):
    """The program at this path. Where there is none, the tool ends and says what makes it."""
    path = pathlib.Path(path).resolve()
    if not (path.is_file() and os.access(path, os.X_OK)):
        sys.exit(f"no program {path}: run rt ci, or {maker}")
    return path


def built_pfair(words):
    """The pfair that these words name, or that the repository has built."""
    return built(words[0] if words else TOP / "crates" / "pfair" / "out" / "pfair", "rt run in crates/pfair")


def skip(what, needs):
    """Says that something was not tried, as a program that it needs is not on the machine. A gate repeats it in its last lines, from
    the file that GATE_SKIPPED names."""
    line = f"{what} skipped: no {needs}"
    print(line, flush=True)
    if path := os.environ.get("GATE_SKIPPED"):
        with open(path, "a") as file:
            file.write(line + "\n")


def run_to_end(words, what, **how):
    """How a run of these words ended. One that does not end is told by what it was."""
    try:
        return subprocess.run(words, capture_output=True, timeout=LONGEST_RUN, **how)
    except subprocess.TimeoutExpired:
        sys.exit(f"{what}: no end after {LONGEST_RUN} seconds")
