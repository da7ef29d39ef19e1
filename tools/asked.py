"""Words and what pfair must answer them, byte for byte: help, the version, and what it refuses; and what new users mistake.

crates/pfair/cases/words has the expected bytes: WORD.help is what help tells of that command or topic, and of the program in
pfair.help; version is what is told of the version. Each line of help that is to be tried is carried out by a shell, with the plan
and the list of tasks that help shows. The file refusals has the words that are refused: lines '$ pfair WORDS', as a shell reads them, then what is told of each on standard error, and the status in
brackets.

The file mistakes beside it has what new users mistake, forty or more, a block for each: what it is, the words, behind '| ' the
lines of the file plan.csv, which stand on standard input too, behind '> ' the sentence by which standard error tells what is wrong
or what would be right, and the status in brackets. Each is run in a folder that has this file, and the folder `folder.csv`. Beside
these texts there are cases (tools/told-cases) and no other file.
"""
import difflib
import os
import pathlib
import re
import shlex
import tempfile
import textwrap
from dataclasses import dataclass

import cases
from help_text import listed_formats, rows, topic_names
from programs import CASES, run_to_end

TEXTS = CASES / "words"
NAMED = ("version", "refusals", "mistakes")

# A script that is bad, so that words which are answered before anything is read are seen to be.
BAD_SCRIPT = b"step\n"

# So many mistakes at least are tried.
FEWEST_MISTAKES = 40

# The most lines of a text of help, and columns of a line.
LONGEST_HELP, WIDEST_HELP = 40, 79


@dataclass
class Answer:
    """Words, a script on standard input, and all that is written and told for them, with the status."""
    words: list
    script: bytes
    written: bytes
    told: bytes
    status: int

    def fault(self, program):
        """What the program did instead, if it did."""
        done = run_to_end([program, *self.words], f"{self.words}", input=self.script)
        if (done.stdout, done.stderr, done.returncode) != (self.written, self.told, self.status):
            return (f"{self.words} {self.script[:200]!r}: status {done.returncode}, not {self.status}; what is written and told:\n"
                    f"{difference(self.written, done.stdout)}{difference(self.told, done.stderr)}")


@dataclass
class Mistake:
    """What a new user mistakes: the words, the file and standard input, the sentence that is to be told, and the status."""
    what: str
    words: list
    script: bytes
    sentence: bytes
    status: int

    def fault(self, program):
        """What the program did instead, if it did."""
        with tempfile.TemporaryDirectory(prefix="mistakes-") as room:
            pathlib.Path(room, "plan.csv").write_bytes(self.script)
            pathlib.Path(room, "folder.csv").mkdir()
            done = run_to_end([program, *self.words], self.what, input=self.script, cwd=room)
        if self.sentence not in done.stderr or done.returncode != self.status:
            return f"{self.what} {self.words}: {done.stderr!r} status {done.returncode}, not {self.sentence!r} and {self.status}"


def bytes_of(name):
    """What a file of crates/pfair/cases/words has."""
    return (TEXTS / name).read_bytes()


def behind(mark, lines):
    """What stands in the lines with this mark, each ended."""
    return "".join(f"{line[len(mark):]}\n" for line in lines if line.startswith(mark))


def mistaken():
    """What new users mistake."""
    for block in bytes_of("mistakes").decode().split("\n\n"):
        what, *lines = block.splitlines()
        words, sentence = behind("$ pfair ", lines).strip(), behind("> ", lines).strip()
        yield Mistake(what, shlex.split(words), behind("| ", lines).encode(), sentence.encode(), int(lines[-1].strip("[]")))


def difference(wanted, given):
    """The lines that differ: `-` stands before those that are wanted, `+` before those that came."""
    lines = [text.decode(errors="backslashreplace").splitlines(keepends=True) for text in (wanted, given)]
    return "".join(it if it.endswith("\n") else it + "\n" for it in difflib.unified_diff(*lines, n=0) if it[:3] not in ("---", "+++"))


def topics():
    """The topics that the program's help names."""
    return topic_names(bytes_of("pfair.help").decode().strip())


def ways_to_help(word):
    """The words that ask for help of this word, or of the program."""
    front, behind = ([], []) if word == "pfair" else ([word], [word])
    return [["help", *behind]] + ([] if word in ("help", *topics()) else [[*front, "--help"], [*front, "-h"], [*front, "-h", "x"]])


def helps():
    """Help of the program and of each word, in each way in which it may be asked for, and the version."""
    texts = [(words, it.read_bytes()) for it in sorted(TEXTS.glob("*.help")) for words in ways_to_help(it.stem)]
    texts += [([word], bytes_of("version")) for word in ("--version", "-V")]
    for words, text in texts:
        yield Answer(words, BAD_SCRIPT, text, b"", 0)


def block_after(name, line):
    """The block that stands indented in a text of help, after a line and an empty one."""
    return textwrap.dedent(bytes_of(f"{name}.help").decode().partition(f"{line}\n\n")[2].partition("\n\n")[0] + "\n")


@dataclass
class Trial:
    """Lines of help that are to be tried, in a folder with the list of tasks of help, the plan made of it, and the plan of help."""
    lines: str

    def fault(self, program):
        """How the shell ended, if not well."""
        with tempfile.TemporaryDirectory(prefix="trials-") as room:
            pathlib.Path(room, "pfair").symlink_to(program)
            pathlib.Path(room, "old.csv").write_text(block_after("plan", "place of TASK may stand a name, in place of ID a label."))
            pathlib.Path(room, "tasks.csv").write_text(block_after("list", "unit and others none, --unit is needed."))
            made = "pfair convert tasks.csv > plan.csv; cp plan.csv new.csv; pfair check --run old.csv; pfair check --run new.csv\n"
            done = run_to_end(["sh", "-ec", made + self.lines], self.lines, input=b"", cwd=room,
                              env={**os.environ, "PATH": f"{room}:{os.environ['PATH']}"})
        if done.returncode:
            return f"help shows {self.lines!r}: status {done.returncode}: {done.stderr!r}"


def trials():
    """The lines of help that are to be tried."""
    yield Trial(block_after("pfair", "step,N                              N slots pass").partition(":\n")[2])
    for it in sorted(TEXTS.glob("*.help")):
        for line in re.findall(r"^Example: (.*)$", it.read_text(), re.M):
            yield Trial(line)


def refusals():
    """The words that are refused."""
    asked, told = [], ""
    for line in bytes_of("refusals").decode().splitlines(keepends=True):
        if line.startswith("$ pfair "):
            asked, told = [*asked, shlex.split(line[len("$ pfair "):])], ""
        elif line.startswith("["):
            for words in asked:
                yield Answer(words, BAD_SCRIPT, b"", told.encode(), int(line.strip("[]\n")))
            asked = []
        else:
            told += line


def is_long(text):
    """Whether a text of help has too many lines, or one too wide."""
    lines = text.splitlines()
    return len(lines) > LONGEST_HELP or max(map(len, lines)) > WIDEST_HELP


def untaught(formats):
    """Each format that help has no line for, each line of no format, each word or topic without a text, or with one that the
    program's help does not list, a text that is too long, a file that nothing reads, and mistakes that are too few or have no
    sentence."""
    texts = {it.stem: it.read_text() for it in TEXTS.glob("*.help")}
    taught = {name for name, _ in listed_formats(texts["formats"])}
    faults = [f"words/formats.help: {it}: a format without a line, or a line without a format" for it in sorted(taught ^ set(formats))]
    words = {name for name, _ in rows(texts["pfair"], "Commands")} | {"pfair", *topics()}
    faults += [f"words/pfair.help: {it}: a word without a help text, or a help text without a word" for it in sorted(words ^ set(texts))]
    faults += [f"words/{it}.help: more than {LONGEST_HELP} lines of {WIDEST_HELP}" for it, text in texts.items() if is_long(text)]
    others = [it.name for it in sorted(TEXTS.iterdir()) if it.suffix not in (".help", cases.ENDING) and it.name not in NAMED]
    faults += [f"words/{it}: a file that nothing reads" for it in others]
    told = [it for it in mistaken() if it.sentence]
    return faults + ([] if len(told) >= FEWEST_MISTAKES else [f"words/mistakes: {len(told)} with a sentence, not {FEWEST_MISTAKES}"])
