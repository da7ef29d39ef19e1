r"""The cases of crates/pfair/cases, each a file FOLDER/NAME.case of parts; and the scripts of examples/ with their answers.

A line `-- PART --` begins a part, which goes on to the next such line or the end of the file. A part `-- PART, escaped --` is
written with escapes: `\\` is a backslash, `\xNN` a byte, and a backslash at the end of a line says that the part has no line end
there. Escaped are the parts that end without a line end, that are no UTF-8, or that have a character which does not print or a line
like a heading, and no others: a file that differs from what `text_of` writes of its parts is a fault.
"""
import re
import shlex
from dataclasses import dataclass
from pathlib import Path

from programs import CASES, TOP

HEADING = re.compile(rb"^-- ([a-z0-9.-]+)(, escaped)? --\n", re.MULTILINE)
ESCAPE = re.compile(rb"\\(\\|\n|x[0-9a-f]{2})")
ENDING = ".case"
SCRIPTS, EXAMPLES = CASES / "scripts", TOP / "examples"
EXPECTED = EXAMPLES / "expected"

# What is in examples/ beside scripts.
OTHERS = (".c", ".md", ".py", ".told")


@dataclass(frozen=True)
class Case:
    """A case, or an example with its answers, which is none but has parts like it: the file, and the parts by their names."""
    file: Path
    parts: dict

    @property
    def name(self):
        return self.file.stem

    def words(self):
        """The words of a case that has some."""
        return [it.encode() for it in shlex.split(self.parts["words"].decode())]

    def path_in(self, room):
        """The file of the script: an example is one, and for a case one is made in a room."""
        if self.file.suffix != ENDING:
            return self.file
        path = Path(room, f"{self.name}.csv")
        path.write_bytes(self.parts["csv"])
        return path

    def is_written_so(self):
        """Whether the file of a case is what is written of its parts."""
        return self.file.suffix != ENDING or self.file.read_bytes() == text_of(self.parts)


def is_plain(part):
    """Whether a part may stand without escapes."""
    text = part.decode(errors="surrogateescape")
    return part[-1:] in (b"", b"\n") and text.replace("\n", "").isprintable() and not HEADING.search(part)


def escape(part):
    """A part, written with escapes."""
    def shown(char):
        if char == "\n" or char.isprintable():
            return "\\\\" if char == "\\" else char
        return "".join(f"\\x{byte:02x}" for byte in char.encode(errors="surrogateescape"))

    text = "".join(map(shown, part.decode(errors="surrogateescape"))).encode()
    return re.sub(rb"^-(?=- )", rb"\\x2d", text, flags=re.MULTILINE) + (b"" if text[-1:] in (b"", b"\n") else b"\\\n")


def unescape(text):
    """The part that this text is, written with escapes."""
    def meant(found):
        return bytes.fromhex(found[1][1:].decode()) if found[1][:1] == b"x" else found[1].strip(b"\n")

    return ESCAPE.sub(meant, text)


def text_of(parts):
    """The text of a case with these parts."""
    written = ((name, part) if is_plain(part) else (f"{name}, escaped", escape(part)) for name, part in parts.items())
    return b"".join(b"-- %s --\n%s" % (heading.encode(), part) for heading, part in written)


def parts_of(text):
    """The parts of a case by their names."""
    pieces = iter(HEADING.split(text)[1:])
    return {name.decode(): unescape(part) if mark else part for name, mark, part in zip(pieces, pieces, pieces)}


def read(file):
    """The case in a file."""
    return Case(file, parts_of(file.read_bytes()))


def of(folder):
    """The cases of a folder, or of all."""
    return [read(it) for it in sorted(CASES.glob(f"{folder}/*{ENDING}"), key=lambda it: it.name)]


def script(name):
    """The parts of a case that is a script with its answers."""
    return read(SCRIPTS / f"{name}{ENDING}").parts


def example(file):
    """An example with its answers."""
    answers = sorted(EXPECTED.glob(f"{file.stem}.*"))
    return Case(file, {"csv": file.read_bytes(), **{it.name.removeprefix(f"{file.stem}."): it.read_bytes() for it in answers}})


def script_file(file):
    """The file of the script that a file has, or has an answer to; None where it has neither."""
    if file.parent == EXPECTED:
        return EXAMPLES / f"{file.name.partition('.')[0]}.csv"
    return file if file.parent == SCRIPTS or (file.parent, file.suffix) == (EXAMPLES, ".csv") else None


def strays():
    """The files of examples/ that are no script, and of examples/expected/ those that are an answer to none."""
    found = [it for it in EXAMPLES.iterdir() if it.is_file() and it.suffix not in OTHERS] + [*EXPECTED.iterdir()]
    return [it for it in sorted(found) if not ((script := script_file(it)) and script.is_file())]


def scripts():
    """The scripts with their answers: those of the cases, and the examples."""
    return [*of(SCRIPTS.name), *map(example, sorted(EXAMPLES.glob("*.csv")))]


def make(name, files):
    """Writes a case FOLDER/NAME of files that have the names of its parts."""
    path = CASES / f"{name}{ENDING}"
    path.parent.mkdir(exist_ok=True)
    path.write_bytes(text_of({Path(it).name: Path(it).read_bytes() for it in files}))
