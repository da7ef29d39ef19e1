"""The program's own help, taken apart: what its commands are, what each takes, and the topics."""
import re
from dataclasses import dataclass, field

from programs import run_to_end

# The names of values for which any file may stand.
FILES = ("FILE", "FILE2", "SCRIPT")

# What the topics of help are called.
TOPICS = {"plan": "Plans", "list": "Lists of tasks", "formats": "Formats", "status": "Status and messages", "script": "Scripts"}


@dataclass
class Option:
    """An option: `-f`, `--format`, FORMAT (or nothing where it takes no value), and what is said of it."""
    short: str
    long: str
    value: str
    text: str

    def words(self):
        """The ways to write it."""
        return [it for it in (self.short, self.long) if it]

    def takes_file(self):
        return self.value in FILES


@dataclass
class Argument:
    """An argument: its name, whether it must be there, and what is said of it."""
    name: str
    is_needed: bool
    text: str

    def takes_file(self):
        return self.name in FILES


@dataclass
class Command:
    """What help tells of a command, or of the program itself, whose commands are pairs of a name and what is said of it, and whose
    topics are texts by their names."""
    name: str
    about: str
    usage: str
    commands: list = field(default_factory=list)
    arguments: list = field(default_factory=list)
    options: list = field(default_factory=list)
    lesson: str = ""
    topics: dict = field(default_factory=dict)


def pair(line):
    """What stands in a line before two blanks or more, and what after them."""
    return re.split(r" {2,}", line.strip(), maxsplit=1)


def rows(text, heading):
    """The lines of a section, as pairs."""
    section = text.partition(f"\n{heading}:\n")[2].partition("\n\n")[0]
    return [pair(line) for line in section.splitlines()]


def option_of(words, text):
    """The option that these words show, as `-f, --format <FORMAT>`."""
    short, long, value = re.fullmatch(r"(-\w)?(?:, )?(--[\w-]+)?(?: <(\w+)>)?", words).groups()
    return Option(short or "", long or "", value or "", text)


def read_command(name, text):
    """A command, from the text of its help. The lesson is all after the sections of usage, commands, arguments and options."""
    front, lesson = re.fullmatch(r"(.*?Print help(?: for the subcommand\(s\))?\n(?:  -V, [^\n]*\n)?)(.*)", text, re.S).groups()
    usage = re.search(r"^Usage: (.*)$", front, re.M)[1]
    commands = [tuple(it) for it in rows(front, "Commands")]
    arguments = [Argument(words.strip("[]<>."), words.startswith("<"), said) for words, said in rows(front, "Arguments")]
    options = [option_of(words, said) for words, said in rows(front, "Options")]
    return Command(name, front.split("\n")[0], usage, commands, arguments, options, lesson.strip("\n"))


def topic_names(lesson):
    """The topics that the program's own lesson names, as `pfair help plan|list`."""
    return re.search(r"pfair help ([\w|]+)$", lesson)[1].split("|")


def asked(program, *words):
    """What the program writes for these words."""
    return run_to_end([program, *words], f"{words}").stdout.decode()


def read_help(program):
    """The program, and each of its commands but `help`."""
    whole = read_command("pfair", asked(program, "--help"))
    whole.topics = {name: asked(program, "help", name).strip("\n") for name in topic_names(whole.lesson)}
    return whole, [read_command(name, asked(program, name, "--help")) for name, _ in whole.commands if name != "help"]


def version_of(program):
    """The number of the program's version."""
    return asked(program, "--version").split()[1]


def listed_formats(topic):
    """The formats of `run` with what is said of each, as the topic of formats lists them: in lines that are indented."""
    return [pair(line) for line in topic.splitlines() if line.startswith("  ")]


def formats(whole):
    return listed_formats(whole.topics["formats"])


def values(option, whole):
    """The words that an option may have for its value, where help lists them; whether they may be joined by commas."""
    if "see below" in option.text:
        return [it[0] for it in formats(whole)], False
    if option.value == "LIST":
        listed = re.match(r"((?:\w+, )+\w+): ", option.text)
        return (listed[1].split(", "), True) if listed else ([], False)
    plain = re.sub(r" \[.*?\]| \(.*?\)", "", option.text)
    listed = re.search(r"(?:^|: )((?:\w+(?:, | or ))+\w+)(?:$|, of )", plain)
    return (re.split(r", | or ", listed[1]), False) if listed else ([], False)
