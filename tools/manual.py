"""The manual page of the program, made of its own help."""
import re
import time

from help_text import TOPICS

SUMMARY = "schedules of periodic tasks on many processors, in the order PD2"


def escaped(text):
    """A text as roff takes it."""
    return text.replace("\\", "\\e").replace("-", "\\-").replace("'", "\\(aq")


def line(text):
    """A line of text, which begins with no request."""
    shown = escaped(text)
    return f"\\&{shown}" if shown.startswith((".", "\\(aq")) else shown


def head(name):
    return f".SH {name.upper()}"


def item(words, text):
    """A tagged paragraph."""
    return [".TP", words, line(text)]


def option_words(option):
    """An option with its value, as a tag."""
    value = f" \\fI{option.value}\\fR" if option.value else ""
    return ", ".join(f"\\fB{escaped(it)}\\fR" for it in option.words()) + value


def shown_lines(text):
    """A text whose lines are shown as they stand."""
    return [".PP", ".nf", *map(line, text.split("\n")), ".fi"]


def command_lines(command):
    """The subsection of a command: what it does, its usage, what it takes, its lesson."""
    yield from (f".SS {command.name}", line(command.about + "."), ".PP", f"\\fB{escaped(command.usage)}\\fR")
    for argument in command.arguments:
        yield from item(f"\\fI{argument.name}\\fR", argument.text)
    for option in command.options:
        if option.long != "--help":
            yield from item(option_words(option), option.text)
    yield from shown_lines(command.lesson)


def manual(whole, commands, version, seconds):
    """The page in roff, dated by these seconds since 1970."""
    date = time.strftime("%Y-%m-%d", time.gmtime(seconds))
    lines = [f'.TH PFAIR 1 "{date}" "pfair {version}" "User Commands"']
    lines += [head("Name"), f"pfair \\- {escaped(SUMMARY)}", head("Synopsis")]
    usages = [f"\\fB{escaped(it.usage)}\\fR" for it in commands] + [f"\\fBpfair\\fR {option_words(it)}" for it in whole.options]
    lines += ["\n.br\n".join(usages), head("Commands")]
    for command in commands:
        lines += command_lines(command)
    for name, text in whole.topics.items():
        lines += [head(TOPICS[name]), *shown_lines(text)]
    # A section begins a paragraph of its own.
    return re.sub(r"^(\.SH .*)\n\.PP$", r"\1", "\n".join(lines), flags=re.M) + "\n"
