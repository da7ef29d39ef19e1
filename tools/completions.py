"""Completions of the program's words for bash, zsh and fish, made of its own help."""
from help_text import TOPICS, values


def quoted(text):
    """A text in single quotes, as all three shells take it."""
    return "'" + text.replace("'", "'\\''") + "'"


def option_values(command, whole):
    """The options of a command that take a value: how they are written, the words that help lists for it, whether these are joined
    by commas, whether it is a file."""
    for option in command.options:
        if option.value:
            listed, are_joined = values(option, whole)
            yield option, listed, are_joined


def takes_files(command):
    return any(it.takes_file() for it in command.arguments)


def helped(whole, commands):
    """What may stand after `help`, with what is said of it: commands and topics."""
    return [(it.name, it.about) for it in commands] + [(name, TOPICS[name]) for name in whole.topics]


BASH = """\
# Completions of pfair for bash, made of its help.

# Those of the words after the last comma that begin with what stands there; what stands before it is kept.
_pfair_joined() {
    local front= back=$2
    [[ $2 == *,* ]] && front=${2%,*}, back=${2##*,}
    COMPREPLY=($(compgen -P "$front" -W "$1" -- "$back"))
}

# Files, and folders on the way to them.
_pfair_files() {
    compopt -o filenames 2> /dev/null
    local IFS=$'\\n'
    COMPREPLY=($(compgen -f -- "$1"))
}

_pfair() {
    local word=${COMP_WORDS[COMP_CWORD]} before=${COMP_WORDS[COMP_CWORD-1]} command=${COMP_WORDS[1]} options= files=
    COMPREPLY=()
    if [[ $COMP_CWORD -le 1 ]]; then
        COMPREPLY=($(compgen -W "@WORDS@" -- "$word"))
        return
    fi
    case $command:$before in
@VALUES@
    esac
    case $command in
@OPTIONS@
    esac
    if [[ $word == -* ]]; then
        COMPREPLY=($(compgen -W "$options" -- "$word"))
    elif [[ $files ]]; then
        _pfair_files "$word"
    fi
}

complete -F _pfair pfair
"""


def bash_value(option, listed, are_joined):
    """What bash offers for the value of an option."""
    if option.takes_file():
        return '_pfair_files "$word"'
    if are_joined:
        return f'_pfair_joined "{" ".join(listed)}" "$word"'
    return f'COMPREPLY=($(compgen -W "{" ".join(listed)}" -- "$word"))' if listed else ":"


def bash(whole, commands):
    """The completions for bash."""
    words = [name for name, _ in whole.commands] + [word for it in whole.options for word in it.words()]
    given, taken = [], []
    for command in commands:
        for option, listed, are_joined in option_values(command, whole):
            heads = "|".join(f"{command.name}:{it}" for it in option.words())
            given.append(f"    {heads}) {bash_value(option, listed, are_joined)}; return ;;")
        options = " ".join(word for it in command.options for word in it.words())
        taken.append(f"    {command.name}) options=\"{options}\" files={'1' if takes_files(command) else ''} ;;")
    names = " ".join(it for it, _ in helped(whole, commands))
    taken.append(f'    help) [[ $COMP_CWORD -eq 2 ]] && COMPREPLY=($(compgen -W "{names}" -- "$word")); return ;;')
    text = BASH.replace("@WORDS@", " ".join(words))
    return text.replace("@VALUES@", "\n".join(given)).replace("@OPTIONS@", "\n".join(taken))


ZSH = """\
#compdef pfair
# Completions of pfair for zsh, made of its help.

_pfair() {
    local curcontext=$curcontext state line
    typeset -A opt_args
    local -a commands=(
@COMMANDS@
    )
    local -a helped=(
@HELPED@
    )
    _arguments -C \\
@OPTIONS@
        '1: :->command' '*:: :->words'
    case $state in
    command) _describe -t commands command commands ;;
    words)
        case $line[1] in
@WORDS@
        help) _describe -t commands command helped ;;
        esac ;;
    esac
}

if [[ $funcstack[1] == _pfair ]]; then
    _pfair "$@"
else
    compdef _pfair pfair
fi
"""


def zsh_text(text):
    """A text within a pattern of _arguments."""
    for it in "\\[]:":
        text = text.replace(it, "\\" + it)
    return text


def zsh_pair(name, text):
    """A word and what is said of it, as _describe takes both."""
    return quoted(name + ":" + text.replace(":", "\\:"))


def zsh_value(option, listed, are_joined):
    """What zsh offers for the value of an option."""
    if not option.value:
        return ""
    words = " ".join(listed)
    action = "_files" if option.takes_file() else f"_values -s , value {words}" if are_joined else f"({words})" if listed else " "
    return f":{option.value}:{action}"


def zsh_option(option, whole):
    """The pattern of an option, in each way to write it, which may come once."""
    listed, are_joined = values(option, whole) if option.value else ([], False)
    said = f"[{zsh_text(option.text)}]{zsh_value(option, listed, are_joined)}"
    words = option.words()
    if len(words) == 1:
        return quoted(words[0] + said)
    return f"{quoted('(' + ' '.join(words) + ')')}{{{','.join(words)}}}{quoted(said)}"


def zsh(whole, commands):
    """The completions for zsh."""
    told, also = ("\n".join(f"        {zsh_pair(*it)}" for it in pairs) for pairs in (whole.commands, helped(whole, commands)))
    branches = []
    for command in commands:
        lines = [f"            {zsh_option(it, whole)}" for it in command.options]
        for at, argument in enumerate(command.arguments, 1):
            lines.append(f"            '{at}:{argument.name}:{'_files' if argument.takes_file() else ' '}'")
        branches.append(f"        {command.name}) _arguments \\\n" + " \\\n".join(lines) + " ;;")
    options = "\n".join(f"        {zsh_option(it, whole)} \\" for it in whole.options)
    text = ZSH.replace("@COMMANDS@", told).replace("@HELPED@", also)
    return text.replace("@OPTIONS@", options).replace("@WORDS@", "\n".join(branches))


def fish_option(option, condition, whole):
    """The line of an option."""
    words = [f"-s {option.short[1:]}"] if option.short else []
    words += [f"-l {option.long[2:]}"] if option.long else []
    if option.value:
        listed, are_joined = values(option, whole)
        text = " ".join(listed)
        words += ["-r", "-F" if option.takes_file() else "-f"]
        words += [f"-a '(__fish_append , {text})'" if are_joined else f"-a {quoted(text)}"] if listed else []
    return f"complete -c pfair -n {quoted(condition)} {' '.join(words)} -d {quoted(option.text)}"


def fish(whole, commands):
    """The completions for fish."""
    lines = ["# Completions of pfair for fish, made of its help.", "", "complete -c pfair -f"]
    for name, text in whole.commands:
        lines.append(f"complete -c pfair -n __fish_use_subcommand -a {name} -d {quoted(text)}")
    lines += [fish_option(it, "__fish_use_subcommand", whole) for it in whole.options]
    for command in commands:
        seen = f"__fish_seen_subcommand_from {command.name}"
        lines += [fish_option(it, seen, whole) for it in command.options]
        lines += [f"complete -c pfair -n {quoted(seen)} -F"] if takes_files(command) else []
    for name, text in helped(whole, commands):
        lines.append(f"complete -c pfair -n '__fish_seen_subcommand_from help' -a {name} -d {quoted(text)}")
    return "\n".join(lines) + "\n"
