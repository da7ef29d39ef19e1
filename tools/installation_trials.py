"""Tries an installation below a prefix: the program, its manual page, its completions in each shell, and programs in C that are
linked with its library by pkg-config and by CMake. What needs a program that is not on the machine is skipped, with a line."""
import os
import pathlib
import shutil
import subprocess
import tempfile

from help_text import formats, read_help, values
from installation import LIST
from programs import TOP, skip
from progress import Failed

PLAN = TOP / "faces" / "c" / "plan.c"

# Lines at whose ends completions are asked for, in a folder with a file plan.csv, and all that must be offered.
LINES = {
    "pfair help co": {"convert"},
    "pfair help s": {"status", "script"},
    "pfair convert --unit ": {"ns", "us", "ms", "s"},
    "pfair run --style st": {"strips", "stairs"},
    "pfair run --fail-on refused,m": {"refused,missed"},
    "pfair fit --form": {"--format"},
    "pfair fit --format ": {"text", "json"},
    "pfair check pl": {"plan.csv"},
    "pfair desk --journal pl": {"plan.csv"},
    "pfair drill pl": set(),
}

# What a command can't do without.
NEEDED = {"why": ["0"], "convert": ["--quantum", "1"]}

BASH_ASKS = """\
source "$1"
line=$2
read -ra COMP_WORDS <<< "$line"
[[ $line == *' ' ]] && COMP_WORDS+=("")
COMP_CWORD=$((${#COMP_WORDS[@]} - 1))
complete -p pfair | grep -q -- '-F _pfair' || exit 1
_pfair 2> /dev/null
printf '%s\\n' "${COMPREPLY[@]}"
"""

# A shell of its own, in a terminal of its own, writes what it offers at TAB.
ZSH_ASKS = """\
zmodload zsh/zpty
zpty shell 'PS1= zsh -f -i'
zpty -w shell "fpath=(${(q)1} \\$fpath); autoload -Uz compinit; compinit -D -u; bindkey '^I' list-choices; print RE''ADY"
zpty -r shell out '*READY*'
zpty -n -w shell "$2"$'\\t'
sleep $3
zpty -n -w shell $'\\x15'
zpty -w shell "print E''ND"
zpty -r shell out '*END*'
print -r -- "$out"
"""

# Seconds between a key and the next, tried one after the other.
WAITS = ("0.5", "3", "10")

CMAKE = """\
cmake_minimum_required(VERSION 3.13)
project(plan C)
find_package(pfair {version} REQUIRED)
add_executable(shared plan.c)
target_link_libraries(shared pfair::pfair)
add_executable(static plan.c)
target_link_libraries(static pfair::static)
"""


def run(words, **how):
    """What these words write; they must end with status 0, and tell nothing."""
    how |= {"stdin": subprocess.DEVNULL, "capture_output": True, "text": True, "timeout": 120}
    done = subprocess.run([str(it) for it in words], errors="replace", **how)
    if done.returncode or done.stderr:
        raise Failed(f"{' '.join(map(str, words))[:300]}: status {done.returncode}\n{(done.stdout + done.stderr)[-2000:]}")
    return done.stdout


def must_be(found, wanted, what):
    if found != wanted:
        raise Failed(f"{what}: {found!r}, not {wanted!r}")


def sums_hold(prefix):
    """The sums of the list of the installation."""
    run(["sha256sum", "-c", "--quiet", "--strict", LIST], cwd=prefix)


def program_runs(prefix):
    """The program writes the chart of an example."""
    chart = run([prefix / "bin" / "pfair", "run", "-q", "-f", "chart", TOP / "examples" / "overload.csv"])
    must_be(chart, (TOP / "examples" / "expected" / "overload.chart").read_text(), "the chart of an example")


def formats_are_taken(prefix):
    """Each format that help lists, and completions offer, is one of the program's."""
    program = prefix / "bin" / "pfair"
    whole, commands = read_help(program)
    for command, option in [(it, option) for it in commands for option in it.options if option.long == "--format"]:
        for name in values(option, whole)[0] or ["(help lists none)"]:
            words = [program, command.name, "--format", name, *NEEDED.get(command.name, [])]
            told = subprocess.run(words, stdin=subprocess.DEVNULL, capture_output=True, text=True, timeout=60).stderr
            if "unknown format" in told:
                raise Failed(f"{command.name} --format {name}: {told}")


def page_renders(prefix):
    """The manual page, without a warning."""
    page = prefix / "share" / "man" / "man1" / "pfair.1"
    text = run(["groff", "-man", "-Tutf8", "-ww", page])
    if len(text.splitlines()) < 150:
        raise Failed(f"the manual page has {len(text.splitlines())} lines")


def page_is_found(prefix):
    """The manual page, as man shows it."""
    env = {**os.environ, "MANPATH": str(prefix / "share" / "man"), "MANPAGER": "cat", "MANWIDTH": "100", "LC_ALL": "C.UTF-8"}
    text = run(["man", "pfair"], env=env)
    whole, commands = read_help(prefix / "bin" / "pfair")
    for name in [it.name for it in commands] + [name for name, _ in formats(whole)]:
        if f" {name}" not in text:
            raise Failed(f"the manual page has no {name}")


def page_is_clean(prefix):
    """The manual page as mandoc judges it."""
    run(["mandoc", "-T", "lint", "-W", "warning", prefix / "share" / "man" / "man1" / "pfair.1"])


def lines_for(prefix):
    """The lines at whose ends completions are asked for, with all that must be offered."""
    whole, commands = read_help(prefix / "bin" / "pfair")
    found = {"pfair ": {name for name, _ in whole.commands}, **LINES}
    found["pfair run -f s"] = {name for name, _ in formats(whole) if name.startswith("s")}
    for it in commands:
        found[f"pfair {it.name} --"] = {option.long for option in it.options if option.long}
    return found


def offers(prefix, ask, is_told):
    """That a shell offers what it must. `is_told` tells whether one word of what it wrote is an offer."""
    with tempfile.TemporaryDirectory(prefix="completions-") as folder:
        pathlib.Path(folder, "plan.csv").touch()
        for line, wanted in lines_for(prefix).items():
            text = ask(line, folder)
            must_be({it for it in text if is_told(it, line)}, wanted, f"what is offered at {line!r}")


def bash_offers(prefix):
    """Completions in bash: the function is called as bash calls it."""
    script = prefix / "share" / "bash-completion" / "completions" / "pfair"
    words = ["bash", "--norc", "-c", BASH_ASKS, "asks", script]
    # At the first word bash offers options beside the commands.
    is_told = lambda it, line: line != "pfair " or not it.startswith("-")
    offers(prefix, lambda line, folder: run([*words, line], cwd=folder).split(), is_told)


def fish_offers(prefix):
    """Completions in fish."""
    script = prefix / "share" / "fish" / "vendor_completions.d" / "pfair.fish"

    def ask(line, folder):
        words = ["fish", "--no-config", "-c", "source $argv[1]; complete -C $argv[2]", script, line]
        how = {"cwd": folder, "env": {**os.environ, "HOME": folder, "LC_ALL": "C.UTF-8"}}
        return [it.split("\t")[0] for it in run(words, **how).splitlines()]

    offers(prefix, ask, lambda it, line: True)


def zsh_offers(prefix):
    """Completions in zsh, for some lines, as each takes a second. What must be offered is in what the terminal shows."""
    functions = prefix / "share" / "zsh" / "site-functions"
    wanted = lines_for(prefix) | {"pfair check ": {"plan.csv"}}
    with tempfile.TemporaryDirectory(prefix="completions-") as folder:
        pathlib.Path(folder, "plan.csv").touch()
        env = {**os.environ, "HOME": folder, "TERM": "dumb", "COLUMNS": "200"}
        for line in ("pfair ", "pfair run -f s", "pfair convert --unit ", "pfair check "):
            words = ["zsh", "-f", "-c", ZSH_ASKS, "asks", functions, line]
            # Where the machine is busy the shell takes longer.
            shown = (set(run([*words, seconds], cwd=folder, env=env).split()) for seconds in WAITS)
            if not any(wanted[line] <= it for it in shown):
                raise Failed(f"zsh does not offer {wanted[line]} at {line!r}")


def links_statically(prefix):
    """A program in C, linked with the archive."""
    with tempfile.TemporaryDirectory(prefix="linked-") as folder:
        made = pathlib.Path(folder, "plan")
        run(["cc", PLAN, "-o", made, f"-I{prefix}/include", prefix / "lib" / "libpfair.a"])
        must_be(run([made]), PLAN.with_suffix(".out").read_text(), "the plan in C, linked with the archive")


def links_by_pkg_config(prefix):
    """A program in C, linked with what pkg-config tells, which the loader finds in the prefix."""
    env = {**os.environ, "PKG_CONFIG_PATH": str(prefix / "lib" / "pkgconfig"), "LD_LIBRARY_PATH": str(prefix / "lib")}
    words = run(["pkg-config", "--cflags", "--libs", "pfair"], env=env).split()
    with tempfile.TemporaryDirectory(prefix="linked-") as folder:
        made = pathlib.Path(folder, "plan")
        run(["cc", PLAN, "-o", made, *words])
        must_be(run([made], env=env), PLAN.with_suffix(".out").read_text(), "the plan in C")


def links_by_cmake(prefix):
    """A program in C, linked with what CMake finds."""
    whole = run([prefix / "bin" / "pfair", "--version"]).split()[1]
    with tempfile.TemporaryDirectory(prefix="linked-") as folder:
        pathlib.Path(folder, "CMakeLists.txt").write_text(CMAKE.format(version=whole))
        shutil.copy(PLAN, folder)
        for words in (["-S", ".", "-B", "made", f"-DCMAKE_PREFIX_PATH={prefix}"], ["--build", "made"]):
            run(["cmake", *words], cwd=folder)
        for kind in ("shared", "static"):
            must_be(run([pathlib.Path(folder, "made", kind)]), PLAN.with_suffix(".out").read_text(), f"the plan in C, {kind}")


def has_terminals():
    """Whether zsh, where it is there, can open a terminal."""
    words = ["zsh", "-f", "-c", "zmodload zsh/zpty && zpty terminal true"]
    return bool(shutil.which("zsh")) and subprocess.run(words, stdin=subprocess.DEVNULL, capture_output=True).returncode == 0


def parts(prefix):
    """Each part with what it needs: programs, and whether the library must be there."""
    yield sums_hold, ["sha256sum"]
    yield program_runs, []
    yield formats_are_taken, []
    yield page_renders, ["groff"]
    yield page_is_found, ["man"]
    yield page_is_clean, ["mandoc"]
    yield bash_offers, ["bash"]
    yield fish_offers, ["fish"]
    yield zsh_offers, ["zsh"] if has_terminals() else ["zsh with terminals of its own"]
    if (prefix / "lib").is_dir():
        yield links_statically, ["cc"]
        yield links_by_pkg_config, ["pkg-config", "cc"]
        yield links_by_cmake, ["cmake", "cc"]


def lacking(programs):
    """Those of these programs that are not on the machine, in words."""
    return " and ".join(it for it in programs if not shutil.which(it))


def try_installed(prefix, what):
    """Tries an installation, part by part; how many passed, and a line for each fault."""
    passed, faults = 0, []
    for part, programs in parts(prefix):
        if lacking(programs):
            skip(f"{what}: {part.__name__}", lacking(programs))
            continue
        try:
            part(prefix)
            passed += 1
        except (Failed, subprocess.TimeoutExpired) as fault:
            faults.append(f"{part.__name__}: {fault}")
    return passed, faults
