"""What a crate's texts name of the crates below it, file by file, and what those name in turn.

A check of a crate reads of a library what the crate's own texts name, and what is said there: a contract names the definitions
that it cites, a type those of its fields. So of the crates below a crate these files alone can change what the prover says of
its wrong bodies, each as others see it: without comments, bodies and private functions. Where a file has a type or a trait, the
files of its crate that implement it belong to it.
"""
import functools
import re

from programs import TOP

# The files of a function's own proof, which no other crate sees.
OWN = ("Answers.antt", "Invariants.antt", "Proof.antt")

# A function's first line.
FUNCTION = re.compile(r"( *)(pub |pub\([a-z]+\) |)fn ")

# A path of code, and one of definitions or lemmas.
CODE = re.compile(r"\b([a-z]\w*)((?:::\w+)+)")
PROOF = re.compile(r"\bRattle\.(\w+)((?:\.[\w-]+)+)")

# An import: a path on one line, or names in braces. A line of a text that begins with "use" is none.
IMPORT = re.compile(r"^(?:ghost )?use ([^;{\n]*(?:\{[^{}]*\})?);\n", re.M)

# What a file of src/ declares for others, and what it implements.
DECLARED = re.compile(r"^pub (?:struct|enum|trait|type) (\w+)", re.M)
IMPLEMENTED = re.compile(r"^(?:unsafe )?impl\b.*$", re.M)


def texts_of(crate, parts):
    """The files in these folders of a crate, in the order of their names."""
    folder = TOP / "crates" / crate
    return sorted(it for part in parts for it in (folder / part).rglob("*.*") if it.suffix in (".rt", ".antt", ".edit"))


def end_of_body(lines, at, blanks):
    """Of the function whose first line is this one: the line with its opening brace, and the one with the closing."""
    opens = next(it for it in range(at, len(lines)) if re.fullmatch(blanks + r"\S.*[{}]|" + blanks + "{", lines[it]))
    closes = opens if lines[opens].endswith("}") else lines.index(blanks + "}", opens)
    return opens, closes


def without_bodies(lines):
    """The lines of a source file without private functions, and of the others without their bodies."""
    found, owner, at = [], "", 0
    while at < len(lines):
        begins = FUNCTION.match(lines[at])
        owner = lines[at] if lines[at][:1].strip() else owner
        opens = closes = at
        if begins and " trait " not in f" {owner}":
            opens, closes = end_of_body(lines, at, begins[1])
            is_own = begins[2] != "pub " and (not begins[1] or owner.startswith("impl") and " for " not in owner)
            opens = at - 1 if is_own else opens
        found += lines[at : opens + 1]
        at = closes + 1
    return found


def names_in(imported):
    """What a `use` brings, as pairs of a path and a name."""
    path, brace, names = imported.rstrip("}").partition("{")
    if not brace:
        path, names = re.fullmatch(r"(.*?)(\S*)", imported).groups()
    return [(path.strip(), it.strip()) for it in names.split(",")]


def seen_of_code(text):
    """What other crates see of a source file: no comment, no private function, no body, and no import for these alone."""
    text = re.sub(r"^ *(?://|#\[tactic\().*\n", "", text, flags=re.M)
    imports = IMPORT.findall(text)
    rest = [it for it in without_bodies(IMPORT.sub("", text).split("\n")) if it]
    words, signs = set(re.findall(r"[\w'-]+", " ".join(rest))), " ".join(rest)
    named = [it for line in imports for it in names_in(line)]
    named = [it for it in named if last_word(it) in words or not re.search(r"\w", it[1]) and it[1].strip("◌") in signs]
    return "\n".join([*sorted(path + name for path, name in named), *rest])


def last_word(imported):
    """The name by which a file speaks of what it imports."""
    return re.split(r"::|\.| as ", imported[1])[-1].strip()


def seen_of(file):
    """What other crates see of a file."""
    text = file.read_text()
    return seen_of_code(text) if file.suffix == ".rt" else re.sub(r"^ *--.*\n", "", text, flags=re.M)


@functools.cache
def shown_files(crate):
    """The files of a crate that others can see, with what they see of each: no function's own proof, no private lemmas."""
    lemmas = TOP / "crates" / crate / "proofs" / "Lib.antt"
    declared = lemmas.read_text().split("\n") if lemmas.is_file() else []
    hidden = {lemmas.with_name(f"{it[4:]}.antt") for it in declared if it.startswith("mod ")}
    shown = (it for it in texts_of(crate, ("src", "specs", "proofs")) if it not in hidden and it.name not in OWN)
    return {it: seen_of(it) for it in shown}


def file_of(folder, words, ending):
    """The file that a path leads to: the longest one of its beginnings that is a file, or the folder's root file."""
    for count in range(len(words), 0, -1):
        file = folder.joinpath(*words[:count]).with_suffix(ending)
        if file.is_file():
            return file
    return folder / ("lib.rt" if ending == ".rt" else "Lib.antt")


def named_in(crate, text, uses):
    """The files of the repository's crates that a text of this crate names."""
    for home, path in CODE.findall(text):
        home, words = crate if home == "crate" else home, path.split("::")[1:]
        if home in uses:
            folder = TOP / "crates" / home
            yield file_of(folder / words[0], words[1:], ".antt") if words[0] in ("specs", "proofs") else file_of(folder / "src", words, ".rt")
    for home, path in PROOF.findall(text):
        words = path.split(".")[1:]
        if home in uses and words[0] in ("specs", "proofs"):
            folder = TOP / "crates" / home
            is_code = words[1:2] == ["declared"]
            yield file_of(folder / "src", words[2:], ".rt") if is_code else file_of(folder / words[0], words[1:], ".antt")


@functools.cache
def implementing(crate):
    """Of each type and trait of a crate the files there that implement it."""
    found = {}
    for file, text in shown_files(crate).items():
        for line in IMPLEMENTED.findall(text) if file.suffix == ".rt" else ():
            for word in re.findall(r"\w+", line):
                found.setdefault(word, set()).add(file)
    return found


@functools.cache
def named_by(file, uses):
    """The files that a file of a library names, as others see it, with those that implement its types."""
    crate = file.relative_to(TOP / "crates").parts[0]
    text = shown_files(crate).get(file, "")
    implemented = (it for name in DECLARED.findall(text) for it in implementing(crate).get(name, ()))
    return {*named_in(crate, text, uses), *implemented}


def seen_below(crate, uses):
    """The files of the crates below one that its texts name, and those that these name in turn, with what it sees of each."""
    names = tuple(uses)
    left = {it for file in texts_of(crate, ("src", "specs", "proofs")) for it in named_in(crate, file.read_text(), names)}
    found = set()
    while left:
        file = left.pop()
        if file not in found:
            found.add(file)
            left |= named_by(file, names)
    own = TOP / "crates" / crate
    shown = {it: shown_files(it.relative_to(TOP / "crates").parts[0]).get(it) for it in found if not it.is_relative_to(own)}
    return sorted((it, text) for it, text in shown.items() if text is not None)
