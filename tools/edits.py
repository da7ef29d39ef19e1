"""Wrong bodies: edits that the prover must refuse, what each changes of its crate, and in which functions."""
import dataclasses
import difflib
import pathlib
import re

# The root files of a library and of a program.
ROOTS = ("src/lib.rt", "src/main.rt")

# A function's first line, and how an impl's begins.
FUNCTION = re.compile(r"(\s*)(?:pub(?:\([^)]*\))? )?(?:const )?(?:unsafe )?(?:extern \S+ )?fn (\w+)")
IMPL = re.compile(r"(?:unsafe )?impl\b ?")


@dataclasses.dataclass
class Edit:
    """An edit: its name, the changes of each file as pairs of an old text and a new one, and what it changes."""

    name: str
    changes: list
    # The functions whose lines change, or the modules, where a line outside of functions changes.
    touched: frozenset
    # Whether the lines of functions alone change, so that no other function's proof can.
    is_of_bodies: bool
    # The clause that it breaks, by its function and its name, or None where it names none.
    clause: tuple
    # Its file.
    file: pathlib.Path


def bracketed(text):
    """What stands in the angle brackets that a text begins with, if any, and what stands behind them."""
    depth = 0
    for at, sign in enumerate(text.replace("->", "  ") if text.startswith("<") else ""):
        depth += (sign == "<") - (sign == ">")
        if not depth:
            return text[1:at], text[at + 1 :]
    return "", text


def without_brackets(text):
    """A text without what stands in angle brackets."""
    shorter = re.sub(r"<[^<>]*>", "", text)
    return text if shorter == text else without_brackets(shorter)


def owner_of(line):
    """The name that the prover gives what begins on an impl's line: the type, then the trait and what it is given."""
    begins = IMPL.match(line)
    if not begins:
        return None
    parameters, rest = bracketed(line[begins.end() :])
    trait, _, kind = rest.rpartition(" for ")
    named = re.search(r"[\w:]+", kind)
    words = [named[0], *re.findall(r"\(\)|[\w:]+", trait)]
    first, *others = ("Unit" if it == "()" else it.split("::")[-1] for it in words)
    # An impl for some arguments of its type alone has these in its name.
    given = re.findall(r"(?<!')\b\w+", bracketed(kind[named.end() :])[0])
    if not trait and any(not re.search(rf"\b{it}\b", parameters) for it in given):
        return "+".join([first, *given])
    # A destructor has the name of its type alone. No name has the impl's own parameters, nor the type for its trait's.
    left_out = {"Drop", first, *re.findall(r"(?:^|,)\s*(\w+)", without_brackets(parameters))}
    return first + "".join(it for it in others if it not in left_out)


def module_of(crate, path):
    """The name of the module that a file of src/ is."""
    parts = [] if path in ROOTS else path[len("src/") : -len(".rt")].split("/")
    return "::".join([crate, *parts])


def home_of(crate, path, text, owner):
    """The module by which the prover names a type that a file implements: its own, where the file takes it from there."""
    taken = re.search(rf"^use crate::([\w:]+)::(?:\{{[^}}]*\b)?{owner}\b[^;]*;", text, re.M)
    return f"{crate}::{taken[1]}" if taken else module_of(crate, path)


def functions_of(crate, path, text):
    """Of each line of a source file, the function in which it stands, by the name that the prover gives it, or None."""
    found, owner, inside, blanks = [], None, None, ""
    for line in text.split("\n"):
        owner = owner_of(line) or owner
        begins = FUNCTION.match(line)
        if begins:
            blanks = begins[1]
            home = [home_of(crate, path, text, owner), owner] if blanks and owner else [module_of(crate, path)]
            inside = "::".join([*home, begins[2]])
        found.append(inside)
        if line == blanks + "}":
            inside = None
    return found


def changed(texts, changes):
    """The texts with these changes made, or None where an old text does not stand there exactly once."""
    texts = dict(texts)
    for path, old, new in changes:
        if texts.get(path, "").count(old) != 1:
            return None
        texts[path] = texts[path].replace(old, new)
    return texts


def made_together(texts, edits):
    """The texts with all of these edits made, each where its old texts stand without the others, or None where they meet."""
    if len(edits) == 1:
        return changed(texts, edits[0].changes)
    spans = {}
    for path, old, new in (it for edit in edits for it in edit.changes):
        if texts.get(path, "").count(old) != 1:
            return None
        begins = texts[path].index(old)
        spans.setdefault(path, []).append((begins, begins + len(old), new))
    texts = dict(texts)
    for path, found in spans.items():
        found.sort(reverse=True)
        if any(end > begins for (begins, _, _), (_, end, _) in zip(found, found[1:])):
            return None
        for begins, end, new in found:
            texts[path] = texts[path][:begins] + new + texts[path][end:]
    return texts


def laws_over(crate, path, texts):
    """The module whose laws judge a definition or a lemma: that of its folder's laws, or its folder, or of the crate."""
    folder = re.sub(r"(?<=[a-z])(?=[A-Z])", "_", path.split("/")[1].removesuffix(".antt").removesuffix("Lemmas")).lower()
    for module in (f"{folder}/laws", folder, "laws") if f"src/{folder}.rt" in texts else ("laws",):
        if f"src/{module}.rt" in texts:
            return "::".join([crate, *module.split("/")])
    return crate


def touched_by(crate, before, after):
    """The functions whose lines differ, or the modules where others do; and whether all are functions."""
    touched, is_of_bodies = set(), True
    for path in after:
        if after[path] == before[path]:
            continue
        if not path.startswith("src/"):
            touched, is_of_bodies = touched | {laws_over(crate, path, before)}, False
            continue
        inside = functions_of(crate, path, before[path])
        lines = (before[path].split("\n"), after[path].split("\n"))
        for word, first, last, _, _ in difflib.SequenceMatcher(None, *lines, autojunk=False).get_opcodes():
            for name in inside[first : max(last, first + 1)] if word != "equal" else []:
                touched.add(name or module_of(crate, path))
                is_of_bodies = is_of_bodies and name is not None
    return frozenset(touched), is_of_bodies


def read_changes(file):
    """The changes that an edit's file lists."""
    changes, path, old = [], None, None
    for line in file.read_text().split("\n"):
        word, _, rest = line.partition(":")
        if word == "file":
            path = rest.strip()
        elif word == "old":
            old = rest.removeprefix(" ")
        elif word == "new" and path and old:
            changes.append((path, old, rest.removeprefix(" ")))
            old = None
    return changes


def read_clause(file):
    """The clause that an edit's file names, by its function and its name, or None."""
    named = re.search(r"^clause: (\S+) (\S+)$", file.read_text(), re.M)
    return named and named.groups()


def texts_and_changes(folder):
    """The texts of the crate in this folder, and each file of an edit, with the changes that it lists."""
    texts = {str(it.relative_to(folder)): it.read_text() for part in ("src", "specs", "proofs")
             for it in sorted((folder / part).rglob("*.*")) if it.suffix in (".rt", ".antt")}
    return texts, [(it, read_changes(it)) for it in sorted(pathlib.Path(folder, "wrong-bodies").glob("*.edit"))]


def read_edits(folder):
    """The texts of the crate in this folder, its edits, and a text for each that can't be applied."""
    edits, bad = [], []
    texts, listed = texts_and_changes(folder)
    for file, changes in listed:
        after = changed(texts, changes)
        if not changes or after is None:
            bad.append(f"{folder.name}/{file.stem}: an old text does not stand in its file exactly once")
            continue
        touched, is_of_bodies = touched_by(folder.name, texts, after)
        clause = read_clause(file)
        # A constant is judged by the law that its edit names.
        law = re.match(r"(?:\w+::)?laws(?=::)", clause[0]) if clause else None
        touched |= {f"{folder.name}::{law[0]}"} if law else set()
        edits.append(Edit(file.stem, changes, touched, is_of_bodies, clause, file))
    return texts, edits, bad
