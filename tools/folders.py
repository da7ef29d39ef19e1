"""The folders of crates: which others of its crate each names, beside what crates.txt draws.

A crate may have folders, each with its modules in src/FOLDER, its definitions in specs/Folder and its lemmas in
proofs/FolderLemmas. After the crate's line crates.txt has a line '#   FOLDER: OTHER ..' for each folder, with the folders of the crate
that its files name; the crate's own name stands for its files outside of folders, and such a line is there for those too, where
they name a folder.
"""
import re

from programs import TOP

DRAWN = re.compile(r"^#   (\w+):(.*)$")


def folders_of(crate):
    """The folder of each name that a path in this crate may begin with."""
    home = TOP / "crates" / crate
    found = {}
    for file in (home / "src").glob("*.rt"):
        folder = file.stem
        title = "".join(it.capitalize() for it in folder.split("_"))
        if any((home / it).is_dir() for it in (f"src/{folder}", f"specs/{title}", f"proofs/{title}Lemmas")):
            found |= {folder: folder, title: folder, f"{title}Lemmas": folder}
    return found


def drawn():
    """What crates.txt draws: of each crate with folders, what each of them may name."""
    found, crate = {}, None
    for line in (TOP / "crates.txt").read_text().split("\n"):
        folder = DRAWN.match(line)
        if folder:
            found.setdefault(crate, {})[folder[1]] = set(folder[2].split())
        elif line and not line.startswith("#"):
            crate = line.split(":")[0].split()[0]
    return found


def uses_in(crate, texts):
    """What each folder of a crate names of the others, by the texts of the crate's files."""
    names = folders_of(crate)
    path = re.compile(rf"\bRattle\.{crate}\.(?:specs\.(?:declared\.|contracts\.)?|proofs\.)(\w+)|\bcrate::(?:specs::|proofs::)?(\w+)")
    found = {it: set() for it in names.values()}
    for file, text in texts.items():
        parts = file.relative_to(TOP / "crates" / crate).with_suffix("").parts
        own = names.get(parts[1], crate)
        if names and parts[1:] not in (("lib",), ("Lib",), ("main",)):
            named = {names.get(one or other, crate) for one, other in path.findall(text)} - {own}
            found.setdefault(own, set()).update(named)
    return {folder: named for folder, named in found.items() if named or folder != crate}


def undrawn(all_texts):
    """A line for each folder whose names of others differ from those that crates.txt draws."""
    by_crate = {}
    for file, text in all_texts.items():
        by_crate.setdefault(file.relative_to(TOP / "crates").parts[0], {})[file] = text
    drawing = drawn()
    for crate, texts in by_crate.items():
        uses, lines = uses_in(crate, texts), drawing.get(crate, {})
        for folder in sorted(uses.keys() | lines.keys()):
            if uses.get(folder) != lines.get(folder):
                yield f"{crate}: crates.txt wants the line '#   {folder}: {' '.join(sorted(uses.get(folder, ())))}'"
