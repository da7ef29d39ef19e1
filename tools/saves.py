"""Trials of `save FILE` at a desk: what stands there before, what is answered, and what stands there then."""
import os
import shutil
import socket
import stat
import tempfile
from pathlib import Path

from desks import Session
from journals import FILE_CALLS, journal_in
from programs import run_to_end
from refuser import compile_refuser, refused

TYPED = "settings 1 2\njoin 0 1 1 2\nstep 3\n"
OLD = "not ours\n"
NOBODY = 65_534


def bind_socket(path):
    with socket.socket(socket.AF_UNIX) as made:
        made.bind(str(path))


# What no file is written in the place of.
OTHERS = {
    "a FIFO": os.mkfifo,
    "a socket": bind_socket,
    "a folder": os.mkdir,
    "a link to a device": lambda path: os.symlink("/dev/null", path),
    "a link to a folder": lambda path: os.symlink(".", path),
    "a link that leads nowhere": lambda path: os.symlink("none", path),
    "a link to itself": lambda path: os.symlink("kept", path),
}
MODES = (0o600, 0o444, 0o755, 0o640)


def answer(program, room, name, **how):
    """What a session answers to `save`."""
    done = run_to_end([program, "desk", "-q"], f"desk: save {name}", input=f"{TYPED}save {name}\n".encode(), cwd=room, **how)
    return done.stdout.decode().splitlines()[-1]


def standing(path):
    """What stands at a path: its kind and mode, and what it has, or where it leads."""
    mode = path.lstat().st_mode
    return oct(mode), os.readlink(path) if stat.S_ISLNK(mode) else path.read_text() if stat.S_ISREG(mode) else None


def kept_as_it_was(program, what, make):
    """What is wrong where something stands in the place of a file that is none."""
    with tempfile.TemporaryDirectory() as name:
        room = Path(name)
        make(room / "kept")
        before = standing(room / "kept")
        given = (answer(program, room, "kept"), standing(room / "kept"), os.listdir(room))
    return None if given == ("cannot write kept", before, ["kept"]) else f"save in the place of {what}: {given}"


def saved_over(program, mode, through):
    """What is wrong where a file of this mode stands there, or, with a link, where that leads."""
    with tempfile.TemporaryDirectory() as name:
        room = Path(name)
        (room / "deep").mkdir()
        path, link = room / "deep" / "kept", room / "link"
        path.write_text(OLD)
        path.chmod(mode)
        link.symlink_to("deep/kept")
        said = answer(program, room, through)
        given = (said, stat.S_IMODE(path.lstat().st_mode), path.read_text().startswith("plan,1\nsettings,1,2"), link.is_symlink(), os.listdir(path.parent))
    return None if given == (f"saved {through}", mode, True, True, ["kept"]) else f"save over a file of mode {mode:o}, as {through}: {given}"


def saved_anew(program):
    """What is wrong with the mode of a new file, beside that of any other."""
    with tempfile.TemporaryDirectory() as name:
        room = Path(name)
        (room / "other").write_text(OLD)
        given = (answer(program, room, "kept"), standing(room / "kept")[0])
        wanted = ("saved kept", standing(room / "other")[0])
    return None if given == wanted else f"save: {given}, not {wanted}"


def in_a_shut_folder(program):
    """What is wrong where nothing may be made in the folder. The program is copied, as whoever is nobody may not reach it."""
    with tempfile.TemporaryDirectory() as name:
        room = Path(name)
        room.chmod(0o755)
        shut, copy = room / "shut", room / "pfair"
        shut.mkdir()
        (shut / "kept").write_text(OLD)
        (shut / "kept").chmod(0o666)
        shut.chmod(0o555)
        shutil.copy(program, copy)
        how = {"user": NOBODY, "group": NOBODY, "extra_groups": []} if os.geteuid() == 0 else {}
        try:
            given = [answer(copy, shut, it, **how) for it in ("kept", "new")] + [(shut / "kept").read_text(), os.listdir(shut)]
        except PermissionError:
            print("saves: whoever is nobody can't run a program here, so no folder is shut")
            return None
        finally:
            shut.chmod(0o755)
    return None if given == ["cannot write kept", "cannot write new", OLD, ["kept"]] else f"save in a folder that is shut: {given}"


def in_use(program):
    """What is wrong where another session has the file as its journal, and then where it has it no more."""
    with tempfile.TemporaryDirectory() as name:
        room = Path(name)
        path = room / "kept"
        (room / "link").symlink_to("kept")
        first = Session(program, ["-q", "--journal", str(path)], [])
        first.write(b"settings 1 2\n")
        given = [first.line(), answer(program, room, "kept"), answer(program, room, "link")]
        first.write(b"step\n")
        given += [first.line(), first.end(), journal_in(path)[0], answer(program, room, "kept")]
    wanted = ["ready", "cannot write kept", "cannot write link", "slot 0: -", (b"", b"", 0), ["settings,1,2", "step"], "saved kept"]
    return None if given == wanted else f"save in the place of a journal in use: {given}"


def synced(program):
    """What is wrong where the sync of the new file fails, or that of its folder."""
    if not shutil.which("cc"):
        print("saves: no cc, so no sync fails")
        return None
    given = []
    with tempfile.TemporaryDirectory() as tools:
        library = compile_refuser(Path(tools), FILE_CALLS)
        for nth in (1, 2, 3):
            with tempfile.TemporaryDirectory() as room, refused(library, nth) as (env, was_refused):
                given.append((answer(program, room, "kept", env=env), os.listdir(room), was_refused()))
    wanted = [("cannot write kept", [], True), ("cannot write kept", ["kept"], True), ("saved kept", ["kept"], False)]
    return None if given == wanted else f"save, a sync of which fails: {given}"


def save_failures(program):
    """What is wrong with files that are saved in the place of others."""
    for what, make in OTHERS.items():
        yield kept_as_it_was(program, what, make)
    for mode in MODES:
        for through in ("deep/kept", "link"):
            yield saved_over(program, mode, through)
    yield saved_anew(program)
    yield in_a_shut_folder(program)
    yield in_use(program)
    yield synced(program)
