"""Trials of `pfair desk --journal`: sessions that are killed and opened again, files whose writes and syncs fail, files that are removed,
renamed, replaced or cut meanwhile, long sessions.

What is answered has to be in the file: as the file reads up to its first shut gate, `#`, behind which a crash may leave anything.
"""
import contextlib
import fcntl
import os
import shutil
import subprocess
import tempfile
import threading
import time
from pathlib import Path

from desks import LONGEST_ANSWER, Plan, Session, begin, change, differs, spelled, turn
from programs import run_to_end, skip
from refuser import PRELUDE, compile_refuser, refused

# Writes and syncs of a file, one of which fails; a write that fails has written half of its bytes.
FILE_CALLS = PRELUDE + r"""
#define WRITES(name, offset) \
    ssize_t name(int file, const void *bytes, size_t size, offset at) { \
        ssize_t (*put)(int, const void *, size_t, offset) = real(#name); \
        if (!is_refused(EIO)) return put(file, bytes, size, at); \
        put(file, bytes, size / 2, at); \
        errno = EIO; \
        return -1; \
    }
#define FAILS(name, given, passed) \
    int name given { int (*call) given = real(#name); return is_refused(EIO) ? -1 : call passed; }
WRITES(pwrite, off_t)
WRITES(pwrite64, off64_t)
FAILS(fsync, (int file), (file))
FAILS(fdatasync, (int file), (file))
FAILS(ftruncate, (int file, off_t size), (file, size))
FAILS(ftruncate64, (int file, off64_t size), (file, size))
"""
# A sync of a file, after one of which the file is removed.
LOST_CALLS = PRELUDE + r"""
int fdatasync(int file) {
    int (*call)(int) = real("fdatasync");
    int given = call(file);
    if (is_refused(errno)) unlink(getenv("LOST"));
    return given;
}
"""
LONG_STEPS = 1_000_000
LONGEST_SCRIPT = 16_777_216
MOST_TIMES = 3
LONG_FRONT = "settings,2,6\njoin,0,1,1,2\njoin,0,2,1,3\njoin,0,3,2,3\n"


def journal_in(path):
    """The records that a journal stands for, its heading left out, and the bytes from the gate on that ends them."""
    data = path.read_bytes() if path.exists() else b""
    found, at = [], 0
    while data[at:at + 1] == b" " and (end := data.find(b"\n", at)) > 0:
        found.append(data[at + 1:end].decode())
        at = end + 1
    return found[1:], data[at:]


def copied(plan):
    """Another plan that goes on from here."""
    other = Plan(plan.told, plan.quiet)
    other.script, other.events, other.made = plan.script, dict(plan.events), list(plan.made)
    return other


def records_of(plan):
    return plan.script.splitlines()[1:]


def opening_note(path, plan, rest):
    """What is told of a journal that is opened, with these bytes from its last gate on."""
    records = records_of(plan)
    events, slots = (plan.told.text(plan.script, "run", "-f", it).count("\n") - 1 if records else 0 for it in ("events", "schedule"))
    cut = f"; cut {len(rest) - 1} bytes" if len(rest) > 1 and path.stat().st_size > 10 else ""
    return f"{path}: {len(records)} records, {events} events, {slots} slots{cut}\n"


def answered(session, rng, plan, count):
    """Lines of a session, one after the other; what was wrong with an answer, and whether there was one."""
    was_told = False
    for _ in range(count):
        line, wanted = turn(rng, plan)
        session.write((line + "\n").encode())
        given = session.lines(1 if wanted is None else len(wanted.splitlines()))
        was_told = was_told or bool(given)
        wrong = differs(wanted, given, line) if given else None
        if wrong:
            return wrong, was_told
    return None, was_told


def batch(rng, plan):
    """Some good lines, in one write, and their answers."""
    lines, answers = [], ""
    for _ in range(rng.randrange(1, 30)):
        fields = ["step"] if rng.random() < 0.4 else change(rng, plan)
        answers += plan.take(fields)[1] if fields == ["step"] else plan.change(fields)
        lines.append(spelled(rng, fields))
    return "".join(f"{it}\n" for it in lines).encode(), answers


def killed(session, rng, plan, path, was_told):
    """Kills a session while it has lines before it. Gives the plan that its journal stands for, and what is wrong.

    A session that has told nothing yet may not have put the script that it began with either.
    """
    after = copied(plan)
    fronts = (after, plan) if was_told else (after, plan, Plan(plan.told, plan.quiet))
    data, answers = batch(rng, after) if rng.random() < 0.8 else (b"", "")
    if data:
        session.write(data)
        time.sleep(rng.choice([0, rng.uniform(0, 0.004)]))
    session.run.kill()
    told = (session.left + session.run.stdout.read()).decode()
    session.end()
    found = journal_in(path)[0]
    stands = next((it for it in fronts if records_of(it) == found), None)
    if stands is None:
        return plan, f"killed behind {data!r}: {found}, none of {[records_of(it) for it in fronts]}"
    if told and stands is not after or not answers.startswith(told):
        return plan, f"killed behind {data!r}, which was answered by {told!r}: {found}"
    return stands, None


def torn(rng, path):
    """Writes bytes behind the last gate, as a write that a crash tore."""
    if path.exists() and path.stat().st_size > 10 and rng.random() < 0.5:
        with path.open("ab") as file:
            file.write(rng.choice([b"step\n#", b"join,0,", b" step\n step\n#", bytes(range(40))]))


def live(rng, told, program, path, plan, begun):
    """One session of a journal. Gives the plan that its journal stands for behind it, and what was wrong."""
    torn(rng, path)
    note = opening_note(path, plan, journal_in(path)[1])
    session = Session(program, ["-q"] * plan.quiet + ["--journal", str(path)], begun)
    if (not plan.quiet or "; cut " in note) and (given := session.run.stderr.readline().decode()) != note:
        session.run.kill()
        session.end()
        return plan, f"told {given!r}, not {note!r}"
    if not records_of(plan):
        line = ["settings", "2", "6", "12", "64"]
        session.write(spelled(rng, line).encode() + b"\n")
        session.lines(len(plan.take(line)[1].splitlines()))
    wrong, was_told = answered(session, rng, plan, rng.randrange(8))
    if wrong:
        session.run.kill()
        session.end()
        return plan, wrong
    plan, wrong = killed(session, rng, plan, path, was_told or not begun or not plan.quiet)
    plan.made = []
    return plan, wrong


def hold_killed(rng, told, program):
    """Holds the sessions of one journal, each of which is killed; gives how many they were, and what was wrong."""
    plan = Plan(told, rng.random() < 0.5)
    begun = begin(rng, plan, ["settings", "2", "12", "24", "64"]) if rng.random() < 0.3 else []
    plan.made, lives = [], rng.randrange(2, 5)
    with tempfile.TemporaryDirectory() as room:
        path = Path(room) / "kept"
        for life in range(lives):
            plan, wrong = live(rng, told, program, path, plan, begun if life == 0 else [])
            if wrong:
                return life + 1, f"journal, life {life + 1}: {wrong}"
        run_to_end([program, "desk", "-q", "--journal", str(path)], "desk: a journal is mended", input=b"")
        run = run_to_end([program, "run", "-f", "replies", str(path)], "desk: a journal is run").stdout.decode()
        return lives, None if run == plan.replies(plan.script) else f"a journal that is run: {run!r}"


def in_use(program):
    """What is wrong where two sessions name one journal."""
    with tempfile.TemporaryDirectory() as room:
        path = f"{room}/kept"
        first = Session(program, ["-q", "--journal", path], [])
        first.write(b"settings 1 2\n")
        ready = first.line()
        done = run_to_end([program, "desk", "--journal", path], "desk: a journal in use", input=b"step\n")
        first.write(b"step\n")
        step, end = first.line(), first.end()
        given = (ready, done.stdout, done.stderr.decode(), done.returncode, step, end, journal_in(Path(path))[0])
    wanted = ("ready", b"", f"{path}: another session has it open\n", 3, "slot 0: -", (b"", b"", 0), ["settings,1,2", "step"])
    return None if given == wanted else f"a journal in use: {given}"


def locked(program):
    """What is wrong where another program has locked the file by flock."""
    with tempfile.TemporaryDirectory() as name:
        path = Path(name) / "kept"
        path.write_text(AT_REST)
        with path.open("rb+") as file:
            fcntl.flock(file, fcntl.LOCK_EX)
            done = run_to_end([program, "desk", "--journal", str(path)], "desk: a journal that is locked", input=b"step\n")
        given = (done.returncode, done.stdout, done.stderr.decode(), path.read_text())
    return None if given == (3, b"", f"{path}: another session has it open\n", AT_REST) else f"a journal that is locked: {given}"


def lost_at_rest(program, what, lose):
    """What is wrong where this becomes of a journal that was at rest, before the first record of a session."""
    with tempfile.TemporaryDirectory() as name:
        path = Path(name) / "kept"
        path.write_text(AT_REST)
        session = Session(program, ["--journal", str(path)], [])
        note = session.run.stderr.readline().decode()
        lose(path)
        left = files_in(path.parent)
        session.write(b"step\n")
        given = (note, session.line(), session.end(), files_in(path.parent) == left)
    wanted = (f"{path}: 3 records, 1 events, 1 slots\n", "", (b"", f"cannot write {path}\n".encode(), 3), True)
    return None if given == wanted else f"a journal at rest that is {what}: {given}"


def side_file(program):
    """What is wrong where the file beside a journal can't be made: it is the one that is named."""
    with tempfile.TemporaryDirectory() as name:
        path = Path(name) / "kept"
        path.write_text(" plan,1\n settings,1,2\n#")
        Path(f"{path}-wal").mkdir()
        done = run_to_end([program, "desk", "--journal", str(path)], "desk: a file beside a journal", input=b"step\n")
    given = (done.returncode, done.stdout, done.stderr.decode())
    return None if given == (3, b"", f"{path}-wal: cannot be read\n") else f"a file beside a journal: {given}"


# A journal of three records, as a session leaves it.
AT_REST = " plan,1\n settings,1,2\n join,0,1,1,2\n step\n#"

TYPED = ("settings 1 2", "join 0 1 1 2", "step", "join 1 2 1 2", "stepp", "limit 1 0", "undo", "step")


def replace(path):
    other = path.with_suffix(".other")
    other.write_bytes(path.read_bytes())
    other.rename(path)


def lead_elsewhere(path):
    other = path.with_suffix(".other")
    other.symlink_to("none")
    other.rename(path)


# What another process may do to a journal that is open.
LOSSES = {
    "removed": Path.unlink,
    "renamed": lambda path: path.rename(path.with_suffix(".other")),
    "replaced by a copy": replace,
    "replaced by a link": lead_elsewhere,
    "cut by a byte": lambda path: os.truncate(path, path.stat().st_size - 1),
    "cut to half": lambda path: os.truncate(path, path.stat().st_size // 2),
    "emptied": lambda path: os.truncate(path, 0),
}


def files_in(room):
    """The files of a folder, and what they have."""
    return {it.name: it.read_bytes() for it in room.iterdir() if it.is_file() and not it.is_symlink()}


def lost_file(program, what, lose):
    """What is wrong where this becomes of a journal between two records: the second is not answered, and nothing is written any more."""
    with tempfile.TemporaryDirectory() as name:
        path = Path(name) / "kept"
        session = Session(program, ["-q", "--journal", str(path)], [])
        answers = []
        for line in TYPED[:3]:
            session.write(f"{line}\n".encode())
            answers.append(session.line())
        lose(path)
        left = files_in(path.parent)
        session.write(b"step\n")
        given = (answers, session.line(), session.end(), files_in(path.parent) == left)
    wanted = (["ready", "event 1", "slot 0: 1/1"], "", (b"", f"cannot write {path}\n".encode(), 3), True)
    return None if given == wanted else f"a journal that is {what}: {given}"


def lost_at_sync(program, library, nth):
    """What is wrong where a journal is removed as this sync ends: there is one as it is read, two for its heading, and two for each record."""
    with tempfile.TemporaryDirectory() as name:
        path = Path(name) / "kept"
        with refused(library, nth) as (env, _):
            session = Session(program, ["-q", "--journal", str(path)], [], {**env, "LOST": str(path)})
            answers = []
            for line in TYPED[:3]:
                with contextlib.suppress(BrokenPipeError):
                    session.write(f"{line}\n".encode())
                answers.append(session.line())
            given = (sum(map(bool, answers)), session.end()[1:], files_in(path.parent).keys() & {"kept"})
    fault = f"{path}: cannot be read\n" if nth == 1 else f"cannot write {path}\n"
    wanted = (max(0, (nth - 4) // 2), (fault.encode(), 3), set())
    return None if given == wanted else f"a journal that is removed as sync {nth} ends: {given}"


def failing_file(program, library, nth):
    """One session of a journal one of whose writes or syncs fails: whether one did, and what is wrong."""
    with tempfile.TemporaryDirectory() as room:
        path = Path(room) / "kept"
        with refused(library, nth) as (env, was_refused):
            session = Session(program, ["-q", "--journal", str(path)], [], env)
            answers = 0
            for line in TYPED:
                try:
                    session.write(f"{line}\n".encode())
                except BrokenPipeError:
                    break
                if not session.line():
                    break
                answers += line != "stepp"
            _, faults, status = session.end()
            failed = was_refused()
        if not failed:
            return False, None if (faults, status, answers) == (b"", 1, 7) else f"no call fails: {faults!r}, {status}, {answers} answers"
        told = {f"{it}\n".encode() for it in (f"{path}: cannot be read", f"{path}-wal: cannot be read", f"cannot write {path}")}
        found, rest = journal_in(path)
        cut = f"; cut {len(rest) - 1} bytes\n" if len(rest) > 1 and path.stat().st_size > 10 else ""
        again = run_to_end([program, "desk", "-q", "--journal", str(path)], "desk: opened again", input=b"")
        is_front = answers <= len(found) <= answers + 1 and found == journal_in(path)[0]
        is_open = again.returncode == 0 and (again.stderr.decode().endswith(cut) if cut else not again.stderr)
        if status != 3 or faults not in told or not is_front or not is_open:
            return True, f"call {nth} of the file fails: {faults!r}, {status}, {answers} answers, {found}, opened again {again}"
        return True, None


def failing_files(program):
    """What is wrong where each write and each sync of the file fails in turn, and where the file is removed meanwhile."""
    if not shutil.which("cc"):
        return skip("journals: the calls of a file that fail", "C compiler")
    with tempfile.TemporaryDirectory() as room:
        library = compile_refuser(Path(room), LOST_CALLS)
        for nth in range(1, 9):
            yield lost_at_sync(program, library, nth)
    with tempfile.TemporaryDirectory() as room:
        library, nth, failed = compile_refuser(Path(room), FILE_CALLS), 0, True
        while failed:
            nth += 1
            failed, wrong = failing_file(program, library, nth)
            yield wrong
        print(f"journals: {nth - 1} calls of a file failed")
        yield None if nth > 20 else f"{nth - 1} calls of the file failed, too few"


def drained(words, data, cwd):
    """The seconds of the processor that a program takes by two pipes, and how much it wrote."""
    run = subprocess.Popen(words, stdin=subprocess.PIPE, stdout=subprocess.PIPE, stderr=subprocess.DEVNULL, cwd=cwd)
    feeder = threading.Thread(target=lambda: (run.stdin.write(data), run.stdin.close()))
    feeder.start()
    written = sum(map(len, iter(lambda: run.stdout.read(65_536), b"")))
    feeder.join()
    _, status, used = os.wait4(run.pid, 0)
    run.returncode = status
    return used.ru_utime + used.ru_stime, written


def long_journal(program):
    """What is wrong where a journal is longer than a script may be: it says so before the first answer."""
    record = f"alter,{9:015},join," + ",".join(f"{it:015}" for it in (0, 1, 1, 2, 0))
    count = LONGEST_SCRIPT // (len(record) + 1) + 1
    with tempfile.TemporaryDirectory() as room:
        path = Path(room) / "kept"
        path.write_text(" plan,1\n settings,1,2\n" + f" {record}\n" * count + "#")
        done = run_to_end([program, "desk", "-q", "--journal", str(path)], "desk: a journal that is too long", input=b"help\n")
    note = f"{path}: {count + 1} records, 0 events, 0 slots; the script is longer than {LONGEST_SCRIPT} bytes: what is shown or saved of it may be refused\n"
    given = (done.returncode, done.stderr.decode(), bool(done.stdout))
    return None if given == (0, note, True) else f"a journal that is too long: {given}"


def long_session(program):
    """What is wrong with a session of many steps: how much longer it takes than the same script, and what it writes."""
    data = LONG_FRONT.encode() + b"step\n" * LONG_STEPS
    with tempfile.TemporaryDirectory() as room:
        alone, replies = drained([program, "run", "-f", "replies"], b"plan,1\n" + data, room)
        kept, answers = drained([program, "desk", "-q", "--journal", "kept"], data, room)
        records = len(journal_in(Path(room) / "kept")[0])
    print(f"journals: {LONG_STEPS} steps: {kept:.2f} s of the processor, {kept / alone:.1f} times those of the script ({alone:.2f} s)", flush=True)
    if (answers, records) != (replies, LONG_STEPS + 4):
        return f"a long session: {answers} bytes, not {replies}; {records} records"
    return None if kept <= MOST_TIMES * alone else f"a long session takes {kept / alone:.1f} times as long as its script"


def journal_failures(program):
    """What is wrong with journals that are in use, that are lost, that fail, and that get long."""
    yield in_use(program)
    yield locked(program)
    yield side_file(program)
    yield long_journal(program)
    for what, lose in LOSSES.items():
        yield lost_file(program, what, lose)
        yield lost_at_rest(program, what, lose)
    yield from failing_files(program)
    yield long_session(program)
