"""What pfair must answer to files that are as long as a script may be, and a byte longer, and to a session that saves many events.

A file of that length is a short one and comments behind it: each command answers it as the short one.
"""
import pathlib
import tempfile
from dataclasses import dataclass

from programs import run_to_end

LONGEST = 16_777_216
PLAN = b"plan,1\nsettings,1,2\nname,1,camera\njoin,0,camera,1,2\njoin,0,2,1,1\nstep,4\n"
LIST = b"name,work,every\ncamera,1,4\nradio,2,8\n"
COMMANDS = (
    (PLAN, ["run", "plan.csv"]), (PLAN, ["check", "plan.csv"]), (PLAN, ["fit", "plan.csv"]), (PLAN, ["why", "1", "plan.csv"]),
    (PLAN, ["diff", "plan.csv", "other.csv"]), (PLAN, ["desk", "plan.csv"]), (LIST, ["convert", "--quantum", "1", "plan.csv"]),
)
EVENTS = 16_000


def padded(front, length):
    """The same with comments behind it, so many bytes long."""
    line = b"#".ljust(79) + b"\n"
    left = length - len(front)
    return front + line * (left // 80) + b"#" * (left % 80)


@dataclass
class LongFile:
    """A file of the greatest length for a command, and one that is too long."""
    front: bytes
    words: list

    def answered(self, program, data):
        with tempfile.TemporaryDirectory(prefix="long-") as room:
            pathlib.Path(room, "plan.csv").write_bytes(data)
            pathlib.Path(room, "other.csv").write_bytes(self.front)
            done = run_to_end([program, *self.words], f"{self.words} of {len(data)} bytes", input=b"misses\n", cwd=room)
        return done.stdout, done.stderr, done.returncode

    def fault(self, program):
        """What the program did instead, if it did."""
        short, most, more = (self.answered(program, it) for it in (self.front, padded(self.front, LONGEST), padded(self.front, LONGEST + 1)))
        if most != short:
            return f"{self.words} of the greatest length: {most[0][:300]!r}, {most[1][:300]!r} status {most[2]}, not {short[0][:300]!r}, {short[1][:300]!r} status {short[2]}"
        if (more[0], more[2]) != (b"", 1) or more[1] != b"plan.csv: it has more than 16777216 bytes\n":
            return f"{self.words} of a byte too many: {more[0][:300]!r}, {more[1][:300]!r} status {more[2]}"


@dataclass
class LongSave:
    """A session saves as many events, in several times the bytes of a piece of text."""
    events: int

    def fault(self, program):
        """What the program did instead, if it did."""
        script = b"settings,64,1024,65536,64\n" + b"".join(b"limit,%d,%d\n" % (1_000_000 - slot, 1 + slot % 64) for slot in range(self.events))
        with tempfile.TemporaryDirectory(prefix="long-") as room:
            pathlib.Path(room, "plan.csv").write_bytes(b"pfair,2\n" + script)
            done = run_to_end([program, "desk", "-q", "plan.csv"], "a session that saves", input=b"save saved.csv\n", cwd=room)
            run = run_to_end([program, "run", "-f", "script", "plan.csv"], "the script of the same", cwd=room)
            path = pathlib.Path(room, "saved.csv")
            saved = path.read_bytes() if path.exists() else b""
        if (done.stdout, done.stderr, done.returncode) != (b"saved saved.csv\n", b"", 0) or len(saved) < 200_000:
            return f"a session that saves {self.events} events: {done.stdout!r}, {done.stderr!r} status {done.returncode}, {len(saved)} bytes"
        if sorted(it for it in saved.splitlines() if it.startswith(b"limit")) != sorted(it for it in run.stdout.splitlines() if it.startswith(b"limit")):
            return f"a session that saves {self.events} events: other events than the format script has"


def long_files():
    return [*(LongFile(front, words) for front, words in COMMANDS), LongSave(EVENTS)]
