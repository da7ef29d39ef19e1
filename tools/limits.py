"""What pfair must answer at the very limits of lines, pages and pictures, by docs/COMMANDS.md: the last that is taken, and one more.

The scripts are long and all alike, so they are made here. The bytes of a page are head and foot of any other around its object.
"""
import json
from dataclasses import dataclass

import model
from asked import Answer
from pictures import picture
from programs import run_to_end

LONGEST_LINE, MOST_PAGED, MOST_DRAWN = 65_536, 65_536, 4_096
SETTINGS, TOO_LONG = b"settings,1,1,1,1\n", b"it has more than 65536 bytes"


def lines():
    """A session's line of so many bytes, its end left out, of each kind, and one that is a byte longer: the session goes on behind it."""
    for line, taken in ((b"step", b"slot 0: -\n"), (b"# a note", b""), (b"", b"")):
        for length in (LONGEST_LINE, LONGEST_LINE + 1):
            is_long = length > LONGEST_LINE
            answer = b"ready\n" + (b"bad line: %s\n" % TOO_LONG if is_long else taken)
            for end in (b"\n", b"\r\n"):
                script = SETTINGS + line.ljust(length) + end + b"misses\n"
                yield Answer(["desk"], script, answer + b"task,sub,deadline,ran\n", b"", int(is_long))
            yield Answer(["desk"], SETTINGS + line.ljust(length), answer, b"", int(is_long))
    yield Answer(["desk", "--json"], b"".ljust(LONGEST_LINE + 1) + b"\n", b'{"bad":{"text":"%s"}}\n' % TOO_LONG, b"", 1)


def object_of(slots):
    """The object of a page of one task that runs in each slot."""
    figures = {"cost": 1, "jobs": slots, "lag_max": 0, "lag_min": 0, "migrations": 0, "missed": 0, "period": 1, "preemptions": 0,
               "quanta": slots, "response_max": 1, "response_min": 1, "tardiness_max": 0, "task": 1}
    join = {"by": None, "cost": 1, "count": None, "early": 0, "event": 1, "kind": "join", "period": 1, "slot": 0, "task": 1}
    told = {"denials": [], "entries": slots + 1, "events": [join], "figures": [figures],
            "lags": [{"cost": 1, "lag": 0, "period": 1, "received": slots, "task": 1}], "misses": [], "now": slots, "refusals": [],
            "schedule": [[[1, slot + 1]] for slot in range(slots)],
            "settings": {"base": 1, "cap": 1, "every": 1, "horizon": model.HORIZONS[1], "processors": 1}}
    return json.dumps(told, sort_keys=True, separators=(",", ":")).encode()


def script_of(slots):
    return SETTINGS + b"join,0,1,1,1,0\n" + b"step,%d\n" % slots


@dataclass
class Page:
    """A page of so many slots."""
    slots: int

    def fault(self, program):
        """What the program wrote instead, if it did."""
        one, done = (run_to_end([program, "run", "-f", "html"], f"page of {slots} slots", input=script_of(slots)) for slots in (1, self.slots))
        head, _, foot = one.stdout.partition(object_of(1))
        if not foot or (done.stdout, done.stderr, done.returncode) != (head + object_of(self.slots) + foot, b"", 0):
            return f"page of {self.slots} slots: {len(done.stdout)} bytes, {done.stderr!r} status {done.returncode}"


def pages():
    yield Page(MOST_PAGED)
    yield Answer(["run", "-f", "html"], script_of(MOST_PAGED + 1), b"", b"range too long\n", 2)


def drawn(slots, first, wrap):
    """The picture of these slots, in which nobody runs, from the first on."""
    settings = model.settings_of(SETTINGS.decode().strip().split(","), 1)
    placed = model.run_of(model.Scenario(settings), slots)
    return picture(placed, model.NAMES, 0, first, slots, 20, wrap, "strips").encode()


def pictures():
    """As many slots as a picture may have, of so many and of one more, in one block and in two; and one slot too many."""
    most = MOST_DRAWN
    for slots, first, wrap in ((most, 0, None), (most + 1, 1, None), (most, 0, most), (most, 0, most - 1), (most, 0, 1)):
        words = ["run", "-f", "svg", "--from", str(first), *(["--wrap", str(wrap)] if wrap else [])]
        yield Answer(words, SETTINGS + b"step,%d\n" % slots, drawn(slots, first, wrap), b"", 0)
    for slots, words in ((most + 1, []), (most + 2, ["--from", "1"]), (most + 1, ["--wrap", "1"])):
        yield Answer(["run", "-f", "svg", *words], SETTINGS + b"step,%d\n" % slots, b"", b"range too long\n", 2)
    for wrap in (0, most + 1):
        yield Answer(["run", "-f", "svg", "--wrap", str(wrap)], b"step\n", b"", b"--wrap takes a number of 1 to 4096\n", 2)


def at_limits():
    return [*lines(), *pages(), *pictures()]
