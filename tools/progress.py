"""Long work, told as it goes: what is done, and for how many seconds already."""
import shutil
import subprocess
import sys
import tempfile
import time

# Seconds between two lines about the same work: on a terminal the line is written over.
TERMINAL, ELSEWHERE = 1, 10


class Failed(Exception):
    """What went wrong, in lines for people."""


class Progress:
    """Tells, in the name of a tool, what is done and how far it is."""

    def __init__(self, tool):
        self.tool, self.is_terminal = tool, sys.stdout.isatty()

    def say(self, text):
        """Writes a line."""
        print(f"{self.tool}: {text}", flush=True)

    def run(self, what, words, far=None, **how):
        """Runs these words, and gives what they wrote. `far` tells how far they are, where something can; Failed has the end
        of what was written where they fail."""
        self.say(what)
        begun, told = time.monotonic(), time.monotonic()
        with tempfile.TemporaryFile() as said:
            how |= {"stdin": subprocess.DEVNULL, "stdout": said, "stderr": subprocess.STDOUT}
            process = subprocess.Popen([str(it) for it in words], **how)
            while process.poll() is None:
                time.sleep(0.2)
                if time.monotonic() - told >= (TERMINAL if self.is_terminal else ELSEWHERE):
                    told = time.monotonic()
                    self.tell(what, int(told - begun), far() if far else "")
            if self.is_terminal:
                print("\r\033[K", end="", flush=True)
            said.seek(0)
            text = said.read().decode(errors="replace")
        if process.returncode:
            raise Failed(f"{what}: status {process.returncode}\n{text[-3000:].strip()}")
        return text

    def tell(self, what, seconds, far):
        """Tells how long the work has been going on."""
        passed = f"{seconds // 60} min {seconds % 60} s" if seconds >= 60 else f"{seconds} s"
        line = f"{self.tool}: .. {what}, {passed}{f', {far}' if far else ''}"
        if self.is_terminal:
            print(f"\r\033[K{line[:shutil.get_terminal_size().columns - 1]}", end="", flush=True)
        else:
            print(line, flush=True)
