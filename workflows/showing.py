"""Shows on a terminal how far a run is, as the program does: not in its first second, and gone at its end."""
import sys
import threading
import time
from collections.abc import Sequence

FIRST, EACH = 1.0, 0.2  # seconds to the first line, and from line to line


class Shown:
    """The line of a run over files of these sizes; where standard error is no terminal, nothing is shown."""

    def __init__(self, sizes: Sequence[int], done: str = "played") -> None:
        self.files, self.bytes, self.word = len(sizes), max(sum(sizes), 1), done
        self.done = self.read = self.widest = 0
        self.began, self.lock, self.stop = time.monotonic(), threading.Lock(), threading.Event()
        self.thread = threading.Thread(target=self.show, daemon=True) if sys.stderr.isatty() else None

    def __enter__(self) -> "Shown":
        if self.thread:
            self.thread.start()
        return self

    def __exit__(self, *_: object) -> None:
        self.stop.set()
        if self.thread:
            self.thread.join()
        if self.widest:
            self.say(f"\r{' ' * self.widest}\r")

    def step(self, size: int) -> None:
        """One more file of a size is done."""
        with self.lock:
            self.done += 1
            self.read += size

    def line(self) -> str:
        with self.lock:
            done, share = self.done, self.read / self.bytes
        left = (time.monotonic() - self.began) * (1 / share - 1) if share else None
        rest = "" if left is None else f", {left:.0f} s left"
        return f"{done} of {self.files} files, {100 * share:.0f} % {self.word}{rest}"

    def show(self) -> None:
        before, wait = "", FIRST
        while not self.stop.wait(wait):
            wait, line = EACH, self.line()
            if line != before:
                self.widest = max(self.widest, len(line))
                self.say(f"\r{line.ljust(self.widest)}")
                before = line

    def say(self, text: str) -> None:
        print(text, end="", file=sys.stderr, flush=True)
