"""A file whose bytes a player gets."""
from __future__ import annotations

from collections.abc import Callable

import numpy
import numpy.typing

from dsdarc._library import PACKED, Description, Fault, Info, NotCopied, Player
from dsdarc._source import Source

Bits = numpy.typing.NDArray[numpy.uint8]

BLOCK = 65536  # bytes that are read and pushed at once
NONE: Bits = numpy.frombuffer(b"", numpy.uint8)


class Feed(NotCopied):
    """A player of its own for a file, which has the bytes that state its sound. Who chooses how the sound is given calls
    `chosen` then. After an exception it has to go to a frame before anything else."""

    def __init__(self, source: Source, name: str) -> None:
        self._source: Source | None = source
        self.name = name
        self._rest, self._next = NONE, source.start  # bytes to be pushed, and the place of those after them
        self.player = Player(name)
        stop = source.size()
        while (described := self.player.describe()) is None and self.push(stop):
            pass
        if described is None:
            self.player.end(name)
            raise Fault("FileRefused", name)
        self.described: Description = described

    def _opened(self) -> Source:
        if self._source is None:
            raise ValueError("the sound is closed")
        return self._source

    def chosen(self) -> Info:
        """What is given, once it was chosen how."""
        info = self.player.info()
        if info is None:
            raise Fault("NoChoice", self.name)
        return info

    def push(self, stop: int | None = None) -> bool:
        """Pushes what comes next of the file, up to a place of it; whether there was something."""
        source, rest = self._opened(), self._rest
        if len(rest) == 0:
            size = BLOCK if stop is None else min(BLOCK, stop - self._next)
            data = source.read(self._next, size) if size > 0 else b""
            if len(data) == 0:
                return False
            rest = numpy.frombuffer(data, numpy.uint8)
            self._next += len(data)
        taken = self.player.push(rest.ctypes.data, len(rest), self.name)
        self._rest = rest[taken:]
        return True

    def pull(self, place: int, frames: int, format: int) -> int:
        """Gives frames to a place in memory: how many."""
        return self.player.pull(place, frames, format, self.name)

    def go(self, frame: int) -> None:
        """Goes to a frame: the bytes from there on come next."""
        offset = self.player.seek(frame, self.name)
        self._rest, self._next = NONE, self._opened().start + offset

    def end(self) -> None:
        """Pushes the file to where it ends now, and asks whether it holds a recording."""
        stop = self._opened().size()
        while self.push(stop):
            pass
        self.player.end(self.name)

    def drop(self) -> None:
        """Frees the player."""
        self._source = None
        self.player.drop()

    def forget(self) -> None:
        """Leaves the player as it is, in a process that has it amid a call of another one."""
        self.player.forget()


class Stored(Feed):
    """A file whose bits are given as they are stored, as bytes of which the most significant bit is the earliest, and what
    it says beside its sound."""

    def __init__(self, source: Source, name: str) -> None:
        super().__init__(source, name)
        self.player.bits(name)
        self.rows = self.chosen().frames
        self._at = 0  # the row that comes next
        self._fault: Fault | None = None  # which is raised after the rows that were given before it

    @property
    def is_refused(self) -> bool:
        """Whether it is of no further use."""
        return self._fault is not None

    def fill(self, first: int, out: Bits) -> None:
        """Fills an array with rows from one on. If the file is refused anywhere in them, that fault is raised; and if they
        are the last, also if the file holds no recording."""
        done = 0
        while done < len(out):
            done += self.some(first + done, out[done:])
        if len(out) > 0 and first + done == self.rows:
            self.judge()

    def some(self, first: int, out: Bits) -> int:
        """Fills an array with rows from one on, and returns how many. There are fewer than fit, but at least one, where the
        file is refused: the next call raises that fault."""
        if self._fault is not None:
            raise self._fault
        if first != self._at:
            self.go(first)
            self._at = first
        done, place, step = 0, out.ctypes.data, out.strides[0]
        while done < len(out):
            count = self.pull(place + done * step, len(out) - done, PACKED)
            done += count
            self._at += count
            try:
                if count == 0 and not self.push():
                    break
            except Fault as fault:
                self._fault = fault.with_traceback(None)
                break
        if done == 0 < len(out):
            if self._fault is None:
                self.end()
            raise self._fault or Fault("FileRefused", self.name)
        return done

    def judge(self) -> None:
        """Asks whether the file, as it is now, holds a recording."""
        if self._at != self.rows:
            self.go(self.rows)
            self._at = self.rows
        self.end()

    def described_after(self, is_enough: Callable[[Description], bool]) -> Description:
        """What is known once what follows the sound was pushed too, or as much of it as is enough."""
        self.go(self.rows)
        self._at = self.rows
        stop, size = self._opened().size(), BLOCK
        while True:
            end = min(self._next + size, stop)
            while self.push(end):
                pass
            described = self.player.describe()
            if described is None or end >= stop or is_enough(described):
                return described or self.described
            size *= 2
