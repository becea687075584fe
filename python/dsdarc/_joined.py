"""Files that follow each other, as one: a DSDIFF file that isn't there, whose sound is that of the files."""
from __future__ import annotations

import bisect
import contextlib
import itertools
from collections.abc import Iterator, Sequence

import numpy

from dsdarc._described import ids_of
from dsdarc._feed import Feed, Stored
from dsdarc._library import Description, Fault
from dsdarc._source import File, Source
from dsdarc._writing import begin_dff

MOST_OPEN = 2  # files that are open at once
# A chunk after the sound: before it is read, the last file is judged.
AFTER = b"JOIN" + bytes(8)


class Entry:
    """A file of a list: what it holds, and its bytes, which are opened again for as long as they are read."""

    def __init__(self, file: File) -> None:
        self.source = Source(file, closes=True)
        self.name = self.source.name
        try:
            feed = Feed(self.source, self.name)
            self.described: Description = feed.described
            feed.drop()
        finally:
            self.source.close()

    @property
    def rows(self) -> int:
        """How many bytes of each channel there are."""
        return -(-self.described.bits // 8)


class Joined(Source):
    """Files of the same rate and channels, whose sounds end on whole bytes."""

    def __init__(self, entries: Sequence[Entry]) -> None:
        self.name = f"{entries[0].name} to {entries[-1].name}"
        self.start, self._entries = 0, tuple(entries)
        it = entries[0].described
        self._channels = it.channels
        self._begins = [0, *itertools.accumulate(entry.rows for entry in entries)]
        size = self._begins[-1] * self._channels
        self._after = bytes(size % 2) + AFTER
        self._front = begin_dff(it.rate, ids_of(it), size, len(AFTER))
        self._stop = len(self._front) + size
        self._open: dict[int, tuple[Source, Stored]] = {}  # who uses one takes it away
        self._judged: set[int] = set()

    @property
    def names(self) -> tuple[str, ...]:
        return tuple(entry.name for entry in self._entries)

    @property
    def bits(self) -> list[int]:
        """Where each file begins: bits of a channel."""
        return [8 * rows for rows in self._begins[:-1]]

    @property
    def forked(self) -> bool:
        return any(entry.source.forked for entry in self._entries)

    @forked.setter
    def forked(self, is_forked: bool) -> None:
        for entry in self._entries:
            entry.source.forked = is_forked

    def again(self) -> Source:
        return Joined(self._entries)

    def size(self) -> int:
        return self._stop + len(self._after)

    def read(self, place: int, size: int) -> bytes:
        """At most so many bytes from a place on; fewer, and then a fault, where a file is refused."""
        if place < len(self._front):
            return self._front[place : place + size]
        if place < self._stop:
            return self._of_sound(place - len(self._front), size)
        self._judge_before(len(self._entries))
        return self._after[place - self._stop :][:size]

    def _of_sound(self, place: int, size: int) -> bytes:
        """Bytes of the file that has the byte at this place of the sound."""
        row, byte = divmod(place, self._channels)
        number = bisect.bisect_right(self._begins, row) - 1
        first = row - self._begins[number]
        if first == 0:
            self._judge_before(number)
        rows = min(-(-(byte + size) // self._channels), self._entries[number].rows - first)
        out = numpy.empty((rows, self._channels), numpy.uint8)
        with self._using(number) as stored:
            given = stored.some(first, out)
        return out[:given].tobytes()[byte : byte + size]

    def _judge_before(self, number: int) -> None:
        """Asks whether the file before one holds a recording, whose last byte was read; and those before it without
        sound."""
        while number > 0:
            number -= 1
            if number not in self._judged:
                with self._using(number) as stored:
                    stored.judge()
                self._judged.add(number)
            if self._entries[number].rows > 0:
                break

    @contextlib.contextmanager
    def _using(self, number: int) -> Iterator[Stored]:
        """The bits of a file, for one call alone: who amid it reads the same file opens it once more."""
        held = self._open.pop(number, None)
        source, stored = self._opened(number) if held is None else held
        try:
            yield stored
        except BaseException:
            source.close()
            raise
        if stored.is_refused:
            source.close()
            return
        self._open[number] = (source, stored)
        for other in list(self._open)[:-MOST_OPEN]:
            self._leave(other)

    def _opened(self, number: int) -> tuple[Source, Stored]:
        entry = self._entries[number]
        source = entry.source.again()
        try:
            stored = Stored(source, entry.name)
            if stored.described != entry.described:
                raise Fault("FileRefused", f"{entry.name} isn't the file that was opened")
        except BaseException:
            source.close()
            raise
        return source, stored

    def _leave(self, number: int) -> None:
        """Closes a file, if it was opened here."""
        source, stored = self._open.pop(number)
        stored.drop()
        source.close()

    def close(self) -> None:
        for number in list(self._open):
            self._leave(number)
