"""A file that is played: its frames, from any place on."""
from __future__ import annotations

import operator
import os
import threading
import weakref
from collections.abc import Iterator
from types import TracebackType
from typing import Any, Literal, SupportsIndex

import numpy
import numpy.typing

from dsdarc import _source
from dsdarc._described import Mark, channels_of, marks_of, spoken, tag_of
from dsdarc._feed import Bits, Feed, Stored
from dsdarc._filters import Filter, Path, Ready, choose, warn_of_rate
from dsdarc._joined import Joined
from dsdarc._library import S32, Fault, NotCopied
from dsdarc._source import File, Source

Numbers = numpy.typing.NDArray[Any]

PIECE = 65536  # frames that are turned into other numbers at once
DTYPES = ("float64", "float32", "int32", "int16", "native")

_sounds: weakref.WeakSet[Sound] = weakref.WeakSet()


class Sound(NotCopied):
    """A file that is played by a filter. Frames are read from the current position; `seek` moves it.

    Whatever interrupts a call, the next one goes on from the frame that `tell` gives: it is moved last, when all else
    is done, and a player that may be anywhere else (`_stale`) is first sent there."""

    def __init__(
        self,
        file: File | Source,
        filter: Path | Filter | Ready = Ready.BEST,
        closes: bool = True,
        speakers: bool = False,
    ) -> None:
        self._feed: Feed | None = None
        self._source: Source | None = None
        # Calls in C let other threads run, and a player belongs to one call at a time.
        self._lock = threading.RLock()
        self._at, self._stale, self._ended = 0, True, False
        self._turn = object()  # the call that moves the player now
        self._owed: Exception | None = None  # what is raised after the frames that were given before it
        self._is_lost = False  # the player was left in another process
        self._stored: Stored | None = None  # by which the stored bits are read; a call that uses it takes it away
        try:
            self._source = file if isinstance(file, Source) else Source(file, closes)
            self.name = self._source.name
            feed = Feed(self._source, self.name)
            self._described = feed.described
            self._filter = choose(filter, feed.player, feed.described.rate, self.name)
            self.info, self._feed = feed.chosen(), feed
            self._stale = False
            self.channels = channels_of(feed.described)
            self._order: list[int] | None = None  # of the file's channels
            if speakers:
                self.channels, self._order = spoken(self.channels)
            if self._filter.path is not None:
                warn_of_rate(self._filter.path, self.info.source_rate, self.name)
        except BaseException:
            self.close()
            raise
        self.samplerate, self.frames = self.info.samplerate, self.info.frames
        source = self._source
        # What is played: one file, or several that are joined, and the frames with which they begin.
        self.files = source.names if isinstance(source, Joined) else (self.name,)
        factor = self.info.source_rate // self.samplerate
        self.starts = tuple(-(-bit // factor) for bit in source.bits) if isinstance(source, Joined) else (0,)
        _sounds.add(self)

    def _opened(self) -> Source:
        if self._source is None:
            raise ValueError("the sound is closed")
        return self._source

    def _begun(self) -> tuple[Feed, object]:
        """The player, where `tell` says, for a call that moves it. It is known as another call's until `_done`."""
        if self._feed is None:
            raise ValueError("the sound is closed")
        owed, self._owed = self._owed, None
        if isinstance(owed, Fault):
            raise owed
        turn = self._turn = object()
        if self._is_lost:
            self._make_again()
        if self._stale:
            self._place(self._feed, self._at)
        self._stale = True
        return self._feed, turn

    def _done(self, turn: object, frame: int) -> None:
        """Ends a call that moved the player: it is at this frame now."""
        self._demand(turn)
        self._at = frame
        self._stale = False

    def _demand(self, turn: object) -> None:
        """A handler of a signal may have called the same sound amid this call."""
        if self._turn is not turn:
            raise RuntimeError("another call of the same thread moved the sound meanwhile")

    def _place(self, feed: Feed, frame: int) -> None:
        """Has the player go to a frame, and the bytes from there on come next."""
        self._stale = True
        feed.go(frame)
        self._ended = False

    def _make_again(self) -> None:
        """Makes the player that was left in another process."""
        feed = Feed(self._opened(), self.name)
        if not self._filter.choose(feed.player, self.name) or feed.chosen() != self.info:
            raise Fault("FileRefused", f"{self.name} isn't the file that was opened")
        self._feed, self._stale, self._is_lost = feed, True, False

    def read_into(self, out: Numbers) -> int:
        """Fills an int32 array of frames by channels, as far as there are frames: how many. At the end of the file its
        end is looked at, as `dsdarc play` does."""
        with self._lock:
            self._opened()
            flags = out.flags if isinstance(out, numpy.ndarray) and out.dtype == numpy.int32 else None
            if flags is None or out.ndim != 2 or out.shape[1] != self.channels:
                raise ValueError(f"out is no int32 array of {self.channels} columns")
            if not flags.c_contiguous or not flags.writeable:
                raise ValueError("out is not C-contiguous, or can't be written")
            return self._read(out[: self.frames - self._at], "native")

    def read(
        self, frames: SupportsIndex | None = -1, dtype: Any = None, always_2d: bool = False, out: Any = None
    ) -> Numbers:
        """The next frames, all for -1: an array with a row for each frame, or flat for one channel. As int32 the samples
        are the numbers of the WAVE file, shifted to 32 bits as soundfile has them; as int16 the same in 16 bits, for
        filters of that width; as float32 or float64, the default, they go from -1 to 1; as "native" they are the numbers
        alone.

        With `out` they are written there, at most as many as it has room for, and the part of it that was filled is
        returned: an array, or what else has a buffer that can be written, of one of these types. It has a column for
        each channel, or it is flat: then a frame's samples follow each other.

        Fewer frames are given where the file ends, or where it is refused: the next call raises that fault, or `close`.
        """
        wanted = -1 if frames is None else operator.index(frames)
        if out is not None:
            return self._read_out(out, wanted, dtype)
        kind = self._kind(dtype)
        with self._lock:
            self._opened()
            left = self.frames - self._at
            numbers = numpy.empty((left if wanted < 0 else min(wanted, left), self.channels), kind)
            numbers = numbers[: self._read(numbers, dtype)]
        return numbers if always_2d or self.channels > 1 else numbers[:, 0]

    def _read_out(self, out: Any, wanted: int, dtype: Any) -> Numbers:
        """Fills what has a buffer, and returns the part of it that was filled."""
        numbers = _array_of(out)
        kind = self._kind(numbers.dtype if dtype is None else dtype)
        if numbers.dtype != kind:
            raise ValueError(f"out has numbers of {numbers.dtype}, and not of {kind}")
        is_flat = numbers.ndim == 1
        if (
            numbers.ndim not in (1, 2)
            or numbers.size % self.channels
            or not is_flat
            and numbers.shape[1] != self.channels
        ):
            raise ValueError(f"out has neither {self.channels} columns nor whole frames of {self.channels} samples")
        if not numbers.flags.c_contiguous or not numbers.flags.writeable:
            raise ValueError("out is not C-contiguous, or can't be written")
        rows = numbers.reshape(-1, self.channels)
        with self._lock:
            self._opened()
            left = min(len(rows), self.frames - self._at)
            count = self._read(rows[: left if wanted < 0 else min(wanted, left)], dtype)
        return numbers[: count * self.channels if is_flat else count]

    def _read(self, out: Numbers, dtype: object) -> int:
        """Fills an array from the current position on, as far as there are frames: how many."""
        feed, turn = self._begun()
        try:
            return self._read_on(feed, turn, out, dtype)
        except BaseException:
            self._stale = True  # also if a handler of a signal called the same sound amid this call
            raise

    def _read_on(self, feed: Feed, turn: object, out: Numbers, dtype: object) -> int:
        at, done = self._at, 0
        while done < len(out):
            piece = out[done : done + PIECE]
            count = self._convert(feed, piece, dtype)
            done += count
            if count < len(piece):
                break
        owed = self._owed
        if owed is None and not self._ended and (done < len(out) or at + done == self.frames):
            self._demand(turn)
            owed = self._ends(feed)
        # Frames come before the fault; and all that were asked for, before what keeps the end from being read.
        if owed is not None:
            self._owed = None
            if done == 0 or (done < len(out) and not isinstance(owed, Fault)):
                raise owed
            self._owed = owed.with_traceback(None)
        self._done(turn, at + done)
        return done

    def _convert(self, feed: Feed, out: Numbers, dtype: object) -> int:
        """Fills a piece of an array with frames as its numbers: how many."""
        # The library writes numbers of 32 bits to an aligned place.
        numbers = out if out.dtype == numpy.int32 and out.flags.aligned else numpy.empty(out.shape, numpy.int32)
        count = self._fill(feed, numbers)
        if self._order is not None:
            numbers[:count] = numbers[:count, self._order]
        if out.dtype == numpy.int32:
            if not (isinstance(dtype, str) and dtype == "native"):
                numpy.left_shift(numbers[:count], 32 - self.info.width, out=numbers[:count])
            if numbers is not out:
                out[:count] = numbers[:count]
        elif out.dtype == numpy.int16:
            out[:count] = numbers[:count]
        else:
            # Numbers of 24 bits are exact in both.
            numpy.multiply(numbers[:count], out.dtype.type(2.0 ** (1 - self.info.width)), out=out[:count])
        return count

    def _fill(self, feed: Feed, out: Numbers) -> int:
        """Fills an array with the player's numbers, as far as it gives some: how many. A fault is owed then."""
        done, place, step = 0, out.ctypes.data, out.strides[0]
        while done < len(out):
            count = feed.pull(place + done * step, len(out) - done, S32)
            done += count
            try:
                if count == 0 and not feed.push():
                    break
            except Fault as fault:
                self._owed = fault
                break
        return done

    def _ends(self, feed: Feed) -> Exception | None:
        """Reads the file to where it ends now, and asks whether it holds a recording: what says that it doesn't."""
        try:
            feed.end()
        except Exception as error:
            return error
        self._ended = True
        return None

    def _kind(self, dtype: Any) -> numpy.dtype[Any]:
        """The type of the numbers that are asked for; None is float64, as it is for numpy."""
        if isinstance(dtype, str) and dtype == "native":
            return numpy.dtype(numpy.int32)
        kind = None
        try:
            kind = numpy.dtype(dtype)
        except TypeError:
            pass
        if kind is None or kind.name not in DTYPES or not kind.isnative:
            raise ValueError(f"dtype is one of {', '.join(DTYPES)}, and not {dtype!r}")
        if kind == numpy.int16 and self.info.width != 16:
            raise ValueError(f"the filter plays {self.info.width} bits, which int16 doesn't hold")
        return kind

    def blocks(
        self, frames: SupportsIndex = 65536, dtype: Any = "float64", always_2d: bool = False
    ) -> Iterator[Numbers]:
        """The frames from here to the end, in arrays of so many; the last may have fewer."""
        if operator.index(frames) < 1:
            raise ValueError(f"a block has at least one frame, and not {frames}")
        self._kind(dtype)
        return self._blocks(frames, dtype, always_2d)

    def _blocks(self, frames: SupportsIndex, dtype: Any, always_2d: bool) -> Iterator[Numbers]:
        while self._at < self.frames:
            yield self.read(frames, dtype, always_2d)
        if not self._ended:
            self.read(0)  # nothing has looked at the end yet, or what it found is still to be raised

    def __iter__(self) -> Iterator[Numbers]:
        return self.blocks()

    def __len__(self) -> int:
        return self.frames

    def bits(self, start: SupportsIndex = 0, count: SupportsIndex | None = None) -> Bits:
        """The stored bits, wherever the sound is: a row for each 8 bits of the channels, with a byte of each. The most
        significant bit of a byte is the earliest. `start` is the first row, and `count` how many there are at most. If
        the bits don't fill the last byte, zeros do. A file that is refused anywhere in these rows gives none."""
        first, stop, rest = operator.index(start), -(-self.bit_count // 8), self.bit_count % 8
        if not 0 <= first <= stop:
            raise ValueError(f"there is no row {first}: there are {stop}")
        rows = stop - first if count is None else min(max(operator.index(count), 0), stop - first)
        out = numpy.empty((rows, self.channels), numpy.uint8)
        with self._lock:
            stored = self._take_stored()
            stored.fill(first, out)
            self._stored = stored
        if rest and first + rows == stop:
            out[-1:] &= 256 - (256 >> rest)
        return out

    @property
    def bit_count(self) -> int:
        """How many bits of each channel are stored."""
        self._opened()
        return self._described.bits

    def _take_stored(self) -> Stored:
        """The player of the stored bits, for this call alone: who amid it calls the same sound gets another one. It is put
        back if nothing was raised."""
        source = self._opened()
        stored, self._stored = self._stored, None
        if stored is None:
            stored = Stored(source, self.name)
            if stored.described != self._described:
                raise Fault("FileRefused", f"{self.name} isn't the file that was opened")
        return stored

    @property
    def tag(self) -> Any:
        """The ID3 tag, as `mutagen.id3.ID3` has it; None if there is none."""
        with self._lock:
            stored = self._take_stored()
            tag = tag_of(stored, self._opened())
            self._stored = stored
        return tag

    @property
    def marks(self) -> list[Mark]:
        """The marks of a DSDIFF file, in its order. A DSF file has none."""
        with self._lock:
            stored = self._take_stored()
            marks = marks_of(stored, self._opened())
            self._stored = stored
        return marks

    def seek(self, frame: SupportsIndex, whence: int = os.SEEK_SET) -> int:
        """Goes to a frame, counted from the start, from here or from the end; returns its number."""
        number = operator.index(frame)
        with self._lock:
            self._opened()
            bases = {os.SEEK_SET: 0, os.SEEK_CUR: self._at, os.SEEK_END: self.frames}
            if whence not in bases:
                raise ValueError(f"whence is SEEK_SET, SEEK_CUR or SEEK_END, and not {whence!r}")
            number += bases[whence]
            if not 0 <= number <= self.frames:
                raise ValueError(f"there is no frame {number}: there are {self.frames}")
            feed, turn = self._begun()
            try:
                self._place(feed, number)
                self._done(turn, number)
            except BaseException:
                self._stale = True
                raise
        return number

    def tell(self) -> int:
        """The number of the next frame."""
        self._opened()
        return self._at

    @property
    def closed(self) -> bool:
        return self._feed is None

    def close(self) -> None:
        """Frees the player, and closes the file if it was opened here. Then it raises what an earlier call found after
        the frames that it gave, if no other call has raised it."""
        with self._lock:
            feeds, self._feed, self._stored = (self._feed, self._stored), None, None
            source, self._source = self._source, None
            owed, self._owed = self._owed, None
            for feed in feeds:
                if feed is not None:
                    feed.drop()
            if source is not None:
                source.close()
        if owed is not None:
            raise owed

    def __enter__(self) -> Sound:
        return self

    def __exit__(
        self, kind: type[BaseException] | None, why: BaseException | None, trace: TracebackType | None
    ) -> Literal[False]:
        if kind is not None:
            self._owed = None
        self.close()
        return False

    def __repr__(self) -> str:
        return f"<dsdarc.Sound {self.name!r}: {'closed' if self.closed else self.info}>"

    def _is_forked(self) -> None:
        """Notes that the sound is in a new process: no thread of the old one is in it, and may have been amid a
        call."""
        if self._source is not None:
            self._source.forked = True
        if self._lock.acquire(blocking=False):
            self._lock.release()
            return
        self._lock = threading.RLock()
        if self._feed is not None:
            self._feed.forget()
            self._is_lost = True


def _array_of(out: Any) -> Numbers:
    """The array over a buffer, which has its shape and its type."""
    if isinstance(out, numpy.ndarray):
        return out
    try:
        return numpy.asarray(memoryview(out))
    except (TypeError, ValueError):
        raise TypeError(f"out is an array or a buffer of numbers, and not {type(out).__name__}") from None


def _after_fork() -> None:
    _source.after_fork()
    for sound in list(_sounds):
        sound._is_forked()


os.register_at_fork(after_in_child=_after_fork)
