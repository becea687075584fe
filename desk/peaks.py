"""The wave of a file: the least and the greatest of each channel over 512 frames, and over 4, 16 .. times as many.

The library plays the file once for this, some hundred times as fast as it is heard. What comes of it is kept in the
user's cache, by the file's device, inode, size and time, so that a file that was changed is played again. Finer waves are
made of frames when they are asked for."""
import contextlib
import hashlib
import os
import threading
from collections.abc import Callable
from concurrent.futures import ThreadPoolExecutor
from typing import Any

import numpy as np

from desk import cache
from desk.sound import Source
from dsdarc_scripts.outputs import Refused

BLOCK = 512  # frames of the finest level that is kept
STEP = 4  # how many blocks of a level are one of the next
COLUMNS = 1024  # of a tile
FINE = (1, 8, 32, 128)  # frames of a column that are made when they are asked for
READ = 128 * BLOCK  # frames that are played at a time
PART = 8 * READ  # frames of a part that one player plays
MOST_PLAYERS = 4  # side by side
MAGIC = b"dsdarc peaks 1\n\0"


def key_of(source: Source) -> str:
    """The name of a file's peaks."""
    it = os.stat(source.path)
    parts = (it.st_dev, it.st_ino, it.st_size, it.st_mtime_ns, source.rate, source.frames, source.count)
    return hashlib.sha256(repr(parts).encode()).hexdigest()[:32]


def sizes_of(frames: int) -> list[int]:
    """How many blocks each level has, up to the first with one tile."""
    found = [-(-frames // BLOCK)]
    while found[-1] > COLUMNS:
        found.append(-(-found[-1] // STEP))
    return found


def coarser(level: np.ndarray) -> np.ndarray:
    """The next level."""
    spare = -len(level) % STEP
    rows = np.concatenate([level, np.repeat(level[-1:], spare, axis=0)]) if spare else level
    parts = rows.reshape(-1, STEP, *rows.shape[1:])
    return np.stack([parts[..., 0].min(axis=1), parts[..., 1].max(axis=1)], axis=-1)


def extremes(numbers: np.ndarray, block: int, width: int) -> np.ndarray:
    """The least and the greatest of each channel in blocks of frames, in 16 bits."""
    spare = -len(numbers) % block
    rows = np.concatenate([numbers, np.repeat(numbers[-1:], spare, axis=0)]) if spare else numbers
    columns = np.ascontiguousarray(rows.T).reshape(rows.shape[1], -1, block)
    found = np.stack([columns.min(axis=2), columns.max(axis=2)], axis=-1)
    return (found >> (width - 16)).astype(np.int16).transpose(1, 0, 2)


class Parts:
    """The parts of a file that several players share."""

    def __init__(self, frames: int) -> None:
        self.frames, self.count, self.next = frames, -(-frames // PART), 0
        self.ended, self.lock, self.whole = set[int](), threading.Lock(), 0

    def take(self) -> tuple[int, int] | None:
        """The frames of the next part."""
        with self.lock:
            if self.next == self.count:
                return None
            number, self.next = self.next, self.next + 1
        return number * PART, min((number + 1) * PART, self.frames)

    def end(self, part: tuple[int, int]) -> int:
        """Notes that a part was played: up to where all were."""
        with self.lock:
            self.ended.add(part[0] // PART)
            while self.whole in self.ended:
                self.whole += 1
            return min(self.whole * PART, self.frames)


class Peaks:
    """The peaks of a file. `done` is how many of its frames were played."""

    def __init__(self, source: Source) -> None:
        self.source, self.sizes, self.done = source, sizes_of(source.frames), 0
        self.levels: list[np.ndarray] = []
        self.why: str | None = None
        self.is_stopped = threading.Event()
        self.load()

    @property
    def is_ready(self) -> bool:
        return self.done >= self.source.frames

    def loudest(self) -> int | None:
        """The greatest peak, in 16 bits, of what was played; nothing before anything was."""
        levels = self.levels
        if not levels or not self.done or not levels[-1].size:
            return None
        return max(-int(levels[-1].min()), int(levels[-1].max()))

    def news(self, name: str) -> dict[str, Any]:
        """What pages are told: how many frames were played, the greatest peak of them, and why there are no more."""
        return {"source": name, "done": self.done, "of": self.source.frames, "peak": self.loudest(), "why": self.why}

    def shape(self, level: int) -> tuple[int, int, int]:
        return self.sizes[level], self.source.count, 2

    def path(self) -> str:
        return os.path.join(cache.folder(), f"{key_of(self.source)}.peaks")

    def load(self) -> None:
        """Takes what the cache has of the file, if it is whole."""
        wanted = len(MAGIC) + sum(it * self.source.count * 4 for it in self.sizes)
        try:
            path = self.path()
            with open(path, "rb") as file:
                if os.fstat(file.fileno()).st_size != wanted or file.read(len(MAGIC)) != MAGIC:
                    return
            os.utime(path)
            at, levels = len(MAGIC), []
            for level in range(len(self.sizes)):
                shape = self.shape(level)
                levels.append(np.memmap(path, "<i2", "r", at, shape) if shape[0] else np.zeros(shape, np.int16))
                at += int(np.prod(shape)) * 2
        except (OSError, ValueError):
            return
        self.levels, self.done = levels, self.source.frames

    def make(self, say: Callable[[], None]) -> None:
        """Plays the file, and keeps its peaks. `say` is called now and then."""
        if self.is_ready:
            return
        base = np.zeros(self.shape(0), np.int16)
        self.levels = [base]
        parts = Parts(self.source.frames)
        count = min(os.cpu_count() or 1, MOST_PLAYERS, parts.count)
        with ThreadPoolExecutor(max(count, 1)) as pool:
            tasks = [pool.submit(self.play, base, parts, say) for _ in range(count)]
            for it in tasks:
                try:
                    it.result()
                except Exception as error:  # the file vanished, or is broken further on
                    self.is_stopped.set()
                    self.why = getattr(error, "strerror", None) or str(error)
        if self.why is not None:
            say()
            return
        if not self.is_stopped.is_set():
            for _ in self.sizes[1:]:
                self.levels.append(coarser(self.levels[-1]))
            with contextlib.suppress(OSError):
                self.keep()

    def play(self, base: np.ndarray, parts: "Parts", say: Callable[[], None]) -> None:
        """Plays parts of the file, as long as there are some."""
        scanner = Source(self.source.path)
        try:
            while not self.is_stopped.is_set() and (part := parts.take()) is not None:
                first, stop = part
                for place in range(first, stop, READ):
                    if self.is_stopped.is_set():
                        return
                    rows = extremes(scanner.numbers(place, min(READ, stop - place)), BLOCK, scanner.width)
                    base[place // BLOCK : place // BLOCK + len(rows)] = rows
                self.done = parts.end(part)
                say()
        finally:
            scanner.close()

    def keep(self) -> None:
        """Writes the peaks to the cache."""
        cache.written(os.path.basename(self.path()), [MAGIC, *(it.astype("<i2").tobytes() for it in self.levels)])

    def tile(self, block: int, index: int) -> tuple[bytes, bool]:
        """The columns of a tile, each of that many frames, and whether they stay as they are."""
        if index < 0 or index * COLUMNS * block > self.source.frames:
            raise Refused("there is no such tile")
        if block in FINE:
            first = index * COLUMNS * block
            count = min(COLUMNS * block, self.source.frames - first)
            numbers = self.source.numbers(first, count)
            found = extremes(numbers, block, self.source.width) if count else numbers[:0]
            return found.astype("<i2").tobytes(), True
        levels, step = self.levels, BLOCK
        if block < BLOCK or (block // BLOCK).bit_count() != 1 or block % BLOCK:
            raise Refused("there is no such tile")
        if not levels:
            return b"", False
        level = 0
        while step < block and level + 1 < len(levels):
            step, level = step * STEP, level + 1
        more = block // step  # what isn't there yet is made of what is
        rows = np.asarray(levels[level][index * COLUMNS * more : (index + 1) * COLUMNS * more])
        while more > 1 and len(rows):
            rows, more = coarser(rows), more // STEP
        return rows.astype("<i2").tobytes(), self.is_ready or (index + 1) * COLUMNS * block <= self.done
