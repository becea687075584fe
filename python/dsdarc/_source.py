"""The bytes of a file, by their places: it doesn't matter who else reads the file, or where it was left."""
from __future__ import annotations

import builtins
import errno
import io
import os
import stat
import threading
import weakref
from typing import Any, Protocol


class Readable(Protocol):
    """What a binary file has to have."""

    def read(self, size: int, /) -> Any:
        """The next bytes, at most so many."""

    def seek(self, place: int, whence: int = 0, /) -> Any:
        """Goes to a place."""

    def tell(self) -> int:
        """The place of the next byte."""


File = str | bytes | os.PathLike[str] | os.PathLike[bytes] | Readable

# A file that several sounds read has one lock: who seeks in it also reads.
_locks: weakref.WeakValueDictionary[int, Any] = weakref.WeakValueDictionary()
_guard = threading.Lock()


def _lock_of(file: object) -> Any:
    with _guard:
        return _locks.setdefault(id(file), threading.RLock())


def after_fork() -> None:
    """Frees the locks in a new process, as those who hold them aren't in it."""
    global _guard
    _guard = threading.Lock()
    _locks.clear()


def _is_plain(file: Any) -> bool:
    """Whether a file is a regular one of the system, which can be read at any place past the object."""
    raw = file.raw if type(file) is io.BufferedReader else file
    return type(raw) is io.FileIO and stat.S_ISREG(os.fstat(raw.fileno()).st_mode)


def _seekable(file: Any) -> Any:
    """A binary file that seeks."""
    if not all(hasattr(file, it) for it in ("read", "seek", "tell")):
        raise TypeError(f"a file is a path or a binary file, and not {type(file).__name__}")
    if isinstance(file, io.TextIOBase):
        raise TypeError("the file was opened for text: open it for bytes, by 'rb'")
    if hasattr(file, "seekable") and not file.seekable():
        raise ValueError("the file doesn't seek, as a pipe: write it to a file first")
    return file


class Source:
    """A file at a path, or a binary file from where it is."""

    def __init__(self, file: File, closes: bool) -> None:
        self.forked = False  # another process has the same file, and may move it
        self._path: str | None = None
        if isinstance(file, (str, bytes, os.PathLike)):
            self.name, self._closes, self.start = os.fsdecode(file), closes, 0
            self._file: Any = builtins.open(file, "rb", buffering=0)
            self._by_number, self._path = self._file.seekable(), os.path.abspath(self.name)
        else:
            self._file, self._closes = _seekable(file), False
            self.name, self.start = str(getattr(file, "name", "")), file.tell()
            self._by_number = _is_plain(file)
        # What is read by its number has no place that others move.
        self._lock: Any = None if self._by_number else _lock_of(self._file)
        if isinstance(self._file, io.FileIO) and not self._file.seekable():
            self.close()
            raise ValueError("the file doesn't seek, as a pipe: write it to a file first")

    def again(self) -> Source:
        """The same file: opened once more if it was opened here."""
        return self if self._path is None else Source(self._path, True)

    def read(self, place: int, size: int) -> bytes:
        """At most so many bytes from a place on; none at the file's end."""
        if self._by_number:
            return os.pread(self._file.fileno(), size, place)
        if self.forked:
            raise ValueError("the file belongs to the process that opened it: open it in this one")
        with self._lock:
            self._file.seek(place)
            data = self._file.read(size)
        if isinstance(data, str):
            raise TypeError("the file was opened for text: open it for bytes, by 'rb'")
        if data is None:
            raise BlockingIOError(errno.EAGAIN, "the file has no bytes yet")
        return (data if isinstance(data, bytes) else bytes(memoryview(data)))[:size]

    def size(self) -> int:
        """Where the file ends now."""
        if self._by_number:
            state = os.fstat(self._file.fileno())
            # A device has no size. It was opened here, and nobody reads from where it is.
            return state.st_size if stat.S_ISREG(state.st_mode) else os.lseek(self._file.fileno(), 0, os.SEEK_END)
        if self.forked:
            raise ValueError("the file belongs to the process that opened it: open it in this one")
        with self._lock:
            self._file.seek(0, os.SEEK_END)
            return int(self._file.tell())

    def close(self) -> None:
        """Closes the file, if it was opened here."""
        if self._closes:
            self._file.close()
