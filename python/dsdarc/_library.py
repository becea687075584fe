"""The library for programs in C: where it is, and its calls."""
from __future__ import annotations

import ctypes
import ctypes.util
import os
from collections.abc import Iterator
from typing import NamedTuple, NoReturn, SupportsIndex

HERE = os.path.dirname(os.path.realpath(__file__))
PACKED, S32 = 0, 1
FORM = 1  # a DSDIFF file
OK, MEMORY, PROCESSOR, NO_FILTER = 0, 3, 19, 21
MOST_BYTES = 1 << 28  # bytes: as much as a player holds before a sound, or after it


class Info(NamedTuple):
    """What is played: hertz, channels, frames, bits of a sample, and the hertz of the file."""

    samplerate: int
    channels: int
    frames: int
    width: int
    source_rate: int


class Fault(RuntimeError):
    """What the library refuses: `name` is the fault's name, as "FileRefused"."""

    def __init__(self, name: str, what: str = "") -> None:
        super().__init__(f"{name}: {what}" if what else name)
        self.name = name
        self._what = what

    def __reduce__(self) -> tuple[type[Fault], tuple[str, str]]:
        return type(self), (self.name, self._what)


class NotCopied:
    """What has a place of its own in memory, or an open file: no copy of it can be made."""

    def __reduce_ex__(self, protocol: SupportsIndex) -> NoReturn:
        raise TypeError(f"a {type(self).__name__} can't be copied or pickled: open the file once more")


class _Info(ctypes.Structure):
    _fields_ = [
        ("frames", ctypes.c_uint64),
        ("rate_in", ctypes.c_uint32),
        ("rate", ctypes.c_uint32),
        ("channels", ctypes.c_uint32),
        ("width", ctypes.c_uint32),
    ]


class _Description(ctypes.Structure):
    _fields_ = [
        *((name, ctypes.c_uint64) for name in ("bits", "frames", "tag", "tag_size")),
        *(
            (name, ctypes.c_uint32)
            for name in ("rate_in", "rate", "width", "channels", "mask", "form", "type", "marks")
        ),
        ("ids", ctypes.c_char * 24),
    ]


class _Mark(ctypes.Structure):
    _fields_ = [
        ("place", ctypes.c_int64),
        *((name, ctypes.c_uint32) for name in ("type", "channel", "flags", "length")),
        ("title", ctypes.c_uint64),
    ]


class _Wish(ctypes.Structure):
    _fields_ = [(name, ctypes.c_uint32) for name in ("rate_in", "rate", "width", "gain")]


class Description(NamedTuple):
    """What a file holds: bits of each channel, hertz, channels, their mask and their IDs, how many marks are known, and
    the place of the tag, with its bytes; 0 if none is known."""

    bits: int
    rate: int
    channels: int
    mask: int
    ids: bytes
    is_form: bool
    marks: int
    tag: int
    tag_size: int


class StatedMark(NamedTuple):
    """A mark of a file: bits from the start of the sound, its type, channel and flags, the place of its title in the file,
    and the bytes of that."""

    place: int
    type: int
    channel: int
    flags: int
    title: int
    length: int


_size, _pointer, _status = ctypes.c_size_t, ctypes.c_void_p, ctypes.c_int
_CALLS = {
    "dsdarc_player_new": (_status, [ctypes.c_char_p, _size, ctypes.POINTER(_pointer)]),
    "dsdarc_player_new_empty": (_status, [ctypes.POINTER(_pointer)]),
    "dsdarc_player_filter": (_status, [_pointer, ctypes.c_char_p, _size]),
    "dsdarc_player_filter_ready": (_status, [_pointer, ctypes.c_uint32, ctypes.c_uint32, ctypes.c_uint32]),
    "dsdarc_player_bits": (_status, [_pointer, ctypes.c_int]),
    "dsdarc_player_describe": (_status, [_pointer, ctypes.POINTER(_Description), _size]),
    "dsdarc_player_marks": (_status, [_pointer, ctypes.c_uint32, _pointer, _size, ctypes.POINTER(_size)]),
    "dsdarc_player_push": (_status, [_pointer, _pointer, _size, ctypes.POINTER(_size)]),
    "dsdarc_player_info": (_status, [_pointer, ctypes.POINTER(_Info)]),
    "dsdarc_player_pull": (_status, [_pointer, _pointer, _size, ctypes.c_int, ctypes.POINTER(_size)]),
    "dsdarc_player_end": (_status, [_pointer]),
    "dsdarc_player_seek": (_status, [_pointer, ctypes.c_uint64, ctypes.POINTER(ctypes.c_uint64)]),
    "dsdarc_player_drop": (None, [_pointer]),
    "dsdarc_filter_find": (_status, [ctypes.c_char_p, _size, ctypes.POINTER(_Wish), ctypes.c_char_p, _size]),
    "dsdarc_filter_rates": (
        _status,
        [ctypes.c_char_p, _size, ctypes.c_char_p, _pointer, _size, ctypes.POINTER(_size)],
    ),
    "dsdarc_status_text": (ctypes.c_char_p, [ctypes.c_int]),
    "dsdarc_version": (ctypes.c_char_p, []),
}


def _places() -> Iterator[str]:
    """Where the library may be: as named, beside the package, in the prefix of an installation, in a clone."""
    if os.environ.get("DSDARC_LIBRARY"):
        yield os.environ["DSDARC_LIBRARY"]
        return
    for folder in (HERE, *(os.path.join(HERE, *[".."] * up, "lib") for up in range(2, 6))):
        yield os.path.join(folder, "libdsdarc.so.0")
    for folder in (".", "aarch64"):
        yield os.path.join(HERE, "..", "..", "crates", "dsdarc", "out", folder, "libdsdarc.so.0")
    yield ctypes.util.find_library("dsdarc") or "libdsdarc.so.0"


def _load() -> ctypes.CDLL:
    why: object = "DSDARC_LIBRARY can name it"
    for place in _places():
        if not os.path.exists(place) and os.sep in place:
            continue
        try:
            library = ctypes.CDLL(place)
            for name, (gives, takes) in _CALLS.items():
                call = getattr(library, name)
                call.restype, call.argtypes = gives, takes
            return library
        except (OSError, AttributeError) as error:
            why = error
    raise ImportError(f"there is no libdsdarc.so.0: {why}")


_library = _load()


def version() -> str:
    """The version of the library, such as "0.2.0"."""
    text: bytes = _library.dsdarc_version()
    return text.decode()


def _check(status: int, what: str) -> None:
    if status == PROCESSOR:
        what = "the library was built for processors that can do more than this one"
    if status != OK:
        raise Fault(_library.dsdarc_status_text(status).decode(), what)


def refusal_of(text: bytes) -> str | None:
    """The name of the fault for which a project text is no filter; None if it is one. What isn't said of a text, as that
    memory ran out, is raised."""
    handle = ctypes.c_void_p()
    try:
        status = _library.dsdarc_player_new(text, len(text), ctypes.byref(handle))
        if status in (MEMORY, PROCESSOR):
            _check(status, "a filter")
    finally:
        _library.dsdarc_player_drop(handle)
    return None if status == OK else _library.dsdarc_status_text(status).decode()


class Player(NotCopied):
    """A player of the library, for which nothing is chosen yet. What the library refuses is raised as a fault of `what`.
    One call at a time uses it."""

    def __init__(self, what: str) -> None:
        self._handle = ctypes.c_void_p()
        _check(_library.dsdarc_player_new_empty(ctypes.byref(self._handle)), what)

    def filter(self, text: bytes, what: str) -> None:
        """Chooses the filter of a project text."""
        _check(_library.dsdarc_player_filter(self._handle, text, len(text)), what)

    def filter_ready(self, rate: int, width: int, gain: int, what: str) -> bool:
        """Chooses the ready filter of the library to this rate; whether there is one."""
        if max(rate, width, gain) >= 1 << 32:
            return False
        status = _library.dsdarc_player_filter_ready(self._handle, rate, width, gain)
        if status != NO_FILTER:
            _check(status, what)
        return bool(status != NO_FILTER)

    def bits(self, what: str) -> None:
        """Chooses the bits, as bytes of which the most significant bit is the earliest."""
        _check(_library.dsdarc_player_bits(self._handle, 0), what)

    def describe(self) -> Description | None:
        """What the file holds, once its sound is known."""
        it = _Description()
        if _library.dsdarc_player_describe(self._handle, ctypes.byref(it), ctypes.sizeof(it)) != OK:
            return None
        ids = bytes(it)[_Description.ids.offset :][: 4 * it.channels]
        found = it.bits, it.rate_in, it.channels, it.mask, ids, it.form == FORM, it.marks, it.tag, it.tag_size
        return Description(*found)

    def marks(self, first: int, count: int) -> list[StatedMark]:
        """The marks from one on, at most so many."""
        made, given = (_Mark * count)(), ctypes.c_size_t()
        _check(_library.dsdarc_player_marks(self._handle, first, made, count, ctypes.byref(given)), "marks")
        return [StatedMark(it.place, it.type, it.channel, it.flags, it.title, it.length) for it in made[: given.value]]

    def push(self, place: int, size: int, what: str) -> int:
        """Pushes the bytes at a place in memory: how many are taken."""
        taken = ctypes.c_size_t()
        _check(_library.dsdarc_player_push(self._handle, place, size, ctypes.byref(taken)), what)
        return taken.value

    def info(self) -> Info | None:
        """What is played, once it is known."""
        it = _Info()
        if _library.dsdarc_player_info(self._handle, ctypes.byref(it)) != OK:
            return None
        return Info(it.rate, it.channels, it.frames, it.width, it.rate_in)

    def pull(self, place: int, frames: int, format: int, what: str) -> int:
        """Gives frames to a place in memory, as numbers of 32 bits or packed: how many."""
        given = ctypes.c_size_t()
        _check(_library.dsdarc_player_pull(self._handle, place, frames, format, ctypes.byref(given)), what)
        return given.value

    def end(self, what: str) -> None:
        """Asks whether a file that ends here holds a recording."""
        _check(_library.dsdarc_player_end(self._handle), what)

    def seek(self, frame: int, what: str) -> int:
        """Goes to a frame: from which byte of the file on it is pushed next."""
        offset = ctypes.c_uint64()
        _check(_library.dsdarc_player_seek(self._handle, frame, ctypes.byref(offset)), what)
        return offset.value

    def drop(self) -> None:
        """Frees the player. What is called after that is refused."""
        # First nobody has the pointer any more, also a call that this one interrupts, and then it is freed.
        pointer, self._handle.value = self._handle.value, None
        if pointer is not None:
            _library.dsdarc_player_drop(pointer)

    def forget(self) -> None:
        """Leaves the player as it is, in a process that has it amid a call of another one."""
        self._handle.value = None

    def __del__(self) -> None:
        if hasattr(self, "_handle") and _library is not None:
            self.drop()


def found(index: bytes, rate_in: int, rate: int, width: int, gain: int) -> str | None:
    """The name of the filter in an index that plays one rate to another."""
    if max(rate_in, rate, width, gain) >= 1 << 32:
        return None
    name = ctypes.create_string_buffer(4096)
    wish = _Wish(rate_in, rate, width, gain)
    status = _library.dsdarc_filter_find(index, len(index), ctypes.byref(wish), name, len(name))
    return os.fsdecode(name.value) if status == OK else None


def rates_of(index: bytes, name: str) -> list[int]:
    """The rates that a filter of an index is for; none if the index doesn't list it."""
    rates, count = (ctypes.c_uint32 * 64)(), ctypes.c_size_t()
    key = os.fsencode(name)
    status = _library.dsdarc_filter_rates(index, len(index), key, rates, len(rates), ctypes.byref(count))
    return list(rates)[: count.value] if status == OK else []
