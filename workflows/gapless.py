"""Which files of an archive play as one recording: those of one folder, in the order of their names, where rate and
channels are the same, as far as these are named, and the sound ends with whole bytes. Each plays between two small
files, which have what its filter reaches of the recording before it and after it. The one before begins where a frame
of the recording does, however many bits come before it: so the program writes the frames of the recording whose places
lie in the file."""
import bisect
import dataclasses
import os
from collections.abc import Iterable
from typing import Any

from dsdarc_scripts import channels, dsdiffs

# A filter reaches fewer bits than these before the place of a frame, and after it.
REACH = 4096
# The IDs of loudspeakers, of which two pairs are the same.
SPEAKERS = {it: it for it in (b"MLFT", b"MRGT", b"C   ", b"LFE ", b"LS  ", b"RS  ")} | {
    b"SLFT": b"MLFT",
    b"SRGT": b"MRGT",
}


def sound_of(path: str) -> channels.Sound | None:
    """The sound of a file by its first chunks, without the program; None where they say none, or it isn't all there."""
    try:
        with open(path, "rb") as file:
            sound = channels.sound_of(file)
            return sound if sound.stop <= os.fstat(file.fileno()).st_size else None
    except (channels.Unread, OSError):
        return None


@dataclasses.dataclass
class Around:
    """The files between which one plays, as bytes; None where the recording begins or ends with it."""

    previous: bytes | None = None
    next: bytes | None = None

    @property
    def files(self) -> dict[str, bytes]:
        """The files by the names of their options."""
        return {name: data for name, data in (("previous", self.previous), ("next", self.next)) if data is not None}


class Joined:
    """The recording that files make one after the other, and the bit with which each begins."""

    def __init__(self) -> None:
        self.files, self.starts, self.bits = list[tuple[str, channels.Sound]](), list[int](), 0

    def add(self, path: str, sound: channels.Sound) -> int:
        """Adds a file at the end; its number."""
        self.files.append((path, sound))
        self.starts.append(self.bits)
        self.bits += sound.bits
        return len(self.files) - 1

    def span(self, first: int, stop: int) -> list[bytes]:
        """Of each channel the bytes of the bits `first` to `stop` - 1, both whole bytes."""
        found = []
        for at in range(bisect.bisect_right(self.starts, first) - 1, len(self.files)):
            (path, sound), start = self.files[at], self.starts[at]
            if start >= stop:
                break
            if sound.bits > 0:
                with open(path, "rb") as file:
                    found.append(channels.span(file, sound, max(first - start, 0), min(stop - start, sound.bits)))
        return [b"".join(it) for it in zip(*found)]

    def piece(self, first: int, stop: int) -> bytes | None:
        """A file of these bits, whose channels have the usual IDs; None where there are none."""
        if first == stop:
            return None
        sound = self.files[0][1]
        return dsdiffs.dsdiff(sound.rate, sound.count, b"".join(map(bytes, zip(*self.span(first, stop)))))

    def around(self, number: int, factor: int) -> Around:
        """What a file plays between, by a filter of this factor."""
        start, stop = self.starts[number], self.starts[number] + self.files[number][1].bits
        first, last = max(start - REACH, 0) // factor * factor, min(stop + REACH, self.bits)
        return Around(self.piece(first, start), self.piece(stop, last))


def speakers_of(sound: channels.Sound) -> list[bytes] | None:
    """The IDs of the channels' loudspeakers; None where one isn't named."""
    found = [SPEAKERS.get(sound.ids[at : at + 4]) for at in range(0, len(sound.ids), 4)]
    return [it for it in found if it] if all(found) else None


def meet(one: channels.Sound | None, other: channels.Sound | None) -> bool:
    """Whether one file can be played after the other: not where both name their loudspeakers, and these differ."""
    if one is None or other is None or one.bits % 8 or other.bits % 8:
        return False
    named = [it for it in (speakers_of(one), speakers_of(other)) if it is not None]
    return (one.rate, one.count) == (other.rate, other.count) and (len(named) < 2 or named[0] == named[1])


def folders_of(named: Iterable[tuple[str, str]]) -> list[list[tuple[str, str]]]:
    """Name and key of the files of each folder, in the order of their names."""
    found = dict[str, list[tuple[str, str]]]()
    for name, key in named:
        found.setdefault(os.path.dirname(name), []).append((name, key))
    return [sorted(it) for it in found.values()]


def all_joined(
    archive: str, files: dict[str, dict[str, Any]], refused: Iterable[str] = ()
) -> tuple[dict[str, tuple[Joined, int]], list[str]]:
    """The recording that each file is a part of, by its key, and its number there; and the names of files that can't be
    joined to the one before them. Those that are refused by their names alone have no key."""
    parts, apart = dict[str, tuple[Joined, int]](), []
    for named in folders_of([*((it["name"], key) for key, it in files.items()), *((name, "") for name in refused)]):
        joined, last = Joined(), None
        for at, (name, key) in enumerate(named):
            path = os.path.join(archive, name)
            sound = sound_of(path) if key else None
            if at > 0 and not meet(last, sound):
                apart.append(name)
                joined = Joined()
            if sound is not None:
                parts[key] = joined, joined.add(path, sound)
            last = sound
    return parts, sorted(apart)
