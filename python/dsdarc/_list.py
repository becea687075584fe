"""Files that are played one after the other, without a gap where they can be joined."""
from __future__ import annotations

import os
import warnings
from collections.abc import Iterable, Iterator

from dsdarc._described import channels_of
from dsdarc._filters import Filter, Path, Ready, level
from dsdarc._joined import Entry, Joined
from dsdarc._sound import Sound
from dsdarc._source import File
from dsdarc._writing import MOST_BITS


class GapWarning(UserWarning):
    """A file isn't joined to the one before it."""


def play_list(
    files: Iterable[File], filter: Path | Filter | Ready = Ready.BEST, speakers: bool = False
) -> Iterator[Sound]:
    """Files that are played one after the other by a filter, such as the tracks of an album: a sound for all of them, whose
    frames are those of the one recording that they make. Its `files` are their names, and `starts` the frames with which
    they begin.

    Files are joined if they have the same rate, the same channels, and whole bytes. Before and after one that can't be
    joined another sound begins, and GapWarning says why. Each sound is closed when the next one is asked for. A file that
    is refused is found at once if its first bytes tell it, else when it is read."""
    if isinstance(files, (str, bytes, os.PathLike)) or hasattr(files, "read"):
        raise TypeError("a list has several files: `open` plays one")
    entries = [Entry(file) for file in files]
    parts: list[list[Entry]] = []
    for entry in entries:
        why = _gap(parts[-1], entry) if parts else ""
        if why:
            warnings.warn(f"{entry.name} isn't joined to {parts[-1][-1].name}: {why}", GapWarning, stacklevel=level())
        if why or not parts:
            parts.append([])
        parts[-1].append(entry)
    return _sounds(parts, filter, speakers)


def _gap(before: list[Entry], entry: Entry) -> str:
    """Why a file can't be joined to those before it; empty if it can."""
    last, it = before[-1].described, entry.described
    if it.rate != last.rate:
        return f"it has {it.rate} Hz, and not {last.rate} Hz"
    if it.channels != last.channels:
        return f"it has {it.channels} channels, and not {last.channels}"
    if it.mask != last.mask or (it.mask == 0 and channels_of(it).names != channels_of(last).names):
        return "its channels belong to other loudspeakers"
    if last.bits % 8 or it.bits % 8:
        return "one of them doesn't end on a whole byte"
    if sum(each.described.bits for each in before) + it.bits > MOST_BITS:
        return f"together they have more than {MOST_BITS} bits of each channel"
    return ""


def _sounds(parts: list[list[Entry]], filter: Path | Filter | Ready, speakers: bool) -> Iterator[Sound]:
    for part in parts:
        source = part[0].source.again() if len(part) == 1 else Joined(part)
        with Sound(source, filter, speakers=speakers) as sound:
            yield sound
