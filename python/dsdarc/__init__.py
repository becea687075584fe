"""Frames of DSDIFF and DSF files, decimated by a filter: what `dsdarc play` writes, as numpy arrays.

    import dsdarc

    with dsdarc.open("in.dsf", filter="88200/24") as sound:
        print(sound.info)                       # rates, channels, frames, bits
        frames = sound.read(4096)               # float64, from -1 to 1, a row for each frame
        sound.seek(10 * sound.samplerate)
        for block in sound.blocks(65536, dtype="int32"):
            ...
        print(sound.channels.names, sound.tag, sound.marks)
        dsdarc.write("copy.dff", sound.bits(), sound.info.source_rate)
    for sound in dsdarc.play_list(["01.dsf", "02.dsf"]):    # one sound, if the files can be joined
        ...

A filter is the path of a project text, the name of a ready filter as "dsd64-to-88200-24", a `Filter` of your own taps, or
a rate and width as "88200/24", for which the ready filter of the file's rate is taken, as filters/pick does. Of
"88200/24,96000/24" it is the first that has one. That is what plays a file if no filter is named, or what DSDARC_FILTER
says. FilterWarning is given if an index beside a filter says that it is for files of other rates.

A file is a path, or a binary file that seeks, which is read from where it is. Fault is raised if the library refuses the
file, with the name of the fault; ValueError or TypeError if a call makes no sense; OSError if the system refuses. Frames
that can be played come before the fault. `open(.., tolerant=True)` also plays damaged files as far as they go. After any exception, an interrupt too, the next call goes on from the frame
that `tell` gives. Threads may share a sound: one reads at a time. It can't be copied or pickled.

The library is libdsdarc.so, or what DSDARC_LIBRARY names; the filters are in share/dsdarc beside it, or where
DSDARC_FILTERS names."""
from __future__ import annotations

from typing import Any

from dsdarc._described import Channels, Mark
from dsdarc._filters import Filter, FilterWarning, Path, Ready, filter_for
from dsdarc._library import Fault, Info, version
from dsdarc._list import GapWarning, play_list
from dsdarc._mending import Damaged, open_tolerant
from dsdarc._sound import Numbers, Sound
from dsdarc._source import File
from dsdarc._writing import write

__version__ = "0.2.0"
__all__ = ["Channels", "Damaged", "Fault", "Filter", "FilterWarning", "GapWarning", "Info", "Mark", "Sound"]
__all__ += ["filter_for", "open", "play_list", "read", "version", "write"]


def open(
    file: File, filter: Path | Filter | Ready = Ready.BEST, speakers: bool = False, tolerant: bool = False
) -> Sound:
    """A file that is played by a filter. With `speakers`, its channels come in the order of the channel mask of their
    loudspeakers, as `dsdarc play --speakers` gives them. With `tolerant`, a damaged file is played as far as its sound is
    there; after its last frame `Damaged` is raised, which says `damaged after frame N`."""
    if tolerant:
        return open_tolerant(file, filter, speakers)
    return Sound(file, filter, speakers=speakers)


def read(
    file: File,
    filter: Path | Filter | Ready = Ready.BEST,
    frames: int = -1,
    start: int = 0,
    dtype: Any = "float64",
    always_2d: bool = False,
    speakers: bool = False,
) -> tuple[Numbers, int]:
    """The frames of a file from one on, and their rate in hertz."""
    with Sound(file, filter, speakers=speakers) as sound:
        if start:
            sound.seek(start)
        return sound.read(frames, dtype, always_2d), sound.samplerate
