"""What `play_all` plays, a job for each WAVE file: files whole, or the tracks of albums each on its own."""
import dataclasses
import functools
import os
import struct
from typing import Any

from cuts import albums
from dsdarc_scripts import outputs, project_texts

# What a chunk of a DSDIFF form has that isn't whole, or a file that ends too early.
BROKEN = (outputs.Refused, struct.error, OSError)


@dataclasses.dataclass
class Job:
    """The name of a file in the archive, the path of the WAVE file in OUT, and which bits of the file are played:
    `start` to `stop` - 1, to the end for None. `track` is the number of a track, `title` its title and `count` that of
    the last one, or `track` is None where the file is played whole."""

    source: str
    result: str
    track: int | None = None
    start: int = 0
    stop: int | None = None
    title: str | None = None
    count: int = 0

    @property
    def name(self) -> str:
        return self.source if self.track is None else f"{self.source}, track {self.track}"


def has_marks(path: str) -> bool:
    """Whether a file may have marks, without the program."""
    try:
        with open(path, "rb") as file:
            is_dsdiff = file.read(4) == b"FRM8"
            file.seek(0)
            return is_dsdiff and any(name == b"DIIN" for name, _ in albums.form_chunks(file))
    except BROKEN:
        return False


def sheet_of(path: str) -> str | None:
    """The cue sheet beside a file, or None."""
    front = os.path.splitext(path)[0]
    return next((it for it in (f"{front}.cue", f"{front}.CUE") if os.path.isfile(it)), None)


def playable(tracks: list[albums.Track], found: albums.Recording) -> list[albums.Track]:
    """Tracks of an album with their ends. What comes before the first one is played with it if it is shorter than a
    millisecond, as it may have no frame."""
    tracks = albums.whole(tracks, found)
    if len(tracks) > 1 and tracks[0].number == 0 and 1000 * tracks[1].start < found.rate:
        tracks[1].start = 0
        del tracks[0]
    return tracks


def tracks_of(path: str) -> list[albums.Track]:
    """The tracks of a file by its marks, else by the cue sheet beside it; none where it has neither, or is refused."""
    sheet = sheet_of(path)
    if sheet is None and not has_marks(path):
        return []
    try:
        found = albums.recording("ALBUM", path)
    except BROKEN:
        return []
    if albums.starts_of(found):
        return playable(albums.marked(found), found)
    return playable(albums.cued(found, sheet), found) if sheet else []


def whole(entry: dict[str, Any], ending: str = ".wav") -> Job:
    """The job that plays a file whole."""
    return Job(entry["name"], (entry["renamed"] or entry["name"]) + ending)


def of_tracks(entry: dict[str, Any], tracks: list[albums.Track], ending: str = ".wav") -> dict[int, Job]:
    """The jobs that play the tracks of an album, by the numbers of these."""
    folder, digits = entry["renamed"] or entry["name"], albums.digits_for(tracks)
    stops = [*(track.start for track in tracks[1:]), None]
    return {
        track.number: Job(
            entry["name"],
            os.path.join(folder, albums.file_name(track, ending, digits)),
            track.number,
            track.start,
            stop,
            track.title,
            tracks[-1].number,
        )
        for track, stop in zip(tracks, stops)
    }


def by_tracks(
    archive: str, files: dict[str, dict[str, Any]], ending: str = ".wav"
) -> tuple[dict[str, Job], list[tuple[str, str]]]:
    """The jobs of an archive whose albums are played by tracks, by their keys, and the names of albums whose tracks
    can't be determined, with the reason."""
    jobs, refused = dict[str, Job](), []
    for key, entry in files.items():
        try:
            tracks = tracks_of(os.path.join(archive, entry["name"]))
        except BROKEN as why:
            said = outputs.reason_of(why) if isinstance(why, OSError) else str(why)
            refused.append((entry["name"], f"no tracks: {said}"))
            continue
        if tracks:
            jobs |= {f"{key}-{number}": job for number, job in of_tracks(entry, tracks, ending).items()}
        else:
            jobs[key] = whole(entry, ending)
    return jobs, refused


@functools.lru_cache
def factor_of(path: str) -> int:
    """How many bits of a file make a frame, by a filter."""
    return project_texts.read_decimate(path)["factor"]


def options_of(job: Job, filter_path: str) -> str:
    """The options by which the program plays just what a job says. A track's first frame is the last that begins at its
    mark or before it, as `play --from '#3'` has it."""
    places = [("--from", job.start or None), ("--to", job.stop)]
    asked = [(option, bit) for option, bit in places if bit is not None]
    return " ".join(f"{option} @{bit // factor_of(filter_path)}" for option, bit in asked)
