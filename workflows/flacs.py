"""FLAC files of WAVE files that were played, by the program `flac`: their comments and covers, from the tag of the
source, from the titles of its marks, and from the cue sheet beside it."""
import contextlib
import os
import re
import shutil
import subprocess

from cuts import albums, sheets
from dsdarc_scripts import names, room, waves
from dsdarc_scripts.outputs import Refused
from workflows import frames, jobs, pictures, tagging, track_tags

# What a block of a FLAC file holds, less what stands in it before a picture.
MOST_COVER = (1 << 24) - 1024
# The channel masks of three to six channels that FLAC has assignments for, and the comment for others.
OWN_MASKS = (0x7, 0x33, 0x37, 0x3F)
MASK = "WAVEFORMATEXTENSIBLE_CHANNEL_MASK"
# The bytes of a WAVE file in which its format is.
HEAD = 256
# What flac says before what is wrong: the name that the file has in the run.
NAMED = re.compile(r"^\S+\.(?:wav|flac): (?:ERROR:? )?")

Comments = list[tuple[str, str]]


def installed() -> bool:
    return shutil.which("flac") is not None


def chapters(path: str) -> Comments:
    """Comments for the titles of a file's marks of tracks, with their times."""
    try:
        found = albums.recording("FILE", path)
        starts = albums.starts_of(found)
    except jobs.BROKEN:
        return []
    made = list[tuple[str, str]]()
    for number, (place, title) in enumerate(starts, 1):
        seconds, part = divmod(1000 * place // found.rate, 1000)
        time = f"{seconds // 3600:02}:{seconds // 60 % 60:02}:{seconds % 60:02}.{part:03}"
        made += [(f"CHAPTER{number:03}", time), (f"CHAPTER{number:03}NAME", track_tags.plain(title))]
    return made


def whole_sheet(sheet: str | None) -> Comments:
    """The whole cue sheet as a comment, if it isn't too long."""
    text = "" if sheet is None else track_tags.plain(sheets.text_of(sheet))
    return [("CUESHEET", text)] if 0 < len(text) < track_tags.LONGEST else []


def of_source(path: str) -> tuple[track_tags.Comments, pictures.Picture | None, str | None]:
    """What the tag of a source makes: comments, the cover, and what became of it; nothing where it has none."""
    data = tagging.tag_of(path)
    if not data:
        return {}, None, None
    if not tagging.has_mutagen():
        return {}, None, tagging.NOT_INSTALLED
    try:
        found, cover = track_tags.of_tag(data)
    except tagging.Untagged as why:
        return {}, None, str(why)
    if cover and len(cover) > MOST_COVER:
        return found, None, "a FLAC file has no room for a cover of more than 16 MB"
    try:
        return found, pictures.picture(cover) if cover else None, tagging.HANDED_ON
    except Refused as why:
        return found, None, f"its cover is left out: {why}"


def described(path: str, job: jobs.Job, sheet: str | None) -> tuple[Comments, pictures.Picture | None, str | None]:
    """The comments and the cover of a file, and what became of its tag: nothing where it has none."""
    found, cover, said = of_source(path)
    texts, why = track_tags.of_sheet(sheet)
    if why:
        sheet, said = None, why if said in (None, tagging.HANDED_ON) else said
    with contextlib.suppress(OSError):
        more = Comments()
        if job.track is None:
            found = track_tags.of_whole(path, found, texts)
            more = [*(chapters(path) if jobs.has_marks(path) else []), *whole_sheet(sheet)]
        else:
            found = track_tags.of_track(path, track_tags.Place(job.track, job.title, job.count), found, texts)
        made = [*((comment, text) for comment, each in found.items() for text in each), *more]
        return [(comment, text) for comment, text in made if text], cover, said
    return [], cover, said


def run(arguments: list[str]) -> str | None:
    """Runs flac; what it says where it fails."""
    done = subprocess.run(["flac", "--silent", *arguments], stdin=subprocess.DEVNULL, capture_output=True, check=False)
    said = done.stderr.decode(errors="replace").strip().splitlines()
    return (said[-1] if said else f"status {done.returncode}") if done.returncode else None


def channel_options(wave: str) -> list[str]:
    """What flac is told of the loudspeakers of a WAVE file. It takes the masks of its own channel assignments; of any
    other it would make no file, so it gets that one as the comment from which decoders take it."""
    with open(wave, "rb") as file:
        head = file.read(HEAD)
    at = head.index(b"fmt ")
    channels, _, _, _, mask = waves.shape_of(head[at + 8 : at + 8 + int.from_bytes(head[at + 4 : at + 8], "little")])
    if channels < 3 or mask in OWN_MASKS:
        return []
    return ["--channel-map=none", *([f"--tag={MASK}=0x{mask:04X}"] if mask else [])]


def made_of(wave: str, made: str, comments: Comments, cover: pictures.Picture | None) -> None:
    """Makes the FLAC file of a WAVE file. flac decodes what it writes and compares, and then tests the file."""
    arguments = ["--verify", "--lax", "--best", "--force", "--no-utf8-convert", "-o", made]
    arguments += channel_options(wave)
    arguments += [f"--tag={comment}={text}" for comment, text in comments]
    if cover:
        with open(f"{made}.cover", "wb") as file:
            file.write(cover.data)
        shape = f"{cover.width}x{cover.height}x{cover.depth}"
        arguments.append(f"--picture={frames.FRONT_COVER}|{cover.mime}||{shape}|{made}.cover")
    said = run([*arguments, wave])
    names.remove(f"{made}.cover")
    if said is None:
        said = run(["--test", made])
    if said is not None:
        names.remove(made)
        if not room.has_room(os.path.dirname(made), os.path.getsize(wave)):
            raise room.full()
        raise Refused(f"flac: {NAMED.sub('', said)}")
