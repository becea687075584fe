"""What each script that users run writes, and what it reads: rows for try_writing.

A row of READ has READ in the place of an output, and the file that it is: by its name, by others, by links, and as
standard output. A row of MADE has the name that a script itself gives an output, which is a link to a file that is
read. A row of TWICE has two outputs that are one file. workflows/convert_tag says faults as the program does, so
try_tags has what it refuses. These scripts write no files of a name, and only print:
filters/pick, filters/tone.py, cuts/figures, cuts/levels, tools/check_certificate, tools/channels, tools/info_json,
tools/waves and workflows/sum_folder."""
import json
import os
import shutil
import struct
from pathlib import Path
from typing import Any

from dsdarc_scripts.dsdiffs import chunk, dsdiff, mark_data
from tests.helpers.trials import put

ROOT = Path(__file__).resolve().parents[2]
RATE, BITS = 2_822_400, 32_000
FADE = ("cuts/fade", "p.toml", "-o", "new.toml", "--time", "0.5ms")
REPORT = ("workflows/report", "run", "-o", "READ")
PLAY_ALL = ("workflows/play_all", "filter.toml", "archive", "played")
READ = (
    (("cuts/place", "p.toml", "-o", "READ"), "p.toml"),
    (("cuts/place", "p.toml", "-o", "READ"), "a.dff"),
    (("cuts/place", "p.toml", "-o", "new.toml", "--take", "READ"), "a.dff"),
    (("cuts/place", "p.toml", "-o", "new.toml", "--take", "READ"), "p.toml"),
    (("cuts/fade", "p.toml", "-o", "READ", "--time", "0.5ms"), "p.toml"),
    (("cuts/fade", "p.toml", "-o", "READ", "--time", "0.5ms"), "b.dff"),
    ((*FADE, "--take", "READ"), "b.dff"),
    ((*FADE, "--take", "READ"), "p.toml"),
    ((*FADE, "--mix", "READ"), "p.toml"),
    (("cuts/place", "p.toml", "-o", "new.toml", "--mix", "READ"), "a.dff"),
    (("cuts/join", "a.dff", "b.dff", "-o", "READ", "--form", "dsdiff"), "b.dff"),
    (("cuts/mix", "clips.list", "-o", "READ"), "clips.list"),
    (("cuts/mix", "clips.list", "-o", "READ"), "a.dff"),
    (("cuts/mix", "--list", "mix.toml", "-o", "READ"), "mix.toml"),
    (("cuts/mix", "--list", "mix.toml", "-o", "READ"), "b.dff"),
    (("cuts/render", "mix.toml", "-o", "READ"), "mix.toml"),
    (("cuts/render", "mix.toml", "-o", "READ"), "b.dff"),
    (("cuts/render", "mix.toml", "-o", "new.toml", "--take", "READ"), "a.dff"),
    (("cuts/render", "mix.toml", "-o", "new.toml", "--take", "READ"), "mix.toml"),
    (("tools/mend_dsf", "b.dff", "READ"), "b.dff"),
    (("tools/mend", "b.dff", "READ", "--copy"), "b.dff"),
    (("workflows/copy_tag", "tag.dff", "b.dff", "-o", "READ"), "tag.dff"),
    (("workflows/copy_tag", "tag.dff", "b.dff", "-o", "READ"), "b.dff"),
    (("workflows/tag", "tag.dff", "--title", "x", "-o", "READ"), "tag.dff"),
    (REPORT, "run/SHA256SUMS"),
    (REPORT, "run/refused.txt"),
    (REPORT, "run/a.dff.wav"),
    (REPORT, "run/.figures.json"),
    ((*REPORT, "--archive", "archive"), "archive/a.dff"),
    (("clone/workflows/report", "run", "-o", "READ"), "clone/workflows/page.html.j2"),
    (("workflows/report", "flow", "-o", "READ"), "flow/results.json"),
    (("workflows/report", "flow", "-o", "READ"), "flow/work/names.json"),
    (("workflows/report", "flow", "-o", "READ"), "flow/work/looks/a.json"),
    (("bench/make_project.py", "READ", "a.dff", "b.dff", "32000", "2", "8"), "a.dff"),
    (("bench/make_project.py", "new", "a.dff", "b.dff", "32000", "2", "8", "5", "READ"), "b.dff"),
)
MADE = (
    (("cuts/place", "p.toml", "-o", "new.toml"), "new.seams.dff", "b.dff"),
    (FADE, "new.seams.dff", "p.toml"),
    (FADE, "new.mix.toml", "p.toml"),
    (("cuts/place", "p.toml", "-o", "new.toml"), "new.mix.toml", "b.dff"),
    (("cuts/render", "mix.toml", "-o", "new.toml"), "new.new.dff", "b.dff"),
    (("cuts/tracks", "album.dff", "-o", "new"), "new/02 - B.dff", "album.dff"),
    (("cuts/tracks", "album.dff", "-o", "new", "--cue", "album.cue"), "new/01 - A.dff", "album.cue"),
    (("cuts/measure", "master.dff", "p.toml", "--plots", "new"), "new/cut-0.png", "p.toml"),
    (("cuts/measure", "master.dff", "p.toml", "--plots", "new"), "new/cut-0.png", "b.dff"),
    (("cuts/measure", "master.dff", "p.toml", "--plots", "new"), "new/cut-0.png", "master.dff"),
    (("cuts/measure", "master.dff", "p.toml", "--plots", "new", "--mix", "mix.toml"), "new/cut-0.png", "mix.toml"),
    (
        ("filters/measure.py", "filters", "--plots"),
        "filters/responses/dsd64-to-352800.png",
        "filters/dsd64-to-352800-24.toml",
    ),
    (("workflows/report", "run"), "run/report.html", "run/a.dff.wav"),
    ((*PLAY_ALL, "2"), "played/SHA256SUMS", "filter.toml"),
    ((*PLAY_ALL, "2"), "played/refused.txt", "filter.toml"),
    ((*PLAY_ALL, "2"), "played/.played", "filter.toml"),
    ((*PLAY_ALL, "2"), "played/a.dff.wav", "filter.toml"),
    (("workflows/play_all", "played/refused.txt", "archive", "played"), "played/refused.txt", "filter.toml"),
    ((*PLAY_ALL, "jobs"), "played/earlier.txt", "jobs"),
    ((*PLAY_ALL, "jobs"), "played/refused.txt", "jobs"),
)
TWICE = (
    (("cuts/fade", "p.toml", "-o", "x", "--time", "0.5ms", "--take", "folder/../x"), ()),
    (("cuts/fade", "p.toml", "-o", "folder/x", "--time", "0.5ms", "--take", "lost"), ()),
    (("cuts/place", "p.toml", "-o", "x", "--take", "./x"), ()),
    (("cuts/fade", "p.toml", "-o", "hard", "--time", "0.5ms", "--take", "old"), ("old", "hard")),
    (("cuts/place", "p.toml", "-o", "old"), ("old", "old.seams.dff")),
    (("cuts/place", "p.toml", "-o", "old"), ("old", "old.mix.toml")),
    (("cuts/fade", "p.toml", "-o", "x", "--time", "0.5ms", "--mix", "./x"), ()),
    (("cuts/place", "p.toml", "-o", "x", "--take", "lost", "--mix", "folder/x"), ()),
    (("cuts/render", "mix.toml", "-o", "x", "--take", "folder/../x"), ()),
    (("cuts/tracks", "album.dff", "-o", "new"), ("new/01 - A.dff", "new/02 - B.dff")),
    (("cuts/make_example", "new"), ("new/piece_1.dff", "new/piece.toml")),
    (("filters/design.py", "new"), ("new/dsd64-to-44100-24.toml", "new/dsd128-to-352800-24.toml")),
    (("workflows/report", "run"), ("run/.figures.json", "run/report.html")),
    (("bench/make_project.py", "x", "a.dff", "b.dff", "32000", "2", "8", "5", "./x"), ()),
)
SHEET = 'FILE "album.wav" WAVE\n  TRACK 01 AUDIO\n    TITLE "A"\n    INDEX 01 00:00:00\n'
MIX = """[mix]
unit = 1
audible = [1]
limit = 100000
takes = ["a.dff", "b.dff"]
decoder = [{taps = [1]}]
clip = [{take = 0, start = 0, at = 0, length = 16000}, {take = 1, start = 16000, at = 16000, length = 16000}]
"""
TAG = b"ID3\4\0\0\0\0\0\x0aTIT2\0\0\0\0\0\0"


def sound(byte: int) -> bytes:
    return dsdiff(RATE, 1, bytes([byte]) * (BITS // 8))


def wave() -> bytes:
    """A WAVE file of 100 frames."""
    form = struct.pack("<HHIIHH", 1, 1, 44_100, 88_200, 2, 16)
    body = b"WAVEfmt " + struct.pack("<I", len(form)) + form + b"data" + struct.pack("<I", 200) + bytes(200)
    return b"RIFF" + struct.pack("<I", len(body)) + body


def furnish(arguments: tuple[str, ...]) -> None:
    """Puts what a row reads into this folder, beside two takes and a project."""
    marks = b"".join(chunk(b"MARK", mark_data(text, offset=at)) for at, text in ((0, b"A"), (16_000, b"B")))
    put("album.dff", dsdiff(RATE, 1, bytes(BITS // 8), more=chunk(b"DIIN", marks)))
    put("album.cue", SHEET)
    put("tag.dff", dsdiff(RATE, 1, bytes(100), more=chunk(b"ID3 ", TAG)))
    put("master.dff", dsdiff(RATE, 1, b"\x69" * 2000 + b"\x96" * 2000))
    put("mix.toml", MIX)
    put("clips.list", "0:00 a.dff 0:00 end\n+2s b.dff 0:00 end\n")
    for name in ("run/a.dff.wav", "flow/pcm/a.dff.wav"):
        put(name, wave())
    put("run/SHA256SUMS", f"{'0' * 64}  a.dff.wav\n")
    put("run/refused.txt", "b.dff: fault: FileRefused\n")
    put("run/.figures.json", "{}\n")
    put("archive/a.dff", sound(0x69))
    found: dict[str, Any] = {
        "pcm": "pcm/a.dff.wav",
        "converted": None,
        "sha256": "0" * 64,
        "kept": [],
        "dropped": 0,
        "tags": {},
    }
    put("flow/work/names.json", json.dumps({"files": {"a": {"name": "a.dff"}}, "refused": [], "others": []}))
    put("flow/work/looks/a.json", json.dumps({"form": "dsdiff", "rate": RATE, "channels": 1, "samples": BITS}))
    put("flow/results.json", json.dumps({"a.dff": found}))
    put("flow/SHA256SUMS", "")
    put("flow/refused.tsv", "")
    for folder in ("workflows", "dsdarc_scripts", "cuts") if arguments[0].startswith("clone/") else ():
        shutil.copytree(ROOT / folder, Path("clone", folder), ignore=shutil.ignore_patterns("pictures", "__pycache__"))
    put("filters/dsd64-to-352800-24.toml", (ROOT / "filters/dsd64-to-352800-24.toml").read_bytes())
    put("filter.toml", (ROOT / "filters/dsd64-to-352800-24.toml").read_bytes())
    put("jobs", "2")
    put("played/.played", "")
    put("old", "what was here")
    os.mkdir("folder")
    os.symlink("folder/x", "lost")
