"""Tries damaged files that the Python package plays as far as they are there: their frames are those of the file that
`tools/mend` makes of them, and then what is damaged is told. What plays them in C by `dsdarc_mend_header` gives the same
frames, and says the same."""
import os
import random
import subprocess
from typing import TYPE_CHECKING, Any

from tests.helpers.trials import ROOT, demand, get
from tests.helpers.trials import said as run
from tests.helpers.whole_files import BLOCK, Whole, places_of, whole_dsdiff, whole_dsf, with_size
from tests.library.calls import put
from tests.library.playing import PROGRAM

if TYPE_CHECKING:
    from collections.abc import Iterator

    from numpy import ndarray

MEND = os.path.join(ROOT, "tools", "mend")
READY = os.path.join(ROOT, "filters", "dsd64-to-88200-24.toml")


def broken(it: Whole, chance: random.Random) -> "Iterator[tuple[str, bytes]]":
    """Ways to break a file, and the files."""
    for _ in range(3):
        yield "cut", it.data[: chance.randrange(len(it.data))]
    if it.is_dsf:
        for at in (4, 12, 32, 84):
            yield f"the size at byte {at}", with_size(it.data, at, chance.choice((0, 1, 2**64 - 1)), "<")
        for samples in (0, 2**34):
            yield f"{samples} samples", with_size(it.data, 64, samples, "<")
        yield "the place of the tag", with_size(it.data, 20, chance.choice((1, 92, 2**64 - 1)), "<")
        used = -(-((it.bits - 1) % (8 * BLOCK) + 1) // 8)
        yield "no fill", it.data[: it.start + it.size - (BLOCK - used)] + it.tag
    else:
        for size in (0, len(it.data) - 13, 1 << 40):
            yield "the form's size", with_size(it.data, 4, size, ">")
        for size in (0, it.size + 1 + chance.randrange(9000), 2**64 - 1):
            yield "the sound's size", with_size(it.data, it.start - 8, size, ">")
        if it.tag:
            yield "the tag's size", with_size(it.data, places_of(it.data, b"ID3 "), 1 << 40, ">")
        yield "one byte fewer", it.data[:-1]


def tolerantly(name: str, filter: str) -> Any:
    """A file that is opened as one that may be damaged."""
    import dsdarc

    return dsdarc.open(name, filter, tolerant=True)


def played(opened: Any, name: str) -> "tuple[ndarray | None, Exception | None]":
    """The frames of a file, and what is raised after them; none where it isn't opened."""
    import dsdarc
    import numpy

    try:
        sound = opened(name, READY)
    except dsdarc.Fault as why:
        return None, why
    parts = [numpy.zeros((0, sound.channels), numpy.int32)]
    try:
        with sound:
            parts += sound.blocks(1000, "native", always_2d=True)
    except dsdarc.Fault as why:
        return numpy.concatenate(parts), why
    return numpy.concatenate(parts), None


def try_one(folder: str, what: str, data: bytes) -> str:
    """One broken file: what became of it."""
    import dsdarc
    import numpy
    from dsdarc import Damaged

    name, mended = put(folder, "broken", data), os.path.join(folder, "mended")
    if os.path.exists(mended):
        os.remove(mended)
    done = subprocess.run([MEND, name, mended], env=os.environ | {"DSDARC": PROGRAM}, capture_output=True, check=False)
    frames, why = played(tolerantly, name)
    if done.returncode:
        demand(frames is None or why is not None, f"{what}: played whole, and not mended: {done.stderr!r}")
        return "refused"
    wanted, _ = played(dsdarc.open, mended if os.path.exists(mended) else name)
    is_same = frames is not None and wanted is not None and numpy.array_equal(frames, wanted)
    demand(is_same, f"{what}: other frames than those of the mended file: {done.stdout!r} {why!r}")
    if why is None:
        plain, fault = played(dsdarc.open, name)
        demand(fault is None and plain is not None and frames is not None, f"{what}: no damage told: {fault!r}")
        return "read as it is"
    count = 0 if frames is None else len(frames)
    demand(isinstance(why, Damaged) and why.frames == count, f"{what}: told {why!r} after {count} frames")
    demand(f"damaged after frame {count:,}" in str(why), f"{what}: told {why!r}")
    return "damaged"


def packed(frames: "ndarray") -> bytes:
    """Frames of 24 bits as they are in a WAVE file."""
    numbers = frames.astype("<i4").tobytes()
    return b"".join(numbers[at : at + 3] for at in range(0, len(numbers), 4))


def try_in_c(folder: str, what: str, command: str) -> None:
    """The same broken file, played in C by the lines of docs/LIBRARY.md."""
    name, out = os.path.join(folder, "broken"), os.path.join(folder, "damaged.pcm")
    frames, why = played(tolerantly, name)
    status, said = run(command, READY, name, out)
    if frames is None or len(frames) == 0:
        demand(status == 0 and said and get(out) == b"", f"C: {what}: {status} {said!r}, and not refused")
        return
    demand(status == 0 and get(out) == packed(frames), f"C: {what}: other frames than in Python: {said!r} {why!r}")
    line = f"damaged after frame {len(frames)}\n" if why is not None else ""
    demand(said.partition("\n")[0] == line.rstrip("\n"), f"C: {what}: said {said!r}, and not {line!r}")


def try_damaged(folder: str, command: str, files: int) -> None:
    """So many files of each form, broken in every way. What reads the header alone finds no chunks after a sound whose size
    is wrong."""
    chance, ends, in_c = random.Random(6), dict[str, int](), 0
    for _ in range(files):
        for it in (whole_dsdiff(chance), whole_dsf(chance)):
            has_more = not it.is_dsf and len(it.data) > it.start + it.size + 1
            for what, data in broken(it, chance):
                end = try_one(folder, what, data)
                ends[end] = ends.get(end, 0) + 1
                if not has_more or what != "the sound's size":
                    try_in_c(folder, what, command)
                    in_c += 1
    said = ", ".join(f"{count} {end}" for end, count in sorted(ends.items()))
    print(f"Python: damaged files: {said}; {in_c} of them in C, too", flush=True)


def try_lines() -> None:
    """docs/LIBRARY.md has the lines that are tried."""
    lines = get(os.path.join(ROOT, "docs", "LIBRARY.md")).decode()
    tried = get(os.path.join(ROOT, "tests", "library", "damaged.c")).decode()
    begin, end = tried.index("static dsdarc_status give("), tried.index("int main(")
    wanted = "".join(f"    {it}\n" if it else "\n" for it in tried[begin:end].rstrip().split("\n"))
    demand(wanted in lines, "docs/LIBRARY.md: other lines for a damaged file than tests/library/damaged.c")
