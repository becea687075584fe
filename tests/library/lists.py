"""Tries lists of files that the Python package plays: joined, their frames are those that `play` makes of the recording that
they are one after the other; and which files are not joined."""
import gc
import io
import os
import random
import warnings
from typing import TYPE_CHECKING, Any

from dsdarc_scripts.dsdiffs import chunk, dsdiff
from tests.helpers.trials import ROOT, demand, get
from tests.helpers.trials import said as run
from tests.library.calls import put, refuses, rows_of
from tests.library.interrupted import numbers_of
from tests.library.playing import PROGRAM, frames_of

if TYPE_CHECKING:
    from numpy import ndarray

READY = os.path.join(ROOT, "filters", "dsd64-to-88200-24.toml")
FACTOR = 32


def played(folder: str, rows: "ndarray", filter: str = READY) -> "ndarray":
    """The frames that `play` makes of a sound."""
    channels = rows.shape[1]
    name, wave = put(folder, "whole.dff", dsdiff(2822400, channels, rows.tobytes())), os.path.join(folder, "whole.wav")
    status, said = run(PROGRAM, "play", filter, name, wave)
    demand(status == 0, f"not played: {said}")
    frames, align = frames_of(get(wave))
    return numbers_of(frames, align, align // channels)


def cut_up(folder: str, chance: random.Random, rows: "ndarray", sizes: list[int]) -> list[str]:
    """Files of the parts of a sound, which have so many rows, in either form; some have a chunk more."""
    import dsdarc

    names, at = [], 0
    for number, size in enumerate(sizes):
        part, form = rows[at : at + size], chance.choice(["dsf", "dff", "more.dff"])
        name = os.path.join(folder, f"part-{number}.{form}")
        dsdarc.write(name, part, 2822400)
        if form == "more.dff":
            more = chunk(b"MORE", chance.randbytes(chance.randrange(70_000)))
            put(folder, os.path.basename(name), dsdiff(2822400, rows.shape[1], part.tobytes(), more=more))
        names.append(name)
        at += size
    return names


def joins(folder: str, chance: random.Random) -> None:
    """Whole, in pieces, from any frame on, and bit by bit it is the recording."""
    import dsdarc
    import numpy

    for channels, sizes in (
        (2, [70_001, 4096, 1, 0, 90_000]),
        (2, [4095, 4097, 40_000]),
        (1, [3, 5, 7, 11_111]),
        (6, [20_000, 1, 20_001]),
        (2, [0, 0, 500, 0]),
        (2, [chance.randrange(60_000) for _ in range(6)]),
    ):
        rows = rows_of(chance, sum(sizes), channels)
        names, whole = cut_up(folder, chance, rows, sizes), played(folder, rows)
        files: list[Any] = [io.BytesIO(get(it)) if chance.random() < 0.3 else it for it in names]
        sounds = []
        for sound in dsdarc.play_list(files, READY):
            sounds.append(sound)
            begins = tuple(-(-8 * sum(sizes[:it]) // FACTOR) for it in range(len(sizes)))
            is_right = (len(sound), sound.starts, len(sound.files)) == (len(whole), begins, len(names))
            demand(is_right, f"Python: a list of {sizes} is {sound.info} with {sound.starts}, not {begins}")
            pieces = [whole[:0]]
            while sound.tell() < len(sound):
                pieces.append(sound.read(chance.randrange(1, 3000), "native", True))
            demand(numpy.array_equal(numpy.concatenate(pieces), whole), f"Python: other frames of a list of {sizes}")
            for _ in range(20):
                at = sound.seek(min(chance.choice([*begins, chance.randrange(len(whole) + 1)]), len(whole)))
                read = sound.read(300, "native", True)
                demand(numpy.array_equal(read, whole[at : at + 300]), f"Python: other frames of a list from {at} on")
            demand(numpy.array_equal(sound.bits(), rows), "Python: other bits of a list")
            at = chance.randrange(len(rows) + 1)
            demand(numpy.array_equal(sound.bits(at, 5000), rows[at : at + 5000]), f"Python: other bits from {at} on")
        demand(len(sounds) == 1 and sounds[0].closed, f"Python: {len(sounds)} sounds of one recording")


def gaps(folder: str, chance: random.Random) -> None:
    """What can't be joined is a sound of its own, and a warning says why."""
    import dsdarc
    import numpy

    rows = rows_of(chance, 9000, 2)
    first, second = cut_up(folder, chance, rows, [4000, 5000])
    other = os.path.join(folder, "other.dsf")
    reversed = put(folder, "reversed.dff", dsdiff(2822400, 2, rows.tobytes(), ids=[b"SRGT", b"SLFT"]))
    for why, write in (
        ("it has 5644800 Hz, and not 2822400 Hz", lambda: dsdarc.write(other, rows, 5644800)),
        ("it has 1 channels, and not 2", lambda: dsdarc.write(other, rows[:, 0], 2822400)),
        ("one of them doesn't end on a whole byte", lambda: dsdarc.write(other, rows, 2822400, count=71_999)),
        ("its channels belong to other loudspeakers", None),
    ):
        if write is not None:
            write()
        alone = reversed if write is None else other
        with warnings.catch_warnings(record=True) as said:
            warnings.simplefilter("always")
            parts = [(it.files, it.read()) for it in dsdarc.play_list([first, second, alone, first], "88200/24")]
        texts = [str(it.message) for it in said if it.category is dsdarc.GapWarning and it.filename == __file__]
        is_right = len(texts) == len(said) == 2 and texts[0] == f"{alone} isn't joined to {second}: {why}"
        demand(is_right, f"Python: of a file that isn't joined, as {why}: {texts}")
        wanted = [(first, second), (alone,), (first,)]
        demand([it for it, _ in parts] == wanted, f"Python: other parts of a list: {[it for it, _ in parts]}")
        for (name,), frames in parts[1:]:
            demand(numpy.array_equal(frames, dsdarc.read(name, "88200/24")[0]), f"Python: other frames of {name}")
    demand(list(dsdarc.play_list([])) == [], "Python: an empty list has sounds")
    wrong: Any = dsdarc.play_list
    for exception, words, files in (
        (TypeError, "several files", first),
        (TypeError, "several files", io.BytesIO(get(first))),
        (TypeError, "a path or a binary file, and not int", [first, 7]),
        (FileNotFoundError, "none.dsf", [first, "none.dsf"]),
        (dsdarc.Fault, f"FileRefused: {READY}", [first, READY]),
    ):
        refuses(exception, words, lambda: wrong(files, READY))
    sounds = dsdarc.play_list([first, second], READY)
    sound = next(sounds)
    del sounds
    gc.collect()
    demand(sound.closed, "Python: a sound of a list that was left is open")


def refused_within(folder: str, chance: random.Random) -> None:
    """Of a file that ends early the frames are given that it has, and then the fault, with its name."""
    import dsdarc
    import numpy

    rows = rows_of(chance, 90_000, 2)
    for broken in range(3):
        names = cut_up(folder, chance, rows, [30_000] * 3)
        dsdarc.write(names[broken], rows[30_000 * broken :][:30_000], 2822400)
        data = get(names[broken])
        for cut in (1, 20_000):
            put(folder, os.path.basename(names[broken]), data[:-cut])
            fault, pieces = None, []
            try:
                for sound in dsdarc.play_list(names, READY):
                    for block in sound.blocks(777, "native", True):
                        pieces.append(block)
            except dsdarc.Fault as why:
                fault = why
            frames = numpy.concatenate(pieces)
            whole = played(folder, rows)
            reach = 30_000 * (broken + 1) * 8 // FACTOR
            is_right = reach - 4000 < len(frames) <= reach and numpy.array_equal(frames, whole[: len(frames)])
            is_named = fault is not None and str(fault) == f"FileRefused: {names[broken]}"
            demand(is_right and is_named, f"Python: {len(frames)} frames of a list, of {reach}, and {fault}")


def shared(folder: str, chance: random.Random) -> None:
    """A sound of a list goes on after a fork, and in threads."""
    import threading

    import dsdarc
    import numpy

    rows = rows_of(chance, 200_000, 2)
    names, whole = cut_up(folder, chance, rows, [50_000] * 4), played(folder, rows)
    wrong: list[int] = []
    for sound in dsdarc.play_list(names, READY):

        def reads(seed: int) -> None:
            own = random.Random(seed)
            for _ in range(30):
                at = own.randrange(len(rows))
                if not numpy.array_equal(sound.bits(at, 3000), rows[at : at + 3000]):
                    wrong.append(at)
                sound.seek(own.randrange(len(whole)))
                sound.read(100)

        threads = [threading.Thread(target=reads, args=[it]) for it in range(3)]
        for each in threads:
            each.start()
        child = os.fork()
        if child == 0:
            at = sound.seek(len(whole) // 2)
            os._exit(0 if numpy.array_equal(sound.read(900, "native"), whole[at : at + 900]) else 1)
        for each in threads:
            each.join()
        demand(os.waitpid(child, 0)[1] == 0, "Python: other frames of a list in a forked process")
        demand(not wrong, f"Python: {len(wrong)} other bits of a list in threads")


def try_lists(folder: str, seed: int = 12) -> None:
    """All of these."""
    room, chance = os.path.join(folder, "lists"), random.Random(seed)
    os.mkdir(room)
    joins(room, chance)
    gaps(room, chance)
    refused_within(room, chance)
    shared(room, chance)
