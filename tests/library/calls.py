"""Tries the calls of the Python package around the frames: which filter plays a file if none is named, filters of taps,
reads into arrays, loudspeakers, marks, tags, stored bits, and files that are written. What is expected are the bytes and
lines of the program, and of `dsdarc_scripts.dsdiffs`."""
import array
import ctypes
import io
import os
import pickle
import random
import subprocess
import sys
import threading
import tomllib
from typing import TYPE_CHECKING, Any

from dsdarc_scripts.dsdiffs import chunk, dsdiff, mark_data, numbered
from tests.helpers.trials import ROOT, demand, get
from tests.helpers.trials import said as run
from tests.library.playing import PROGRAM, frames_of

if TYPE_CHECKING:
    from numpy import ndarray

READY = os.path.join(ROOT, "filters", "dsd64-to-88200-24.toml")


def refuses(kind: type[Exception], words: str, call: Any) -> None:
    """Asks that a call raises this, with these words."""
    try:
        call()
        demand(False, f"Python: nothing refuses what {words!r} is said of")
    except Exception as why:
        demand(type(why) is kind and words in str(why), f"Python: {why!r}, not {kind.__name__} {words!r}")


def put(folder: str, name: str, data: bytes) -> str:
    path = os.path.join(folder, name)
    with open(path, "wb") as file:
        file.write(data)
    return path


def rows_of(chance: random.Random, count: int, channels: int) -> "ndarray":
    import numpy

    return numpy.frombuffer(chance.randbytes(count * channels), numpy.uint8).reshape(-1, channels)


def by_default(folder: str, chance: random.Random) -> None:
    """Without a filter a file is played to 88200/24 or 96000/24, or to what DSDARC_FILTER says."""
    import dsdarc

    before = os.environ.pop("DSDARC_FILTER", None)
    try:
        for rate, out in ((2822400, 88200), (5644800, 88200), (3072000, 96000), (12288000, 96000)):
            name = put(folder, "default.dff", dsdiff(rate, 2, chance.randbytes(20000)))
            with dsdarc.open(name) as sound:
                is_right = (sound.samplerate, sound.info.width) == (out, 24)
                demand(is_right, f"Python: {rate} Hz by default to {sound.info}")
                whole, second = dsdarc.read(name)
                wanted = dsdarc.read(name, f"{out}/24")[0]
                demand(second == out and (whole == wanted).all(), f"Python: other frames by default of {rate} Hz")
        name = put(folder, "default.dff", dsdiff(2822400, 2, chance.randbytes(20000)))
        ready = os.path.join(ROOT, "filters", "dsd64-to-176400-24.toml")
        for filter, out in (("44100/16", 44100), (ready, 176400)):
            os.environ["DSDARC_FILTER"] = filter
            with dsdarc.open(name) as sound:
                demand(sound.samplerate == out, f"Python: DSDARC_FILTER={filter}: {sound.info}")
        del os.environ["DSDARC_FILTER"]
        odd = put(folder, "odd.dff", dsdiff(3000000, 1, bytes(100)))
        refuses(ValueError, "no ready filter plays 3000000 Hz to 88200/24 or 96000/24", lambda: dsdarc.open(odd))
    finally:
        os.environ.pop("DSDARC_FILTER", None)
        os.environ.update({} if before is None else {"DSDARC_FILTER": before})


def of_taps(folder: str, chance: random.Random) -> None:
    """A filter of taps plays as its project text does; what the library refuses is a ValueError that says why."""
    import dsdarc
    import numpy

    name = put(folder, "taps.dff", dsdiff(2822400, 2, chance.randbytes(20000)))
    with open(READY, "rb") as file:
        stated = tomllib.load(file)["decimate"]
    for taps in (stated["taps"], numpy.array(stated["taps"])):
        filter = dsdarc.Filter(**stated | {"taps": taps})
        read = dsdarc.read(name, filter)[0]
        demand((read == dsdarc.read(name, READY)[0]).all(), "Python: other frames by a filter of taps")
    demand(filter == dsdarc.Filter(**stated) and hash(filter) == hash(dsdarc.Filter(**stated)), "Python: other filters")
    demand(dsdarc.Filter([1, 2, 3, 4, 5], 8).delay == 2, "Python: another delay")
    made: Any = dsdarc.Filter
    rows: tuple[tuple[str, dict[str, Any]], ...] = (
        ("OutOfLimit: the taps are 1 to 4096", {"taps": []}),
        ("OutOfLimit: the taps are 1 to 4096", {"taps": [1] * 4097}),
        ("OutOfLimit: the taps are 1 to 4096 whole numbers of 32 bits", {"taps": [1 << 31]}),
        ("with an absolute sum of at most 2**30", {"taps": [1 << 30, 1]}),
        ("WrongKind: taps are whole numbers, and not 0.5", {"taps": [0.5]}),
        ("WrongKind: taps are whole numbers, and not 5", {"taps": 5}),
        ("WrongKind: taps are whole numbers, and not array(5)", {"taps": numpy.array(5)}),
        ("OutOfLimit: the factor is a multiple of 8 from 8 to 1024, and not 12", {"factor": 12}),
        ("and not 1032", {"factor": 1032}),
        ("WrongKind: the factor is a whole number, and not 8.0", {"factor": 8.0}),
        ("OutOfLimit: the delay is at least 0 and less than the number of taps, and not 3", {"delay": 3}),
        ("and not -1", {"delay": -1}),
        ("OutOfLimit: the shift is from 0 to 30, and not 31", {"shift": 31}),
        ("OutOfLimit: the width is 16 or 24, and not 20", {"width": 20}),
    )
    for words, given in rows:
        refuses(ValueError, words, lambda: made(**{"taps": [1, 2, 1], "factor": 8} | given))
    refuses(dsdarc.Fault, "RateNotDivided", lambda: dsdarc.open(name, dsdarc.Filter([1], 1024)))


def into_arrays(folder: str, chance: random.Random) -> None:
    """A read into an array gives the numbers that a read gives, and nothing else of the array changes."""
    import dsdarc
    import numpy

    for channels in (1, 2, 6):
        name = put(folder, "out.dff", dsdiff(2822400, channels, chance.randbytes(channels * 20000)))
        with dsdarc.open(name, READY) as sound:
            for kind in ("float64", "float32", "int32", "native"):
                sound.seek(0)
                whole = sound.read(dtype=kind, always_2d=True)
                dtype: Any = numpy.int32 if kind == "native" else kind
                for frames in (0, 1, 500, len(whole) + 5):
                    out = numpy.full((frames, channels), 77, dtype)
                    at = sound.seek(chance.randrange(len(whole)))
                    given = sound.read(out=out, dtype=kind if kind == "native" else None)
                    wanted = whole[at : at + frames]
                    is_right = numpy.array_equal(given, wanted) and (given.base is out or len(out) == 0)
                    is_right &= bool((out[len(wanted) :] == 77).all()) and sound.tell() == at + len(wanted)
                    demand(is_right, f"Python: other numbers in an array of {frames} frames, {kind}")
                flat = numpy.zeros(30 * channels, dtype)
                sound.seek(11)
                given = sound.read(20, dtype=kind, out=flat)
                is_right = numpy.array_equal(given, whole[11:31].ravel()) and not flat[20 * channels :].any()
                demand(is_right, f"Python: other numbers in a flat array, {kind}")
            buffers: list[Any] = [
                array.array("f", bytes(4 * 12)),
                (ctypes.c_float * 12)(),
                memoryview(bytearray(48)).cast("f"),
            ]
            for buffer in buffers:
                sound.seek(3)
                wanted = sound.read(12 // channels, "float32").ravel().tolist()
                sound.seek(3)
                given = sound.read(out=buffer)
                demand(list(buffer) == wanted == given.tolist(), f"Python: other numbers in {type(buffer).__name__}")
    with dsdarc.open(name, READY) as sound:
        # Numbers that aren't where the processor wants them.
        for kind in ("float64", "float32", "int32"):
            whole = sound.read(9, kind)
            shifted = numpy.frombuffer(bytearray(1 + whole.nbytes), numpy.uint8)[1:].view(kind).reshape(whole.shape)
            sound.seek(0)
            demand((sound.read(out=shifted) == whole).all(), f"Python: other numbers at an odd place, {kind}")
            sound.seek(0)
    fixed = numpy.zeros((4, 6))
    fixed.flags.writeable = False
    outs: tuple[tuple[type[Exception], str, Any], ...] = (
        (ValueError, "neither 6 columns nor", numpy.zeros((4, 5))),
        (ValueError, "neither 6 columns nor", numpy.zeros(7)),
        (ValueError, "neither 6 columns nor", numpy.zeros((1, 1, 6))),
        (ValueError, "dtype is one of", numpy.zeros((4, 6), "int64")),
        (ValueError, "dtype is one of", bytearray(48)),
        (ValueError, "which int16 doesn't hold", numpy.zeros((4, 6), "int16")),
        (ValueError, "not C-contiguous", numpy.zeros((4, 12))[:, ::2]),
        (ValueError, "can't be written", fixed),
        (TypeError, "not list", [1.0] * 6),
    )
    with dsdarc.open(name, READY) as sound:
        for exception, words, wrong in outs:
            refuses(exception, words, lambda: sound.read(out=wrong))
        refuses(ValueError, "float64, and not of float32", lambda: sound.read(dtype="float32", out=numpy.zeros((4, 6))))
        demand(sound.tell() == 0, "Python: a refused read into an array moves the place")


def loudspeakers(folder: str) -> None:
    """The names of channels, and their mask."""
    import dsdarc

    def of(name: str) -> tuple[int, tuple[str, ...], int]:
        with dsdarc.open(name, READY) as sound:
            kept = pickle.loads(pickle.dumps(sound.channels))
            demand(
                (kept, kept.names, kept.mask) == (sound.channels, sound.channels.names, sound.channels.mask), "pickled"
            )
            demand(f"{sound.channels}" == str(sound.info.channels), "Python: a number of channels isn't printed as one")
            return sound.channels, sound.channels.names, sound.channels.mask

    for ids, names, mask in (
        ([b"C000"], (), 0x4),
        ([b"C   "], ("FC",), 0x4),
        ([b"SLFT", b"SRGT"], ("FL", "FR"), 0x3),
        ([b"SRGT", b"SLFT"], ("FR", "FL"), 0),
        ([b"MLFT", b"MRGT", b"C   ", b"LFE ", b"LS  ", b"RS  "], ("FL", "FR", "FC", "LFE", "BL", "BR"), 0x3F),
        ([b"SLFT", b"SRGT", b"C002"], ("FL", "FR", "C002"), 0),
        (numbered(4), (), 0x33),
    ):
        found = of(put(folder, "ids.dff", dsdiff(2822400, len(ids), bytes(80 * len(ids)), ids=ids)))
        demand(found == (len(ids), names, mask), f"Python: the channels {ids} are {found}")
    for channels, names, mask in (
        (1, ("FC",), 0x4),
        (2, ("FL", "FR"), 0x3),
        (5, ("FL", "FR", "FC", "BL", "BR"), 0x37),
        (6, ("FL", "FR", "FC", "LFE", "BL", "BR"), 0x3F),
    ):
        name = put(folder, "ids.dff", dsdiff(2822400, channels, bytes(80 * channels)))
        run(PROGRAM, "convert", "dsf", name, name.replace(".dff", ".dsf"))
        found = of(name.replace(".dff", ".dsf"))
        demand(found == (channels, names, mask), f"Python: {channels} channels of a DSF file are {found}")


def in_order(folder: str, chance: random.Random) -> None:
    """By `speakers`, channels and mask are those of `play --speakers`."""
    import dsdarc
    import numpy

    surround = [b"MLFT", b"MRGT", b"C   ", b"LFE ", b"LS  ", b"RS  "]
    wave = os.path.join(folder, "order.wav")
    for ids in (
        surround,
        surround[::-1],
        [b"RS  ", b"SLFT", b"C   "],
        [b"SLFT", b"SRGT"],
        [b"SRGT", b"SLFT"],
        [b"SLFT", b"MLFT", b"C   "],
        [b"SLFT", b"C001"],
        numbered(5),
    ):
        count = len(ids)
        name = put(folder, "order.dff", dsdiff(2822400, count, chance.randbytes(count * 9000), ids=ids))
        status, said = run(PROGRAM, "play", "--speakers", READY, name, wave)
        demand(status == 0, f"play --speakers: {said}")
        data, (frames, align) = get(wave), frames_of(get(wave))
        mask = int.from_bytes(data[40:44], "little")
        for kind in ("float64", "int32"):
            with dsdarc.open(name, READY, speakers=True) as sound:
                bits, out = sound.bits(), numpy.empty((len(sound), count), kind)
                read = sound.read(out=out)
                packed = (read if kind == "int32" else numpy.rint(read * (1 << 31)).astype("int32")) >> 8
                given = b"".join(it.to_bytes(3, "little", signed=True) for it in packed.ravel().tolist())
                is_right = given == frames and sound.channels.mask == mask and align == 3 * count
                demand(is_right, f"Python: other frames by the loudspeakers {ids}, {kind}, mask {sound.channels.mask}")
                demand((bits == dsdarc.open(name, READY).bits()).all(), "Python: other bits by loudspeakers")
                known = dict(zip([b"MLFT", b"SLFT", b"C   ", b"RS  "], ["FL", "FL", "FC", "BR"]))
                if mask:
                    wanted = [known[it] for it in ids if it in known]
                    demand(all(it in sound.channels.names for it in wanted), f"Python: {sound.channels.names}")


def marks(folder: str, chance: random.Random) -> None:
    """Marks have the places of `info`, in any DIIN and any file object."""
    import dsdarc

    rows = [(1, 2, 3, 4, -5, 4, 2, "é".encode()), (0, 0, 0, 7, 0, 0, 0, b"\xe9t\xe9"), (0, 0, 0, 1, -9, 1, 1, b"")]
    made = [chunk(b"MARK", mark_data(row[-1], *row[:-1])) for row in rows]
    more = (
        chunk(b"DIIN", chunk(b"EMID", b"odd") + made[0]) + chunk(b"MORE", b"12345") + chunk(b"DIIN", made[1] + made[2])
    )
    data = dsdiff(2822400, 2, chance.randbytes(20001 * 2), more=more)
    name = put(folder, "marks.dff", data)
    lines = [it.split() for it in run(PROGRAM, "info", name)[1].splitlines() if it.startswith("mark ")]
    inside = io.BytesIO(b"before" + data)
    inside.seek(6)
    files: tuple[Any, ...] = (name, inside)
    for file in files:
        with dsdarc.open(file, READY) as sound:
            found = [["mark", str(it.bits), "type", str(it.type), "channel", str(it.channel)] for it in sound.marks]
            demand(found == lines and len(found) == 3, f"Python: the marks {found}, not {lines}")
            titles = [it.title for it in sound.marks]
            demand(titles == ["é", "été", ""], f"Python: titles of marks: {titles}")
            demand(all(it.seconds == it.bits / 2822400 for it in sound.marks), "Python: other seconds of marks")
            demand(sound.tell() == 0 and len(sound.read(9)) == 9, "Python: no frames after marks")
    run(PROGRAM, "convert", "dsf", name, name.replace(".dff", ".dsf"))
    with dsdarc.open(name.replace(".dff", ".dsf"), READY) as sound:
        demand(sound.marks == [], "Python: a DSF file has marks")
    many = [chunk(b"MARK", mark_data(b"%d" % it, samples=it)) for it in range(20_000)]
    with dsdarc.open(
        put(folder, "many.dff", dsdiff(2822400, 1, b"1", more=chunk(b"DIIN", b"".join(many)))), READY
    ) as it:
        demand([mark.title for mark in it.marks] == [str(at) for at in range(20_000)], "Python: other marks of many")


def odd_marks(folder: str) -> None:
    """Marks outside the sound, and those that lie: each that is there is given, as far as it is."""
    import dsdarc

    data, last = mark_data(b"abc"), 65_535 * 3600 + 255 * 61
    lying = data[:18] + b"\xff" * 4 + b"abc"

    def marked(*datas: bytes) -> bytes:
        return chunk(b"DIIN", b"".join(chunk(b"MARK", it) for it in datas))

    rows: tuple[tuple[bytes, list[tuple[int, str]]], ...] = (
        (marked(mark_data(b"x", offset=-100)), [(-100, "x")]),
        (
            marked(mark_data(b"", 65_535, 255, 255, 2**32 - 1, 2**31 - 1)),
            [(last * 2_822_400 + 2**32 + 2**31 - 2, "")],
        ),
        (marked(lying, data), [(0, "abc"), (0, "abc")]),
        (chunk(b"DIIN", b"MARK" + (1 << 40).to_bytes(8, "big") + data), [(0, "abc")]),
        (b"DIIN" + (1 << 50).to_bytes(8, "big") + chunk(b"MARK", data), [(0, "abc")]),
        (b"DIIN" + b"\xff" * 8 + chunk(b"MARK", data), []),
        (marked(data[:21], data), [(0, "abc")]),
        (marked(mark_data(b"a\0\0"), mark_data(b"\xff")), [(0, "a"), (0, "ÿ")]),
        (chunk(b"DIIN", marked(data)), []),
    )
    for more, wanted in rows:
        with dsdarc.open(put(folder, "odd.dff", dsdiff(2822400, 2, bytes(80), more=more)), READY) as sound:
            found = [(it.bits, it.title) for it in sound.marks]
            demand(found == wanted, f"Python: the marks {found}, not {wanted}")
    whole = dsdiff(2822400, 2, bytes(80), more=marked(mark_data(b"one"), mark_data(b"two")))
    with dsdarc.open(put(folder, "odd.dff", whole[:-20]), READY) as sound:
        demand([it.title for it in sound.marks] == ["one"], f"Python: marks of a file that is cut: {sound.marks}")


def tags(folder: str, chance: random.Random) -> None:
    """Tags are those that mutagen writes; a file without one has none, also where mutagen isn't there."""
    import dsdarc

    sound = chance.randbytes(20000)
    plain = put(folder, "plain.dff", dsdiff(2822400, 2, sound))
    code = "import sys; sys.modules['mutagen'] = None; import dsdarc\nfor name in sys.argv[1:]: print(dsdarc.open(name).tag)"
    where = os.environ | {"PYTHONPATH": os.path.join(ROOT, "python")}
    tagged = put(folder, "other.dff", dsdiff(2822400, 2, sound, more=chunk(b"ID3 ", b"ID3")))
    done = subprocess.run([sys.executable, "-c", code, plain, tagged], env=where, capture_output=True, check=False)
    said = "ImportError: a tag is read by mutagen: install it (python3-mutagen, or pip install mutagen)\n"
    is_right = done.stdout == b"None\n" and done.stderr.decode().endswith(said)
    demand(is_right, f"Python: a tag without mutagen: {done.stdout!r}, {done.stderr[-200:]!r}")
    try:
        from mutagen.id3 import APIC, ID3, TIT2
    except ImportError:
        print("left out: tags, as python3-mutagen isn't installed")
        return
    tag, written = ID3(), io.BytesIO()
    tag.add(TIT2(encoding=3, text="Título"))
    tag.add(APIC(encoding=3, mime="image/png", type=3, desc="", data=chance.randbytes(100_000)))
    tag.save(written)
    dff = put(
        folder, "tag.dff", dsdiff(2822400, 2, sound, more=chunk(b"MORE", b"odd") + chunk(b"ID3 ", written.getvalue()))
    )
    run(PROGRAM, "convert", "dsf", plain, os.path.join(folder, "plain.dsf"))
    data = bytearray(get(os.path.join(folder, "plain.dsf")))
    # The size of the file that a header states isn't looked at: a tag goes to the end of its file.
    data[20:28] = len(data).to_bytes(8, "little")
    dsf = put(folder, "tag.dsf", bytes(data) + written.getvalue())
    for name in (dff, dsf):
        with dsdarc.open(name, READY) as opened:
            frames = sorted(map(repr, opened.tag.values()))
            demand(frames == sorted(map(repr, tag.values())), f"Python: another tag of {name[-3:]}")
    for name in (plain, os.path.join(folder, "plain.dsf"), put(folder, "none.dsf", bytes(data) + b"no tag")):
        with dsdarc.open(name, READY) as opened:
            demand(opened.tag is None, "Python: a tag where none is")
    with dsdarc.open(put(folder, "cut.dsf", get(dsf)[:-100]), READY) as opened:
        refuses(ValueError, "mutagen doesn't read the tag", lambda: opened.tag)
    odd_tags(folder, bytes(data), written.getvalue(), plain)


def odd_tags(folder: str, dsf: bytes, tag: bytes, plain: str) -> None:
    """Tags whose places or sizes lie: they are read as far as they are there. `dsf` ends where its tag starts."""
    import dsdarc

    def is_read(name: str, data: bytes) -> bool:
        with dsdarc.open(put(folder, name, data), READY) as opened:
            return opened.tag is not None

    for total in (0, len(dsf), len(dsf) + len(tag), 2**64 - 1):
        stated = dsf[:12] + total.to_bytes(8, "little") + dsf[20:]
        demand(is_read("odd.dsf", stated + tag), f"Python: no tag of a DSF file that states {total} bytes")
    for place in (1, 10**9, 2**63, 2**64 - 1):
        stated = dsf[:20] + place.to_bytes(8, "little") + dsf[28:]
        demand(not is_read("odd.dsf", stated + tag), f"Python: a tag of a DSF file at {place}")
    for rest in (b"", b"ID3", b"\0" * 999):
        demand(not is_read("odd.dsf", dsf + rest), f"Python: a tag of {rest[:3]!r}")
    held = get(plain)
    for more, is_there in (
        (chunk(b"BIG ", bytes(3_000_001)) + chunk(b"ID3 ", tag), True),
        (b"ID3 " + (1 << 40).to_bytes(8, "big") + tag, True),
        (b"ID3 " + b"\xff" * 8 + tag, False),
        (chunk(b"ID3 ", b"") + chunk(b"ID3 ", tag), False),
        (b"\xff" * 99, False),
    ):
        form = held[:4] + (len(held) - 12 + len(more)).to_bytes(8, "big") + held[12:] + more
        demand(is_read("odd.dff", form) == is_there, f"Python: the tag of a DSDIFF file with {more[:12]!r}")


def writes(folder: str, chance: random.Random) -> None:
    """What is written has the bytes that `convert` writes, and `bits` gives it back, whole and in parts."""
    import dsdarc
    import numpy

    dff, dsf, other = (os.path.join(folder, it) for it in ("written.dff", "written.dsf", "other.dsf"))
    for channels in (1, 2, 3, 4, 5, 6):
        for count in (1, 7, 4096, 4097, 70_001):
            rows = rows_of(chance, count, channels)
            for name in (dff, dsf):
                dsdarc.write(name, rows if channels > 1 else rows[:, 0], 2822400)
                with dsdarc.open(name, READY) as sound:
                    sound.seek(min(5, len(sound)))
                    is_right = numpy.array_equal(sound.bits(), rows) and sound.bit_count == 8 * count
                    at = chance.randrange(count + 1)
                    is_right &= numpy.array_equal(sound.bits(at, 4000), rows[at : at + 4000])
                    demand(is_right, f"Python: other bits of {channels} channels of {count} bytes in {name[-3:]}")
                    demand(sound.tell() == min(5, len(sound)), "Python: bits move the place")
            wanted = dsdiff(2822400, channels, rows.tobytes(), ids=None if channels == 2 else numbered(channels))
            demand(get(dff) == wanted, f"Python: another DSDIFF file of {channels} channels of {count} bytes")
            run(PROGRAM, "convert", "dsf", dff, other)
            demand(get(dsf) == get(other), f"Python: another DSF file of {channels} channels of {count} bytes")
            sums = [run(PROGRAM, "sum", it)[1].split()[:channels] for it in (dff, dsf)]
            demand(sums[0] == sums[1], f"Python: other sums: {sums}")
    for given in (rows, rows[::-1], numpy.asfortranarray(rows), rows[::3]):
        dsdarc.write(dff, given, 2822400)
        demand(get(dff).endswith(given.tobytes() + bytes(given.size % 2)), "Python: other bits of an odd array")
    dsdarc.write(dff, b"abc", 2822400)
    demand(get(dff).endswith(b"abc\0"), "Python: other bits of bytes")
    for name in (dff, dsf):
        dsdarc.write(name, rows[:0], 2822400)
        with dsdarc.open(name, READY) as sound:
            is_empty = len(sound) == len(sound.read()) == len(sound.bits()) == sound.bit_count == 0
            demand(is_empty and sound.marks == [] and sound.tag is None, "Python: a file without bits has some")
    for count in (1, 9, 32_767, 32_769, 100_003):
        bits = numpy.unpackbits(rows_of(chance, count // 8 + 1, 2), axis=0)[:count].astype(bool)
        dsdarc.write(dsf, bits, 5644800)
        status, said = run(PROGRAM, "info", dsf)
        demand(status == 0 and f"samples {count}\n" in said, f"Python: {count} bits: {said}")
        with dsdarc.open(dsf) as sound:
            packed = sound.bits()
            is_right = numpy.array_equal(packed, numpy.packbits(bits, axis=0)) and sound.bit_count == count
            demand(is_right, f"Python: other bits of {count}")
        # What follows the last bit in the last byte doesn't count.
        packed[-1] |= 255 >> count % 8 if count % 8 else 0
        dsdarc.write(other, packed, 5644800, count=count)
        demand(get(other) == get(dsf), f"Python: bytes and bits of {count} are written otherwise")


def replaces(folder: str, chance: random.Random) -> None:
    """A file that is replaced is whole, keeps its mode and its links, and stays where anything is refused."""
    import dsdarc
    import numpy

    rows = rows_of(chance, 5000, 2)
    name, link = os.path.join(folder, "replaced.dsf"), os.path.join(folder, "link.dsf")
    put(folder, "replaced.dsf", b"old")
    os.chmod(name, 0o640)
    os.symlink("replaced.dsf", link)
    there = set(os.listdir(folder))
    write: Any = dsdarc.write
    for words, given in (
        ("ends in .dsf or .dff", (os.path.join(folder, "x.wav"), rows, 2822400)),
        ("uint8 or bool", (name, rows.astype("int16"), 2822400)),
        ("1 to 6 channels", (name, numpy.uint8(3), 2822400)),
        ("1 to 6 channels", (name, rows[:, :0], 2822400)),
        ("1 to 6 channels", (name, rows.reshape(-1, 1, 2), 2822400)),
        ("1 to 6 channels", (name, rows[:21].reshape(6, 7), 2822400)),
        ("from 1000000 to 50000000 Hz", (name, rows, 44100)),
        ("has 40000 bits of each channel, and not 39992", (name, rows, 2822400, 39992)),
        ("has 3 bits of each channel, and not 2", (name, rows[:3].astype(bool), 2822400, 2)),
        ("whole bytes of each channel, and not 39993 bits", (name.replace(".dsf", ".dff"), rows, 2822400, 39993)),
    ):
        refuses(ValueError, words, lambda: write(*given))
    refuses(TypeError, "the rate is a whole number, and not 2822400.0", lambda: write(name, rows, 2822400.0))
    refuses(FileNotFoundError, "none/x.dsf", lambda: write(os.path.join(folder, "none", "x.dsf"), rows, 2822400))
    pipe = os.path.join(folder, "pipe.dsf")
    os.mkfifo(pipe)
    refuses(ValueError, "is a pipe or a device", lambda: write(pipe, rows, 2822400))
    os.remove(pipe)
    limited = f"""import resource, signal, sys, numpy, dsdarc
signal.signal(signal.SIGXFSZ, signal.SIG_IGN)
resource.setrlimit(resource.RLIMIT_FSIZE, (4096, 4096))
dsdarc.write({name!r}, numpy.zeros((5000, 2), numpy.uint8), 2822400)"""
    where = os.environ | {"PYTHONPATH": os.path.join(ROOT, "python")}
    done = subprocess.run([sys.executable, "-B", "-c", limited], env=where, capture_output=True, check=False)
    demand(
        b"File too large" in done.stderr and name.encode() in done.stderr, f"Python: no room: {done.stderr[-200:]!r}"
    )
    is_old = get(name) == b"old" and set(os.listdir(folder)) == there
    demand(is_old, f"Python: after refusals there is {set(os.listdir(folder)) ^ there}")
    dsdarc.write(link, rows, 2822400)
    with dsdarc.open(name, READY) as sound:
        demand(numpy.array_equal(sound.bits(), rows), "Python: other bits by a link")
    is_kept = os.path.islink(link) and os.stat(name).st_mode & 0o777 == 0o640 and set(os.listdir(folder)) == there
    demand(is_kept, "Python: a file that is replaced loses its mode or its link")
    short = put(folder, "short.dsf", get(name)[:-1])
    with dsdarc.open(short, READY) as sound:
        refuses(dsdarc.Fault, "FileRefused", sound.bits)
        refuses(ValueError, "there is no row 5001: there are 5000", lambda: sound.bits(5001))
        demand(numpy.array_equal(sound.bits(0, 90), rows[:90]), "Python: no bits after a fault")
    refuses(ValueError, "closed", sound.bits)
    refuses(ValueError, "closed", lambda: sound.marks)


def in_threads(folder: str, chance: random.Random) -> None:
    """Threads read bits, marks and frames of one sound."""
    import dsdarc
    import numpy

    rows, wrong = rows_of(chance, 300_001, 2), []
    name = os.path.join(folder, "threads.dff")
    dsdarc.write(name, rows, 2822400)
    with dsdarc.open(name, READY) as sound:
        whole = sound.read()

        def reads(seed: int) -> None:
            own = random.Random(seed)
            for _ in range(40):
                at = own.randrange(len(rows))
                if not numpy.array_equal(sound.bits(at, 3000), rows[at : at + 3000]) or sound.marks:
                    wrong.append(at)
                sound.seek(0)

        threads = [threading.Thread(target=reads, args=[it]) for it in range(4)]
        for each in threads:
            each.start()
        for each in threads:
            each.join()
        demand(not wrong, f"Python: {len(wrong)} other bits in threads")
        demand(numpy.array_equal(sound.read(), whole), "Python: other frames after bits in threads")


def try_calls(folder: str, seed: int = 11) -> None:
    """All of these."""
    room, chance = os.path.join(folder, "calls"), random.Random(seed)
    os.mkdir(room)
    by_default(room, chance)
    of_taps(room, chance)
    into_arrays(room, chance)
    loudspeakers(room)
    in_order(room, chance)
    marks(room, chance)
    odd_marks(room)
    tags(room, chance)
    writes(room, chance)
    replaces(room, chance)
    in_threads(room, chance)
