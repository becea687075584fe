"""Small files, what they are made of, and folders of them."""
import struct
from collections.abc import Sequence
from typing import Any

from dsdarc_scripts.dsdiffs import IDS, VERSION, chunk, dsdiff, mark, mark_data, numbered, property_chunks
from tests.commands.asking import demand
from tests.fuzz.bases import LAYOUTS, chunk_bytes, decimate_text, splice_text

RATE = 2_822_400

# What is advised for a file that is not whole.
MENDED = "fetch it again, or dsdarc-mend IN OUT keeps what is there"


def mono(sound: bytes, more: bytes = b"") -> bytes:
    """A DSDIFF file of one channel."""
    return dsdiff(RATE, 1, sound, more=more)


def stereo(sound: bytes) -> bytes:
    """A DSDIFF file of two channels, of which the sound has a byte in turn."""
    return dsdiff(RATE, 2, sound)


def dsf(bits: int, count: int, sound: bytes, channels: int = 1, size: int = 4096, tag: bytes = b"") -> bytes:
    """A DSF file: 1 or 8 bits per sample, this many bits a channel, this sound at the start of `size` bytes, and a tag."""
    stop = 92 + size
    head = b"DSD " + struct.pack("<QQQ", 28, stop + len(tag), stop if tag else 0)
    head += b"fmt " + struct.pack("<QIIIIIIQII", 52, 1, 0, LAYOUTS[channels - 1], channels, RATE, bits, count, 4096, 0)
    return head + b"data" + struct.pack("<Q", 12 + size) + sound.ljust(size, b"\0") + tag


def sized(size: int, file: bytes) -> bytes:
    """A file, which has this many bytes."""
    demand(len(file) == size, f"a file of {len(file)} bytes, not {size}")
    return file


def changed(file: bytes, place: int, byte: int) -> bytes:
    """A file with another byte at a place."""
    demand(place < len(file), f"no byte {place}")
    return file[:place] + bytes([byte]) + file[place + 1 :]


# One byte of sound in each form: where DSF has 1 bit per sample, the earliest bit of a byte is its lowest. With a mark at
# the first sample; with that and a comment chunk of no comments; with a tag, in either order of bits.
FILE = sized(128, mono(b"\xf0"))
LEAST = sized(4188, dsf(1, 8, b"\x0f"))
MOST = dsf(8, 8, b"\xf0")
MARKED = mono(b"\xf0", mark(b""))
COMMENTED = sized(188, mono(b"\xf0", mark(b"") + chunk(b"COMT", bytes(2))))
TAGGED = sized(4191, dsf(1, 8, b"\x0f", tag=b"ID3"))
TAGGED_MOST = dsf(8, 8, b"\xf0", tag=b"ID3")

# One byte of sound with a mark in which each number is another, and a kept chunk at each place: in the property, in the
# edited master and in the form.
WITH_PARTS = sized(
    228,
    chunk(
        b"FRM8",
        b"DSD "
        + chunk(*VERSION)
        + chunk(b"PROP", b"SND " + b"".join(chunk(*it) for it in property_chunks(RATE, 1)) + chunk(b"LSCO", b"\0\x03"))
        + chunk(b"DSD ", b"\xf0")
        + chunk(
            b"DIIN",
            chunk(
                b"MARK",
                b"\0\x01\x02\x03\0\0\0\x04\xff\xff\xff\xfb\0\x06\0\x07\0\x08\0\0\0\x01x",
            )
            + chunk(b"EMID", b"m"),
        )
        + chunk(b"COMT", b"made by hand"),
    ),
)


def with_others(kind: bytes, *after: tuple[bytes, bytes]) -> bytes:
    """One byte of sound with this compression and two kept chunks in its property, and these chunks of the form after
    the sound."""
    parts = [*property_chunks(RATE, 1)[:2], (b"CMPR", kind), (b"LSCO", bytes(2)), (b"ABSS", b"\x01")]
    form = [VERSION, (b"PROP", b"SND " + b"".join(chunk(*it) for it in parts)), (b"DSD ", b"\xf0"), *after]
    return chunk(b"FRM8", b"DSD " + b"".join(chunk(*it) for it in form))


# Chunks that are kept at each place in two edited masters, and the same as it is written: in one.
EDITED = chunk(b"EMID", b"\x02"), chunk(b"MARK", bytes(22)), chunk(b"DIAR", b"\x03")
COMMENT, MANUFACTURER = (b"COMT", b"\x04"), (b"MANF", b"\x05\x06")
SCATTERED = with_others(b"DSD \0", (b"DIIN", EDITED[0]), COMMENT, (b"DIIN", EDITED[1] + EDITED[2]), MANUFACTURER)
GATHERED = with_others(b"DSD \x0enot compressed", (b"DIIN", EDITED[1] + EDITED[0] + EDITED[2]), COMMENT, MANUFACTURER)

# Two channels of 32,769 bits, one more than a block holds, of which the eighth of the first is 1, and of 9 bits.
LONG = sized(16476, dsf(1, 32769, b"\x80", 2, 16384))
LONG_MOST = dsf(8, 32769, b"\x01", 2, 16384)
NINE = dsf(1, 9, b"\x0f", 2, 8192)
NINE_MOST = dsf(8, 9, b"\x0f", 2, 8192)

# The same byte where the property has its rate twice.
PARTS = property_chunks(RATE, 1)
TWICE = chunk_bytes((b"FRM8", b"DSD ", [VERSION, (b"PROP", b"SND ", PARTS[:1] + PARTS), (b"DSD ", b"\xf0")]))

# The WAVE file to which it is played, one sample of 16 bits, 1 + 2 + 3 + 4 = 10, at 352,800 hertz, by this project; and a
# project whose factor doesn't divide the rate.
WAVE = b"RIFF\x26\0\0\0WAVEfmt \x10\0\0\0\x01\0\x01\0\x20\x62\x05\0\x40\xc4\x0a\0\x02\0\x10\0data\x02\0\0\0\x0a\0"
DECIMATE = decimate_text([1, 2, 3, 4], 8, 3, 0, 16).encode()
UNDIVIDED = decimate_text([1, 2, 3, 4], 1024, 3, 0, 16).encode()

# What four thousand taps of 1 make of as many ones, 512 samples: the first sees them all, 0x1000, and each eight fewer than
# the one before.
MOST_TAPS = decimate_text([1] * 4096, 8, 4095, 0, 16).encode()
EDGES = struct.pack("<512H", *range(4096, 0, -8))
EDGES = WAVE[:4] + struct.pack("<I", 36 + 1024) + WAVE[8:40] + struct.pack("<I", 1024) + EDGES

# Takes of 16 ones and of 16 zeros; zeros at twice the rate; and zeros whose chunk has 100 bytes by its header.
ONES = mono(b"\xff\xff")
ZEROS = mono(b"\0\0")
FAST = dsdiff(2 * RATE, 1, b"\0\0")
CUT_OFF = changed(ZEROS, 125, 100)

# The master that is cut of ones and zeros, also with its mark at sample 9 with the text `one`.
MASTER = sized(128, mono(b"\xff\0"))
TITLED = sized(178, mono(b"\xff\0", chunk(b"DIIN", chunk(b"MARK", mark_data(b"one", samples=9)))))

# The certificate of its bridge of one bit by the weights 1 and 0: two weights, one entry; cue 0, channel 0, one bit; level
# 0 is 0, one byte an excess, 4 and 0; level 1 is 4, and no byte an excess; the cost. And by the weights 1 and 1, by which
# the bit costs nothing.
CERT = sized(
    46,
    b"DSPC\0\x02\0\x02\0\0\0\x01\0\0\0\0\0\x01"
    b"\0\0\0\0\0\0\0\0\x01\x04\0"
    b"\0\0\0\0\0\0\0\x04\0"
    b"\0\0\0\0\0\0\0\x04",
)
FREE = b"DSPC\0\x02\0\x02\0\0\0\x01\0\0\0\0\0\x01" + bytes(9) + bytes(9) + bytes(8)

# The first of both by the first version, each bound in 8 bytes: those of the two states at level 0, where the walk starts
# in state 1, and at level 1, where every step has cost 4. And the same with the bound `2^63`, that is none, of the state
# that nothing reaches.
FIRST = sized(
    58,
    b"DSPC\0\x01\0\x02\0\0\0\x01\0\0\0\0\0\x01"
    b"\0\0\0\0\0\0\0\x04\0\0\0\0\0\0\0\0"
    b"\0\0\0\0\0\0\0\x04\0\0\0\0\0\0\0\x04"
    b"\0\0\0\0\0\0\0\x04",
)
WIDE = changed(changed(FIRST, 18, 0x80), 25, 0)

# Of a bridge of two bits by the weights 1 and 0, with the cost 8: its rows are 8 and 0; 8 and 4; 8 and 8.
TWO_BITS = (
    b"DSPC\0\x02\0\x02\0\0\0\x01\0\0\0\0\0\x02"
    b"\0\0\0\0\0\0\0\0\x01\x08\0"
    b"\0\0\0\0\0\0\0\x04\x01\x04\0"
    b"\0\0\0\0\0\0\0\x08\0"
    b"\0\0\0\0\0\0\0\x08"
)

# Of a bridge there, of cue 0, and of one back, of cue 1, by the weights 1 and 1: neither costs anything. Of a plain cut: no
# entry. Of one bit by the weights 0 and 1 that starts in state 0: its rows are 0 and 4; 4 and 4. And of one bit that is 4
# off one of two places of silence, by the weights 1 and 1: its rows are 16 and 0; 0 and 16.
BACK = b"DSPC\0\x02\0\x02\0\0\0\x02\0\0\0\0\0\x01" + bytes(26) + b"\0\x01\0\0\0\x01" + bytes(26)
PLAIN = b"DSPC\0\x02\0\x02\0\0\0\0"
NEXT_PLACE = CERT[:26] + b"\x01\0\x04" + CERT[29:]
SILENT = CERT[:26] + b"\x01\x10\0" + bytes(8) + b"\x01\0\x10" + bytes(7) + b"\x10"

# Of the bridge of `CERT` in both channels, an entry each, and of that of `FREE`.
BOTH = sized(80, CERT[:11] + b"\x02" + CERT[12:] + b"\0\0\0\x01" + CERT[16:])
BOTH_FREE = FREE[:11] + b"\x02" + FREE[12:] + b"\0\0\0\x01" + FREE[16:]

# A cue of the first 8 bits of ones, and one of zeros after a bridge of one bit; the same with a title; and back to
# ones.
CUES = ((0, 0, 8, 1), (1, 2, 9, 0))
NAMED_CUES = ((0, 0, 8, 1), (1, 2, 9, None, "one"))
THERE_AND_BACK = ((0, 0, 8, 1), (1, 2, 3, 1), (0, 2, 7, 0))


def splice(weights: list[int], cues: tuple[Any, ...] = CUES) -> bytes:
    return splice_text(weights, ("a.dff", "b.dff"), cues).encode()


def to_cut(project: bytes, second: bytes = ZEROS, first: bytes = ONES) -> dict[str, bytes]:
    """A folder with a project and the takes that it names."""
    return {"e.toml": project, "a.dff": first, "b.dff": second}


def to_cut_both(weights: list[int]) -> dict[str, bytes]:
    """The same of two channels of ones and of zeros."""
    return to_cut(splice(weights), stereo(bytes(4)), stereo(b"\xff" * 4))


def to_check(master: bytes, cert: bytes, cut: dict[str, bytes] | None = None) -> dict[str, bytes]:
    """A folder of what is cut, by the weights 1 and 0 where no others are given, with a master and a certificate."""
    return (cut or to_cut(splice([1, 0]))) | {"m.dff": master, "c.cert": cert}


TO_PLAY = {"in.dff": FILE, "p.toml": DECIMATE}

# With all that a command could want, under the names that the command lines have.
ALL = to_cut(splice([1, 0])) | TO_PLAY | {"m.dff": MASTER, "c.cert": CERT, "a": FILE}


def info_lines(
    form: str,
    samples: int,
    *marks: str,
    channels: int = 1,
    others: int = 0,
    tag: int = 0,
    ids: Sequence[bytes] | None = None,
    layout: int | None = None,
) -> str:
    """What `info` prints of a file. Its channels have the IDs `SLFT` and `SRGT`, or `C000` and so on, and the usual
    layout, where no others are given."""
    ids = ids or (IDS[2] if channels == 2 else numbered(channels))
    lines = [f"form {form}", "rate 2822400", f"channels {channels}", f"samples {samples}"]
    lines += f"ids {' '.join(it.hex() for it in ids)}", f"layout {layout or LAYOUTS[channels - 1]}"
    lines.append(f"marks {len(marks)}")
    return "\n".join((*lines, *marks, f"others {others}", f"tag {tag}"))
