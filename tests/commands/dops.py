"""DoP: a byte, nine bits and two frames in WAVE files that are written out here, and the first fault of others, with the
line that explains it."""
import struct
from collections.abc import Iterator
from typing import Any

from dsdarc_scripts.dsdiffs import dsdiff
from tests.commands.asking import Case, Step, done
from tests.commands.small_files import FILE, LEAST, MOST, NINE, RATE, WAVE, changed, dsf, stereo

# The fields of a format chunk in the second form, after those of the first: linear PCM of 24 valid bits.
PCM = b"\x16\0\x18\0\0\0\0\0\x01\0\0\0\0\0\x10\0\x80\0\0\xaa\0\x38\x9b\x71"


def wave(channels: int, samples: bytes, after: bytes = b"") -> bytes:
    """A WAVE file of 24 bits at a sixteenth of the rate, whose samples are these bytes. The channels are at 22, the rate is
    at 24, the bits of a sample are at 34, and the size of the samples is at 64, before them."""
    fields = struct.pack("<HHIIHH", 0xFFFE, channels, RATE // 16, RATE // 16 * 3 * channels, 3 * channels, 24) + PCM
    inner = b"WAVEfmt " + struct.pack("<I", 40) + fields + b"data" + struct.pack("<I", len(samples)) + samples + after
    return b"RIFF" + struct.pack("<I", len(inner)) + inner


def counted(number: int) -> bytes:
    """The chunk that says how many bits each channel has."""
    return b"DoPn\x08\0\0\0" + struct.pack("<Q", number)


# The byte 0xf0 with a byte of silence after it, a pad and its number of bits; nine bits of two channels, 1111'0000'0 and
# 0000'0000'0 with seven bits of silence; and two frames of two channels.
BYTE = wave(1, b"\x69\xf0\x05", b"\0" + counted(8))
NINE_BITS = wave(2, b"\x69\xf0\x05\x69\x00\x05", counted(9))
TWO = wave(2, b"\x05\x01\x05\x06\x02\x05\x15\x11\xfa\x16\x12\xfa")
TWO_FILE = stereo(b"\x01\x02\x05\x06\x11\x12\x15\x16")
ODD_RATE = dsdiff(RATE + 1, 1, b"\xf0")

PLAYED = (
    (FILE, BYTE, 1, "0:00:00.000"),
    (LEAST, BYTE, 1, "0:00:00.000"),
    (NINE, NINE_BITS, 2, "0:00:00.000"),
    (TWO_FILE, TWO, 2, "0:00:00.000"),
)
IS_DOP = (
    "; DoP of 2822400 Hz, for a device that knows it, and noise to any other: convert --dop takes the bits out again"
)

# The samples begin with the other marker; the first form of the format; chunks before and after; and the size of the whole
# is another.
TURNED = TWO[:68] + b"\x05\x01\xfa\x06\x02\xfa\x15\x11\x05\x16\x12\x05"
FIRST_FORM = TWO[:16] + b"\x10\0\0\0\x01\0" + TWO[22:36] + TWO[60:]
LISTED = TWO[:12] + b"LIST\x03\0\0\0abc\0" + TWO[12:] + b"id3 \0\0\0\0tail"
READ = (
    (BYTE, FILE, LEAST, MOST),
    (NINE_BITS, None, NINE, dsf(8, 9, b"\xf0", 2, 8192)),
    (TWO, TWO_FILE, None, None),
    (TURNED, TWO_FILE, None, None),
    (FIRST_FORM, TWO_FILE, None, None),
    (LISTED, TWO_FILE, None, None),
    (changed(TWO, 4, 0), TWO_FILE, None, None),
)

NO_PCM = "its samples are not integers of 24 bits, as those of DoP are: it is no DoP, or was changed"
NO_MARKER = "does not have the marker of DoP: it is no DoP, or its samples were changed, as by a volume control"
NO_FORMAT = 'it has no whole chunk "fmt " before its samples: fetch it again'
NO_COUNT = 'its chunk "DoPn" with the number of bits is not whole: fetch it again'
NO_END = 'its chunk "DoPn" says that each channel has {} bits, which do not end in the last frame'

# Files that are no DoP, the fault, and why.
REFUSED: tuple[tuple[bytes, str, str], ...] = (
    (b"", "NotWave", "it is empty"),
    (TWO[:11], "NotWave", "it has only 11 bytes"),
    (LEAST, "NotWave", 'it begins with "DSD ": a recording, not a WAVE file'),
    (dsdiff(RATE, 1, b"\xff"), "NotWave", 'it begins with "FRM8": a recording, not a WAVE file'),
    (b"RF64" + TWO[4:], "NotWave", 'it begins with "RF64": an RF64 file, not a WAVE file'),
    (TWO[:60], "NoData", 'it has no chunk "data": fetch it again'),
    (TWO[:67], "NoData", 'it has no chunk "data": fetch it again'),
    (TWO[:12] + TWO[60:], "NoFormat", NO_FORMAT),
    (TWO[:12] + TWO[60:] + TWO[12:60], "NoFormat", NO_FORMAT),
    (TWO[:12] + b"fmt \x08\0\0\0" + bytes(8) + TWO[60:], "NoFormat", NO_FORMAT),
    (WAVE, "NotPcm24", NO_PCM),
    (changed(TWO, 20, 3), "NotPcm24", NO_PCM),
    (changed(TWO, 32, 8), "NotPcm24", NO_PCM),
    (changed(TWO, 38, 20), "NotPcm24", NO_PCM),
    (changed(TWO, 44, 3), "NotPcm24", NO_PCM),
    (wave(0, b""), "BadChannelNumber", "it has 0 channels, and 1 to 6 are supported"),
    (wave(7, b""), "BadChannelNumber", "it has 7 channels, and 1 to 6 are supported"),
    (
        changed(TWO, 26, 0),
        "BadRate",
        "its rate is 45,328 Hz, and 62,500 to 3,125,000 Hz are supported, a sixteenth of the rate of the bits",
    ),
    (
        TWO[:64] + b"\xff" * 4 + TWO[68:],
        "NoSize",
        "its header does not say how many samples there are, as one that a pipe got: write it to a file",
    ),
    (
        TWO[:64] + bytes(4) + TWO[68:],
        "NoSize",
        "its header does not say how many samples there are, as one that a pipe got: write it to a file",
    ),
    (TWO[:70], "DataCut", "its samples have 12 bytes by their size, and 2 bytes are there: fetch it again"),
    (changed(TWO, 64, 9), "PartFrame", "its samples do not end with a whole frame: fetch it again"),
    (changed(TWO, 70, 0), "BadMarker 0", f"frame 0 {NO_MARKER}"),
    (changed(TWO, 73, 0xFA), "BadMarker 0", f"frame 0 {NO_MARKER}"),
    (changed(TWO, 76, 5), "BadMarker 1", f"frame 1 {NO_MARKER}"),
    (changed(TWO, 79, 0), "BadMarker 1", f"frame 1 {NO_MARKER}"),
    (TWO + b"DoPn\x07\0\0\0" + bytes(7), "CountCut", NO_COUNT),
    (TWO + counted(20)[:15], "CountCut", NO_COUNT),
    (TWO + counted(33), "BadCount", NO_END.format(33)),
    (TWO + counted(16), "BadCount", NO_END.format(16)),
)


def asked(files: dict[str, bytes], line: str, came: tuple[int, str, str], made: dict[str, bytes]) -> Iterator[Case]:
    """A command line with `--explain` and without: status, line, and why."""
    status, said, why = came
    yield Case(files, [Step(["--explain", *line.split()], status, said, made, why)])
    yield Case(files, [Step(line.split(), status, said, made)])


def dop_cases() -> Iterator[Case]:
    """All tables, as cases."""
    for file, made, channels, lasts in PLAYED:
        why = f"176400 Hz, 24 bits, {channels} channel{'s' * (channels > 1)}, {lasts}{IS_DOP}"
        came = 0, f"played {len(made)} bytes", why
        yield from asked({"in": file}, "play --dop in out.wav", came, {"out.wav": made})
    for file, *forms in READ:
        for form, wanted in zip(("dsdiff", "dsf", "dsf8"), forms):
            if wanted is not None:
                yield Case({"in": file}, [done(f"convert --dop {form} in out", "converted dropped 0", {"out": wanted})])
    for file, line, why in REFUSED:
        came = 2, f"fault: FileUnread Dop {line}", f"in (IN): {why}"
        yield from asked({"in": file}, "convert --dop dsf in out", came, {})
    rest: tuple[Any, ...] = (
        (
            BYTE,
            "convert dsf in out",
            "FileUnread UnknownForm",
            'in (IN): it begins with "RIFF": a WAVE file, not a DSDIFF or DSF file',
            {},
        ),
        (
            NINE_BITS,
            "convert --dop dsdiff in out",
            "NotWholeBytes",
            "in (IN) does not have whole bytes of bits: convert it to dsf or dsf8",
            {},
        ),
        (
            BYTE,
            "play --dop in out",
            "FileRefused",
            'in (IN): it begins with "RIFF": a WAVE file, not a DSDIFF or DSF file',
            {"out": b""},
        ),
        (
            ODD_RATE,
            "play --dop in out",
            "RateNotDivided",
            "in (IN) has 2,822,401 Hz, which 16 does not divide, the bits of a sample: DoP has no place for it",
            {"out": b""},
        ),
        (
            FILE,
            "play --dop in none/out",
            "WriteFailed",
            "none/out (OUT): No such file or directory; there is no folder none",
            {},
        ),
        (
            FILE,
            "play --dop . out",
            "ReadFailed",
            ". (IN): it is a folder; workflows/play_all plays the files of a folder",
            {"out": b""},
        ),
        (BYTE, "convert --dop dsf nope out", "ReadFailed", "nope (IN): No such file or directory", {}),
    )
    for file, words, line, why, made_there in rest:
        yield from asked({"in": file}, words, (2, f"fault: {line}", why), made_there)
