"""Mistakes that are easily made with a null test, and the line that explains each after its fault or its rejection."""
from collections.abc import Iterator

from dsdarc_scripts.dsdiffs import dsdiff
from tests.commands.nulls import A, B, FIRST, FLIPPED, LOUD, PLAIN, RATE, accepted, bits_of, mix_text, stretch_line
from tests.commands import nulls
from tests.commands.small_files import MENDED

# A mix, line by line.
TEXT = b"""[mix]
unit = 4
audible = [1, 2, 1]
limit = 1000
takes = ["a.dff", "b.dff"]

[[mix.decoder]]
taps = [1, 2, 1]

[[mix.clip]]
take = 0
start = 0
at = 0
length = 8

[[mix.clip]] # the second
take = 1
start = 8
at = 8
length = 8
"""
CLIPS = TEXT[TEXT.index(b"[[mix.clip]]") :]
TEST = "nulltest x.toml m.dff"
TAPS = "an odd number of whole numbers, at most 65,535, with an absolute sum of at most"
POINTS = "1 to 4,096 points"
QUOTES = '; a text is in quotation marks, as in takes = ["one.dff", "two.dff"]'
NO_VALUE = "invalid value, expected a string, number, boolean, date-time, array or inline table"

# What replaces what in it, at its last place, and why.
SLIPS = (
    (b'["a.dff", "b.dff"]', b"[a.dff, b.dff]", "NotToml", f"line 5: {NO_VALUE}{QUOTES}"),
    (b"[mix]", b"[mic]", "UnknownKey", '"mic" in line 1 is no key of the document; did you mean "mix"?'),
    (
        b"limit =",
        b"limits =",
        "UnknownKey",
        '"limits" in line 4 is no key of the table "mix"; did you mean "limit"?',
    ),
    (
        b"start = 8",
        b"volume = 1\nstart = 8",
        "UnknownKey",
        '"volume" in line 18 is no key of a clip; its keys are take, decoder, start, at, length, gain, gains',
    ),
    (
        b"start = 8",
        b"taps = [1]\nstart = 8",
        "UnknownKey",
        '"taps" in line 18 is no key of a clip; it belongs to a decoder',
    ),
    (
        b"limit = 1000\n",
        b"",
        "MissingKey limit",
        'the table "mix" in line 1 has no "limit": a whole number from 0 to 9,223,372,036,854,775,807',
    ),
    (
        b"[[mix.decoder]]\ntaps = [1, 2, 1]\n",
        b"",
        "MissingKey decoder",
        'the table "mix" in line 1 has no "decoder": 1 to 16 tables [[mix.decoder]]',
    ),
    (
        b"at = 8\n",
        b"",
        "MissingKey at",
        'clip 1 in line 16 has no "at": a whole number from 0 to 68,719,476,736',
    ),
    (
        b"unit = 4",
        b"unit = 4.0",
        "WrongKind unit",
        '"unit" in line 2 is of the kind float, and has to be a whole number from 1 to 268,435,456',
    ),
    (
        b"audible = [1, 2, 1]",
        b"audible = [1, 2]",
        "OutOfLimit audible",
        f'"audible" in line 3 is an array of 2, and has to be {TAPS} 2,147,483,647 and a sum above 0',
    ),
    (
        b"limit = 1000",
        b"limit = 1000\nevery = 0",
        "OutOfLimit every",
        '"every" in line 5 is 0, and has to be a whole number from 1 to 64',
    ),
    (
        b"taps = [1, 2, 1]",
        b"taps = [1, 1]",
        "OutOfLimit taps",
        f'"taps" in line 8 is an array of 2, and has to be {TAPS} 268,435,456',
    ),
    (b"take = 1", b"take = 2", "NoTake 1", "clip 1 names take 2 in line 17; there are 2, counted from 0"),
    (
        b"length = 8",
        b"length = 8\ndecoder = 1",
        "OutOfLimit decoder",
        '"decoder" in line 21 is 1, and has to be the number of a decoder, counted from 0',
    ),
    (
        b"length = 8",
        b"length = 0",
        "OutOfLimit length",
        '"length" in line 20 is 0, and has to be a whole number, 1 or more, and the clip may end at most at '
        "68,719,476,736",
    ),
    (
        b"length = 8",
        b"length = 8\ngain = [[0, 99999999]]",
        "OutOfLimit gain",
        f'"gain" in line 21 is an array of 1, and has to be {POINTS} [place, gain], with rising places from 0 to '
        "68,719,476,736 and gains from -67,108,864 to 67,108,864",
    ),
    (
        b"length = 8",
        b"length = 8\ngain = [[0, 0]]\ngains = [[[0, 0]]]",
        "OutOfLimit gains",
        f'"gains" in line 22 is an array of 1, and has to be for each channel {POINTS} as gain has them, and may not '
        "be beside gain",
    ),
    (
        b"length = 8",
        b"length = 8\ngains = [[[0, 0]], [[0, 0]]]",
        "OutOfLimit gains",
        f'"gains" in line 21 is an array of 2, and has to be for each channel {POINTS} as gain has them, and may not '
        "be beside gain; a.dff (take 0) has 1 channel",
    ),
    (
        CLIPS,
        CLIPS * 65,
        "OutOfLimit clip",
        '"clip" is an array of 130, and has to be 1 to 1,024 tables [[mix.clip]], and at most 64 of them at one place',
    ),
)

# The files that the mix names, and a master that it accepts.
ONE, TWO = nulls.dsdiff(bits_of(A)), nulls.dsdiff(bits_of(B))
MASTER = nulls.dsdiff(bits_of(A[:8] + B[8:]))
FILES = {"a.dff": ONE, "b.dff": TWO, "m.dff": MASTER, "x.toml": TEXT}
FLAC = b"fLaC".ljust(16, b"\0")
CERT = b"DSPC".ljust(44, b"\0")

# What is changed in these files, None for one that isn't there; the arguments, the fault, and why.
OTHERS: tuple[tuple[dict[str, bytes | None], str, str, str], ...] = (
    ({}, "nulltest none/x m.dff", "ReadFailed", "none/x (MIX): No such file or directory; there is no folder none"),
    ({}, "nulltest . m.dff", "ReadFailed", ". (MIX): it is a folder"),
    (
        {"b.dff": None},
        TEST,
        "ReadFailed",
        "b.dff (take 1 of x.toml): No such file or directory; takes are looked up in {folder}",
    ),
    ({"m.dff": None}, TEST, "ReadFailed", "m.dff (MASTER): No such file or directory"),
    ({}, "nulltest m.dff x.toml", "Mix NotToml", "m.dff (MIX): it is a recording; MIX comes before MASTER"),
    ({"c": CERT}, "nulltest c m.dff", "Mix NotToml", "c (MIX): it is a certificate, and MIX is a text"),
    ({"x.toml": b"\xff"}, TEST, "Mix NotToml", "x.toml (MIX): it is not UTF-8"),
    (
        {"b.dff": FLAC},
        TEST,
        "TakeUnread 1 UnknownForm",
        'x.toml (MIX): b.dff (take 1): it begins with "fLaC": a FLAC file, not a DSDIFF or DSF file',
    ),
    (
        {"b.dff": dsdiff(2 * RATE, 1, b"\0\0")},
        TEST,
        "TakeMismatch 1",
        "x.toml (MIX): a.dff (take 0) has 1 channel at 2,822,400 Hz, and b.dff (take 1) has 1 channel at "
        "5,644,800 Hz: their rates differ, and all takes have to have the same",
    ),
    (
        {"x.toml": TEXT.replace(b"start = 8\nat = 8\nlength = 8", b"start = 8\nat = 8\nlength = 9")},
        TEST,
        "ClipOutside 1",
        "x.toml (MIX): clip 1 in line 16 ends at bit 17 of b.dff (take 1), which has 16 bits per channel: start it "
        "earlier, or shorten it",
    ),
)

USAGE = "; usage: dsdarc nulltest MIX MASTER"
WRONG_USES = (
    ("nulltest", f"nulltest takes 2 words and got 0{USAGE}"),
    ("nulltest x.toml", f"nulltest takes 2 words and got 1{USAGE}"),
    ("nulltest x.toml m.dff c", f"nulltest takes 2 words and got 3{USAGE}"),
    ("nulltest -x.toml m.dff", f"-x.toml begins with -; as a name it is written ./-x.toml{USAGE}"),
    ("nulltest --from 1 x.toml m.dff", f"--from is no option of nulltest; it belongs to play{USAGE}"),
    ("nulltset x.toml m.dff", '"nulltset" is no command; did you mean nulltest?'),
)

Row = tuple[dict[str, bytes], str, int, str, str]


def changed(changes: dict[str, bytes | None]) -> dict[str, bytes]:
    return {name: data for name, data in (FILES | changes).items() if data is not None}


def faults() -> Iterator[Row]:
    for old, new, line, why in SLIPS:
        text = new.join(TEXT.rsplit(old, 1))
        yield changed({"x.toml": text}), TEST, 2, f"fault: Mix {line}", f"x.toml (MIX): {why}"
    for changes, arguments, line, why in OTHERS:
        yield changed(changes), arguments, 2, f"fault: {line}", why
    for arguments, why in WRONG_USES:
        yield FILES, arguments, 3, "fault: WrongWords", why


def rejections() -> Iterator[Row]:
    text = mix_text({**PLAIN, "takes": ["a.dff"], "clip": [FIRST], "limit": 27}).encode()
    loud = mix_text({**LOUD, "takes": ["a.dff"], "clip": [FIRST | {"gain": [[0, -3 << 24]]}]}).encode()
    lines = f"{stretch_line(0, (6, 8, 28, 7))}\nrejected Residual 0 7"
    for mix, master, line, why in (
        (
            text,
            nulls.dsdiff(bits_of(FLIPPED)),
            lines,
            "m.dff (MASTER): the residual at bit 7 of channel 0 is above the limit of the mix, 27",
        ),
        (
            loud,
            ONE,
            "rejected TooLoud 0 0",
            "m.dff (MASTER): at bit 0 of channel 0 the master is too far from the mix to be judged: is it another "
            "take, or another decoder?",
        ),
        (
            text,
            nulls.dsdiff(bits_of(A[:8])),
            "rejected MasterLength",
            "m.dff (MASTER) has 8 bits per channel; the mix has 16 places",
        ),
        (
            text,
            dsdiff(2 * RATE, 1, b"\0\0"),
            "rejected MasterShape",
            "m.dff (MASTER) has 1 channel at 5,644,800 Hz, and a.dff (take 0) 1 channel at 2,822,400 Hz",
        ),
        (text, b"", "rejected MasterUnread", "m.dff (MASTER): it is empty"),
        (
            text,
            ONE[:-2],
            "rejected MasterUnread",
            f"m.dff (MASTER): the file ends 2 bytes early, at byte 126: {MENDED}",
        ),
    ):
        yield {"a.dff": ONE, "m.dff": master, "x.toml": mix}, TEST, 1, line, why


def null_mistakes() -> Iterator[Row]:
    """Files, arguments, the status, the lines, and why; of an accepted master nothing is explained."""
    yield from faults()
    yield from rejections()
    yield FILES, TEST, 0, f"{stretch_line(0, (7, 8, 20, 8))}\n{accepted(20)}", ""
