"""Mixes of small takes, which `nulltest` compares with masters: worked rows, rejected masters, and files that don't serve
a mix (docs/NULL_TEST.md)."""
import struct
from collections.abc import Iterator
from typing import Any

from dsdarc_scripts import dsdiffs
from tests.commands import mix_texts
from tests.commands.asking import Case, Step, done, refused, rejected

RATE = 2_822_400
G = 1 << 24
Bits = list[int]
Table = dict[str, Any]


def dsf(channels: list[Bits], rate: int = RATE) -> bytes:
    """A DSF file of a few bits."""
    count, blocks = len(channels[0]), b""
    for bits in channels:
        packed = bytes(sum(bit << it for it, bit in enumerate(bits[at : at + 8])) for at in range(0, count, 8))
        blocks += packed.ljust(4096, b"\0")
    head = b"DSD " + struct.pack("<QQQ", 28, 92 + len(blocks), 0)
    head += b"fmt " + struct.pack("<QIIIIIIQII", 52, 1, 0, len(channels), len(channels), rate, 1, count, 4096, 0)
    return head + b"data" + struct.pack("<Q", 12 + len(blocks)) + blocks


def dsdiff(channels: list[Bits], rate: int = RATE) -> bytes:
    """A DSDIFF file, whose bits are whole bytes."""
    places = range(0, len(channels[0]), 8)
    laced = bytes(int("".join(map(str, bits[at : at + 8])), 2) for at in places for bits in channels)
    return dsdiffs.dsdiff(rate, len(channels), laced)


def shown(value: object) -> str:
    """A value in TOML."""
    return '"' + value + '"' if isinstance(value, str) else str(value).replace("'", '"')


def mix_text(mix: Table) -> str:
    """The text of a mix: keys with values, and lists of tables for `decoder` and `clip`."""
    lines = ["[mix]"] + [f"{key} = {shown(it)}" for key, it in mix.items() if key not in ("decoder", "clip")]
    for kind in ("decoder", "clip"):
        for table in mix.get(kind, []):
            lines += [f"[[mix.{kind}]]", *(f"{key} = {shown(it)}" for key, it in table.items())]
    return "\n".join(lines) + "\n"


def bits_of(text: str) -> list[Bits]:
    return [list(map(int, text))]


A, B = "1101001011010010", "0010110100101101"
FIRST: Table = {"take": 0, "start": 0, "at": 0, "length": 16}
BOTH: list[Table] = [{"take": 0, "start": 0, "at": 0, "length": 8}, {"take": 1, "start": 8, "at": 8, "length": 8}]
TWICE: list[Table] = [{"take": 0, "start": 0, "at": 0, "length": 8}, {"take": 0, "start": 0, "at": 8, "length": 8}]
FADED: list[Table] = [
    {"take": 0, "start": 0, "at": 0, "length": 12, "gain": [[4, G], [12, 0]]},
    {"take": 1, "start": 4, "at": 4, "length": 12, "gain": [[0, 0], [8, G]]},
]
SILENT: Table = {"take": 0, "start": 0, "at": 16, "length": 4, "gain": [[0, 0]]}
ERRORS = [2, 4, -8, 8, -4, -4, 8, -8, 4, 4, -8, 8, -4, -4, 8, -6]

# Clips, the master, the other keys; then the stretch, its residual and its place, if there is one.
ROWS: tuple[tuple[list[Table], str, Table, tuple[int, int, int, int] | None], ...] = (
    ([FIRST], A, {}, None),
    ([FIRST], "1101001111010010", {}, (6, 8, 28, 7)),
    (BOTH, "1101001000101101", {}, (7, 8, 20, 8)),
    (FADED, "1101001011101101", {}, (4, 12, 34, 9)),
    ([FIRST, SILENT], A + "0110", {}, (15, 19, 16, 17)),
    (BOTH, "1101001000101101", {"every": 4}, (8, 8, 20, 8)),
    (TWICE, A, {}, (7, 8, 6, 7)),
)
PLAIN: Table = {"unit": 4, "audible": [1, 2, 1], "limit": 1000, "takes": ["a", "b"], "decoder": [{"taps": [1, 2, 1]}]}

# Decibels of the residuals to the full scale of 32.
LEVELS = {28: "-1.15", 20: "-4.08", 34: "0.53", 16: "-6.02", 6: "-14.53", 0: "-inf"}

TEST = "nulltest x.toml m"
USUAL = {"a": dsdiff(bits_of(A)), "b": dsf(bits_of(B))}
FLIPPED = ROWS[1][1]


def stretch_line(channel: int, stretch: tuple[int, int, int, int]) -> str:
    first, last, residual, place = stretch
    level = LEVELS[residual]
    return f"channel {channel} first {first} last {last} residual {residual} dBFS {level} place {place}"


def accepted(residual: int) -> str:
    return f"accepted residual {residual} dBFS {LEVELS[residual]}"


def row_cases() -> Iterator[Case]:
    """The rows: accepted at the limit, and rejected above it. Channels that are alike have a line each."""
    for clips, master, more, stretch in ROWS:
        for channels in (1, 2):
            files = {"a": dsdiff(bits_of(A) * channels), "b": dsf(bits_of(B) * channels)}
            files["m"] = dsf(bits_of(master) * channels)
            lines = [stretch_line(it, stretch) for it in range(channels)] if stretch else []
            greatest, place = (stretch[2], stretch[3]) if stretch else (0, 0)
            for limit in (1000, greatest):
                files["x.toml"] = mix_text({**PLAIN, **more, "clip": clips, "limit": limit}).encode()
                yield Case(dict(files), [done(TEST, "\n".join([*lines, accepted(greatest)]))])
            if stretch:
                files["x.toml"] = mix_text({**PLAIN, **more, "clip": clips, "limit": greatest - 1}).encode()
                line = "\n".join([*lines, f"rejected Residual 0 {place}"])
                yield Case(dict(files), [Step(TEST.split(), 1, line)])


def channel_cases() -> Iterator[Case]:
    """One channel alone differs. The files are of each form."""
    line = stretch_line(1, (6, 8, 28, 7))
    text = mix_text({**PLAIN, "takes": ["a"], "clip": [FIRST]}).encode()
    for write in (dsdiff, dsf):
        files = {"a": write(bits_of(A) * 2), "m": write(bits_of(A) + bits_of(FLIPPED)), "x.toml": text}
        yield Case(files, [done(TEST, f"{line}\n{accepted(28)}")])
    # The same gains, for all channels and for each.
    clips = [{**it, "gains": [it["gain"]] * 2} for it in FADED]
    for it in clips:
        del it["gain"]
    files = {name: dsf(bits_of(bits) * 2) for name, bits in (("a", A), ("b", B), ("m", ROWS[3][1]))}
    files["x.toml"] = mix_text({**PLAIN, "clip": clips}).encode()
    lines = [stretch_line(channel, (4, 12, 34, 9)) for channel in range(2)]
    yield Case(files, [done(TEST, "\n".join([*lines, accepted(34)]))])


LOUD: Table = {
    "unit": 2**28,
    "audible": [2**31 - 1],
    "limit": 2**63 - 1,
    "takes": ["a"],
    "decoder": [{"taps": [2**28]}],
}


def loud_cases() -> Iterator[Case]:
    """An error of 2^31 is too loud, and one of 2^31 - 32 isn't, whose residual is 12.0411998 dB to full scale."""
    files = {"a": USUAL["a"], "m": USUAL["a"]}
    residual = (2**31 - 32) * (2**31 - 1)
    line = f"residual {residual} dBFS 12.05"
    for gain, step in (
        (-3 * G, rejected(TEST, "TooLoud 0 0")),
        (-3 * G + 1, done(TEST, f"channel 0 first 0 last 15 {line} place 0\naccepted {line}")),
    ):
        text = mix_text({**LOUD, "clip": [FIRST | {"gain": [[0, gain]]}]}).encode()
        yield Case(files | {"x.toml": text}, [step])
    # In the second channel alone, and where the first eight places are own.
    files = {"a": dsdiff(bits_of(A) * 2), "m": dsdiff(bits_of(A) * 2)}
    clip = FIRST | {"gains": [[[0, G]], [[7, G], [8, -3 * G]]]}
    yield Case(files | {"x.toml": mix_text({**LOUD, "clip": [clip]}).encode()}, [rejected(TEST, "TooLoud 1 8")])


def rejections() -> Iterator[tuple[str, bytes]]:
    """Reasons against masters of a mix of 16 places, and these masters."""
    a, longer = bits_of(A), [bits_of(A)[0] + [0]]
    yield "MasterUnread", b""
    yield "MasterUnread", b"fLaC" + bytes(40)
    yield "MasterUnread", b"FRM8" + bytes(20)
    yield "MasterUnread", dsdiff(a, 44_100)
    yield from (("MasterUnread", dsdiff(a)[:end]) for end in range(1, len(dsdiff(a))))
    yield from (("MasterUnread", dsf(a)[:end]) for end in (1, 28, 60, 91, 92, 94, 4187))
    yield "MasterShape", dsf(longer, 5_644_800)
    yield "MasterShape", dsf(longer * 2)
    yield "MasterLength", dsf(longer)
    yield "MasterLength", dsf([a[0][:-1]])


def rejected_cases() -> Iterator[Case]:
    text = mix_text({**PLAIN, "clip": [FIRST]}).encode()
    yield from (Case(USUAL | {"x.toml": text, "m": data}, [rejected(TEST, line)]) for line, data in rejections())


def null_cases() -> Iterator[Case]:
    """What `nulltest` prints of masters."""
    yield from row_cases()
    yield from channel_cases()
    yield from loud_cases()
    yield from rejected_cases()


# Files that are refused.

LONG: Table = {"take": 1, "start": 8, "at": 0, "length": 9}


def refused_files() -> Iterator[tuple[str, dict[str, bytes], list[Table], str]]:
    """A name, the files that are there, the clips, and the first fault."""
    a, other, two = dsdiff(bits_of(A)), dsdiff(bits_of(A), 5_644_800), dsdiff(bits_of(A) * 2)
    yield "no files", {}, [FIRST], "ReadFailed"
    yield "no second take", {"a": a}, [FIRST], "ReadFailed"
    yield "no master", {"a": a, "b": a}, [FIRST], "ReadFailed"
    yield "a broken take, and no master", {"a": b"", "b": a}, [FIRST], "ReadFailed"
    yield "a broken take, and no second one", {"a": b"", "m": a}, [FIRST], "ReadFailed"
    yield "an empty take", {"a": a, "b": b"", "m": a}, [FIRST], "TakeUnread 1 UnknownForm"
    yield "a cut take", {"a": a[:-3], "b": b"", "m": a}, [FIRST], "TakeUnread 0 Dsdiff FormCut"
    yield "a take of music", {"a": a, "b": dsdiff(bits_of(A), 44_100), "m": b""}, [LONG], "TakeUnread 1 Dsdiff BadRate"
    yield "a cut DSF file", {"a": a, "b": dsf(bits_of(A))[:60], "m": b""}, [LONG], "TakeUnread 1 Dsf HeadCut"
    yield "no fill", {"a": a, "b": dsf(bits_of(A))[:-1], "m": b""}, [LONG], "TakeUnread 1 Dsf DataCut"
    yield "another rate, then a broken take", {"a": other, "b": a[:50], "m": a}, [FIRST], "TakeUnread 1 Dsdiff FormCut"
    yield "another rate", {"a": a, "b": other, "m": a}, [LONG], "TakeMismatch 1"
    yield "other channels", {"a": two, "b": a, "m": a}, [LONG], "TakeMismatch 1"
    yield "a clip after the end of its take", {"a": a, "b": a, "m": b""}, [FIRST, LONG, LONG], "ClipOutside 1"
    gains = [[[0, 0]], [[0, 0]]]
    wide = FIRST | {"gains": gains}
    yield "gains of two channels", {"a": a, "b": a, "m": b""}, [FIRST, wide, LONG], "Mix OutOfLimit gains"
    yield "a long clip with them", {"a": a, "b": a, "m": b""}, [LONG | {"gains": gains}], "ClipOutside 0"
    one = FIRST | {"gains": [[[0, 0]]]}
    yield "gains of one channel", {"a": two, "b": two, "m": two}, [one], "Mix OutOfLimit gains"


def refusal_cases() -> Iterator[Case]:
    """Texts with their first faults; one without a fault comes to the first take, which isn't there. Then files."""
    for number, (text, fault) in enumerate(mix_texts.texts()):
        # A byte order mark is passed over.
        data = (b"\xef\xbb\xbf" if number % 4 == 0 else b"") + text.encode("latin-1")
        yield Case({"x.toml": data}, [refused(TEST, f"Mix {fault}" if fault else "ReadFailed")])
    for _, files, clips, fault in refused_files():
        yield Case(files | {"x.toml": mix_text({**PLAIN, "clip": clips}).encode()}, [refused(TEST, fault)])
    folder = mix_text({**PLAIN, "takes": ["a", "."], "clip": [FIRST]}).encode()
    yield Case(USUAL | {"x.toml": folder, "m": USUAL["a"]}, [refused(TEST, "ReadFailed")])
    yield Case(USUAL, [refused("nulltest none.toml a", "ReadFailed"), refused("nulltest . a", "ReadFailed")])
    yield Case(USUAL, [refused("nulltest a a", "Mix NotToml")])
