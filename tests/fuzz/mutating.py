"""What is done to files: each change is a function of a random source and what is changed, and answers the changed
thing. `mutate_*` make some changes in turn and return their names."""
import random
import re
from collections.abc import Callable, Iterator
from typing import Any

from tests.fuzz import forging
from tests.fuzz.bases import Base, chunk_bytes
from tests.fuzz.certificates import Entry

SIZES: tuple[int, ...] = (
    0,
    1,
    2,
    3,
    4,
    11,
    12,
    28,
    52,
    255,
    2**16 - 1,
    2**20,
    2**24,
    2**28,
    2**31 - 1,
    2**31,
    2**32 - 1,
    2**32,
)
SIZES += (2**36, 2**36 + 1, 2**40, 2**63 - 1, 2**63, 2**63 + 1, 2**64 - 13, 2**64 - 12, 2**64 - 1)
CHUNK_IDS = (b"FRM8", b"FVER", b"PROP", b"FS  ", b"CHNL", b"CMPR", b"DSD ", b"DIIN", b"MARK", b"COMT", b"fmt ", b"data")
TYPES = (b"SND ", b"DSD ", b"DST ", b"")
# The places of a DSF file's numbers, and how many bytes each has.
DSF_FIELDS = (
    (4, 8),
    (12, 8),
    (20, 8),
    (32, 8),
    (40, 4),
    (44, 4),
    (48, 4),
    (52, 4),
    (56, 4),
    (60, 4),
    (64, 8),
    (72, 4),
    (76, 4),
    (84, 8),
)


# The same of a WAVE file of 24 bits.
WAVE_FIELDS = (
    (4, 4),
    (16, 4),
    (20, 2),
    (22, 2),
    (24, 4),
    (28, 4),
    (32, 2),
    (34, 2),
    (36, 2),
    (38, 2),
    (40, 4),
    (64, 4),
)


# Of any bytes.


def some_range(rng: random.Random, data: bytes) -> tuple[int, int]:
    start = rng.randrange(len(data) + 1)
    return start, min(len(data), start + rng.choice((1, 2, 4, 8, 12, 16, 64, 512, len(data))))


def cut(rng: random.Random, data: bytes) -> bytes:
    return data[: rng.randrange(len(data) + 1)]


def cut_little(rng: random.Random, data: bytes) -> bytes:
    return data[: max(0, len(data) - rng.randint(1, 16))]


def extend(rng: random.Random, data: bytes) -> bytes:
    more = rng.choice((1, 2, 5, 12, 13, 64, 4096))
    return data + (rng.randbytes(more) if rng.random() < 0.5 else bytes(more))


def flip_bits(rng: random.Random, data: bytes) -> bytes:
    out = bytearray(data)
    for _ in range(rng.choice((1, 1, 1, 2, 4, 16))):
        if out:
            out[rng.randrange(len(out))] ^= 1 << rng.randrange(8)
    return bytes(out)


def set_bytes(rng: random.Random, data: bytes) -> bytes:
    out = bytearray(data)
    for _ in range(rng.choice((1, 1, 2, 4))):
        if out:
            out[rng.randrange(len(out))] = rng.choice((0, 1, 127, 128, 255, rng.randrange(256)))
    return bytes(out)


def remove(rng: random.Random, data: bytes) -> bytes:
    start, stop = some_range(rng, data)
    return data[:start] + data[stop:]


def repeat(rng: random.Random, data: bytes) -> bytes:
    start, stop = some_range(rng, data)
    return data[:stop] + data[start:]


def move(rng: random.Random, data: bytes) -> bytes:
    start, stop = some_range(rng, data)
    rest = data[:start] + data[stop:]
    to = rng.randrange(len(rest) + 1)
    return rest[:to] + data[start:stop] + rest[to:]


def set_number(rng: random.Random, data: bytes) -> bytes:
    """A number of 4 or 8 bytes anywhere, in either order."""
    size, order = rng.choice((4, 8)), rng.choice(("big", "little"))
    if len(data) < size:
        return data
    return put_number(data, rng.randrange(len(data) - size + 1), size, rng.choice(SIZES), order)


def put_number(data: bytes, at: int, size: int, value: int, order: str) -> bytes:
    return data[:at] + (value % 256**size).to_bytes(size, order) + data[at + size :]


def size_near(rng: random.Random, value: int) -> int:
    return rng.choice(
        (*SIZES, value + 1, value - 1, value + 2, value - 2, value * 2, value // 2, value + 12, value - 12)
    )


ANY_BYTES = (cut, cut_little, extend, flip_bits, flip_bits, set_bytes, remove, repeat, move, set_number)


# Of DSDIFF files.


def heads(data: bytes) -> list[int]:
    """The places of what look like chunks' heads."""
    return [it.start() for it in re.finditer(b"|".join(CHUNK_IDS), data) if it.start() + 12 <= len(data)]


def set_size(rng: random.Random, data: bytes) -> bytes:
    places = heads(data)
    if not places:
        return data
    at = rng.choice(places) + 4
    return put_number(data, at, 8, size_near(rng, int.from_bytes(data[at : at + 8], "big")), "big")


def rename(rng: random.Random, data: bytes) -> bytes:
    places = heads(data)
    if not places:
        return data
    at = rng.choice(places)
    return data[:at] + rng.choice(CHUNK_IDS) + data[at + 4 :]


def set_field(rng: random.Random, data: bytes) -> bytes:
    """A number at the start of a chunk's data: version, rate, channels, type, a mark's fields."""
    places = heads(data)
    if not places:
        return data
    at, size = rng.choice(places) + 12 + rng.choice((0, 0, 0, 2, 4, 8, 12, 18)), rng.choice((1, 2, 4))
    if at + size > len(data):
        return data
    return put_number(data, at, size, size_near(rng, int.from_bytes(data[at : at + size], "big")), "big")


def chunk_lists(node: tuple[Any, ...]) -> Iterator[list[tuple[Any, ...]]]:
    """A list of chunks in a tree, and those below it."""
    if len(node) == 3:
        yield node[2]
        for inner in node[2]:
            yield from chunk_lists(inner)


def copied(node: tuple[Any, ...]) -> tuple[Any, ...]:
    return (*node[:2], [copied(it) for it in node[2]]) if len(node) == 3 else node


def change_chunks(rng: random.Random, tree: Any) -> tuple[bytes, bytes, list[tuple[Any, ...]]]:
    """A chunk repeated, dropped, moved, renamed or changed in its data; the sizes round it are mended."""
    tree = copied(tree)
    lists = list(chunk_lists(tree))
    chunks = rng.choice(lists)
    if not chunks:
        return tree
    k = rng.randrange(len(chunks))
    what = rng.randrange(6)
    if what == 0:
        chunks.insert(rng.randrange(len(chunks) + 1), copied(chunks[k]))
    elif what == 1:
        del chunks[k]
    elif what == 2:
        rng.choice(lists).append(copied(chunks.pop(k)))
    elif what == 3:
        rng.shuffle(chunks)
    elif what == 4:
        chunks[k] = (rng.choice(CHUNK_IDS), *chunks[k][1:])
    elif len(chunks[k]) == 2:
        chunks[k] = (chunks[k][0], rng.choice(ANY_BYTES)(rng, chunks[k][1]))
    else:
        chunks[k] = (chunks[k][0], rng.choice(TYPES), chunks[k][2])
    return tree


DSDIFF_BYTES = (*ANY_BYTES, set_size, set_size, set_size, rename, set_field, set_field, set_field)


# Of DSF files.


def set_dsf_field(rng: random.Random, data: bytes) -> bytes:
    at, size = rng.choice(DSF_FIELDS)
    if at + size > len(data):
        return data
    near = size_near(rng, int.from_bytes(data[at : at + size], "little"))
    return put_number(data, at, size, rng.choice((near, near, len(data), len(data) + 1, rng.randrange(9))), "little")


def longer_format(rng: random.Random, data: bytes) -> bytes:
    """Bytes after the fields of the format chunk, its size mended, and the tag's place now and then."""
    more = rng.choice((1, 4, 12, 100))
    data = data[:80] + bytes(more) + data[80:]
    if len(data) > 80:
        data = put_number(data, 32, 8, 52 + more, "little")
        pointer = int.from_bytes(data[20:28], "little")
        if pointer and rng.random() < 0.7:
            data = put_number(data, 20, 8, pointer + more, "little")
    return data


DSF_BYTES = (*ANY_BYTES, *[set_dsf_field] * 8, longer_format)


def change_sound(rng: random.Random, base: Base) -> bytes:
    """Other bytes in the sound's place, as many of them."""
    start, stop = base.sound
    sound = rng.randbytes(stop - start) if rng.random() < 0.5 else flip_bits(rng, base.data[start:stop])
    return base.data[:start] + sound + base.data[stop:]


def mutate_recording(rng: random.Random, base: Base) -> tuple[bytes, list[str]]:
    """The bytes of a recording's file, changed, and the names of the changes."""
    tree, names = base.tree, []
    while tree and rng.random() < 0.4:
        tree = change_chunks(rng, tree)
        names.append("change_chunks")
    data = chunk_bytes(tree) if names else base.data
    changes = DSDIFF_BYTES if base.kind == "dsdiff" else DSF_BYTES
    for _ in range(rng.choice((0, 1, 1, 2, 3)) if names else rng.choice((1, 1, 1, 2, 3, 5))):
        change = rng.choice(changes)
        data = change(rng, data)
        names.append(change.__name__)
    return data, names


# Of WAVE files of DoP samples.


def set_wave_field(rng: random.Random, data: bytes) -> bytes:
    at, size = rng.choice(WAVE_FIELDS)
    if at + size > len(data):
        return data
    return put_number(data, at, size, size_near(rng, int.from_bytes(data[at : at + size], "little")), "little")


def set_marker(rng: random.Random, data: bytes) -> bytes:
    if len(data) <= 70:
        return data
    at = rng.randrange(70, len(data), 3)
    return data[:at] + bytes([rng.choice((0x05, 0xFA, 0, rng.randrange(256)))]) + data[at + 1 :]


def turn_markers(_: random.Random, data: bytes) -> bytes:
    """Each frame with the other marker."""
    return data[:68] + bytes(255 - it if it in (5, 250) and at % 3 == 2 else it for at, it in enumerate(data[68:]))


def add_chunk(rng: random.Random, data: bytes) -> bytes:
    at = rng.choice((12, 60, len(data)))
    inner = rng.randbytes(rng.choice((0, 1, 4, 8, 16, 40)))
    name = rng.choice((b"LIST", b"DoPn", b"data", b"fmt ", b"fact"))
    chunk = name + len(inner).to_bytes(4, "little") + inner + bytes(len(inner) % 2)
    return data[:at] + chunk + data[at:]


WAVE_BYTES = (*ANY_BYTES, *[set_wave_field] * 4, *[set_marker] * 4, turn_markers, *[add_chunk] * 2)


def mutate_wave(rng: random.Random, data: bytes) -> tuple[bytes, list[str]]:
    """The bytes of a WAVE file of DoP samples, changed, and the names of the changes."""
    names = []
    for _ in range(rng.choice((0, 1, 1, 1, 2, 3))):
        change = rng.choice(WAVE_BYTES)
        data = change(rng, data)
        names.append(change.__name__)
    return data, names


# Of certificates.


def set_cert_field(rng: random.Random, data: bytes) -> bytes:
    at, size = rng.choice(((0, 4), (4, 2), (6, 2), (8, 4), (12, 2), (14, 2), (16, 2)))
    if at + size > len(data):
        return data
    return put_number(data, at, size, size_near(rng, int.from_bytes(data[at : at + size], "big")), "big")


CERT_BYTES = (*ANY_BYTES, *[set_cert_field] * 3)


def mutate_certificate(rng: random.Random, weights: int, entries: list[Entry]) -> tuple[bytes, list[str]]:
    """The bytes of a certificate of these entries in either version, forged in one part or changed in some bytes or
    both, and the names of the changes."""
    version = rng.choice((1, 2))
    data, forgery = forging.forged(rng, version, weights, entries)
    names = [f"version {version}", forgery]
    for _ in range(rng.choice((0, 0, 0, 0, 1, 1, 2, 4))):
        change = rng.choice(CERT_BYTES)
        data = change(rng, data)
        names.append(change.__name__)
    return data, names


# Of projects.

NUMBERS = [
    *("-1", "0", "1", "2", "7", "8", "12", "16", "24", "31", "1024", "4095", "4096", "4097", "-4096", "-4097"),
    *(
        "2147483647",
        "2147483648",
        "-2147483648",
        "-2147483649",
        "4294967295",
        "4294967296",
        "68719476736",
        "68719476737",
    ),
    *(
        "9223372036854775807",
        "9223372036854775808",
        "-9223372036854775808",
        "-9223372036854775809",
        "18446744073709551616",
    ),
    *(
        "0x7fffffffffffffff",
        "0x8000000000000000",
        "0o17",
        "0b1",
        "+3",
        "1_000",
        "1__0",
        "08",
        "1e3",
        "1.5",
        "inf",
        "-nan",
        "-0",
    ),
    "1" + "0" * 400,
]
VALUES = [
    *(
        '""',
        '"fade"',
        '"line"',
        "true",
        "false",
        "[]",
        "[1]",
        "[1, 2]",
        '["a.dff"]',
        "{}",
        "{ a = 1 }",
        "1979-05-27",
        "07:32:00",
    ),
    *(
        "[[1]]",
        '[1, "a"]',
        "[1, 2,]",
        "[1,,2]",
        "'''x'''",
        '"""x\n"""',
        '"\\u0041"',
        '"\\uD800"',
        '"\\x41"',
        '"\u00e9"',
        "nothing",
    ),
]
KEYS = ["taps", "factor", "delay", "shift", "width", "weights", "takes", "cue"]
KEYS += ["take", "start", "stop", "bridge", "target", "title", "line", "x"]
LINES = [
    *(
        "[decimate]",
        "[splice]",
        "[[splice.cue]]",
        "[splice.cue]",
        "[[splice]]",
        "[x]",
        "x = 1",
        "=",
        "# \u00e9",
        "\0",
        "[",
        "]",
        '"',
    ),
    *("decimate = 1", "splice = []", "splice.cue = []", "bridge = 4096", "bridge = 0"),
    *(
        'target = "fade"',
        'target = "line"',
        *[f'target = "line"\nline = [{ends}]' for ends in ("1, -1", "-4096, 4096", "0, 4097")],
    ),
    *(
        f"line = [{ends}]"
        for ends in ("", "1", "1, 2", "1, 2, 3", "4096, -4096", "4097, 0", "0, -4097", "1, 1.0", "2147483648, 0")
    ),
    *("line = 1", 'line = "fade"', "line = { a = 1 }", "line = [-9223372036854775808, 9223372036854775807]"),
    *(f'title = "{text}"' for text in ("", "t" * 255, "t" * 256, "\u00e9" * 128, "\u00e9" * 127 + "t")),
    *("taps = [" + "1, " * number + "]" for number in (4096, 4097)),
    *("taps = [1073741824]", "taps = [1073741824, 1]", "weights = [4096, 0]", "weights = [4096, 1]"),
    *("weights = [" + "1, " * number + "]" for number in (12, 13)),
    *("weights = [-9223372036854775808, 1]", "weights = [" + "341, " * 11 + "345]"),
    *("takes = [" + '"a.dff", ' * number + "]" for number in (16, 17)),
    *('takes = ["a.dff", "missing.dff"]', 'takes = ["a.dff", "."]', 'takes = ["a\\u0000.dff"]'),
    *("x = " + "[" * 80 + "]" * 80, "x = " + "[" * 20000, "x = " + "{ a = " * 1000, "a" + ".a" * 5000 + " = 1"),
]


def change_line(change: Callable[[random.Random, list[bytes]], None]) -> Callable[[random.Random, bytes], bytes]:
    """A change of the list of a text's lines."""

    def changed(rng: random.Random, data: bytes) -> bytes:
        lines = data.split(b"\n")
        change(rng, lines)
        return b"\n".join(lines)

    changed.__name__ = change.__name__
    return changed


@change_line
def drop_line(rng: random.Random, lines: list[bytes]) -> None:
    del lines[rng.randrange(len(lines))]


@change_line
def repeat_line(rng: random.Random, lines: list[bytes]) -> None:
    lines.insert(rng.randrange(len(lines) + 1), rng.choice(lines))


@change_line
def add_line(rng: random.Random, lines: list[bytes]) -> None:
    lines.insert(rng.randrange(len(lines) + 1), rng.choice(LINES).encode())


@change_line
def swap_lines(rng: random.Random, lines: list[bytes]) -> None:
    a, b = rng.randrange(len(lines)), rng.randrange(len(lines))
    lines[a], lines[b] = lines[b], lines[a]


@change_line
def replace_line(rng: random.Random, lines: list[bytes]) -> None:
    """A line of the same key with another value: of the odd lines those whose key is in the text."""
    keyed = [k for k, line in enumerate(lines) if b" = " in line]
    if keyed:
        k = rng.choice(keyed)
        key = lines[k].split(b" = ")[0]
        others = [line.encode() for line in LINES if line.encode().startswith(key + b" = ")]
        lines[k] = rng.choice(others or [key + b" = " + rng.choice(VALUES).encode()])


@change_line
def repeat_cue(rng: random.Random, lines: list[bytes]) -> None:
    """A run of lines, many times: often whole cues."""
    starts = [k for k, line in enumerate(lines) if line == b"[[splice.cue]]"]
    if starts:
        start = rng.choice(starts)
        lines[start:start] = lines[start : start + rng.choice((4, 5, 6))] * rng.choice((1, 2, 30, 255))


def change_number(rng: random.Random, data: bytes) -> bytes:
    places = list(re.finditer(rb"-?\d+", data))
    if not places:
        return data
    it = rng.choice(places)
    value = int(it.group())
    near = rng.choice(
        (*NUMBERS, *map(str, (value + 1, value - 1, value + 8, value - 8, -value, value * 2, value // 2)))
    )
    return data[: it.start()] + near.encode() + data[it.end() :]


def change_value(rng: random.Random, data: bytes) -> bytes:
    places = list(re.finditer(rb"= .+", data))
    if not places:
        return data
    it = rng.choice(places)
    return data[: it.start()] + b"= " + rng.choice((*VALUES, *NUMBERS)).encode() + data[it.end() :]


def change_key(rng: random.Random, data: bytes) -> bytes:
    places = list(re.finditer(rb"[a-z]+(?= =|\])", data))
    if not places:
        return data
    it = rng.choice(places)
    return data[: it.start()] + rng.choice(KEYS).encode() + data[it.end() :]


def other_ends(rng: random.Random, data: bytes) -> bytes:
    return data.replace(b"\n", rng.choice((b"\r\n", b"\r", b"\n\n", b" \n")))


def other_start(rng: random.Random, data: bytes) -> bytes:
    return rng.choice((b"\xef\xbb\xbf", b"\xff\xfe", b"\0", b" ", b"\n")) + data


SMALL_CHANGES: tuple[Callable[[random.Random, bytes], bytes], ...] = (change_number, change_number, change_number)
PROJECT_BYTES: tuple[Callable[[random.Random, bytes], bytes], ...] = (
    *SMALL_CHANGES,
    change_number,
    change_value,
    change_key,
    drop_line,
    repeat_line,
    add_line,
    swap_lines,
)
PROJECT_BYTES += (
    replace_line,
    replace_line,
    repeat_cue,
    other_ends,
    other_start,
    cut,
    flip_bits,
    set_bytes,
    remove,
    repeat,
    move,
)


def mutate_project(rng: random.Random, data: bytes) -> tuple[bytes, list[str]]:
    """The bytes of a project, changed: half of the time in a few numbers alone, so that it often stays a project."""
    changes = SMALL_CHANGES if rng.random() < 0.5 else PROJECT_BYTES
    names = []
    for _ in range(rng.choice((1, 1, 1, 2, 3))):
        change = rng.choice(changes)
        data = change(rng, data)
        names.append(change.__name__)
    return data, names
