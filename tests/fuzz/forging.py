"""What is done to certificates of either version whose entries are known: each forgery changes one of the parts that
certificates.py makes of them. Some are right in another way, most are wrong in one place."""
import random
import struct
from collections.abc import Iterator

from tests.fuzz import certificates
from tests.fuzz.certificates import NO_WAY, narrow, narrow_row, plain_row, width_of

VERSIONS = (0, 1, 2, 3, 255, 256, 257, 512, 513, 65535)


# Of rows of version 2: a floor, a width and excesses.


def narrowed(row: list[int]) -> tuple[int, int, list[int]]:
    floor = min(row)
    excesses = [bound - floor for bound in row]
    return floor, width_of(max(excesses)), excesses


def other_floor(rng: random.Random, row: list[int]) -> bytes:
    floor, width, excesses = narrowed(row)
    floor = rng.choice((floor + 1, floor - 1, floor + 256, 0, NO_WAY, NO_WAY - max(excesses), 2**64 - 1))
    return narrow(floor % 2**64, width, excesses)


def other_width(rng: random.Random, row: list[int]) -> bytes:
    """The excesses, or their lowest bytes, in another number of bytes each."""
    floor, width, excesses = narrowed(row)
    return narrow(floor, rng.choice([it for it in range(9) if it != width]), excesses)


def other_width_alone(rng: random.Random, row: list[int]) -> bytes:
    """The number of bytes alone."""
    floor, width, excesses = narrowed(row)
    data = narrow(floor, width, excesses)
    return data[:8] + bytes([rng.choice((width + 1, max(0, width - 1), 8, 0))]) + data[9:]


def too_wide(rng: random.Random, row: list[int]) -> bytes:
    floor, _, excesses = narrowed(row)
    return narrow(floor, rng.choice((9, 10, 16, 255)), excesses)


def no_zero(rng: random.Random, row: list[int]) -> bytes:
    """The same bounds over a lower floor, or higher ones where there is none."""
    floor, _, excesses = narrowed(row)
    less = min(floor, rng.choice((1, 255, 256, 2**20)))
    excesses = [excess + (less or 1) for excess in excesses]
    return narrow(floor - less, width_of(max(excesses)), excesses)


def above_most(rng: random.Random, row: list[int]) -> bytes:
    """The greatest bound as far as 2^63, one more, or beyond 2^64."""
    floor, width, excesses = narrowed(row)
    most = rng.choice((NO_WAY - max(excesses), NO_WAY + 1 - max(excesses), 2**64 - 1))
    if rng.random() < 0.5:
        return narrow(max(0, most), width, excesses)
    excesses[rng.randrange(len(row))] = rng.choice((NO_WAY - floor, NO_WAY + 1 - floor, 2**64 - 1, 2**64 - floor))
    return narrow(floor, 8, [it % 2**64 for it in excesses])


# Of bounds, spelled as the version has them.


def other_bound(rng: random.Random, row: list[int]) -> list[int]:
    row, at = list(row), rng.randrange(len(row))
    near = (row[at] + 1, row[at] - 1, row[at] + 2**20, row[at] // 2, 0, NO_WAY, NO_WAY + 1)
    row[at] = rng.choice(near) % 2**64
    return row


def other_narrow_bound(rng: random.Random, row: list[int]) -> bytes:
    return narrow_row(other_bound(rng, row))


def other_plain_bound(rng: random.Random, row: list[int]) -> bytes:
    return plain_row(other_bound(rng, row))


WRONG_ROWS = {
    1: (other_plain_bound,),
    2: (other_floor, other_width, other_width_alone, too_wide, no_zero, above_most, *[other_narrow_bound] * 2),
}


def row_places(entries: list[certificates.Entry]) -> Iterator[tuple[int, list[int]]]:
    """Where the rows are among the parts of a certificate, and their bounds."""
    at = 2
    for entry in entries:
        yield from enumerate(entry.rows, at)
        at += len(entry.rows) + 2


def forge_row(rng: random.Random, version: int, parts: list[bytes], entries: list[certificates.Entry]) -> None:
    places = list(row_places(entries))
    if not places:
        return
    at, row = rng.choice((places[0], rng.choice(places), rng.choice(places)))
    parts[at] = rng.choice(WRONG_ROWS[version])(rng, row)


# Of other parts.


def forge_head(rng: random.Random, version: int, parts: list[bytes], entries: list[certificates.Entry]) -> None:
    """Another version, another number of weights or of entries."""
    name, *fields = struct.unpack(">4sHHI", parts[0])
    at = rng.choice((0, 0, 0, 1, 2))
    fields[at] = rng.choice(VERSIONS) if at == 0 else (fields[at] + rng.choice((1, -1))) % 2**16
    parts[0] = struct.pack(">4sHHI", name, *fields)


def forge_number(rng: random.Random, version: int, parts: list[bytes], entries: list[certificates.Entry]) -> None:
    """Another cue, channel, length or cost."""
    places = [at for at, part in enumerate(parts) if at and len(part) in (6, 8)]
    if places:
        at = rng.choice(places)
        size = 2 if len(parts[at]) == 6 else 8
        first = rng.randrange(0, len(parts[at]), size)
        number = int.from_bytes(parts[at][first : first + size], "big") + rng.choice((1, -1))
        parts[at] = parts[at][:first] + (number % 256**size).to_bytes(size, "big") + parts[at][first + size :]


def forge_end(rng: random.Random, version: int, parts: list[bytes], entries: list[certificates.Entry]) -> None:
    """It ends inside a part: in its last bytes, after 8 or 9, or anywhere."""
    at = rng.randrange(len(parts))
    size = len(parts[at])
    keep = rng.choice((0, 8, 9, size - 1, rng.randrange(size)))
    parts[at] = parts[at][: min(keep, size - 1)]
    del parts[at + 1 :]


def forge_none(rng: random.Random, version: int, parts: list[bytes], entries: list[certificates.Entry]) -> None:
    """Nothing."""


FORGERIES = (*[forge_row] * 10, forge_head, forge_number, forge_end, forge_none)


def forged(rng: random.Random, version: int, weights: int, entries: list[certificates.Entry]) -> tuple[bytes, str]:
    """A certificate of these entries in some version, forged, and the forgery's name."""
    parts, forgery = certificates.parts(version, weights, entries), rng.choice(FORGERIES)
    forgery(rng, version, parts, entries)
    return b"".join(parts), forgery.__name__
