"""How docs/CERTIFICATES.md spells certificates of both versions, and the first reason why bytes show no bridge to be
least. It shares nothing with the program."""
import itertools
import struct
from collections import namedtuple
from typing import Any

NO_WAY = 2**63
# What an entry holds: the cue before the bridge, the channel, the bounds of each level, the cost.
Entry = namedtuple("Entry", "cue channel rows cost")


class Refused(Exception):
    """The reason's text."""


def refuse(is_wrong: object, text: str) -> None:
    if is_wrong:
        raise Refused(text)


# Writing.


def width_of(excess: int) -> int:
    """How many bytes a number needs, none for 0."""
    return (excess.bit_length() + 7) // 8


def narrow(floor: int, width: int, excesses: list[int]) -> bytes:
    """A row of version 2 of these parts, whatever they are; of each excess the lowest bytes."""
    tails = (excess.to_bytes(16, "big")[16 - width :] for excess in excesses)
    return struct.pack(">QB", floor, width) + b"".join(tails)


def plain_row(row: list[int]) -> bytes:
    return struct.pack(f">{len(row)}Q", *row)


def narrow_row(row: list[int]) -> bytes:
    floor = min(row)
    return narrow(floor, width_of(max(row) - floor), [bound - floor for bound in row])


ROWS = {1: plain_row, 2: narrow_row}


def head(version: int, weights: int, entries: int) -> bytes:
    return b"DSPC" + struct.pack(">HHI", version, weights, entries)


def parts(version: int, weights: int, entries: list[Entry]) -> list[bytes]:
    """A certificate as the list of its parts: the head, and of each entry its start, its rows and its cost."""
    found = [head(version, weights, len(entries))]
    for entry in entries:
        found.append(struct.pack(">HHH", entry.cue, entry.channel, len(entry.rows) - 1))
        found += map(ROWS[version], entry.rows)
        found.append(struct.pack(">Q", entry.cost))
    return found


def spelled(version: int, weights: int, entries: list[Entry]) -> bytes:
    return b"".join(parts(version, weights, entries))


def cut_at_cost(entries: list[Entry]) -> list[Entry]:
    """The entries with bounds that are no higher than their costs."""
    return [it._replace(rows=[[min(bound, it.cost) for bound in row] for row in it.rows]) for it in entries]


def spellings(weights: int, entries: list[Entry]) -> list[bytes]:
    """The certificates of both versions, with the bounds as they are and cut at the cost."""
    return [spelled(*it) for it in itertools.product((1, 2), (weights,), (entries, cut_at_cost(entries)))]


# Reading.


class Reader:
    """The bytes of a certificate, from its head on."""

    def __init__(self, data: bytes) -> None:
        self.data, self.at, self.version = data, 0, 0

    def take(self, size: int) -> bytes:
        refuse(len(self.data) - self.at < size, "Cut")
        self.at += size
        return self.data[self.at - size : self.at]

    def numbers(self, count: int, size: int) -> list[int]:
        """`count` numbers of `size` bytes each, which are 0 where there are none."""
        data = self.take(count * size)
        return [int.from_bytes(data[k * size : (k + 1) * size], "big") for k in range(count)]

    def read_head(self, weights: int, entries: int) -> None:
        found = self.take(12)
        self.version = int.from_bytes(found[4:6], "big")
        refuse(self.version not in ROWS or found != head(self.version, weights, entries), "Head")

    def row(self, states: int, level: int) -> list[int]:
        """The bounds of a level."""
        if self.version == 1:
            row = self.numbers(states, 8)
            refuse(max(row) > NO_WAY, "Bound")
            return row
        *least, width = self.take(9)
        floor = int.from_bytes(least, "big")
        refuse(width > 8, f"Row {level}")
        excesses = self.numbers(states, width)
        refuse(floor + max(excesses) > NO_WAY, "Bound")
        refuse(min(excesses) > 0 or width != width_of(max(excesses)), f"Row {level}")
        return [floor + excess for excess in excesses]


def read(data: bytes) -> tuple[int, list[Entry]]:
    """The number of weights and the entries of a certificate that is whole, of either version."""
    weights, count = struct.unpack(">HI", data[6:12])
    reader, entries = Reader(data), []
    reader.read_head(weights, count)
    for _ in range(count):
        cue, channel, length = reader.numbers(3, 2)
        rows = [reader.row(1 << (weights - 1), level) for level in range(length + 1)]
        entries.append(Entry(cue, channel, rows, *reader.numbers(1, 8)))
    return weights, entries


# Judging.


def judge_entry(reader: Reader, cue: int, channel: int, bridge: Any, bits: list[int]) -> int:
    """What the bits of a bridge cost, where the next entry shows them to be least."""
    *place, length = reader.numbers(3, 2)
    refuse(place != [cue, channel], "Head")
    refuse(length != bridge.length, "Length")
    states, bounds = 2**bridge.width, list[int]()
    for level in range(bridge.length + 1):
        row = reader.row(states, level)
        if level == 0:
            refuse(row[bridge.start] > 0, "Start")
        else:
            ways = bridge.ways(level, bounds)
            high = [state for state in range(states) if row[state] > ways[state]]
            refuse(high, f"Step {level} {min(high, default=0)}")
        bounds = row
    (stated,), cost = reader.numbers(1, 8), bridge.cost_of(bits)
    refuse(stated != cost, "Cost")
    low = [state for state in range(states) if bounds[state] + bridge.tail(state) < cost]
    refuse(low, f"End {min(low, default=0)}")
    return cost
