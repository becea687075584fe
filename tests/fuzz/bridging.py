"""Masters and certificates of small projects by docs/SPLICING.md and docs/CERTIFICATES.md: each bridge is found by trying
all lists of that many bits, and each bound of its certificate too. Of longer bridges it computes what their bits cost,
what may bound them, and what a certificate shows of them. Takes are lists of channels, which are lists of bits, and
cues those of bases.py."""
import itertools
from collections.abc import Iterator, Sequence
from functools import cached_property

from tests.fuzz import certificates
from tests.fuzz.bases import Cue
from tests.fuzz.certificates import NO_WAY


def weighted(weights: list[int], bits: list[int], place: int) -> int:
    return sum(weight if bits[place - k] else -weight for k, weight in enumerate(weights))


def line_targets(weights: list[int], ends: tuple[int, int] | list[int], length: int) -> Iterator[int]:
    """The targets of the places 1, 2 and so on of a straight line."""
    first, last = ends
    for i in range(1, length + 1):
        yield (length + 1 - i) * first + i * last
    for _ in weights[1:]:
        yield (length + 1) * last


def fade_targets(
    weights: list[int], before: list[int], stop: int, after: list[int], start: int, length: int
) -> Iterator[int]:
    """The targets of the places 1, 2 and so on of a fade, from the end of a cue to the start of the next."""
    for i in range(1, length + 1):
        yield (length + 1 - i) * weighted(weights, before, stop + i - 1) + i * weighted(
            weights, after, start - length + i - 1
        )
    for i in range(length + 1, length + len(weights)):
        yield (length + 1) * weighted(weights, after, start + i - length - 1)


def state_of(bits: list[int]) -> int:
    return int("".join(map(str, bits)), 2)


class Bridge:
    """The bridge between two cues, from the bits of the one's take to those of the other's: what its bits and their fronts
    cost."""

    def __init__(self, weights: list[int], cue: Cue, before: list[int], next_cue: Cue, after: list[int]) -> None:
        self.weights, self.length, self.width = weights, cue.bridge, len(weights) - 1
        stop, start = cue.stop, next_cue.start
        if cue.line is not None:
            self.targets = list(line_targets(weights, cue.line, self.length))
        else:
            self.targets = list(fade_targets(weights, before, stop, after, start, self.length))
        self.preceding, self.following = before[stop - self.width : stop], after[start : start + self.width]
        self.start = state_of(self.preceding)

    def cost(self, bits: list[int], places: int) -> int:
        """The squared deviations at so many places, the last of these bits being read at the last of them at most."""
        heard = self.preceding + bits
        sums = (weighted(self.weights, heard, self.width + i) for i in range(places))
        return sum(((self.length + 1) * it - target) ** 2 for it, target in zip(sums, self.targets))

    def cost_of(self, bits: list[int]) -> int:
        """What the bridge costs with these bits."""
        return self.cost(bits + self.following, len(self.targets))

    def best(self) -> tuple[int, list[int]]:
        """The least cost, and the first of the lists that cost it, read from the last bit."""
        every = (list(it) for it in itertools.product((0, 1), repeat=self.length))
        cost, backwards = min((self.cost_of(it), it[::-1]) for it in every)
        return cost, backwards[::-1]

    def row(self, level: int) -> list[int]:
        """The bounds of a level: for each state the least cost of a front that leads there."""
        row = [NO_WAY] * 2**self.width
        for front in itertools.product((0, 1), repeat=level):
            state = state_of((self.preceding + list(front))[level:])
            row[state] = min(row[state], self.cost(list(front), level))
        return row

    @cached_property
    def sums(self) -> list[int]:
        """The weighted sum of each state with a bit after it, as one number."""
        codes = range(2 ** len(self.weights))
        return [sum(weight if code >> k & 1 else -weight for k, weight in enumerate(self.weights)) for code in codes]

    def step(self, place: int, code: int) -> int:
        """What a bit costs at a place, after a state."""
        return ((self.length + 1) * self.sums[code] - self.targets[place - 1]) ** 2

    def ways(self, level: int, bounds: list[int]) -> list[int]:
        """What leads to each state of a level: the least of the bounds of the level before plus their steps."""
        half = 2**self.width
        codes = ((state, state + half) for state in range(half))
        return [min(bounds[code // 2] + self.step(level, code) for code in both) for both in codes]

    def tail(self, state: int) -> int:
        """What the places after the bridge cost, where it ends in this state."""
        total = 0
        for place, bit in enumerate(self.following, self.length + 1):
            code = 2 * state + bit
            total, state = total + self.step(place, code), code % 2**self.width
        return total

    def rows(self) -> Iterator[list[int]]:
        """The bounds of all levels, each from the one before."""
        row = [NO_WAY] * 2**self.width
        row[self.start] = 0
        yield row
        for level in range(1, self.length + 1):
            row = [min(NO_WAY, it) for it in self.ways(level, row)]
            yield row


def bridges_of(
    weights: list[int], takes: list[list[list[int]]], cues: Sequence[Cue]
) -> Iterator[tuple[int, int, Bridge]]:
    """The number of the cue before each bridge, the channel, and the bridge, in the order of a certificate."""
    for number, (cue, next_cue) in enumerate(zip(cues, cues[1:])):
        for channel, (before, after) in enumerate(zip(takes[cue.take], takes[next_cue.take])):
            if cue.bridge:
                yield number, channel, Bridge(weights, cue, before, next_cue, after)


def master(
    weights: list[int], takes: list[list[list[int]]], cues: Sequence[Cue]
) -> tuple[list[list[int]], list[certificates.Entry], int]:
    """The channels of a master, the entries of its certificate with the bounds not cut, and its total."""
    bits, entries = {}, []
    for number, channel, bridge in bridges_of(weights, takes, cues):
        cost, bits[number, channel] = bridge.best()
        rows = [bridge.row(level) for level in range(bridge.length + 1)]
        entries.append(certificates.Entry(number, channel, rows, cost))
    channels: list[list[int]] = [[] for _ in takes[0]]
    for (number, cue), channel in itertools.product(enumerate(cues), range(len(channels))):
        channels[channel] += takes[cue.take][channel][cue.start : cue.stop] + bits.get((number, channel), [])
    return channels, entries, sum(entry.cost for entry in entries)


def written(weights: list[int], entries: list[certificates.Entry]) -> bytes:
    """The certificate that `edit` writes of such entries."""
    return certificates.spelled(2, len(weights), certificates.cut_at_cost(entries))


def bridge_places(cues: Sequence[Cue]) -> Iterator[tuple[int, int]]:
    """The first place of the bridge after each cue in the master, and the one after its last."""
    place = 0
    for cue in cues:
        first = place + cue.stop - cue.start
        place = first + (cue.bridge or 0)
        yield first, place


def are_cued(takes: list[list[list[int]]], cues: Sequence[Cue], channels: list[list[int]]) -> bool:
    """Whether each bit of a cue is its take's."""
    start = 0
    for cue, (first, stop) in zip(cues, bridge_places(cues)):
        for bits, source in zip(channels, takes[cue.take]):
            if bits[start:first] != source[cue.start : cue.stop]:
                return False
        start = stop
    return True


def entries_of(
    weights: list[int], takes: list[list[list[int]]], cues: Sequence[Cue], channels: list[list[int]]
) -> list[certificates.Entry]:
    """The entries of the certificate of a master that has least bridges, their bounds not cut."""
    places, entries = list(bridge_places(cues)), []
    for number, channel, bridge in bridges_of(weights, takes, cues):
        cost = bridge.cost_of(channels[channel][slice(*places[number])])
        entries.append(certificates.Entry(number, channel, list(bridge.rows()), cost))
    return entries


def total_of(
    weights: list[int], takes: list[list[list[int]]], cues: Sequence[Cue], channels: list[list[int]]
) -> int | None:
    """What the bridges of a master's channels cost, or None where a cue has other bits than its take."""
    if not are_cued(takes, cues, channels):
        return None
    places = list(bridge_places(cues))
    every = bridges_of(weights, takes, cues)
    return sum(bridge.cost_of(channels[channel][slice(*places[number])]) for number, channel, bridge in every)


def verdict(
    weights: list[int], takes: list[list[list[int]]], cues: Sequence[Cue], channels: list[list[int]], data: bytes
) -> str:
    """The line that `check` prints of a master with these channels, which holds the cues, and of a certificate."""
    bridges, places = list(bridges_of(weights, takes, cues)), list(bridge_places(cues))
    reader, part, total = certificates.Reader(data), "CertHead", 0
    try:
        reader.read_head(len(weights), len(bridges))
        for entry, (number, channel, bridge) in enumerate(bridges):
            part = f"Cert {entry}"
            bits = channels[channel][slice(*places[number])]
            total += certificates.judge_entry(reader, number, channel, bridge, bits)
    except certificates.Refused as reason:
        return f"rejected {part} {reason}\n"
    return "rejected CertExtra\n" if reader.at < len(data) else f"accepted total {total}\n"
