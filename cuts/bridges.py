"""The bridges that `edit` chooses, by docs/SPLICING.md, for many cuts at once: bits that cost least, and of such the
first read from the last bit."""
import numpy as np

MOST = 1 << 23  # levels times states that are searched for a cut and a channel: so long bridges are tried fewer times
NO_WAY = 1 << 62  # more than any sum of steps of bridges that are tried


def trials(weights: list[int], length: int, wished: int) -> int:
    """How many bridges of a length are tried."""
    return max(1, min(wished, MOST // (length << (len(weights) - 1))))


def heard(weights: list[int], signs: np.ndarray) -> np.ndarray:
    """The weighted sums of each row of signs, from the first place that has all bits that are read."""
    views = np.lib.stride_tricks.sliding_window_view(signs.astype(np.int64), len(weights), axis=1)
    return views @ np.array(weights[::-1], np.int64)


def targets(weights: list[int], before: np.ndarray, after: np.ndarray, length: int) -> np.ndarray:
    """The targets of fades, a row for each cut. The rows before hold the signs that the weights read up to the bridge's
    end, those after such from the bridge's first place on."""
    rising = np.arange(1, length + 1)
    first, second = heard(weights, before), heard(weights, after)
    fade = (length + 1 - rising) * first + rising * second[:, :length]
    return np.concatenate([fade, (length + 1) * second[:, length:]], axis=1)


def line(ends: list[int], more: int, length: int) -> np.ndarray:
    """The targets of a line, as one row: at the bridge's places, and at that many after it."""
    rising = np.minimum(np.arange(1, length + more + 1), length + 1)
    return ((length + 1 - rising) * ends[0] + rising * ends[1])[None]


def states_of(signs: np.ndarray) -> np.ndarray:
    """The state that each row of signs ends in, the newest bit the lowest digit."""
    return (signs > 0) @ (1 << np.arange(signs.shape[1])[::-1])


def ends_of(sums: np.ndarray, following: np.ndarray, wished: np.ndarray) -> np.ndarray:
    """What the places after the bridge cost for each state, a row for each cut."""
    count = sums.size // 2
    states = np.tile(np.arange(count), (len(following), 1))
    total = np.zeros(states.shape, np.int64)
    for signs, target in zip(following.T, wished.T):
        codes = 2 * states + (signs > 0)[:, None]
        total += (sums[codes] - target[:, None]) ** 2
        states = codes % count
    return total


def first_of_least(costs: np.ndarray, bits: int) -> np.ndarray:
    """In each row the state that costs least, of equal ones that which comes first read from the newest bit."""
    states = np.arange(costs.shape[1])
    turned = sum((states >> it & 1) << (bits - 1 - it) for it in range(bits))
    order = np.argsort(turned, kind="stable")
    return order[costs[:, order].argmin(axis=1)]


def least(
    weights: list[int], before: np.ndarray, after: np.ndarray, length: int, line_ends: list[int] | None = None
) -> np.ndarray:
    """The signs of the least bridges, a row for each cut; rows before and after as for `targets`. Bridges fade, or go in
    a line with these ends."""
    more, count = len(weights) - 1, 1 << (len(weights) - 1)
    codes = np.arange(2 * count)
    digits = (codes[:, None] >> np.arange(more + 1) & 1) * 2 - 1
    sums = (length + 1) * (digits @ np.array(weights, np.int64))
    wished = targets(weights, before, after, length)
    if line_ends:
        wished = np.repeat(line(line_ends, more, length), len(before), axis=0)
    costs = np.full((len(before), count), NO_WAY)
    costs[np.arange(len(before)), states_of(before[:, :more])] = 0
    second = np.empty((length, len(before), count), bool)
    for level in range(length):
        ways = costs[:, codes // 2] + (sums - wished[:, level : level + 1]) ** 2
        ways = ways.reshape(-1, 2, count)
        second[level] = ways[:, 1] < ways[:, 0]
        costs = np.minimum(ways.min(axis=1), NO_WAY)
    state = first_of_least(costs + ends_of(sums, after[:, -more:], wished[:, length:]), more)
    found, rows = np.empty((len(before), length)), np.arange(len(before))
    for level in range(length - 1, -1, -1):
        found[:, level] = state % 2 * 2 - 1
        state = state // 2 + second[level, rows, state] * (count // 2)
    return found
