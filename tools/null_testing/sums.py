"""Sums of whole numbers times taps, exactly: NumPy computes them in whole numbers of 64 bits."""
import numpy as np
import numpy.typing as npt

Numbers = npt.NDArray[np.int64]


def numbers(values: list[int]) -> Numbers:
    return np.array(values, np.int64)


def sums(taps: Numbers, values: Numbers, step: int = 1) -> Numbers:
    """The sum over k of taps[k] * values[i - k], from the first i for which all taps have a value on, for each i or
    for those that are some steps apart. The sums have to fit 64 bits."""
    count, turned = (len(values) - len(taps)) // step + 1, taps[::-1]
    found = np.zeros(count, np.int64)
    # One of `step` taps meets each of the values that are as far apart.
    for phase in range(min(step, len(taps))):
        found += np.correlate(values[phase::step], turned[phase::step], "valid")[:count]
    return found
