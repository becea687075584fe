"""Times and levels as the scripts are asked for them."""
import argparse
import math
import re

MOST = 60.0  # seconds
UNITS = {"s": 1.0, "ms": 1e-3, "us": 1e-6}


def clock(bits: float, rate: int) -> str:
    """When a bit comes, such as 0:01:15.000355: to a millionth of a second."""
    millionths = round(bits * 1_000_000 / rate)
    minutes, rest = divmod(millionths, 60_000_000)
    return f"{minutes // 60}:{minutes % 60:02}:{rest // 1_000_000:02}.{rest % 1_000_000:06}"


def lasting(bits: int, rate: int) -> str:
    """How long some bits are, such as 0.608 ms."""
    time = bits / rate
    if time >= 1:
        return f"{time:.3f} s"
    return f"{time * 1e3:.3g} ms" if time >= 1e-4 else f"{time * 1e6:.3g} us"


def longest(bits: int, rate: int) -> str:
    """The longest time, as the scripts are asked for it, that has no more bits: in thousandths of a millisecond."""
    return f"{bits * 1_000_000 // rate / 1000:.10g}ms"


def seconds(text: str) -> float:
    """A time such as 0.5ms."""
    found = re.fullmatch(r"(\d+(?:\.\d+)?|\.\d+)(s|ms|us)", text)
    if found is None:
        raise argparse.ArgumentTypeError(f"{text} is no time such as 0.5ms or 50us")
    number = float(found[1]) * UNITS[found[2]]
    if number > MOST:
        raise argparse.ArgumentTypeError(f"{text} is longer than {MOST:g}s")
    return number


def level(text: str) -> float:
    """A level in dB to full scale, below 0."""
    try:
        found = float(text)
    except ValueError:
        found = math.nan
    if not -1000 <= found < 0:
        raise argparse.ArgumentTypeError(f"{text} is no level below 0 dB, as -100 is")
    return found
