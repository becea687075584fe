"""A residual in dB to full scale, with two decimals, rounded towards louder. Whole numbers alone are compared."""
import math

# 20 * log10(value / full) is at most x / 100 where value^2000 is at most full^2000 * 10^x.
POWER = 2000


def hundredths_of(value: int, full: int) -> int:
    """The least number of hundredths of a dB to full scale that a value above 0 isn't louder than."""
    mine, theirs = pow(value, POWER), pow(full, POWER)

    def is_enough(hundredths: int) -> bool:
        # Of these powers of ten one is 1.
        lower, upper = pow(10, max(-hundredths, 0)), pow(10, max(hundredths, 0))
        return bool(mine * lower <= theirs * upper)

    # Logarithms in floats are off by less than a hundredth, so few steps are left.
    found = math.ceil(100 * 20 * (math.log10(value) - math.log10(full)))
    while not is_enough(found):
        found += 1
    while is_enough(found - 1):
        found -= 1
    return found


def shown(value: int, full: int) -> str:
    """The value in dB; that of nothing is `-inf`."""
    if value == 0:
        return "-inf"
    found = hundredths_of(value, full)
    whole, part = divmod(abs(found), 100)
    return f"{'-' if found < 0 else ''}{whole}.{part:02}"
