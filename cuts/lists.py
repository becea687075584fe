"""The list of a mix, as people write it: what each of its lines may say, and how it is written.

A line has the place of a clip in the mix, the name of the take, from where and to where in the take, and what is done
with it. Empty lines are skipped, and so is what follows a `#` at the start of a line or after the last column."""
import re
import tomllib
from collections.abc import Iterator
from dataclasses import dataclass, field
from fractions import Fraction

from cuts import curves
from cuts.albums import quoted
from cuts.curves import Fade
from dsdarc_scripts.outputs import Refused

UNITS = {"s": Fraction(1), "ms": Fraction(1, 1000), "us": Fraction(1, 1_000_000)}
CLOCK = re.compile(r"(?:(?:(\d{1,9}):)?(\d{1,9}):)?(\d{1,9})(?:\.(\d{1,9}))?", re.ASCII)
LASTING = re.compile(r"(\d{1,9}(?:\.\d{1,9})?|\.\d{1,9})(s|ms|us)", re.ASCII)
BITS = re.compile(r"@(\d{1,11})", re.ASCII)
MARK = re.compile(r"#(\d{1,9})", re.ASCII)
WORD = re.compile(r'\s*("(?:[^"\\]|\\.)*"|[^\s"]\S*)', re.ASCII)
ITEM = re.compile(r'\s*((?:"(?:[^"\\]|\\.)*"|[^",#])*)', re.ASCII)
LEVEL = re.compile(r"([+-]?\d{1,4}(?:\.\d{1,12})?)\s*dB", re.ASCII | re.IGNORECASE)
OF_CHANNEL = re.compile(r"channel\s+(\d)\s+(.*)", re.ASCII)
PLAIN = re.compile(r'[^\s"#][^\s"]*')
LOUDEST = 6.0  # dB: the highest level of a channel

A_PLACE = "a time (90, 1:30, 1:02:03.5), @N for bit N, or + or - and a time from the end of the line before (+2s, -10s)"
A_SPOT = "a time (90, 1:30, 1:02:03.5), @N for bit N, or #N for mark N"
A_STOP = f"{A_SPOT}, or end"
QUOTED = "; a name with blanks takes quotation marks"
A_FADE = f"a time (2s, 20ms, 50us, 0:10) or @N for N bits, and perhaps a curve: {', '.join(curves.RISING)}"
AN_ITEM = 'in 2s, out 20ms power, crossfade 10s s, -1.5 dB, channel 0 -1.5 dB, channel 0 off, title "Song", no title'


@dataclass(frozen=True)
class Time:
    """A time as it is written: seconds, or bits."""

    seconds: Fraction = Fraction(0)
    bits: int = 0

    def at(self, rate: int) -> int:
        """The bit that begins at the time or before it."""
        return self.bits + int(self.seconds * rate)


@dataclass(frozen=True)
class Fading:
    """How a clip fades, as it is written: the time, and the curve."""

    time: Time
    curve: str


@dataclass(frozen=True)
class Spot:
    """A place in a take: a time, the number of a mark, or the end."""

    time: Time = Time()
    mark: int | None = None
    is_end: bool = False


@dataclass
class Line:
    """A line of a list: its number, and what it says. `sign` is that of a place which is counted from the end of the line
    before. `levels` are in dB, that of all channels by the key None; a channel that is off has none. Without a title those
    of the take come over, unless it says that there is none."""

    number: int
    sign: str
    place: Time
    take: str
    first: Spot
    stop: Spot
    fades: dict[str, Fading] = field(default_factory=dict)
    levels: dict[int | None, float | None] = field(default_factory=dict)
    title: str | None = None
    is_untitled: bool = False


class NotThat(Exception):
    """A word is not what is wanted there, and what would be."""

    def __init__(self, word: str, wanted: str) -> None:
        super().__init__(f"{shown(word)} is no {wanted}")


def shown(word: str) -> str:
    """A word on one line."""
    return quoted(word)


def unquoted(word: str) -> str:
    """A word without its quotation marks, as TOML has them."""
    if not word.startswith('"'):
        return word
    try:
        return str(tomllib.loads(f"it = {word}")["it"])
    except ValueError:
        raise NotThat(word, 'text in quotation marks: before " and \\ in it comes a \\') from None


def time_of(word: str, wanted: str, whole: str = "") -> Time:
    """The time that a word names."""
    if found := BITS.fullmatch(word):
        return Time(bits=int(found[1]))
    if found := LASTING.fullmatch(word):
        return Time(Fraction(found[1]) * UNITS[found[2]])
    found = CLOCK.fullmatch(word)
    if found is None:
        raise NotThat(whole or word, wanted)
    hours, minutes, seconds = (int(it or 0) for it in found.groups()[:3])
    if (found[1] and minutes > 59) or (found[2] and seconds > 59):
        raise NotThat(whole or word, f"{wanted}; after a colon come minutes or seconds from 0 to 59")
    return Time((hours * 60 + minutes) * 60 + Fraction(f"{seconds}.{found[4] or 0}"))


def place_of(word: str) -> tuple[str, Time]:
    """The sign of a place in the mix, if it has one, and its time."""
    sign = word[0] if word[0] in "+-" else ""
    return sign, time_of(word[len(sign) :], f"place in a mix: that is {A_PLACE}", word)


def spot_of(word: str, is_stop: bool) -> Spot:
    if found := MARK.fullmatch(word):
        return Spot(mark=int(found[1]))
    if is_stop and word == "end":
        return Spot(is_end=True)
    return Spot(time_of(word, f"place in a take: that is {A_STOP if is_stop else A_SPOT + QUOTED}"))


def level_in(word: str) -> float | None:
    """The level that a word says, or none for `off`."""
    if word == "off":
        return None
    found = LEVEL.fullmatch(word)
    if found is None or float(found[1]) > LOUDEST:
        raise NotThat(word, f"level: that is as -1.5 dB, at most +{LOUDEST:g} dB, or off for a channel")
    return float(found[1])


def is_new(is_there: bool, what: str) -> None:
    if is_there:
        raise Refused(f"it has {what} twice")


def take_fade(line: Line, kind: str, rest: str, usual: str) -> None:
    """Takes `in`, `out` or `crossfade` into a line."""
    words = rest.split()
    if not 1 <= len(words) <= 2 or words[1:] and words[1] not in curves.RISING:
        raise NotThat(f"{kind} {rest}".strip(), f"fade: after {kind} comes {A_FADE}")
    is_new(kind in line.fades, kind)
    time = time_of(words[0], f"time of a fade: after {kind} comes {A_FADE}")
    line.fades[kind] = Fading(time, words[1] if words[1:] else usual)


def take_item(line: Line, item: str, usual: str) -> None:
    """Takes one thing into a line that is said of its clip."""
    kind, _, rest = item.partition(" ")
    if kind in ("in", "out", "crossfade"):
        take_fade(line, kind, rest, usual)
    elif kind == "title" and rest.strip().startswith('"') or item.split() == ["no", "title"]:
        is_new(line.title is not None or line.is_untitled, "title")
        line.is_untitled = kind == "no"
        line.title = None if line.is_untitled else unquoted(rest.strip())
    elif found := OF_CHANNEL.fullmatch(item):
        is_new(int(found[1]) in line.levels, f"the level of channel {found[1]}")
        line.levels[int(found[1])] = level_in(found[2])
    elif LEVEL.fullmatch(item):
        is_new(None in line.levels, "the level")
        line.levels[None] = level_in(item)
    else:
        raise Refused(f"{shown(item)} is nothing that a clip can have: that is as {AN_ITEM}")


def items_of(text: str) -> Iterator[str]:
    """What is between commas, up to a comment. Commas and `#` in quotation marks don't count."""
    at = 0
    while at <= len(text):
        found = ITEM.match(text, at)
        assert found
        at = found.end()
        ends = text[at : at + 1]
        if ends not in ("", ",", "#"):
            raise Refused(f"{shown(text[at:])} has no quotation mark at its end")
        item = found[1].strip()
        if not item and ends == "," or not item and text[:at].strip().endswith(","):
            raise Refused(f"nothing comes after a comma: there it takes something as {AN_ITEM}")
        if item:
            yield item
        if ends != ",":
            return
        at += 1


def line_of(number: int, text: str, usual: str) -> Line | None:
    """What a line says; nothing if it is empty, or a comment."""
    if not text.strip() or text.lstrip().startswith("#"):
        return None
    words, at = list[str](), 0
    while len(words) < 4 and (found := WORD.match(text, at)):
        words.append(found[1])
        at = found.end()
    if len(words) < 4:
        raise Refused(
            "a line is PLACE TAKE FROM TO, and then perhaps WHAT, .., WHAT, as 0:00 a.dff 0:00 1:30 in 2s, out 4s"
        )
    sign, place = place_of(words[0])
    line = Line(number, sign, place, unquoted(words[1]), spot_of(words[2], False), spot_of(words[3], True))
    for item in items_of(text[at:]):
        take_item(line, item, usual)
    return line


def numbered(name: str, number: int, why: object) -> Refused:
    return Refused(f"{name}, line {number}: {why}")


def lines_of(name: str, text: str, usual: str) -> list[Line]:
    """The lines of a list that are clips. Fades that name no curve have the usual one."""
    found = []
    for number, row in enumerate(text.split("\n"), 1):
        try:
            line = line_of(number, row, usual)
        except (NotThat, Refused) as error:
            raise numbered(name, number, error) from None
        found += [line] if line else []
    if not found:
        raise Refused(f"{name} has no lines: a list has one for each clip, PLACE TAKE FROM TO WHAT, .., WHAT")
    return found


# Lines that are written.

DIGITS = 3  # after the point of seconds, at most: other bits are written as @N


def time_text(bits: int, rate: int) -> str:
    """The shortest time, as by a clock, that names a bit; or its number."""
    for digits in range(DIGITS + 1):
        ticks = -(-bits * 10**digits // rate)
        if ticks * rate // 10**digits == bits:
            seconds, part = divmod(ticks, 10**digits)
            point = f".{part:0{digits}}" if digits else ""
            hours = f"{seconds // 3600}:{seconds // 60 % 60:02}" if seconds >= 3600 else f"{seconds // 60}"
            return f"{hours}:{seconds % 60:02}{point}"
    return f"@{bits}"


def lasting_text(bits: int, rate: int) -> str:
    """The same of how long something takes."""
    unit, scale, most = ("s", 1, DIGITS) if bits >= rate else ("ms", 1000, 1)
    for digits in range(most + 1):
        ticks = -(-bits * scale * 10**digits // rate)
        if ticks * rate // (scale * 10**digits) == bits:
            whole, part = divmod(ticks, 10**digits)
            return f"{whole}{f'.{part:0{digits}}' if digits else ''}{unit}"
    return f"@{bits}"


def name_text(name: str) -> str:
    return name if PLAIN.fullmatch(name) and name.isprintable() else quoted(name)


def fade_text(kind: str, fade: Fade, rate: int) -> str:
    return f"{kind} {lasting_text(fade.bits, rate)} {fade.curve}"


Words = list[str]


def columns(rows: list[Words]) -> str:
    """The lines of a list, each column as wide as its widest word."""
    rows = [["# place", "take", "from", "to", "what"], *rows]
    widths = [max(len(it[column]) for it in rows) for column in range(4)]
    lines = ("  ".join([*(it.ljust(width) for it, width in zip(row, widths)), *row[4:]]).rstrip() for row in rows)
    return "".join(f"{it}\n" for it in lines)
