"""Reads project texts as dsdarc does: docs/PROJECTS.md. What is refused is named by file, line and key, and by the word
of the program's fault."""
import math
import os
import re
import tomllib
from collections.abc import Callable
from pathlib import Path
from typing import Any

from dsdarc_scripts.explained import shown_name
from dsdarc_scripts.outputs import Refused
from dsdarc_scripts.toml_texts import Lines, Older, Place

MOST_BITS = 2**36
MOST_TAKES, MOST_CUES = 16, 256
TAPS, FACTOR, DELAY, SHIFT, WIDTH = "taps", "factor", "delay", "shift", "width"
DECIMATE = (TAPS, FACTOR, DELAY, SHIFT, WIDTH)
SPLICE = ("weights", "takes", "cue")
CUE = ("take", "start", "stop", "bridge", "target", "line", "title")


class Fault(Refused):
    """A text is no project, or asks for what there isn't: `words` are those of the program, without `Project`."""

    def __init__(self, words: str, line: str) -> None:
        super().__init__(line)
        self.words = words


def shown(name: object) -> str:
    """A name or a value on one line."""
    return shown_name(name) if isinstance(name, str) else ascii(name)


def place_shown(path: Place) -> str:
    """The key, table or cue at a path."""
    if not path:
        return ""
    if path[:2] == ("splice", "cue") and len(path) > 2:
        return f"cue {path[2]}: " if len(path) == 3 else f"key `{shown(path[3])}` of cue {path[2]}: "
    if path in (("decimate",), ("splice",)):
        return f"table `{path[0]}`: "
    return f"key `{shown([it for it in path if isinstance(it, str)][-1])}`: "


def finite(text: str) -> float:
    """A number with a point; it may be infinite where it says so."""
    number = float(text)
    if math.isinf(number) and "inf" not in text:
        raise ValueError("a number is too large")
    return number


def is_whole(value: object) -> bool:
    return type(value) is int


def is_text(value: str) -> bool:
    return isinstance(value, str)


def total(numbers: list[int]) -> int:
    return sum(abs(it) for it in numbers)


class Text:
    """A project's text that is read: its tables in `data`, as `tomllib` gives them, and itself as TOML 1.0."""

    def __init__(self, name: Path | str, data: bytes) -> None:
        self.name, self.data, self.lines = os.fspath(name), dict[str, Any](), dict[Place, int]()
        self.text = self.decoded(data)
        self.parse()
        Reading(self).document()

    def decoded(self, data: bytes) -> str:
        try:
            return data.decode("utf-8").removeprefix("\ufeff")
        except UnicodeDecodeError as error:
            line = data[: error.start].count(b"\n") + 1
            raise self.fault("NotToml", (), "it is no text in UTF-8", line) from None

    def parse(self) -> None:
        source = self.text
        try:
            try:
                self.data = tomllib.loads(source, parse_float=finite)
            except ValueError:
                older = Older(source)
                self.text, self.data = older.text, self.loaded(older)
            self.lines = Lines(source).found
            self.demand_numbers(self.data, ())
        except RecursionError:
            raise self.fault("NotToml", (), "it is nested too deep") from None

    def loaded(self, older: Older) -> dict[str, Any]:
        try:
            return tomllib.loads(older.text, parse_float=finite)
        except tomllib.TOMLDecodeError as error:
            said = re.fullmatch(r"(.*) \(at (?:line (\d+), column \d+|end of document)\)", str(error), re.DOTALL)
            line = older.lines[min(int(said[2]), len(older.lines)) - 1] if said and said[2] else older.lines[-1]
            why = said[1] if said else str(error)
            raise self.fault("NotToml", (), f"it is no TOML text: {shown(why)}", line) from None
        except ValueError:
            raise self.fault("NotToml", (), "a number is too large") from None

    def demand_numbers(self, value: Any, path: Place) -> None:
        """Numbers have 64 bits."""
        if isinstance(value, dict):
            for key, it in value.items():
                self.demand_numbers(it, (*path, key))
        elif isinstance(value, list):
            for number, it in enumerate(value):
                self.demand_numbers(it, (*path, number))
        elif is_whole(value) and not -(2**63) <= value < 2**63:
            raise self.fault("NotToml", path, "a number is too large")

    def line(self, path: Place) -> int:
        """The line of a path, or of what it is part of; 0 where there is none."""
        while path and path not in self.lines:
            path = path[:-1]
        return self.lines.get(path, 0)

    def fault(self, words: str, path: Place, why: str, line: int = 0) -> Fault:
        line = line or self.line(path)
        where = f", line {line}" if line else ""
        return Fault(words, f"{shown(self.name)}{where}: {place_shown(path)}{why} ({words})")


class Reading:
    """Reads the tables of a text in the order of the program, to the first fault."""

    def __init__(self, text: Text) -> None:
        self.text = text

    def demand(self, holds: object, words: str, path: Place, why: str) -> None:
        if not holds:
            raise self.text.fault(words, path, why)

    def table(self, value: dict[str, Any], path: Place, keys: tuple[str, ...], key: str) -> None:
        """A table with no keys but these."""
        self.demand(isinstance(value, dict), f"WrongKind {key}", path, "it is to be a table")
        for it in value:
            if it not in keys:
                raise self.text.fault("UnknownKey", (*path, it), "there is no such key")

    def given(self, table: dict[str, Any], path: Place, key: str) -> Any:
        self.demand(key in table, f"MissingKey {key}", path, f"the key `{key}` is missing")
        return table[key]

    def kind(self, holds: object, path: Place, key: str, wanted: str) -> None:
        self.demand(holds, f"WrongKind {key}", (*path, key), f"it is to be {wanted}")

    def each(self, value: list[Any], path: Place, key: str, kind: Callable[[Any], bool], wanted: str) -> None:
        """An array whose elements are all of a kind; the line is that of the first which isn't."""
        self.kind(isinstance(value, list), path, key, wanted)
        for number, it in enumerate(value):
            self.demand(kind(it), f"WrongKind {key}", (*path, key, number), f"it is to be {wanted}")

    def limit(self, holds: object, path: Place, key: str, limits: str) -> None:
        self.demand(holds, f"OutOfLimit {key}", (*path, key), f"it is to be {limits}")

    def document(self) -> None:
        data = self.text.data
        for it in data:
            self.demand(it in ("decimate", "splice"), "UnknownKey", (it,), "there is no such key")
        if "decimate" in data:
            self.decimate(data["decimate"], ("decimate",))
        if "splice" in data:
            self.splice(data["splice"], ("splice",))

    def decimate(self, table: dict[str, Any], path: Place) -> None:
        self.table(table, path, DECIMATE, "decimate")
        for key in DECIMATE:
            value = self.given(table, path, key)
            if key == TAPS:
                self.each(value, path, key, is_whole, "an array of whole numbers")
                self.limit(all(-(2**31) <= it < 2**31 for it in value), path, key, "of numbers of 32 bits")
            else:
                self.kind(is_whole(value), path, key, "a whole number")
                self.limit(0 <= value < 2**32, path, key, "a number of 32 bits without a sign")
        taps, factor, delay, shift, width = (table[key] for key in DECIMATE)
        is_inside = 1 <= len(taps) <= 4096 and total(taps) <= 2**30
        self.limit(is_inside, path, TAPS, "1 to 4096 numbers, absolute sum at most 2^30")
        self.limit(factor % 8 == 0 and 8 <= factor <= 1024, path, FACTOR, "a multiple of 8, 8 to 1024")
        self.limit(delay < len(taps), path, DELAY, "less than the number of taps")
        self.limit(shift <= 30, path, SHIFT, "0 to 30")
        self.limit(width in (16, 24), path, WIDTH, "16 or 24")

    def splice(self, table: dict[str, Any], path: Place) -> None:
        self.table(table, path, SPLICE, "splice")
        weights = self.given(table, path, "weights")
        self.each(weights, path, "weights", is_whole, "an array of whole numbers")
        is_inside = 2 <= len(weights) <= 12 and total(weights) <= 4096
        self.limit(is_inside, path, "weights", "2 to 12 numbers, absolute sum at most 4096")
        takes = self.given(table, path, "takes")
        self.each(takes, path, "takes", is_text, "an array of texts")
        self.limit(1 <= len(takes) <= MOST_TAKES, path, "takes", f"1 to {MOST_TAKES} names")
        cues = self.given(table, path, "cue")
        self.kind(isinstance(cues, list), path, "cue", "an array of tables")
        self.limit(1 <= len(cues) <= MOST_CUES, path, "cue", f"1 to {MOST_CUES} cues")
        for number, cue in enumerate(cues):
            self.cue(cue, (*path, "cue", number), len(takes), len(weights) - 1)
        last = (*path, "cue", len(cues) - 1, "bridge")
        self.demand(cues[-1].get("bridge", 0) == 0, "LastBridge", last, "the last cue has no bridge after it")

    def cue(self, cue: dict[str, Any], path: Place, takes: int, shortest: int) -> None:
        self.table(cue, path, CUE, "cue")
        number = path[-1]
        take = self.whole(cue, path, "take")
        self.demand(0 <= take < takes, f"NoTake {number}", (*path, "take"), f"there are {takes} takes, counted from 0")
        for key in ("start", "stop"):
            self.limit(0 <= self.whole(cue, path, key) <= MOST_BITS, path, key, "0 to 2^36")
        if "bridge" in cue:
            self.limit(0 <= self.whole(cue, path, "bridge") <= 4096, path, "bridge", "0 to 4096")
        self.target(cue, path)
        title = cue.get("title", "")
        self.kind(is_text(title), path, "title", "a text")
        self.limit(len(title.encode()) <= 255, path, "title", "at most 255 bytes in UTF-8")
        is_long = cue["stop"] - cue["start"] >= shortest
        self.demand(is_long, f"ShortCue {number}", path, f"it has fewer than {shortest} bits, which the weights want")

    def whole(self, cue: dict[str, Any], path: Place, key: str) -> int:
        value = self.given(cue, path, key)
        self.kind(is_whole(value), path, key, "a whole number")
        return value

    def target(self, cue: dict[str, Any], path: Place) -> None:
        """A bridge's target, and its line."""
        target = cue.get("target", "fade")
        self.kind(is_text(target), path, "target", "a text")
        self.limit(target in ("fade", "line"), path, "target", '"fade" or "line"')
        if target == "fade":
            self.limit("line" not in cue, path, "line", 'left out where the target is not "line"')
            return
        ends = self.given(cue, path, "line")
        self.each(ends, path, "line", is_whole, "an array of whole numbers")
        is_inside = len(ends) == 2 and all(-4096 <= it <= 4096 for it in ends)
        self.limit(is_inside, path, "line", "two numbers from -4096 to 4096")


def read(name: Path | str) -> Text:
    """The text of a file."""
    with open(name, "rb") as file:
        return Text(name, file.read())


def read_decimate(name: Path | str) -> dict[str, Any]:
    """The table `decimate` of a file."""
    text = read(name)
    if "decimate" not in text.data:
        raise text.fault("NoDecimation", (), "it has no table `decimate`")
    return text.data["decimate"]
