"""The ready filters, by the rate and width of what they play to: `88200/24` is such a wish."""
import contextlib
import os
import re
import struct
import subprocess
import typing
from typing import Any

from dsdarc_scripts import channels
from dsdarc_scripts.explained import lines_of, shown_name
from dsdarc_scripts.outputs import Refused
from dsdarc_scripts.program import PROGRAM, ROOT

FOLDER = os.path.join(ROOT, "filters")
INDEX = "index.txt"  # beside the ready filters: what each is for
# A line of the index.
LINE = re.compile(r"(\S+\.toml) (\d{1,10}(?:,\d{1,10})*) ([1-9]\d{0,9}) ([1-9]\d?) (-?\d{1,3})", re.ASCII)
HEAD = 4096  # bytes, in which files have their rate
WISH = re.compile(r"([1-9]\d{0,9})/([1-9]\d?)", re.ASCII)


class Filter(typing.NamedTuple):
    """A ready filter: its file's name, the stored rates that it is for, the factor that divides them, the width of its
    samples, and its gain in dB."""

    name: str
    rates: tuple[int, ...]
    factor: int
    width: int
    gain: int


def read_line(line: str) -> Filter | None:
    """A line of an index, or None where it is none."""
    parts = LINE.fullmatch(line)
    if not parts:
        return None
    rates = tuple(map(int, parts[2].split(",")))
    return Filter(parts[1], rates, int(parts[3]), int(parts[4]), int(parts[5]))


def ready(folder: str = FOLDER) -> list[Filter]:
    """All ready filters of a folder, as its index lists them."""
    path = os.path.join(folder, INDEX)
    try:
        with open(path, encoding="ascii", errors="replace") as file:
            lines = [line for line in file.read().splitlines() if line and not line.startswith("#")]
    except OSError as error:
        raise Refused(f"the list of ready filters can't be read: {path}: {error.strerror}") from None
    found = []
    for line in lines:
        row = read_line(line)
        if not row:
            raise Refused(f"{path}: a line is no NAME RATES FACTOR WIDTH GAIN: {line!a}")
        found.append(row)
    return found


def served(filters: list[Filter]) -> list[int]:
    """The stored rates that have a filter."""
    return sorted({rate for it in filters for rate in it.rates})


def for_rate(filters: list[Filter], rate: int, is_louder: bool) -> dict[tuple[int, int], str]:
    """What can be wished for a stored rate, as numbers, and the name of the filter that plays it."""
    rows = {(rate // it.factor, it.width): it.name for it in filters if rate in it.rates and (it.gain > 0) == is_louder}
    return dict(sorted(rows.items()))


def made_for(path: str) -> tuple[int, ...]:
    """The stored rates that a filter is for, by the index beside it; none where no index lists it."""
    folder, name = os.path.split(os.path.realpath(path))
    with contextlib.suppress(Refused):
        return next((it.rates for it in ready(folder) if it.name == name), ())
    return ()


def parsed(text: str) -> tuple[int, int] | None:
    """The rate and width of one wish, or None."""
    parts = WISH.fullmatch(text)
    return (int(parts[1]), int(parts[2])) if parts else None


def all_parsed(text: str) -> list[tuple[int, int]] | None:
    """The rates and widths of wishes with commas between them, the best first, or None."""
    parts = text.split(",")
    wishes = [wish for wish in map(parsed, parts) if wish]
    return wishes if len(wishes) == len(parts) else None


def path_for(filters: list[Filter], rate: int, wishes: list[tuple[int, int]], is_louder: bool = False) -> str:
    """The path of the filter that plays a stored rate to the first wish for which there is one."""
    if rate not in served(filters):
        raise Refused(f"no filter plays its {rate} Hz; there are some for {', '.join(map(str, served(filters)))}")
    there = for_rate(filters, rate, is_louder)
    for wish in wishes:
        if wish in there:
            return os.path.join(FOLDER, there[wish])
    wished = " or ".join(f"{out}/{width}" for out, width in wishes)
    others = ", ".join(f"{out}/{width}" for out, width in there)
    raise Refused(f"no filter plays its {rate} Hz to {wished}; there are {others}")


def by_rates(text: str, is_louder: bool = False) -> dict[str, str]:
    """The path of the filter for each rate that has one, by wishes, of which each has one for some rate."""
    wishes, there, found = all_parsed(text), ready(), {}
    if wishes is None:
        raise Refused(f"{shown_name(text)} is no RATE/BITS, as 88200/24 is")
    played = {wish for rate in served(there) for wish in for_rate(there, rate, is_louder)}
    unserved = ", ".join(f"{out}/{width}" for out, width in wishes if (out, width) not in played)
    if unserved:
        raise Refused(f"no filter plays any rate to {unserved}: dsdarc-pick --list prints what there is")
    for rate in served(there):
        with contextlib.suppress(Refused):
            found[str(rate)] = path_for(there, rate, wishes, is_louder)
    return found


def asked(arguments: list[str], options: tuple[str, ...] = (), **how: Any) -> subprocess.CompletedProcess[bytes]:
    try:
        return subprocess.run([PROGRAM, *options, "info", *arguments], check=False, **how)
    except OSError as error:
        raise Refused(f"no program runs: {PROGRAM}: {error.strerror}") from None


def rate_in_head(name: str) -> int | None:
    """The rate that the first bytes of a file say, or None where it isn't there: without the program, so in no time."""
    with open(name, "rb") as file:
        head = file.read(HEAD)
    if head[:4] == b"DSD " and head[28:32] == b"fmt " and len(head) >= 60:
        return struct.unpack_from("<I", head, 56)[0]
    for chunk, data in channels.chunks(head[16:]) if head[:4] == b"FRM8" else ():
        for inner, field in channels.chunks(data[4:]) if (chunk, data[:4]) == (b"PROP", b"SND ") else ():
            if inner == b"FS  " and len(field) >= 4:
                return struct.unpack_from(">I", field)[0]
    return None


def rate_of(name: str) -> int:
    """The rate in which a file is stored, as the program reports it; of one that it refuses, the fault and why."""
    argument = f"./{name}" if name.startswith("-") and name != "-" else name
    reported = asked([argument], ("--explain",), capture_output=True)
    for line in reported.stdout.decode().splitlines() if reported.returncode == 0 else ():
        if line.startswith("rate "):
            return int(line[5:])
    said = lines_of(reported.stderr.decode(errors="replace"))
    raise Refused("\n".join(said) or f"the program ended with status {reported.returncode}")
