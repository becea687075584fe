"""A plain reading of projects by docs/PROJECTS.md: the first fault, or what the project says. What TOML is, Python's own
`tomllib` decides, which knows TOML 1.0 alone: of a text that it refuses nothing is said, and nothing of one with a number
that is infinite, as it takes 1e999 for one."""
import math
import os
import tomllib
from typing import Any

from tests.fuzz import reading

DECIMATE = ("taps", "factor", "delay", "shift", "width")
SPLICE = ("weights", "takes", "cue")
CUE = ("take", "start", "stop", "bridge", "target", "line", "title")
WHOLE = range(-(2**63), 2**63)
DEEPEST = 60


class Fault(Exception):
    """The fault's text."""


class Unknown(Exception):
    """Nothing is said of this text."""


def demand(holds: object, text: str) -> None:
    if not holds:
        raise Fault(text)


def is_whole(value: object) -> bool:
    return type(value) is int


def are_whole(values: list[float]) -> bool:
    return type(values) is list and all(map(is_whole, values))


def numbers_and_depth(value: Any) -> tuple[list[int], int]:
    """All numbers in a value, and how deep it is nested."""
    inner = value.values() if isinstance(value, dict) else value if isinstance(value, list) else None
    if inner is None:
        return [value] if is_whole(value) or type(value) is float else [], 0
    found = [numbers_and_depth(it) for it in inner]
    return [it for numbers, _ in found for it in numbers], 1 + max((depth for _, depth in found), default=0)


def document_of(data: bytes) -> dict[str, dict[str, Any]]:
    try:
        document = tomllib.loads(data.decode().removeprefix("\ufeff"))
        numbers, depth = numbers_and_depth(document)
    except (ValueError, RecursionError) as refused:
        raise Unknown from refused
    if depth > DEEPEST or any(type(it) is float and math.isinf(it) for it in numbers):
        raise Unknown
    demand(all(it in WHOLE for it in numbers if is_whole(it)), "NotToml")
    return document


def known_keys(table: dict[str, Any], keys: tuple[str, ...]) -> None:
    demand(set(table) <= set(keys), "UnknownKey")


def read(data: bytes) -> dict[str, dict[str, Any]]:
    """The document of a project. Fault where it is none, Unknown where nothing is said of it."""
    document = document_of(data)
    known_keys(document, ("decimate", "splice"))
    if "decimate" in document:
        read_decimate(document["decimate"])
    if "splice" in document:
        read_splice(document["splice"])
    return document


def read_decimate(table: dict[str, Any]) -> None:
    demand(isinstance(table, dict), "WrongKind decimate")
    known_keys(table, DECIMATE)
    for key in DECIMATE:
        demand(key in table, f"MissingKey {key}")
        value = table[key]
        demand(are_whole(value) if key == "taps" else is_whole(value), f"WrongKind {key}")
        fits = all(-(2**31) <= it < 2**31 for it in value) if key == "taps" else 0 <= value < 2**32
        demand(fits, f"OutOfLimit {key}")
    taps = table["taps"]
    demand(1 <= len(taps) <= 4096 and sum(map(abs, taps)) <= 2**30, "OutOfLimit taps")
    demand(8 <= table["factor"] <= 1024 and table["factor"] % 8 == 0, "OutOfLimit factor")
    demand(table["delay"] < len(taps), "OutOfLimit delay")
    demand(table["shift"] <= 30, "OutOfLimit shift")
    demand(table["width"] in (16, 24), "OutOfLimit width")


def read_splice(table: dict[str, list[Any]]) -> None:
    demand(isinstance(table, dict), "WrongKind splice")
    known_keys(table, SPLICE)
    kinds = {"weights": are_whole, "cue": lambda it: isinstance(it, list)}
    kinds["takes"] = lambda it: isinstance(it, list) and all(isinstance(name, str) for name in it)
    limits = {"weights": range(2, 13), "takes": range(1, 17), "cue": range(1, 257)}
    for key in SPLICE:
        demand(key in table, f"MissingKey {key}")
        demand(kinds[key](table[key]), f"WrongKind {key}")
        demand(len(table[key]) in limits[key], f"OutOfLimit {key}")
        demand(key != "weights" or sum(map(abs, table[key])) <= 4096, "OutOfLimit weights")
    for number, cue in enumerate(table["cue"]):
        read_cue(table, number, cue)
    demand(table["cue"][-1].get("bridge", 0) == 0, "LastBridge")


def read_cue(splice: dict[str, list[Any]], number: int, cue: dict[str, Any]) -> None:
    demand(isinstance(cue, dict), "WrongKind cue")
    known_keys(cue, CUE)
    for key in CUE:
        if key == "line":
            read_line(cue)
            continue
        if key not in cue:
            demand(key not in ("take", "start", "stop"), f"MissingKey {key}")
            continue
        value = cue[key]
        demand(isinstance(value, str) if key in ("target", "title") else is_whole(value), f"WrongKind {key}")
        if key == "take":
            demand(0 <= value < len(splice["takes"]), f"NoTake {number}")
        elif key in ("start", "stop"):
            demand(0 <= value <= 2**36, f"OutOfLimit {key}")
        else:
            is_within = {
                "bridge": lambda it: 0 <= it <= 4096,
                "target": lambda it: it in ("fade", "line"),
                "title": lambda it: len(it.encode()) <= 255,
            }
            demand(is_within[key](value), f"OutOfLimit {key}")
    demand(cue["stop"] >= cue["start"] + len(splice["weights"]) - 1, f"ShortCue {number}")


def is_line(cue: dict[str, Any]) -> bool:
    return cue.get("target") == "line"


def read_line(cue: dict[str, Any]) -> None:
    """The ends of a line: they are there where the target is one, and nowhere else."""
    if not is_line(cue):
        demand("line" not in cue, "OutOfLimit line")
        return
    demand("line" in cue, "MissingKey line")
    demand(are_whole(cue["line"]), "WrongKind line")
    demand(len(cue["line"]) == 2 and all(-4096 <= it <= 4096 for it in cue["line"]), "OutOfLimit line")


def edit_fault(data: bytes, folder: str, form: str) -> str | None:
    """The fault of cutting by a project over the takes of a folder, or None."""
    try:
        document = read(data)
    except Fault as fault:
        return f"Project {fault}"
    try:
        demand("splice" in document, "NoSplice")
        cut(document["splice"], folder, form)
    except Fault as fault:
        return str(fault)
    return None


def bytes_of(folder: str, name: str) -> bytes:
    try:
        with open(os.path.join(folder, name), "rb") as file:
            return file.read()
    except (OSError, ValueError) as failed:
        raise Fault("ReadFailed") from failed


def cut(splice: dict[str, list[Any]], folder: str, form: str) -> None:
    takes = []
    for number, data in enumerate([bytes_of(folder, name) for name in splice["takes"]]):
        try:
            takes.append(reading.read(data)[0])
        except reading.Refused as refused:
            raise Fault(f"TakeUnread {number} {refused}") from refused
    for number, take in enumerate(takes):
        is_alike = (take["rate"], take["channels"]) == (takes[0]["rate"], takes[0]["channels"])
        demand(is_alike, f"TakeMismatch {number}")
    cues, states = splice["cue"], len(splice["weights"]) - 1
    for number, cue in enumerate(cues):
        demand(cue["stop"] <= takes[cue["take"]]["samples"], f"CueOutside {number}")
    length = sum(it["stop"] - it["start"] + it.get("bridge", 0) for it in cues)
    demand(length <= 2**36, "MasterTooLong")
    demand(form != "dsdiff" or length % 8 == 0, "NotWholeBytes")
    for number, (cue, after) in enumerate(zip(cues, cues[1:])):
        bridge = cue.get("bridge", 0)
        if bridge and not is_line(cue):
            demand(after["start"] >= bridge + states, f"NoRoomBefore {number}")
            demand(cue["stop"] + bridge <= takes[cue["take"]]["samples"], f"NoRoomAfter {number}")
