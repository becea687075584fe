"""What may be said of a run, and what the lines of `info` must be."""
import re
from typing import Any

from dsdarc_scripts import waves
from tests.fuzz.running import Run

# The faults that each command may answer, as the manual lists them.
FAULTS = {
    "info": {"ReadFailed", "FileUnread"},
    "convert": {"ReadFailed", "FileUnread", "NotWholeBytes", "WriteFailed"},
    "play": {"ReadFailed", "WriteFailed", "Project", "NoDecimation", "FileRefused", "RateNotDivided", "TooLarge"},
    "check": {"ReadFailed", "Project", "NoSplice", "TakeUnread", "TakeMismatch", "CueOutside", "MasterTooLong"},
}
FAULTS["check"] |= {"NoRoomBefore", "NoRoomAfter"}
FAULTS["edit"] = FAULTS["check"] | {"NotWholeBytes", "WriteFailed"}
FAULTS["nulltest"] = {"ReadFailed", "Mix", "TakeUnread", "TakeMismatch", "ClipOutside"}

PLACED = r" \d+"
DSDIFF = (
    r"Dsdiff (FormCut|Chunk (HeadCut|DataCut) \d+|NoVersion|BadVersion|Twice [0-9a-f]{8}|NoProperty|NoRate|NoChannels"
)
DSDIFF += r"|NoCompression|Compressed|BadRate|BadChannelNumber|NoSound|SoundBeforeProperty|PartFrame|TooLong|BadMark)"
DSF = r"Dsf (HeadCut|BadFormat|BadVersion|BadChannelNumber|BadRate|BadBits|BadBlock|TooLong|DataCut|BadPointer)"
DOP = r"Dop (NotWave|NoData|NoFormat|NotPcm24|BadChannelNumber|BadRate|NoSize|DataCut|PartFrame|BadMarker \d+|CountCut"
DOP += "|BadCount)"
UNREAD = rf" (UnknownForm|{DSDIFF}|{DSF}|{DOP})"
KEY = " (decimate|splice|taps|factor|delay|shift|width|weights|takes|cue|take|start|stop|bridge|target|line|title)"
PROJECT = rf" (NotToml|UnknownKey|(WrongKind|MissingKey|OutOfLimit){KEY}|(NoTake|ShortCue) \d+|LastBridge)"
MIX_KEY = " (mix|unit|audible|limit|every|takes|decoder|clip|taps|take|start|at|length|gain|gains)"
MIX = rf" (NotToml|UnknownKey|(WrongKind|MissingKey|OutOfLimit){MIX_KEY}|NoTake \d+)"
# What follows a fault's name.
PARTS = {"FileUnread": UNREAD, "TakeUnread": PLACED + UNREAD, "Project": PROJECT, "Mix": MIX}
PARTS |= dict.fromkeys(("TakeMismatch", "CueOutside", "NoRoomBefore", "NoRoomAfter", "ClipOutside"), PLACED)

LEVEL = r"dBFS (-?\d+\.\d\d|-inf)"
STRETCH = rf"channel [0-5] first \d+ last \d+ residual (\d+) {LEVEL} place (\d+)\n"

DONE = {
    "info": r"form (dsdiff|dsf8?)\nrate \d+\nchannels [1-6]\nsamples \d+\nids( [0-9a-f]{8}){1,6}\nlayout [1-7]\nmarks \d+"
    r"(\nmark -?\d+ type \d+ channel \d+)*\nothers \d+\ntag \d+\n",
    "convert": r"converted dropped \d+\n",
    "play": r"played \d+ bytes\n",
    "edit": r"edited total \d+\n",
    "check": r"accepted total \d+\n",
    "nulltest": rf"({STRETCH})*accepted residual \d+ {LEVEL}\n",
}
CERT_REASON = r"(Cut|Head|Length|Row \d+|Bound|Start|Step \d+ \d+|End \d+|Cost)"
MISFIT = "MasterUnread|MasterShape|MasterLength"
REJECTED = {
    "check": rf"rejected ({MISFIT}|MasterMarks|CuedBit \d \d+|CertHead (Cut|Head)|Cert \d+ {CERT_REASON}|CertExtra)\n",
    "nulltest": rf"(rejected ({MISFIT}|TooLoud \d \d+)|({STRETCH})+rejected Residual \d \d+)\n",
}

LAYOUTS = (1, 2, 3, 4, 6, 7)


class Failure(Exception):
    """Something that must not be."""


def demand(holds: object, why: str) -> None:
    if not holds:
        raise Failure(why)


def fault_of(run: Run) -> str:
    """A fault's name and its parts."""
    return run.err.decode().removeprefix("fault: ").removesuffix("\n")


def label(run: Run) -> str:
    """What the run came to, without numbers, to be counted."""
    text = re.sub(STRETCH, "", (run.out + run.err).decode(errors="replace"))
    first = text.split("\n", 1)[0]
    words = ["#" if re.fullmatch(r"-?\d+(\.\d+)?|[0-9a-f]{8}|-inf", word) else word for word in first.split(" ")]
    return "form .." if first.startswith("form ") else " ".join(words)


def judge_run(run: Run, is_scarce: bool = False) -> None:
    """No signal, a status from 0 to 3, and the line that belongs to it."""
    demand(run.signal == 0, f"ended by signal {run.signal}")
    demand(run.status in (0, 1, 2, 3), f"status {run.status}")
    out, err = run.out.decode(), run.err.decode()
    command = run.arguments[0] if run.arguments else ""
    if run.status == 0:
        demand(
            command in DONE and re.fullmatch(DONE[command], out) and not err, "done, but the lines aren't those of it"
        )
    elif run.status == 1:
        demand(
            command in REJECTED and re.fullmatch(REJECTED[command], out) and not err,
            "rejected, but the line isn't that of it",
        )
    else:
        demand(not out, "a fault, but something on standard output")
        judge_fault(command, run.status, err, is_scarce)


def judge_fault(command: str, status: int, err: str, is_scarce: bool) -> None:
    found = re.fullmatch(r"fault: ([A-Za-z]+)(.*)\n", err)
    if not found:
        raise Failure("no line of a fault")
    name, parts = found.groups()
    if status == 3:
        demand(name in ("WrongWords", "UnknownFormName") and not parts, "status 3, but another fault")
        return
    if name == "Memory":
        demand(is_scarce and not parts, "out of memory, though the limit is above what the files need")
        return
    demand(name in FAULTS.get(command, ()), "a fault that the command doesn't have")
    demand(re.fullmatch(PARTS.get(name, ""), parts), "a fault's parts aren't those of it")


def info_of(run: Run) -> dict[str, Any]:
    """The lines of `info`: what the file holds."""
    found: dict[str, Any] = {"mark": []}
    for line in run.out.decode().splitlines():
        name, _, rest = line.partition(" ")
        if name == "mark":
            found["mark"].append(rest)
        else:
            found[name] = int(rest) if name not in ("form", "ids") else rest
    demand(len(found["mark"]) == found["marks"], "as many lines of marks as are counted")
    demand(len(found["ids"].split()) == found["channels"], "as many IDs as channels")
    return found


def converted(info: dict[str, Any], form: str) -> tuple[dict[str, Any], int]:
    """What `info` has to print of the file that is written for a recording, and how much of that has no place there."""
    channels = info["channels"]
    there = dict(info, form=form)
    if form == "dsdiff":
        there |= {"layout": LAYOUTS[channels - 1], "tag": 0}
        return there, int(info["tag"] > 0)
    ids = ["SLFT", "SRGT"] if channels == 2 else [f"C{c:03}" for c in range(channels)]
    there |= {"ids": " ".join(it.encode().hex() for it in ids), "marks": 0, "mark": [], "others": 0}
    return there, info["marks"] + info["others"]


def wave_head(info: dict[str, Any], factor: int, width: int) -> tuple[bytes, int]:
    """The header of the WAVE file that a recording plays, and how long the file is."""
    channels, frames = info["channels"], -(-info["samples"] // factor)
    head = waves.head_of(info["rate"] // factor, channels, width, frames)
    return head, 8 + waves.riff_size(channels, width, frames)


def cert_sizes(weights: int, channels: int, bridges: list[int]) -> list[int]:
    """How long the certificate of `edit` is: the least where no row has excesses, the most where each has 8 bytes."""
    rows = [(9 + width * 2 ** (weights - 1)) for width in (0, 8)]
    return [12 + channels * sum(14 + row * (length + 1) for length in bridges if length) for row in rows]
