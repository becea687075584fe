#!/usr/bin/env python3
"""The steps of the workflow, in OUT: steps.py look|convert|play KEY over one file, steps.py plan|beside|lists over all.

`names.py` has the keys, and the names that they stand for. The notes in `work/` are what Snakemake knows; a step writes
its note last, and a file that is written has its name only once it is whole. """
import os
import sys
from collections.abc import Callable
from typing import Any

sys.path.insert(0, os.path.dirname(os.path.dirname(os.path.realpath(__file__))))
from dsdarc_scripts import outputs

outputs.begin()
import tomllib

from dsdarc_scripts import channels, room, waves
from dsdarc_scripts.explained import lines_of, shown_name
from dsdarc_scripts.names import KINDS, SETTINGS, TABLE, keep, load, remove, result, shown, sum_line, sum_of
from dsdarc_scripts.program import PROGRAM, finished
from dsdarc_scripts.walks import identity_of
from workflows import besides, tagging
from workflows import kept as kept_of

ENDINGS = {"dsdiff": "dff", "dsf": "dsf", "dsf8": "dsf"}


def run(*arguments: str) -> tuple[int, str]:
    """Status and line of a command."""
    status, out, err = finished([PROGRAM, *arguments])
    return status, (err if status else out).decode(errors="replace").strip()


def must(entry: dict[str, Any], size: Callable[[], int], *arguments: str) -> str:
    """The line of a command that has to be done; `size` reckons that of the file that it makes."""
    status, line = run(*arguments)
    if status != 0:
        room.check(line, "work/parts", size)
        sys.exit(f"{line or f'status {status}'}: {shown_name(entry['name'])}")
    return line


def sums_in(entry: dict[str, Any], path: str) -> tuple[int, list[tuple[int, str]]]:
    """Rate of a file, and for each channel its number of bits and their SHA-256, as the program prints them."""
    rate, bits, *sums = must(entry, lambda: 0, "sum", path).partition("  ")[0].split()
    return int(rate), [(int(bits), total) for total in sums]


def entry_of(key: str) -> dict[str, Any]:
    return load(TABLE)["files"][key]


def source_of(key: str) -> str:
    return f"work/links/{key}"


def look_of(key: str) -> str:
    return f"work/looks/{key}.json"


def note_of(step: str, key: str, form: str) -> str:
    """The note of what was converted or played."""
    return f"work/played/{key}.json" if step == "play" else f"work/converted/{key}.{ENDINGS[form]}.json"


def look(key: str) -> None:
    """What the program prints of a file, or the fault that it is refused for, the sum of its bytes, and what shows that
    it is another file later."""
    identity = identity_of(source_of(key))
    status, text = run("--explain", "info", source_of(key))
    fault, *more = lines_of(text, source_of(key)) or [""]
    if status == 0:
        # The text of a mark may have what else ends a line.
        lines = [line.split(" ", 1) for line in text.split("\n")]
        fields = {name: value for name, value in lines if name not in ("mark", "ids")}
        found = {name: value if name == "form" else int(value) for name, value in fields.items()}
    elif status in (2, 3) and fault != "fault: Memory":
        found = {"fault": fault.removeprefix("fault: "), "why": more}
    else:
        sys.exit(f"{text or f'status {status}'}: {shown_name(entry_of(key)['name'])}")
    try:
        total = sum_of(source_of(key))
    except OSError as error:
        found, total = {"fault": "ReadFailed", "why": [error.strerror]}, None
    # What can't be read may be read the next time.
    keep(look_of(key), found | {"sha256": total, "identity": identity if total else None})


def placed(parts: dict[str, str]) -> dict[str, dict[str, Any]]:
    """Puts files that are whole in their places; the size and sum of each."""
    results = {}
    for path, part in parts.items():
        results[path] = {"bytes": os.path.getsize(part), "sha256": sum_of(part)}
        os.makedirs(os.path.dirname(path), exist_ok=True)
        os.replace(part, path)
    return results


def compare(
    entry: dict[str, Any], source: str, sum_before: str, part: str, back: str, kept: dict[str, str]
) -> tuple[int, list[tuple[int, str]]]:
    """Rate and sums of a file's channels, once those of the converted ones are equal and it can be made again. The
    converted file is read without the program."""
    first = sums_in(entry, source)
    for which, sums in (("converted", channels.read(part)), ("back", sums_in(entry, back))):
        if sums != first:
            sys.exit(f"the {which} file has other bits: {shown_name(entry['name'])}")
    if kept_of.sum_of_pieces(kept_of.made_again(part, kept)) != sum_before:
        sys.exit(f"what is kept doesn't make the file again: {shown_name(entry['name'])}")
    return first


def convert(key: str) -> None:
    """Converts a file and back to its own form, keeps all but its sound, and compares what comes of both."""
    form, entry, source, looked = load(SETTINGS)["form"], entry_of(key), source_of(key), load(look_of(key))
    front = f"work/parts/{key}"
    part, back = f"{front}.{ENDINGS[form]}", f"{front}.back"
    try:
        dropped = must(entry, lambda: room.copied_size(source), "convert", form, source, part)
        must(entry, lambda: room.copied_size(source), "convert", looked["form"], part, back)
        kept = kept_of.keep_all_but_sound(source, front)
        # Before the bits are compared, so that they are those of the file with its tag.
        tag = tagging.hand_on(source, part, is_compared=True, takes_any=True)
        rate, sums = compare(entry, source, looked["sha256"], part, back, kept)
        made = {result("converted", entry, f".{ENDINGS[form]}"): part}
        made |= {result("kept", entry, ending): file for ending, file in kept.items()}
        results = placed(made)
        remove(*(result("kept", entry, ending) for ending in KINDS["kept"] if ending not in kept))
        keep(
            note_of("convert", key, form),
            {
                "form": form,
                "rate": rate,
                "channels": [{"bits": bits, "sha256": total} for bits, total in sums],
                "dropped": int(dropped.split()[-1]),
                "renamed": entry["renamed"],
                "results": results,
                "tag": tag,
            },
        )
    finally:
        remove(part, back, *(front + ending for ending in KINDS["kept"]))


def play(key: str) -> None:
    """Plays a file to a WAVE file, by the filter for its rate."""
    settings, entry, part = load(SETTINGS), entry_of(key), f"work/parts/{key}.wav"
    try:
        chosen, source = settings["filters"][str(load(look_of(key))["rate"])], source_of(key)
        used = sum_of(chosen)
        must(entry, lambda: room.played_size(source, chosen), "play", chosen, source, part)
        tag = tagging.hand_on(source, part)
        results = placed({result("pcm", entry, ".wav"): part})
        note = {"renamed": entry["renamed"], "results": results, "tag": tag, "filter": used}
        keep(note_of("play", key, settings["form"]), note)
    finally:
        remove(part)


def unconvertible(found: dict[str, Any], form: str) -> tuple[str, str] | None:
    """The fault that a conversion of a file would have, and what is wrong; or None."""
    if form != "dsdiff" or found["samples"] % 8 == 0:
        return None
    return "NotWholeBytes", f"its channels have {found['samples']} bits each, and DSDIFF holds whole bytes"


def unplayable(found: dict[str, Any], filters: dict[str, str]) -> tuple[str, str] | None:
    """The fault that the playing of a file would have, and what is wrong; `NoFilter` where none was chosen for its rate.
    Or None."""
    rate, name = found["rate"], filters.get(str(found["rate"]))
    if name is None:
        there = ", ".join(sorted(filters, key=lambda it: (len(it), it))) or "none"
        return f"NoFilter {rate}", f"no filter was chosen for its {rate} Hz; the rates that have one are {there}"
    with open(name, "rb") as file:
        project = tomllib.load(file)["decimate"]
    if rate % project["factor"]:
        return "RateNotDivided", f"its filter divides by {project['factor']}, and its rate is {rate} Hz"
    frames = -(-found["samples"] // project["factor"])
    size = waves.riff_size(found["channels"], project["width"], frames)
    if size < waves.SIZE_LIMIT:
        return None
    return "TooLarge", f"its WAVE file would count {size} bytes, and has to count fewer than {waves.SIZE_LIMIT}"


def faults_of(found: dict[str, Any], settings: dict[str, Any]) -> dict[str, tuple[str, ...]]:
    """Fault and reasons of each step that is refused of a file."""
    if "fault" in found:
        return {"info": (found["fault"], *found.get("why", ()))}
    faults = {
        "convert": unconvertible(found, settings["form"]),
        "play": unplayable(found, settings["filters"]),
    }
    return {step: fault for step, fault in faults.items() if fault}


def refusal_lines(step: str, name: str, fault: str, *whys: str) -> list[str]:
    """The lines of a refusal: step, fault and name, and below what is wrong."""
    return [f"{step}\t{fault}\t{shown(name)}\n", *(f"\t{why}\n" for why in whys)]


def plan() -> None:
    """What is done with each file, and the list of what is refused."""
    settings, table, steps, lines = load(SETTINGS), load(TABLE), {}, []
    for fault, name, why in table["refused"]:
        lines += refusal_lines("folder" if fault == "FolderUnread" else "info", name, fault, why)
    for key, entry in by_name(table):
        found = load(look_of(key))
        faults = faults_of(found, settings)
        for step, fault in faults.items():
            lines += refusal_lines(step, entry["name"], *fault)
        steps[key] = {
            "convert": "info" not in faults and "convert" not in faults,
            "play": "info" not in faults and "play" not in faults,
            "rate": found.get("rate"),
        }
    keep("refused.tsv", "".join(lines))
    keep("work/plan.json", steps)


def beside() -> None:
    """Keeps what isn't converted, and lists what isn't kept."""
    table, steps = load(TABLE), load("work/plan.json")
    left = [entry["name"] for key, entry in by_name(table) if not steps[key]["convert"]]
    whys = {name: why for _, name, why in table["refused"]}
    besides.keep_all([*table["beside"], *left], whys, load(SETTINGS)["beside_mb"])


def by_name(table: dict[str, Any]) -> list[tuple[str, dict[str, Any]]]:
    """The keys and entries of a table in the order of the names."""
    return sorted(table["files"].items(), key=lambda item: item[1]["name"])


def described(key: str, todo: dict[str, Any], form: str) -> tuple[dict[str, dict[str, Any]], dict[str, Any]]:
    """The notes of what was made of a file, and what `results.json` says of it."""
    notes = {step: load(note_of(step, key, form)) for step in ("convert", "play") if todo[step]}
    results = {step: sorted(note["results"]) for step, note in notes.items()}
    converted = [path for path in results.get("convert", []) if os.path.splitext(path)[1] not in KINDS["kept"]]
    return notes, {
        "sha256": load(look_of(key))["sha256"],
        "converted": converted[0] if converted else None,
        "kept": [path for path in results.get("convert", []) if path not in converted],
        "dropped": notes["convert"]["dropped"] if converted else 0,
        "pcm": results["play"][0] if "play" in results else None,
        "tags": {step: note["tag"] for step, note in notes.items() if note.get("tag")},
    }


def lists() -> None:
    """The lists of sums of the sources and of what was made, of the channels, and the counts of all."""
    table, steps, form = load(TABLE), load("work/plan.json"), load(SETTINGS)["form"]
    sources, made, sounds, results = [], dict[str, dict[str, Any]](), [], {}
    for key, entry in by_name(table):
        notes, results[entry["name"]] = described(key, steps[key], form)
        if results[entry["name"]]["sha256"]:
            sources.append(sum_line(results[entry["name"]]["sha256"], entry["name"]))
        for note in notes.values():
            made |= note["results"]
        if "convert" in notes:
            rate, name = notes["convert"]["rate"], shown(entry["name"])
            sounds += [
                f"{channel['sha256']}\t{rate}\t{channel['bits']}\t{number}\t{name}\n"
                for number, channel in enumerate(notes["convert"]["channels"])
            ]
    made |= besides.copies()
    keep("SOURCES.SHA256SUMS", "".join(sources))
    keep("SHA256SUMS", "".join(sum_line(file["sha256"], path) for path, file in sorted(made.items())))
    keep("channels.tsv", "".join(sounds))
    keep(
        "dropped.tsv",
        "".join(f"{found['dropped']}\t{shown(name)}\n" for name, found in results.items() if found["dropped"]),
    )
    keep("results.json", results)
    keep("report.txt", report(table, steps, results, len(sounds)))


def report(
    table: dict[str, Any], steps: dict[str, dict[str, Any]], results: dict[str, dict[str, Any]], sounds: int
) -> str:
    """The counts of all."""
    with open("refused.tsv", encoding="utf-8", errors="surrogateescape") as file:
        kinds = [line.split("\t")[0] for line in file]
    converted = sum(todo["convert"] for todo in steps.values())
    dropped = sum(found["dropped"] > 0 for found in results.values())
    named = sum(entry["renamed"] is not None for entry in table["files"].values())
    tags = [tag == tagging.HANDED_ON for found in results.values() for tag in found["tags"].values()]
    return (
        f"files {len(steps) + len(table['refused']) - kinds.count('folder')}\n"
        f"refused {kinds.count('info')}, folders that can't be listed {kinds.count('folder')}\n"
        f"converted and compared {converted}, not converted {kinds.count('convert')}\n"
        f"can be made again byte for byte {converted}, of which marks, chunks or a tag were dropped {dropped}\n"
        f"played {sum(todo['play'] for todo in steps.values())}, not played {kinds.count('play')}\n"
        f"channels with equal bits {sounds}\n"
        f"results under other names {named}\n"
        f"tags handed on to {tags.count(True)} results, not to {tags.count(False)}\n"
        f"other files and refused ones kept as they are {len(besides.copies())}, not kept {besides.not_kept()}\n"
    )


STEPS: dict[str, Callable[..., None]] = dict(
    look=look, convert=convert, play=play, plan=plan, beside=beside, lists=lists
)


def main(step: str, *key: str) -> int:
    """Takes a step; the mark shows a full disk, and Snakemake says the line for all steps."""
    try:
        STEPS[step](*key)
    except OSError as error:
        if not room.is_full(error):
            sys.exit(room.line_of(error, "OUT"))
        room.remove_mark()
        return 1
    return 0


if __name__ == "__main__":
    with room.reported("OUT"):
        sys.exit(outputs.ended(lambda: main(*sys.argv[1:])))
