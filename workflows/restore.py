#!/usr/bin/env python3
"""Makes an archive again from what the workflow made of it: restore.py OUT FOLDER.

For each file that was converted, OUT has all but its sound, as it was: `.head` is what comes before the sound, `.id3`
or `.tail` what follows it, and `.fill` the last blocks of a DSF file whose fill isn't zero. With the sound of the
converted file this is the old file, byte for byte. Other files are in `beside/` as they were, but for those that
`not_kept.tsv` lists. All are written to FOLDER under their old names, each once its SHA-256 is the old one's. A file
that is there already stays: if it has that SHA-256 it is the old one, otherwise the old one is not made. The script
reads `results.json`, `beside.json`, `converted/`, `kept/`, `renamed/` and `beside/`, and doesn't need dsdarc.
"""
import os
import sys
from collections.abc import Callable, Iterator
from typing import Any

sys.path.insert(0, os.path.dirname(os.path.dirname(os.path.realpath(__file__))))
from dsdarc_scripts import outputs

outputs.begin()
import tempfile

from dsdarc_scripts import channels, names, room
from workflows import besides, kept


def is_made(path: str, total: str) -> bool:
    return os.path.isfile(path) and not os.path.islink(path) and names.sum_of(path) == total


def data_of(out: str, found: dict[str, Any]) -> Iterator[bytes]:
    """The bytes of an old file, piece by piece: of one that was converted, or of a copy."""
    if "copy" in found:
        with open(os.path.join(out, found["copy"]), "rb") as file:
            yield from kept.copied(file)
        return
    parts = {os.path.splitext(path)[1]: os.path.join(out, path) for path in found["kept"]}
    if ".head" not in parts:
        raise channels.Unread("nothing was kept of its header")
    yield from kept.made_again(os.path.join(out, found["converted"]), parts)


def restore(out: str, name: str, found: dict[str, Any], part: str, folder: str) -> None:
    """Writes one file again; it has its name only where it is the old one."""
    if os.path.isabs(name) or ".." in name.split("/"):
        raise channels.Unread("its name leads out of the folder")
    path = os.path.join(folder, name)
    demand_apart(out, os.path.dirname(path))
    if is_made(path, found["sha256"]):
        return
    if os.path.lexists(path):
        raise channels.Unread("another file has its name: move that away")
    kept.write(part, data_of(out, found))
    if names.sum_of(part) != found["sha256"]:
        raise channels.Unread("it would have another sum")
    os.makedirs(os.path.dirname(path), exist_ok=True)
    os.replace(part, path)


def is_entry(found: dict[str, Any]) -> bool:
    """Whether an entry of results.json has what is read of it."""
    if not isinstance(found, dict) or not isinstance(found.get("converted", 0), str | None):
        return False
    parts = found.get("kept")
    is_kept = isinstance(parts, list) and all(isinstance(it, str) for it in parts)
    return found["converted"] is None or is_kept and isinstance(found.get("sha256"), str)


def is_copy(found: dict[str, Any]) -> bool:
    """Whether an entry of beside.json has what is read of it."""
    return isinstance(found, dict) and all(isinstance(found.get(it), str) for it in ("copy", "sha256"))


def listed(out: str, name: str, is_right: Callable[[dict[str, Any]], bool]) -> dict[str, dict[str, Any]]:
    """What a list of the workflow has, by the old names of files."""
    path = os.path.join(out, name)
    try:
        found = names.load(path)
    except FileNotFoundError:
        raise outputs.Refused(f"{outputs.shown_name(out)} holds no run that ended: there is no {name}") from None
    except ValueError:
        found = None
    if not isinstance(found, dict) or not all(map(is_right, found.values())):
        raise outputs.Refused(f"{outputs.shown_name(path)} isn't as the workflow writes it")
    return found


def kept_of(out: str) -> dict[str, dict[str, Any]]:
    """What can be made again, by the old names: what was converted, and the copies of other files."""
    found = listed(out, "results.json", is_entry)
    converted = {name: it for name, it in found.items() if it["converted"] is not None}
    # A run by an earlier version kept no copies.
    has_copies = os.path.lexists(os.path.join(out, besides.LIST))
    return converted | (listed(out, besides.LIST, is_copy) if has_copies else {})


def not_kept(out: str) -> int:
    """How many files of the archive are listed as not kept."""
    try:
        with open(os.path.join(out, besides.LEFT), encoding="utf-8", errors="surrogateescape") as file:
            return file.read().count("\n")
    except FileNotFoundError:
        return 0


def demand_apart(out: str, folder: str) -> None:
    """Refuses a folder in which files would be written over those that are read."""
    if names.inner_of(folder, out) in (".", "archive", *names.WRITTEN):
        raise outputs.Refused(f"{outputs.shown_name(folder)} is OUT, or a folder of the run, too: name another one")


def restore_all(out: str, folder: str) -> tuple[int, int]:
    """Restores all that was kept: how many files, and how many could not be made again."""
    demand_apart(out, folder)
    results, wrong = kept_of(out), 0
    os.makedirs(folder, exist_ok=True)
    with tempfile.TemporaryDirectory(prefix=".restore-", dir=folder) as parts:
        for name, found in results.items():
            try:
                restore(out, name, found, os.path.join(parts, "part"), folder)
            except (OSError, ValueError, outputs.Refused) as error:
                if isinstance(error, OSError) and room.is_full(error):
                    raise
                wrong += 1
                why = outputs.reason_of(error) if isinstance(error, OSError) else error
                print(f"not made again: {outputs.shown_name(name)}: {why}", file=sys.stderr)
    return len(results) - wrong, wrong


def main() -> int:
    if sys.argv[1:] in (["--help"], ["-h"]):
        print(__doc__)
        return 0
    if len(sys.argv) != 3:
        raise outputs.Refused(__doc__.partition("\n")[0])
    with room.reported("FOLDER"):
        made, wrong = restore_all(*sys.argv[1:])
    print(f"made again {made}, not {wrong}")
    left = not_kept(sys.argv[1])
    if left:
        print(f"not kept, so not made: {left}, listed in {outputs.shown_name(os.path.join(sys.argv[1], besides.LEFT))}")
    return 1 if wrong else 0


if __name__ == "__main__":
    sys.exit(outputs.ended(main))
