"""Keeps what the workflow doesn't convert: files that are refused, and what lies beside (covers, cue sheets, ..).

They are copied to `beside/`, up to a size, each with its own name. `beside.json` has their sums, and `not_kept.tsv` lists
what isn't kept, and why."""
import hashlib
import os
import stat
from collections.abc import Iterable

from dsdarc_scripts import names, room, walks

FOLDER, LIST, LEFT = "beside", "beside.json", "not_kept.tsv"
# What shows that a copy is still that of its source. Snakemake removes the lists before it has them made again.
CACHE = "work/copies.json"
PART = "work/parts/beside"
PIECE = 1 << 20


class Unkept(Exception):
    """A file isn't kept, and why."""


def copied(source: str, part: str) -> dict:
    """Copies a file; the size and sum of what was copied."""
    total, size = hashlib.sha256(), 0
    with open(source, "rb") as file, open(part, "wb") as out:
        while data := file.read(PIECE):
            total.update(data)
            size += len(data)
            out.write(data)
    return {"bytes": size, "sha256": total.hexdigest()}


def is_there(found: dict) -> bool:
    return os.path.isfile(found["copy"]) and os.path.getsize(found["copy"]) == found["bytes"]


def kept(name: str, before: dict | None, most: int, taken: set[tuple[int, int]]) -> dict:
    """The copy of a file, where it is there already or is made."""
    source, copy = f"archive/{name}", f"{FOLDER}/{name}"
    if len(os.fsencode(copy)) > names.LONGEST_RESULT:
        raise Unkept("its path is too long to be that of a copy")
    if not stat.S_ISREG(os.stat(source).st_mode):
        raise Unkept("it is no file")
    identity = walks.identity_of(source)
    if identity[0] > most:
        raise Unkept(f"it has {identity[0]} bytes, more than beside_mb allows")
    if os.path.exists(copy) and walks.mark_of(copy) in taken:
        raise Unkept("the disk of OUT takes its name for that of another file")
    if before is None or before["identity"] != identity or not is_there(before):
        before = {"copy": copy, "identity": identity} | copied(source, PART)
        os.makedirs(os.path.dirname(copy), exist_ok=True)
        os.replace(PART, copy)
    taken.add(walks.mark_of(copy))
    return before


def cached() -> dict:
    try:
        return names.load(CACHE)
    except (OSError, ValueError):
        return {}


def keep_all(files: Iterable[str], whys: dict[str, str], most_mb: int) -> None:
    """Copies all that is kept of these files, and writes both lists; `whys` says of some what is wrong with them."""
    before, copies, left, taken = cached(), {}, [], set[tuple[int, int]]()
    try:
        for name in sorted(files):
            try:
                copies[name] = kept(name, before.get(name), most_mb * 10**6, taken)
            except (OSError, Unkept) as why:
                if isinstance(why, OSError) and room.is_full(why):
                    raise
                said = why.strerror if isinstance(why, OSError) else why
                left.append(f"{whys.get(name, said)}\t{names.shown(name)}\n")
    finally:
        names.remove(PART)
    names.keep(CACHE, copies)
    names.keep(LEFT, "".join(left))
    names.keep(LIST, {name: {it: found[it] for it in ("copy", "bytes", "sha256")} for name, found in copies.items()})


def forget_lost() -> None:
    """Has the lists made again where a copy is gone, or has another size."""
    if not all(map(is_there, cached().values())):
        names.remove(LIST)


def copies() -> dict[str, dict]:
    """Size and sum of each copy, by its path."""
    return {found["copy"]: found for found in names.load(LIST).values()}


def not_kept() -> int:
    """How many files aren't kept."""
    with open(LEFT, encoding="utf-8", errors="surrogateescape") as file:
        return file.read().count("\n")
