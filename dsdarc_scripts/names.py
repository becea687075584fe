"""The names of an archive's files: which there are, the key that each goes by, and where what is made from it is put.

A name can hold whatever a disk takes, also what a shell would run. So no shell and no Snakemake reads one: inside a
workflow a file goes by its key, the first digits of its name's SHA-256, and `work/names.json` has whose key it is.
"""
import functools
import hashlib
import json
import os
import re
import sys
import unicodedata
from collections.abc import Iterable
from typing import Any

from dsdarc_scripts import room, walks
from dsdarc_scripts.explained import shown_name

KEY_DIGITS = 32
# What the results of one file end with, by the folder that they are in.
KINDS = {"converted": (".dff", ".dsf"), "pcm": (".wav",), "kept": (".head", ".fill", ".id3", ".tail")}
# The folders in OUT in which the workflow writes.
WRITTEN = ("work", "renamed", "beside", *KINDS)
ADDED = max(len(ending) for endings in KINDS.values() for ending in endings)
# The lists that each run ends with.
LISTS = ("refused.tsv", "SHA256SUMS", "SOURCES.SHA256SUMS", "channels.tsv", "dropped.tsv", "results.json", "report.txt")
# The path of a result from OUT, and that of OUT; the system takes 4095 bytes.
LONGEST_RESULT = 3000
LONGEST_OUT = 1000
FRONT = 200
TABLE = "work/names.json"
SETTINGS = "work/settings.json"
# An argument that no shell reads even without quotes around it, and what it reads in one kind of quotes or the other.
PLAIN = re.compile(r"[\w./+@-]+")
READ_IN_QUOTES = set("'\"\\$`!")


def key_of(name: str) -> str:
    return hashlib.sha256(os.fsencode(name)).hexdigest()[:KEY_DIGITS]


def shown(name: str) -> str:
    """A name on one line, as sha256sum writes it."""
    return name.replace("\\", "\\\\").replace("\n", "\\n").replace("\r", "\\r")


def listed(name: str) -> str:
    """A name at the beginning of a line, in a list whose lines that begin with a tab explain the one before them."""
    return f"\\t{shown(name[1:])}" if name.startswith("\t") else shown(name)


def sum_line(total: str, name: str) -> str:
    """A line of sums, as sha256sum writes it."""
    return f"{chr(92) if shown(name) != name else ''}{total}  {shown(name)}\n"


def keep(name: str, data: object) -> None:
    """Writes a text or an object as JSON, whole or not at all."""
    part = name + ".part"
    try:
        # It may be a link to another file.
        remove(part)
        with open(part, "x", encoding="utf-8", errors="surrogateescape") as file:
            if isinstance(data, str):
                file.write(data)
            else:
                json.dump(data, file, indent=1, sort_keys=True)
                file.write("\n")
        os.replace(part, name)
    except BaseException:
        remove(part)
        raise


def load(name: str) -> Any:
    with open(name, encoding="utf-8") as file:
        return json.load(file)


def keep_if_other(name: str, data: dict[str, Any]) -> None:
    """Writes an object as JSON where another is, so that the time of the file shows when it changed."""
    try:
        if load(name) == data:
            return
    except (OSError, ValueError):
        pass
    keep(name, data)


def sum_of(name: str) -> str:
    with open(name, "rb") as file:
        return hashlib.file_digest(file, "sha256").hexdigest()


def remove(*names: str) -> None:
    for name in names:
        if os.path.lexists(name):
            os.remove(name)


def folders_of(names: list[str]) -> set[str]:
    """The folders that names are in, and the folders of these."""
    found = set()
    for name in names:
        while (name := os.path.dirname(name)) and name not in found:
            found.add(name)
    return found


def front_of(name: str) -> str:
    """As much of a name as leaves room for a key, cut between two letters."""
    return os.fsencode(name)[:FRONT].decode(errors="ignore")


def renamed(name: str, folders: set[str], longest: int) -> str | None:
    """The front of a file's results where these can't have its name in the folders of the archive, or None.

    They can't where they would be too long, or where a folder has the name of one of them.
    """
    parts = os.fsencode(name).split(b"/")
    fits = (
        len(parts[-1]) + ADDED <= longest
        and all(len(part) <= longest for part in parts)
        and max(map(len, KINDS)) + 1 + len(os.fsencode(name)) + ADDED <= LONGEST_RESULT
    )
    if fits and not any(name + ending in folders for endings in KINDS.values() for ending in endings):
        return None
    return f"renamed/{front_of(os.path.basename(name))}~{key_of(name)}"


def result(kind: str, entry: dict[str, Any], ending: str) -> str:
    """The path in OUT of what is made of a file."""
    return (entry["renamed"] or f"{kind}/{entry['name']}") + ending


def table_of(archive: str, out: str) -> dict[str, Any]:
    """The files that are looked at, by their keys, what is refused by its name alone and why, and the names of all other
    files."""
    found = walks.Walk(archive, out)
    folders, longest = folders_of(found.good), os.pathconf(out, "PC_NAME_MAX")
    files = {key_of(name): {"name": name, "renamed": renamed(name, folders, longest)} for name in found.good}
    if len(files) != len(found.good):
        sys.exit("two names have the same key: rename one of the files")
    return {"files": files, "refused": found.refused, "others": found.others}


def distinguishes(folder: str, first: str, second: str) -> bool:
    """Whether a folder's disk takes two names for two files."""
    names = [os.path.join(folder, name) for name in (first, second)]
    try:
        with open(names[0], "w"):
            return not os.path.lexists(names[1])
    finally:
        remove(names[0])


def clashing(files: dict[str, dict[str, Any]], folder: str) -> tuple[str, str] | None:
    """Two names that OUT's disk would take for one, or None: it may not distinguish capital letters, or accents."""
    forms = []
    if not distinguishes(folder, "probe", "PROBE"):
        forms.append(str.casefold)
    if not distinguishes(folder, "prob\u00e9", "probe\u0301"):
        forms.append(lambda name: unicodedata.normalize("NFD", name))
    seen: dict[str, str] = {}
    for entry in files.values() if forms else ():
        form = entry["name"]
        for change in forms:
            form = change(form)
        if seen.setdefault(form, entry["name"]) != entry["name"]:
            return seen[form], entry["name"]
    return None


def link(target: str, name: str) -> bool:
    """Makes a link where there is another or none, so that the time of a link shows when it changed."""
    if os.path.islink(name) and os.readlink(name) == target:
        return False
    remove(name)
    os.symlink(target, name)
    return True


def link_archive(named: str | None) -> None:
    """Has `archive` in OUT lead to the folder that was named, or finds it where none was."""
    if named is None and not os.path.lexists("archive"):
        sys.exit("say which folder: --config archive=FOLDER, or put a link to it into OUT: ln -s FOLDER OUT/archive")
    if named is not None:
        if os.path.lexists("archive") and not os.path.islink("archive"):
            sys.exit("OUT/archive is no link: move it away")
        if not os.path.isdir(named):
            sys.exit(
                f"no such folder: {shown_name(named)}; if it is there, put a link to it into OUT: ln -s FOLDER OUT/archive"
            )
        link(named, "archive")
    if not os.path.isdir("archive"):
        sys.exit("OUT/archive leads to no folder")
    if os.path.samefile("archive", "."):
        sys.exit("OUT is the archive itself: take another folder")


def link_files(files: dict[str, dict[str, Any]]) -> None:
    """A link for each file, by its key; all are new where the archive is another."""
    target = os.path.realpath("archive")
    try:
        same = load("work/archive.json") == target
    except (OSError, ValueError):
        same = False
    os.makedirs("work/links", exist_ok=True)
    for key in os.listdir("work/links"):
        if not same or key not in files:
            os.remove(f"work/links/{key}")
    for key, entry in files.items():
        link(f"../../archive/{entry['name']}", f"work/links/{key}")
    if not same:
        keep("work/archive.json", target)


def identity_or_none(name: str) -> list[int] | None:
    try:
        return walks.identity_of(name)
    except OSError:
        return None


def is_known(look: str, identity: list[int] | None) -> bool:
    """Whether a file is the one that was looked at."""
    try:
        return load(look).get("identity") == identity
    except (OSError, ValueError, AttributeError):
        return False


def forget_changed(files: dict[str, dict[str, Any]]) -> None:
    """Removes the notes of files that are others now, also of those whose time is an older one."""
    notes: dict[str, list[str]] = {key: [] for key in files}
    for kind in ("converted", "played"):
        for name in os.listdir(f"work/{kind}"):
            notes.get(name.partition(".")[0], []).append(f"work/{kind}/{name}")
    for key in files:
        look = f"work/looks/{key}.json"
        if not is_known(look, identity_or_none(f"work/links/{key}")):
            remove(look, *notes[key])


def is_there(note: dict[str, Any], entry: dict[str, Any]) -> bool:
    """Whether what a note names is where it should be."""
    return note["renamed"] == entry["renamed"] and all(
        os.path.isfile(name) and os.path.getsize(name) == made["bytes"] for name, made in note["results"].items()
    )


def is_wished(kind: str, key: str, note: dict[str, Any], settings: dict[str, Any]) -> bool:
    """Whether what a note names was made as it is wished for now: by this filter, or to this form if it has that
    ending."""
    if kind == "converted":
        forms = str(note.get("form")), settings["form"]
        return forms[0] == forms[1] or forms[0].startswith("dsf") != forms[1].startswith("dsf")
    chosen = settings["filters"].get(str(load(f"work/looks/{key}.json").get("rate")))
    return chosen is None or note.get("filter") == sum_of_filter(chosen)


@functools.lru_cache
def sum_of_filter(path: str) -> str:
    return sum_of(path)


def forget_lost(kind: str, files: dict[str, dict[str, Any]], settings: dict[str, Any]) -> None:
    """Removes the notes of what is no longer there, or isn't what is wished for now, so that it is made again; and what
    is in another's place."""
    for name in os.listdir(f"work/{kind}"):
        key, path = name.partition(".")[0], f"work/{kind}/{name}"
        entry = files.get(key)
        if entry and name.endswith(".json"):
            note = load(path)
            if not is_there(note, entry) or not is_wished(kind, key, note, settings):
                remove(path, *(note["results"] if note["renamed"] != entry["renamed"] else ()))


def inner_of(folder: str, out: str) -> str:
    """The folder in OUT that a folder is, or is in; `.` of OUT itself, and `..` of what is elsewhere."""
    return os.path.relpath(os.path.realpath(folder), os.path.realpath(out)).split("/")[0]


def demand_own_lists() -> None:
    """Refuses an OUT with lists that no run wrote, so that none is replaced."""
    there = [name for name in LISTS if os.path.lexists(name)]
    if there and len(there) < len(LISTS) and not os.path.lexists(TABLE):
        sys.exit(f"OUT has a {there[0]} that no run wrote, which would be replaced: take another OUT")


def settle(archive: str | None, settings: dict[str, Any]) -> None:
    """What the first process of a workflow does in OUT, its folder: the table of names, the links, the settings."""
    out = os.getcwd()
    if len(os.fsencode(out)) > LONGEST_OUT:
        sys.exit(f"the path of OUT has more than {LONGEST_OUT} bytes: take another")
    if inner_of(archive or "archive", ".") in (".", *WRITTEN):
        sys.exit("the archive is OUT, or a folder in which the run writes: take another OUT")
    demand_own_lists()
    link_archive(archive)
    for folder in ("looks", "converted", "played", "parts"):
        os.makedirs(f"work/{folder}", exist_ok=True)
    table = table_of("archive", ".")
    room.start("work", len(table["files"]))
    clash = clashing(table["files"], "work")
    if clash:
        sys.exit("the disk of OUT takes these two for one name, take another: " + ", ".join(map(repr, clash)))
    link_files(table["files"])
    forget_changed(table["files"])
    for kind in ("converted", "played"):
        forget_lost(kind, table["files"], settings)
    besides = [*table.pop("others"), *(name for _, name, _ in table["refused"])]
    table["beside"] = {name: identity_or_none(f"archive/{name}") for name in besides}
    keep_if_other(TABLE, table)
    keep_if_other(SETTINGS, settings)


def check_arguments(out: str, arguments: Iterable[str]) -> None:
    """Refuses what Snakemake 7 would hand to a cluster's shell in a way that isn't safe."""
    if not PLAIN.fullmatch(out):
        sys.exit(
            f"Snakemake hands the path of OUT to the cluster's shell: only letters, digits and ._-+@/ are safe in it, "
            f"so take another than {shown_name(out)}"
        )
    for argument in arguments:
        if not argument.isprintable() or READ_IN_QUOTES & set(argument):
            sys.exit(
                f"Snakemake hands this to the cluster's shell, which would read more in it: {shown_name(argument)}; "
                f"if it is the archive, put a link to it into OUT: ln -s FOLDER OUT/archive"
            )
