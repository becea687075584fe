"""What the desk keeps in the user's cache: waves of files, what it read of mix texts, and its own modules as Python
compiles them.

To compile these takes longer than to open an hour of sound. Python keeps what it compiles beside the modules, where the
user may have no right to write, so the desk has it kept here."""
import contextlib
import json
import os
import sys
from importlib.machinery import SOURCE_SUFFIXES, FileFinder, SourceFileLoader
from types import CodeType
from typing import Any

COMPILED = "compiled"
VERSION = 1  # of what is read of mix texts
KEPT = 200  # files of a kind, at most
MOST = 1 << 28  # bytes of what is read of a text


def folder() -> str:
    """Where the desk keeps things."""
    top = os.environ.get("XDG_CACHE_HOME") or os.path.join(os.path.expanduser("~"), ".cache")
    return os.path.join(top, "dsdarc", "desk")


def is_own(path: str) -> bool:
    """Whether a folder is the user's, and nobody else may write there. It is made if there is none."""
    try:
        os.makedirs(path, mode=0o700, exist_ok=True)
        found = os.lstat(path)
    except OSError:
        return False
    return found.st_uid == os.getuid() and not found.st_mode & 0o022


def forget(ending: str) -> None:
    """Removes the files with an ending that weren't used for longest, if there are many."""
    with contextlib.suppress(OSError):
        files = [it for it in os.scandir(folder()) if it.name.endswith(ending)]
        files.sort(key=lambda it: it.stat().st_mtime)
        for it in files[: max(len(files) - KEPT, 0)]:
            os.remove(it.path)


def written(name: str, parts: list[bytes]) -> None:
    """Puts a file into the cache, whole or not at all."""
    path = os.path.join(folder(), name)
    os.makedirs(folder(), mode=0o700, exist_ok=True)
    part = f"{path}.{os.getpid()}"
    try:
        with open(part, "xb") as file:
            file.writelines(parts)
        os.replace(part, path)
    except BaseException:
        with contextlib.suppress(OSError):
            os.remove(part)
        raise
    forget(os.path.splitext(name)[1])


def recalled(name: str) -> dict[str, Any] | None:
    """What was remembered under a name."""
    path = os.path.join(folder(), name)
    try:
        with open(path, "rb") as file:
            found = json.loads(file.read(MOST))
        os.utime(path)
    except (OSError, ValueError, RecursionError):
        return None
    return found if isinstance(found, dict) and found.get("version") == VERSION else None


def remember(name: str, value: dict[str, Any]) -> None:
    """Keeps something under a name, if that can be."""
    with contextlib.suppress(OSError):
        written(name, [json.dumps(value | {"version": VERSION}).encode()])


class Kept(SourceFileLoader):
    """Loads a module that Python compiled before, if it is still the same: its file has the same time and size."""

    place = ""

    def get_code(self, fullname: str) -> CodeType | None:
        before = sys.pycache_prefix, sys.dont_write_bytecode
        sys.pycache_prefix, sys.dont_write_bytecode = self.place, False
        try:
            return super().get_code(fullname)
        finally:
            sys.pycache_prefix, sys.dont_write_bytecode = before


def keep_compiled(top: str) -> None:
    """Has the modules below a folder kept as they are compiled."""
    Kept.place = os.path.join(folder(), COMPILED)
    if not (is_own(folder()) and is_own(Kept.place)):
        return

    def finder(path: str) -> FileFinder:
        if os.path.commonpath([os.path.realpath(path), top]) != top:
            raise ImportError(path)
        return FileFinder(path, (Kept, SOURCE_SUFFIXES))

    sys.path_hooks.insert(0, finder)
    sys.path_importer_cache.clear()
