"""Says in one line that a disk is full, and what to do about it.

Where jobs run side by side, an empty file, the mark, exists as long as none of them has met a full disk. The first that
does removes it, which works where nothing can be written, and whoever starts the jobs then starts no more.
"""
import contextlib
import errno
import os
import sys
import tempfile
import tomllib
from collections.abc import Callable, Iterator

from dsdarc_scripts.explained import shown_name

FULL = (errno.ENOSPC, errno.EDQUOT)
MARK = "work/room"
# What a start of the workflow needs: for Snakemake's log and locks, and for the names of the files.
LEAST, LEAST_OF_FILE = 1 << 20, 1 << 10
# What a file may have more than was reckoned: heads, and the fill of last blocks.
SPARE = 1 << 16


def is_full(error: OSError) -> bool:
    return error.errno in FULL


def full() -> OSError:
    return OSError(errno.ENOSPC, os.strerror(errno.ENOSPC))


def advice(folder: str) -> str:
    """What is said of the full disk of a folder."""
    return f"the disk of {folder} is full: make room, then run the same command again; what is done stays done"


def line_of(error: OSError, folder: str) -> str:
    """What a script says of an error of the system; `folder` is the name of where it writes."""
    if is_full(error):
        return advice(folder)
    said = error.strerror or str(error)
    return said if error.filename is None else f"{said}: {shown_name(os.fsdecode(error.filename))}"


def has_room(folder: str, size: int) -> bool:
    """Whether a folder takes a file of that size."""
    try:
        with tempfile.TemporaryFile(dir=folder) as file:
            os.posix_fallocate(file.fileno(), 0, size)
    except OSError as error:
        return not is_full(error)
    return True


def copied_size(source: str) -> int:
    """About how many bytes a file has in any form, and no fewer."""
    return os.path.getsize(source) + SPARE


def played_size(source: str, chosen: str) -> int:
    """About how many bytes a file has when it is played, and no fewer: `width` bits for `factor` of its own."""
    with open(chosen, "rb") as file:
        project = tomllib.load(file)["decimate"]
    return os.path.getsize(source) * project["width"] // project["factor"] + SPARE


def check(line: str, folder: str, size: Callable[[], int]) -> None:
    """Raises an error where a command says that it couldn't write a file, and there is no room for one of its size."""
    if line == "fault: WriteFailed" and not has_room(folder, size()):
        raise full()


def set_mark(mark: str = MARK) -> None:
    with open(mark, "w"):
        pass


def remove_mark(mark: str = MARK) -> None:
    with contextlib.suppress(FileNotFoundError):
        os.remove(mark)


def start(folder: str, files: int) -> None:
    """Sets the mark for a workflow over this number of files, where there is room for its start."""
    if not has_room(folder, LEAST + LEAST_OF_FILE * files):
        raise full()
    set_mark()


def drop_output() -> None:
    """Has what standard output didn't take forgotten, so that Python says no more of it at the end."""
    with contextlib.suppress(OSError, ValueError):
        os.dup2(os.open(os.devnull, os.O_WRONLY), sys.stdout.fileno())


@contextlib.contextmanager
def reported(folder: str) -> Iterator[None]:
    """Ends a script with one line where the system refuses it something."""
    try:
        yield
    except OSError as error:
        drop_output()
        sys.exit(line_of(error, folder))
    finally:
        try:
            sys.stdout.flush()
        except OSError as error:
            drop_output()
            sys.exit(f"standard output did not take the answer: {error.strerror}")
