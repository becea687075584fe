"""What is in an archive: the DSD files below a folder, those that can't be looked at and why, and all other files.

Links to files are taken as files. A link to a folder is followed, once all folders were entered by their own names: what
it leads to is taken once, so there are no loops. A folder that holds the archive is not entered again. Links into OUT are
refused: what is made there would be a source.
"""
import errno
import os
import stat
from collections.abc import Iterator

ENDINGS = (".dff", ".dsf", ".dsdiff")
# A file's path from the archive; the system takes 4095 bytes.
LONGEST_SOURCE = 4000
KINDS = {stat.S_IFIFO: "a pipe", stat.S_IFSOCK: "a socket", stat.S_IFCHR: "a device", stat.S_IFBLK: "a device"}

Refusal = tuple[str, str]  # a fault, and in a line what is wrong


def is_text(name: str) -> bool:
    """Whether a name is UTF-8."""
    return not any("\udc80" <= letter <= "\udcff" for letter in name)


def identity_of(path: str) -> list[int]:
    """What is another number where a file is another one, or was changed: its size, and when it and its status changed.
    The second time shows also what was written where a program set the first time back."""
    it = os.stat(path)
    return [it.st_size, it.st_mtime_ns, it.st_ctime_ns]


def missing(path: str, error: OSError) -> Refusal:
    """What is said of a file that isn't there, although it is listed."""
    if error.errno == errno.ENAMETOOLONG:
        return "PathTooLong", "the system takes no path as long as its own"
    if not os.path.islink(path):
        return "ReadFailed", f"it can't be looked at: {error.strerror}"
    whys = {errno.ENOENT: "leads nowhere", errno.ELOOP: "leads back to itself"}
    return "ReadFailed", f"it is a link that {whys.get(error.errno, f'cannot be followed: {error.strerror}')}"


def refusal_of(archive: str, name: str) -> Refusal | None:
    """What a file isn't even looked at for, or None."""
    path, size = os.path.join(archive, name), len(os.fsencode(name))
    if not is_text(name):
        return "WrongWords", "its name, or that of its folder, isn't UTF-8: rename it"
    if size > LONGEST_SOURCE:
        return "PathTooLong", f"its path in the archive has {size} bytes, and at most {LONGEST_SOURCE} are taken"
    try:
        mode = os.stat(path).st_mode
    except OSError as error:
        return missing(path, error)
    if not stat.S_ISREG(mode):
        return "NotAFile", f"it is {KINDS.get(stat.S_IFMT(mode), 'of another kind')}, and no file"
    return None if os.access(path, os.R_OK) else ("ReadFailed", f"it may not be read: {os.strerror(errno.EACCES)}")


def is_folder(entry: os.DirEntry) -> bool:
    """Whether a link leads to a folder; one that leads nowhere doesn't."""
    try:
        return entry.is_dir()
    except OSError:
        return False


def is_lost_folder(entry: os.DirEntry) -> bool:
    """Whether a link leads nowhere, and may have led to a folder: what it names has no ending."""
    if not entry.is_symlink() or os.path.exists(entry.path):
        return False
    return not os.path.splitext(os.readlink(entry.path).rstrip("/"))[1]


def above(folder: str) -> Iterator[str]:
    """The folders that a folder is in."""
    folder = os.path.realpath(folder)
    while (folder := os.path.dirname(folder)) != os.path.dirname(folder):
        yield folder
    yield folder


def mark_of(path: str) -> tuple[int, int]:
    it = os.stat(path)
    return it.st_dev, it.st_ino


def is_inside(path: str, folder: str) -> bool:
    """Whether a path leads into a folder."""
    real = os.path.realpath(folder)
    return os.path.commonpath([os.path.realpath(path), real]) == real


class Walk:
    """A walk through an archive, in which OUT is left out, if there is one: the names of the DSD files that can be looked
    at, fault, name and reason of what can't, and the names of all other files."""

    def __init__(self, archive: str, out: str | None = None) -> None:
        self.archive, self.out = archive, None if out is None else mark_of(out)
        self.closed = None if out is None or is_inside(archive, out) else out
        self.good: list[str] = []
        self.refused: list[list[str]] = []
        self.others: list[str] = []
        self.entered: set[tuple[int, int]] = set()
        self.links: list[str] = []
        self.enter("", is_linked=False)
        held_by = {mark_of(folder) for folder in above(archive)}
        while self.links:
            links, self.links = sorted(self.links), []
            for name in links:
                self.follow(name, held_by)
        self.good.sort()
        self.refused.sort()
        self.others.sort()

    def at(self, name: str) -> str:
        return os.path.join(self.archive, name)

    def refuse(self, name: str, fault: str, why: str) -> None:
        self.refused.append([fault, name, why])

    def follow(self, name: str, held_by: set[tuple[int, int]]) -> None:
        """Enters the folder that a link leads to, unless it was entered."""
        try:
            mark = mark_of(self.at(name))
        except OSError as error:
            self.refuse(name, "FolderUnread", missing(self.at(name), error)[1])
            return
        if mark in held_by:
            self.refuse(name, "FolderUnread", "it is a link to a folder that the archive is in")
        elif mark != self.out and self.closed and is_inside(self.at(name), self.closed):
            self.refuse(name, "FolderUnread", "it is a link into OUT")
        elif mark not in self.entered and mark != self.out:
            self.enter(name, is_linked=True)

    def enter(self, top: str, is_linked: bool) -> None:
        """Takes what is in a folder, and in the folders in it; those that were entered aren't where a link led."""
        folders = [top]
        while folders:
            folder = folders.pop()
            try:
                self.entered.add(mark_of(self.at(folder)))
                with os.scandir(self.at(folder)) as found:
                    entries = list(found)
            except OSError as error:
                if not folder:
                    raise
                self.refuse(folder, "FolderUnread", f"it can't be listed: {error.strerror}")
                continue
            for entry in entries:
                name = os.path.join(folder, entry.name)
                if not entry.is_dir(follow_symlinks=False):
                    self.take(name, entry)
                elif not self.is_done(entry, is_linked):
                    folders.append(name)

    def is_done(self, entry: os.DirEntry, is_linked: bool) -> bool:
        try:
            it = entry.stat(follow_symlinks=False)
        except OSError:
            return False
        mark = it.st_dev, it.st_ino
        return mark == self.out or is_linked and mark in self.entered

    def take(self, name: str, entry: os.DirEntry) -> None:
        """Takes what is no folder."""
        if is_folder(entry):
            self.links.append(name)
        elif entry.name.lower().endswith(ENDINGS):
            refusal = refusal_of(self.archive, name)
            if entry.is_symlink() and self.closed and is_inside(entry.path, self.closed):
                refusal = "NotAFile", "it is a link into OUT"
            if refusal is None:
                self.good.append(name)
            else:
                self.refuse(name, *refusal)
        elif is_lost_folder(entry):
            self.refuse(name, "FolderUnread", "it is a link that leads nowhere")
        else:
            self.others.append(name)
