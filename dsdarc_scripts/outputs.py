"""What scripts write: whole or not at all, and never over what they read; and how they end.

Files are written beside those that they replace, and get their names once all files of a run are whole. After a
fault or a signal (INT, TERM, HUP, QUIT) nothing is left over, and old files stay as they were. What is no file of a folder,
such as a pipe, is written in place."""
import signal

# Ctrl-C ends a script silently while these modules are loaded.
is_usual = signal.getsignal(signal.SIGINT) is signal.default_int_handler
if is_usual:
    signal.signal(signal.SIGINT, signal.SIG_DFL)
import codecs
import contextlib
import errno
import os
import shutil
import stat
import sys
import tempfile
from collections.abc import Callable, Iterable, Iterator
from pathlib import Path
from types import FrameType
from typing import BinaryIO

from dsdarc_scripts import packages, room
from dsdarc_scripts.explained import shown_name, shown_part

if is_usual:
    signal.signal(signal.SIGINT, signal.default_int_handler)

STOPS = (signal.SIGINT, signal.SIGTERM, signal.SIGHUP, signal.SIGQUIT)
SOON = 0.001  # seconds, after which what was lost is raised again


class Refused(Exception):
    """What is asked for can't be done, and why."""


class Stopped(BaseException):
    """A signal came."""


@contextlib.contextmanager
def unstopped() -> Iterator[None]:
    """Lets signals wait."""
    before = signal.pthread_sigmask(signal.SIG_BLOCK, (*STOPS, signal.SIGALRM))
    try:
        yield
    finally:
        signal.pthread_sigmask(signal.SIG_SETMASK, before)


left = []  # what is to be removed at an end of any kind: how, and its name


def note(remove: Callable[[str], object], name: str) -> None:
    left.append((remove, name))


def clear(name: str) -> None:
    """Removes what was noted by a name."""
    for each in [it for it in left if it[1] == name]:
        with contextlib.suppress(OSError):
            each[0](name)
        left.remove(each)


def keep(name: str) -> None:
    """What was noted by a name stays."""
    left[:] = [it for it in left if it[1] != name]


@contextlib.contextmanager
def scratch(beside: str | None = None, prefix: str = ".dsdarc-script-") -> Iterator[str]:
    """A folder for the time of a block: in that for temporary files, or in another one."""
    folder = ""
    try:
        with unstopped():
            folder = tempfile.mkdtemp(prefix=prefix, dir=beside)
            note(shutil.rmtree, folder)
        yield folder
    finally:
        with unstopped():
            clear(folder)


def identity(name: Path | str) -> tuple[int | str, ...]:
    """What distinguishes a file from others, by whatever name: its device and inode, or, where it isn't there yet, its
    name and those of its folder."""
    try:
        found = os.stat(name)
        return found.st_dev, found.st_ino
    except FileNotFoundError:
        folder, last = os.path.split(os.path.realpath(name))
        found = os.stat(folder)
        return found.st_dev, found.st_ino, last


def demand_unread(read: Iterable[str], written: Iterable[str]) -> None:
    """Refuses where a file that would be written is there, and is one that is read, by whatever name."""
    known = {identity(name): name for name in read}
    for name in written if known else ():
        if os.path.exists(name) and identity(name) in known:
            raise Refused(f"{shown_name(name)} would be written, and is {shown_name(known[identity(name)])} too")


def disk_of(name: str) -> str:
    """Where the disk of a file is mounted."""
    place = os.path.realpath(name)
    while not os.path.ismount(place):
        place = os.path.dirname(place)
    return place


def reason_of(error: OSError) -> str:
    """The line of a fault of the system."""
    name = error.filename
    if isinstance(name, bytes):
        name = os.fsdecode(name)
    shown = shown_name(name) if isinstance(name, str) else str(name)
    if room.is_full(error) and isinstance(name, str):
        return f"{shown} has no room: the disk at {disk_of(name)} is full; free some of it, or write to another disk"
    why = error.strerror or str(error)
    return why if name is None else f"{shown}: {why}"


class Output:
    """A file that is to be written: what it is to the user, and its name."""

    def __init__(self, what: str, name: Path | str) -> None:
        self.what, self.name = what, os.fspath(name)
        self.part = self.backup = ""
        self.old: os.stat_result | None = None
        self.is_named = False
        with contextlib.suppress(FileNotFoundError):
            self.old = os.stat(self.name)
        self.target = os.path.realpath(self.name)
        self.identity = identity(self.name)
        self.is_plain = self.old is None or self.is_in_folder()
        if self.old and stat.S_ISDIR(self.old.st_mode) or not os.path.basename(self.name):
            raise IsADirectoryError(errno.EISDIR, os.strerror(errno.EISDIR), self.name)
        if self.old and not os.access(self.name, os.W_OK):
            raise PermissionError(errno.EACCES, os.strerror(errno.EACCES), self.name)

    def is_in_folder(self) -> bool:
        """Whether it is a file with a name that may get another file, and no pipe, device or standard output."""
        assert self.old
        streams = []
        for number in (1, 2):
            with contextlib.suppress(OSError):
                streams.append(os.fstat(number))
        old = self.old
        is_stream = any(os.path.samestat(old, it) for it in streams)
        is_there = os.path.exists(self.target) and os.path.samestat(self.old, os.stat(self.target))
        return stat.S_ISREG(self.old.st_mode) and is_there and not is_stream

    def is_printed(self) -> bool:
        """Whether it is standard output, into which lines are printed, and no terminal or other device."""
        with contextlib.suppress(OSError):
            printed = os.fstat(1)
            is_it = self.old is not None and os.path.samestat(self.old, printed)
            return is_it and not stat.S_ISCHR(printed.st_mode)
        return False

    @contextlib.contextmanager
    def named(self) -> Iterator[None]:
        """Faults are of the file that was asked for."""
        try:
            yield
        except OSError as error:
            error.filename, error.filename2 = self.name, None
            raise

    def begin(self) -> None:
        """Makes the file beside."""
        with self.named(), unstopped():
            folder = os.path.dirname(self.target) if self.is_plain else None
            handle, self.part = tempfile.mkstemp(prefix=".dsdarc-script-", dir=folder)
            note(os.remove, self.part)
            with os.fdopen(handle, "wb"):
                mask = os.umask(0)
                os.umask(mask)
                os.fchmod(handle, stat.S_IMODE(self.old.st_mode) if self.old else 0o666 & ~mask)
                if self.old and self.is_plain:
                    with contextlib.suppress(OSError):
                        os.fchown(handle, self.old.st_uid, self.old.st_gid)

    @contextlib.contextmanager
    def opened(self) -> Iterator[BinaryIO]:
        """The file beside, open to be written."""
        with self.named(), open(self.part, "r+b") as file:
            yield file

    def pour(self) -> None:
        """Writes what is no file of a folder."""
        with self.named(), open(self.part, "rb") as file, open(self.name, "wb") as out:
            shutil.copyfileobj(file, out)

    def replace(self, is_last: bool) -> None:
        """Gives the file its name, and keeps what was there unless it is the last of all."""
        with self.named():
            if self.old and not is_last:
                backup = f"{self.part}-old"
                try:
                    os.link(self.target, backup)
                except OSError:
                    os.rename(self.target, backup)
                self.backup = backup
            os.replace(self.part, self.target)
            keep(self.part)
            self.is_named = True

    def put_back(self) -> None:
        """Undoes `replace`."""
        if self.backup:
            os.replace(self.backup, self.target)
        elif self.is_named and self.old is None:
            os.remove(self.target)
        self.backup = ""

    def clear(self) -> None:
        clear(self.part)
        if self.backup:
            with contextlib.suppress(OSError):
                os.remove(self.backup)


class Outputs:
    """The files of a run, which get their names where the block after `with` ends without a fault. `inputs` are the
    files that are read: what each is, and its name."""

    def __init__(self, inputs: Iterable[tuple[str, Path | str]] = ()) -> None:
        self.inputs = [(what, os.fspath(name), identity(name)) for what, name in inputs]
        self.files, self.folders = dict[str, Output](), list[str]()
        self.demand_streams()

    def demand_streams(self) -> None:
        """Refuses where what is printed would be written into a file that is read."""
        for number, stream in ((1, "standard output"), (2, "standard error")):
            with contextlib.suppress(OSError):
                printed = os.fstat(number)
                for what, name, it in self.inputs:
                    if stat.S_ISREG(printed.st_mode) and it == (printed.st_dev, printed.st_ino):
                        raise Refused(f"{stream} is {what} too, {shown_name(name)}: print to another file")

    def add(self, what: str, name: Path | str) -> None:
        """Takes one more file, before anything is written to it. It may be no file that is read, and no other one."""
        made = Output(what, name)
        for other, known, it in [*self.inputs, *((it.what, it.name, it.identity) for it in self.files.values())]:
            if it == made.identity:
                same = "" if known == made.name else f", by the name {shown_name(known)}"
                raise Refused(f"{what}: {shown_name(made.name)} is {other} too{same}: name another file")
        if made.name == "-" or made.is_printed():
            raise Refused(f"{what}: {shown_name(made.name)}: lines are printed to standard output: name a file")
        self.files[made.name] = made
        made.begin()

    def drop(self, name: Path | str) -> None:
        """Leaves out a file to which nothing is to be written; what was there stays."""
        self.files.pop(os.fspath(name)).clear()

    def folder(self, name: Path | str) -> None:
        """Makes a folder where there is none; it goes again after a fault."""
        name = os.path.abspath(name)
        missing = []
        while not os.path.exists(name):
            missing.append(name)
            name = os.path.dirname(name)
        for each in reversed(missing):
            with unstopped():
                os.mkdir(each)
                note(os.rmdir, each)
                self.folders.append(each)

    def open(self, name: Path | str) -> contextlib.AbstractContextManager[BinaryIO]:
        return self.files[os.fspath(name)].opened()

    def put(self, name: Path | str, data: bytes | str) -> None:
        """Writes a whole file: bytes, or a text."""
        with self.open(name) as file:
            file.write(data.encode() if isinstance(data, str) else data)

    def __enter__(self) -> "Outputs":
        return self

    def __exit__(self, kind: type | None, *_: object) -> None:
        try:
            if kind is None:
                go_on()
                self.name_all()
        finally:
            with unstopped():
                self.clear()

    def clear(self) -> None:
        for it in self.files.values():
            it.clear()
        for each in reversed(self.folders):
            clear(each)

    def name_all(self) -> None:
        """Pipes and devices are written first, as that can fail; then all files get their names at once."""
        for it in self.files.values():
            if not it.is_plain:
                it.pour()
        files = [it for it in self.files.values() if it.is_plain]
        with unstopped():
            try:
                for it in files:
                    it.replace(it is files[-1])
            except OSError:
                for it in files:
                    with contextlib.suppress(OSError):
                        it.put_back()
                raise
            for each in self.folders:
                keep(each)
            self.clear()


def demand_utf8() -> None:
    """Starts a script again in UTF-8 mode where the language of the system has other letters, as all texts here are
    UTF-8, and names of any bytes are to be the same in each language."""
    if codecs.lookup(sys.getfilesystemencoding()).name != "utf-8" and not sys.flags.utf8_mode:
        os.environ["DSDARC_COMMAND"] = sys.argv[0]
        os.execv(sys.executable, [sys.executable, "-X", "utf8", *sys.orig_argv[1:]])


def begin() -> None:
    """Lets Ctrl-C end a script silently while it loads its modules, and has it say in a line which of them it lacks. What
    it prints shows names as `shown_name`."""
    demand_utf8()
    packages.say_missing()
    codecs.register_error("shown", shown_part)
    for stream in (sys.stdout, sys.stderr):
        with contextlib.suppress(OSError, AttributeError):  # one that is closed is None
            getattr(stream, "reconfigure")(errors="shown")
    if signal.getsignal(signal.SIGINT) is signal.default_int_handler:
        signal.signal(signal.SIGINT, signal.SIG_DFL)


came = []  # the signal that came; what it raises may be lost in the code of a library
due = []  # and what is still to be raised for it


def stop(number: int, frame: FrameType | None) -> None:
    """Later signals are ignored: what is left over is removed in peace."""
    for each in STOPS:
        signal.signal(each, signal.SIG_IGN)
    came.append(number)
    due.append(number)
    stop_here(0, frame)


def stop_here(_: int, frame: FrameType | None) -> None:
    """Ends what runs, unless that is on its way already; where it would be lost, it does so soon."""
    while frame and frame.f_code is not unraised.__code__:
        frame = frame.f_back
    if frame:
        soon()
    elif due:
        due.clear()
        raise Stopped


def soon() -> None:
    """Has the run be ended in a moment."""
    signal.signal(signal.SIGALRM, stop_here)
    signal.setitimer(signal.ITIMER_REAL, SOON)


def unraised(error: "sys.UnraisableHookArgs") -> None:
    """Takes what was raised where Python can only print it, such as in `__del__` and when a weak reference ends."""
    if issubclass(error.exc_type, Stopped):
        due.append(came[0])
        soon()
    else:
        sys.__unraisablehook__(error)


def go_on() -> None:
    """Ends a run whose signal was lost."""
    if came:
        due.clear()
        raise Stopped


def end_at_once() -> None:
    """From here on a signal ends the process by itself, as nothing is left over."""
    for each in STOPS:
        if signal.getsignal(each) is stop:
            signal.signal(each, signal.SIG_DFL)


def die() -> int:
    """Ends by the signal that came. What it raised may have come where nothing was ready for it."""
    for _, name in left[::-1]:
        clear(name)
    signal.signal(came[0], signal.SIG_DFL)
    os.kill(os.getpid(), came[0])
    return 128 + came[0]


def ended(main: Callable[[], int]) -> int:
    """Runs a script: its status, and one line on standard error for a fault. A signal ends it as it would without this,
    once nothing is left over."""
    try:
        sys.unraisablehook = unraised
        for each in STOPS:
            if signal.getsignal(each) is not signal.SIG_IGN:
                signal.signal(each, stop)
        try:
            return status_of(main)
        finally:
            end_at_once()
    except Stopped:
        return die()


def answered(main: Callable[[], int]) -> int:
    """The status of a script whose answer was printed; argparse ends a script that prints its usage."""
    try:
        return main()
    except SystemExit as end:
        if end.code:
            raise
        return 0


def status_of(main: Callable[[], int]) -> int:
    try:
        status = answered(main)
        sys.stdout.flush()
        go_on()
        return status
    except Exception as error:
        go_on()
        why = why_of(error)
    with contextlib.suppress(OSError):
        print(f"{shown_name(os.path.basename(sys.argv[0]))}: {why}", file=sys.stderr)
    try:
        sys.stdout.flush()
    except OSError:
        room.drop_output()
    return 2


def why_of(error: Exception) -> str:
    """The line of what can be wrong with what a script is given; other faults are its own."""
    if isinstance(error, OSError):
        return reason_of(error)
    if isinstance(error, MemoryError):
        return "more memory is wanted than there is"
    if isinstance(error, Refused):
        return str(error)
    raise error
