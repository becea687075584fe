"""BagIt bags (RFC 8493): their files of tags, and what their payload has, read once.

Names in lists are relative to the bag, and have CR, LF and % as %0D, %0A and %25; all else is as it is, in UTF-8."""
import contextlib
import dataclasses
import fcntl
import hashlib
import os
import re
import stat
import subprocess
from collections.abc import Iterable, Iterator
from typing import IO, BinaryIO

from dsdarc_scripts import names, outputs, walks
from dsdarc_scripts.explained import lines_of, shown_name
from dsdarc_scripts.outputs import Refused
from dsdarc_scripts.program import PROGRAM, unlaunched

DECLARED = b"BagIt-Version: 1.0\nTag-File-Character-Encoding: UTF-8\n"
VERSION = re.compile(r"BagIt-Version: (\d+)\.(\d+)", re.IGNORECASE)
ENCODING = re.compile(r"Tag-File-Character-Encoding: *(\S+)", re.IGNORECASE)
PAYLOAD, INFO, SUMS, FETCH, BAGIT = "data", "bag-info.txt", "dsdarc-sums.txt", "fetch.txt", "bagit.txt"
MANIFEST = re.compile(r"(tag)?manifest-([a-z0-9_]+)\.txt")
LINE = re.compile(r"([0-9A-Fa-f]+)[ \t]+\*?(.+)", re.DOTALL)
FETCHED = re.compile(r"(\S+)[ \t]+(\d+|-)[ \t]+(.+)", re.DOTALL)
SUM = re.compile(r"(\d+ \d+(?: [0-9a-f]{64})+)  (.*)", re.DOTALL)
OXUM = re.compile(r"(\d+)\.(\d+)")
ENDS = re.compile("\r\n|\r|\n")
ESCAPED = {"%": "%25", "\r": "%0D", "\n": "%0A"}
PIECE = 1 << 18
PIPE = 1 << 20
# No file of tags is held that is longer than this.
LONGEST = 1 << 30


class Left(Refused):
    """A file isn't read, and why."""


def short(algorithm: str) -> str:
    """The name that manifests have for a digest: its small letters and digits."""
    return re.sub("[^a-z0-9]", "", algorithm.lower())


def known() -> dict[str, str]:
    """The digests that hashlib has, by the names that manifests have for them."""
    found = dict[str, str]()
    for each in sorted(hashlib.algorithms_available, key=lambda it: (it not in hashlib.algorithms_guaranteed, it)):
        # OpenSSL lists some that it doesn't have, and others have no size of their own.
        with contextlib.suppress(ValueError):
            if hashlib.new(each, usedforsecurity=False).digest_size:
                found.setdefault(short(each), each)
    return found


KNOWN = known()


def digest(algorithm: str, data: bytes = b"") -> "hashlib._Hash":
    return hashlib.new(KNOWN[algorithm], data, usedforsecurity=False)


@dataclasses.dataclass
class Read:
    """What was read of a file: its size, its digests by their names, what showed that it stayed the same, and what the
    program printed of its sound, or why not."""

    size: int
    sums: dict[str, str]
    identity: tuple[int, ...]
    sound: str | None = None
    why: str | None = None


def encoded(name: str) -> str:
    return re.sub("[%\r\n]", lambda it: ESCAPED[it[0]], name)


def decoded(text: str) -> str:
    return re.sub("%(25|0[AaDd])", lambda it: chr(int(it[1], 16)), text)


def manifest(sums: dict[str, str]) -> str:
    """A manifest of names and their digests."""
    return "".join(f"{sums[name]}  {encoded(name)}\n" for name in sorted(sums))


def is_sound(name: str) -> bool:
    return name.lower().endswith(walks.ENDINGS)


# What is in a folder.


def link_target(name: str, target: str) -> str:
    """The path that a link leads to, from the folder that its name is from."""
    return os.path.normpath(os.path.join(os.path.dirname(name), target))


def why_left(folder: str, name: str, entry: os.DirEntry) -> str | None:
    """Why what is no folder can't be in a bag, or None."""
    if not walks.is_text(name):
        return "its name isn't UTF-8, as all names in a bag have to be: rename it"
    if entry.is_symlink():
        target = link_target(name, os.readlink(entry.path))
        if target.startswith(("/", "../")) or not walks.is_inside(os.path.join(folder, target), folder):
            return "it is a link that leads out of the folder"
        if not os.path.isfile(entry.path):
            return "it is a link to no file"
        return None
    mode = entry.stat(follow_symlinks=False).st_mode
    return None if stat.S_ISREG(mode) else f"it is {walks.KINDS.get(stat.S_IFMT(mode), 'of another kind')}, and no file"


def walk(folder: str, top: str = "") -> tuple[list[str], list[tuple[str, str]]]:
    """The names of the files below a folder, or below a folder in it, and those of what can't be in a bag, with the
    reason. Links to folders aren't followed."""
    found, left, folders = list[str](), list[tuple[str, str]](), [top]
    while folders:
        inside = folders.pop()
        try:
            with os.scandir(os.path.join(folder, inside) if inside else folder) as listed:
                entries = list(listed)
        except OSError as error:
            left.append((inside or ".", f"it can't be listed: {error.strerror}"))
            continue
        for entry in entries:
            name = os.path.join(inside, entry.name)
            if entry.is_dir(follow_symlinks=False):
                folders.append(name)
                continue
            try:
                why = why_left(folder, name, entry)
            except OSError as error:
                why = f"it can't be looked at: {error.strerror}"
            if why:
                left.append((name, why))
            else:
                found.append(name)
    return sorted(found), sorted(left)


# What a file holds.


def identity(it: os.stat_result) -> tuple[int, ...]:
    return it.st_dev, it.st_ino, it.st_size, it.st_mtime_ns


def opened(path: str) -> BinaryIO:
    """A file, and nothing that would have to be waited for."""
    handle = os.open(path, os.O_RDONLY | os.O_NONBLOCK)
    if not stat.S_ISREG(os.fstat(handle).st_mode):
        os.close(handle)
        raise Left("it is no file any more")
    return open(handle, "rb", buffering=0)


class Summing:
    """`dsdarc sum`, which gets the bytes of a file as they are read."""

    def __init__(self) -> None:
        command = [unlaunched(PROGRAM), "--explain", "sum", "-"]
        pipe = subprocess.PIPE
        try:
            self.child = subprocess.Popen(command, stdin=pipe, stdout=pipe, stderr=pipe, bufsize=0)
        except OSError as error:
            raise Refused(
                f"the program {PROGRAM} can't be run ({error.strerror}): build it, or name it by DSDARC"
            ) from None
        self.input: IO[bytes] | None = self.child.stdin
        assert self.input
        with contextlib.suppress(OSError):
            fcntl.fcntl(self.input.fileno(), fcntl.F_SETPIPE_SZ, PIPE)

    def take(self, data: bytes) -> None:
        """Hands bytes on, as long as the program reads them."""
        view = memoryview(data)
        while view and self.input:
            try:
                view = view[self.input.write(view) :]
            except BrokenPipeError:
                self.input = None

    def answer(self) -> tuple[str | None, str | None]:
        """What the program printed, without the name, or the line of its fault."""
        try:
            out, err = self.child.communicate()
        except (BrokenPipeError, ValueError):
            out, err = b"", b""
        parts = SUM.fullmatch(out.decode(errors="replace").rstrip("\n"))
        if self.child.returncode == 0 and parts:
            return parts[1], None
        said = ": ".join(lines_of(err.decode(errors="replace"))[:2]) or f"status {self.child.returncode}"
        return None, re.sub(r" *-(?=$|:)|the standard stream \(FILE\): ", "", said.removeprefix("fault: "))

    def stop(self) -> None:
        self.child.kill()
        self.child.communicate()


def read(path: str, algorithms: Iterable[str], with_sound: bool) -> Read:
    """Reads a file once."""
    totals = {it: digest(it) for it in algorithms}
    try:
        with opened(path) as file:
            before = os.fstat(file.fileno())
            summing = Summing() if with_sound else None
            try:
                size = read_all(file, list(totals.values()), summing)
                sound, why = summing.answer() if summing else (None, None)
            except BaseException:
                if summing:
                    summing.stop()
                raise
            after = os.fstat(file.fileno())
    except FileNotFoundError:
        raise Left("it vanished") from None
    except OSError as error:
        raise Left(f"it can't be read: {error.strerror}") from None
    if identity(before) != identity(after) or size != after.st_size:
        raise Left("it changed while it was read")
    return Read(size, {name: it.hexdigest() for name, it in totals.items()}, identity(after), sound, why)


def read_all(file: BinaryIO, totals: list, summing: Summing | None) -> int:
    """Hands the bytes of a file to all that want them; how many there are."""
    buffer, size = bytearray(PIECE), 0
    while count := file.readinto(buffer):  # type: ignore[attr-defined]
        outputs.go_on()
        data = memoryview(buffer)[:count]
        for each in totals:
            each.update(data)
        if summing:
            summing.take(bytes(data))
        size += count
    return size


def sound_of(path: str) -> str | None:
    """What the program prints of a file's sound, without the name; None where it can't be read."""
    try:
        return read(path, (), True).sound
    except Left:
        return None


# The files of tags of a bag.


@dataclasses.dataclass
class Bag:
    """What a bag says of itself: the digests of its payload and of its files of tags, by algorithms and names, its
    labels, what is to be fetched from where and how long it is, the sums of the sound, and what is wrong with all
    that."""

    folder: str
    encoding: str = "utf-8"
    version: tuple[int, int] = (1, 0)
    payload: dict[str, dict[str, str]] = dataclasses.field(default_factory=dict)
    tags: dict[str, dict[str, str]] = dataclasses.field(default_factory=dict)
    labels: list[tuple[str, str]] = dataclasses.field(default_factory=list)
    fetch: dict[str, tuple[str, int | None]] = dataclasses.field(default_factory=dict)
    sounds: dict[str, str] = dataclasses.field(default_factory=dict)
    wrong: list[str] = dataclasses.field(default_factory=list)

    def lines(self, name: str) -> list[str]:
        """The lines of a file of tags, which end with LF, CR or both."""
        try:
            with opened(os.path.join(self.folder, name)) as file:
                data = file.read(min(os.fstat(file.fileno()).st_size, LONGEST))
            text = data.decode(self.encoding)
        except OSError as error:
            self.wrong.append(f"{shown_name(name)} can't be read: {error.strerror}")
            return []
        except (Left, ValueError) as why:
            line = str(why) if isinstance(why, Left) else f"it isn't {self.encoding}, as {BAGIT} says"
            self.wrong.append(f"{shown_name(name)} can't be read: {line}")
            return []
        found = ENDS.split(text)
        return found[:-1] if found[-1] == "" else found


def declaration(bag: Bag) -> None:
    """Takes bagit.txt, whose two lines are the version and the encoding."""
    try:
        lines = bag.lines(BAGIT)
        version, encoding = VERSION.fullmatch(lines[0]), ENCODING.fullmatch(lines[1])
    except IndexError:
        version = encoding = None
    if not version or not encoding or len(lines) != 2:
        bag.wrong.append(f"{BAGIT} isn't its two lines, the version and the encoding")
        return
    bag.version = int(version[1]), int(version[2])
    if not (0, 93) <= bag.version <= (1, 0):
        bag.wrong.append(f"{BAGIT} states version {version[1]}.{version[2]}, and up to 1.0 is known")
    try:
        "".encode(encoding[1])
        bag.encoding = encoding[1]
    except (LookupError, ValueError):
        bag.wrong.append(f"{BAGIT} states an encoding that isn't known: {shown_name(encoding[1])}")


def is_inside(name: str) -> bool:
    """Whether a name leads to what is in the bag, and may be one of a file."""
    with contextlib.suppress(UnicodeError):
        return b"\0" not in name.encode() and not name.startswith(("/", "~")) and ".." not in name.split("/")
    return False


def named(bag: Bag, text: str) -> str:
    """The name that a list has of a file. Before BagIt 1.0 `%25` was no other letter, nor `%0A` where there was such a
    name."""
    if bag.version >= (1, 0):
        return decoded(text)
    is_there = "%" in text and os.path.lexists(os.path.join(bag.folder, text))
    return text if is_there else re.sub("%(0[AaDd])", lambda it: chr(int(it[1], 16)), text)


def take_manifest(bag: Bag, file: str, algorithm: str, is_tags: bool) -> None:
    """Takes a manifest."""
    algorithm = short(algorithm)
    if algorithm not in KNOWN:
        bag.wrong.append(f"{file} isn't checked: no such digest is known")
        return
    found = (bag.tags if is_tags else bag.payload).setdefault(algorithm, {})
    for number, line in enumerate(bag.lines(file), 1):
        parts, at = LINE.fullmatch(line), f"{file}, line {number}"
        if not parts or len(parts[1]) != 2 * digest(algorithm).digest_size:
            bag.wrong.append(f"{at}: no {algorithm} and name: {shown_name(line[:80])}")
            continue
        name = named(bag, parts[2]).removeprefix("./")
        is_right = name.startswith(f"{PAYLOAD}/") != is_tags and not (is_tags and name.startswith("tagmanifest-"))
        if not is_inside(name) or not is_right:
            bag.wrong.append(f"{at}: {shown_name(name)} is no {'file of tags' if is_tags else 'payload'} of the bag")
        elif name in found:
            bag.wrong.append(f"{at}: {shown_name(name)} is listed twice")
        else:
            found[name] = parts[1].lower()


def take_labels(bag: Bag) -> None:
    """Takes bag-info.txt; a line that begins with a blank goes on with the one before."""
    for number, line in enumerate(bag.lines(INFO), 1):
        label, colon, value = line.partition(":")
        if line[:1] in (" ", "\t") and bag.labels:
            bag.labels[-1] = bag.labels[-1][0], f"{bag.labels[-1][1]} {line.strip()}"
        elif colon and label.strip():
            bag.labels.append((label.strip(), value.strip()))
        elif line.strip():
            bag.wrong.append(f"{INFO}, line {number}: no label and value: {shown_name(line[:80])}")


def take_others(bag: Bag, there: Iterable[str]) -> None:
    """Takes what is to be fetched, and the sums of the sound."""
    for number, line in enumerate(bag.lines(FETCH) if FETCH in there else (), 1):
        parts, at = FETCHED.fullmatch(line), f"{FETCH}, line {number}"
        name = named(bag, parts[3]).removeprefix("./") if parts else ""
        if parts is None or not is_inside(name):
            bag.wrong.append(f"{at}: no address, length and name: {shown_name(line[:80])}")
        elif name in bag.fetch:
            bag.wrong.append(f"{at}: {shown_name(name)} is listed twice")
        else:
            bag.fetch[name] = parts[1], None if parts[2] == "-" else int(parts[2])
    for line in bag.lines(SUMS) if SUMS in there else ():
        parts = SUM.fullmatch(line)
        if parts:
            bag.sounds[plain(parts[2])] = parts[1]


def plain(shown: str) -> str:
    return re.sub(r"\\([\\nr])", lambda it: {"\\": "\\", "n": "\n", "r": "\r"}[it[1]], shown)


def open_bag(folder: str) -> Bag:
    """What a bag says of itself."""
    bag = Bag(folder)
    there = sorted(os.listdir(folder))
    if BAGIT not in there:
        raise Refused(f"{shown_name(folder)} is no bag: it has no {BAGIT}")
    declaration(bag)
    for file in there:
        parts = MANIFEST.fullmatch(file)
        if parts:
            take_manifest(bag, file, parts[2], bool(parts[1]))
    if not bag.payload:
        bag.wrong.append("it has no manifest of its payload that can be checked")
    if not os.path.isdir(os.path.join(folder, PAYLOAD)):
        bag.wrong.append(f"it has no folder {PAYLOAD}")
    if INFO in there:
        take_labels(bag)
    take_others(bag, there)
    return bag


def new_info(labels: list[tuple[str, str]], size: int, count: int, date: str, agent: str) -> str:
    """The text of bag-info.txt."""
    rows = [*labels, ("Bag-Software-Agent", agent), ("Bagging-Date", date), ("Payload-Oxum", f"{size}.{count}")]
    return "".join(f"{label}: {value}\n" for label, value in rows)


def sum_lines(found: dict[str, Read]) -> str:
    """The text of dsdarc-sums.txt: the lines of `dsdarc sum`."""
    return "".join(f"{it.sound}  {names.shown(name)}\n" for name, it in sorted(found.items()) if it.sound)


def files_of_tags(bag: Bag) -> Iterator[tuple[str, dict[str, str]]]:
    """Each listed file of tags with its digests by algorithms."""
    for name in sorted({name for sums in bag.tags.values() for name in sums}):
        yield name, {it: sums[name] for it, sums in bag.tags.items() if name in sums}
