"""No output of `edit` is one of its inputs or its other output, and none of `play` is its project: whatever names they have,
the fault is `WriteFailed`, every file is as it was, and one line says which file it is."""
import contextlib
import itertools
import os
import socket
import subprocess
from collections.abc import Iterator
from typing import Any

from tests.commands.asking import PROGRAM
from tests.commands.small_files import MASTER, TO_PLAY, splice, to_cut
from tests.helpers.trials import demand, found, fresh

SECONDS = 20  # that a command may take: one that waits for the reader of a pipe takes for ever
CUT = to_cut(splice([1, 0]))
INPUTS = {"e.toml": "PROJECT", "a.dff": "take 0 of e.toml", "b.dff": "take 1 of e.toml"}
OPEN = ("-", "/dev/stdout", "/dev/fd/1", "/proc/self/fd/1")
OTHER = {"MASTER": "CERT", "CERT": "MASTER"}


def contents() -> dict[str, tuple[int, Any]]:
    """What each name of the current folder is: its inode, where it leads or its bytes."""
    now = {}
    for entry in os.scandir("."):
        what: str | bytes | None = None
        if entry.is_symlink():
            what = os.readlink(entry.path)
        elif entry.is_file():
            with open(entry.path, "rb") as file:
                what = file.read()
        now[entry.name] = (entry.stat(follow_symlinks=False).st_ino, what)
    return now


def ways(name: str) -> Iterator[tuple[str, str | None]]:
    """Names of a file, which are made; and where standard output has to be that file, its name."""
    os.mkdir("folder")
    os.symlink(".", "here")
    os.symlink(name, "link")
    os.symlink("here/link", "chain")
    if os.path.exists(name):
        os.link(name, "hard")
        yield "hard", None
        yield from ((it, name) for it in OPEN)
    for other in (name, f"./{name}", f"folder/../{name}", f"here/{name}", os.path.abspath(name), "link", "./chain"):
        yield other, None


def ran(arguments: list[str], out: str | None = None, source: Any = None) -> tuple[int | None, bytes, bytes]:
    """A command's status, output and standard error; its output is appended to a file, or captured. A pipe gets a take."""
    with contextlib.ExitStack() as ends:
        given = ends.enter_context(open(source or os.devnull, "rb"))
        to: Any = ends.enter_context(open(out, "ab")) if out else subprocess.PIPE
        if "p.toml" in arguments and "edit" in arguments:
            feeder = ends.enter_context(subprocess.Popen(["sh", "-c", "cat a.dff >pipe"]))
            ends.callback(feeder.kill)
        try:
            done = subprocess.run(
                [PROGRAM, *arguments], stdin=given, stdout=to, stderr=subprocess.PIPE, timeout=SECONDS, check=False
            )
        except subprocess.TimeoutExpired:
            return None, b"", b"it waits"
    return done.returncode, done.stdout or b"", done.stderr


def refused(arguments: list[str], place: str, what: str, out: str | None = None, source: Any = None) -> None:
    """A command refuses a file, which it says is this one too, and leaves all as it was."""
    before, shown = contents(), " ".join(arguments)
    name = arguments[-2 if place == "MASTER" else -1]
    name = "the standard stream" if name == "-" else name
    for flag in list[str](), ["--explain"]:
        status, said, err = ran([*flag, *arguments], out, source)
        line = "fault: WriteFailed\n" + (f"{name} ({place}): it is {what} too: give another name\n" if flag else "")
        demand((status, said, err) == (2, b"", line.encode()), f"{shown}: {status}, {said!r}, {err!r}, not {line!r}")
        demand(
            contents() == before,
            f"{shown}: {sorted(it for it in contents() if contents()[it] != before.get(it))} changed",
        )


def outputs_that_are_read() -> int:
    """MASTER and CERT are the project or a take, by each of its names."""
    count = 0
    for (name, what), place in itertools.product(INPUTS.items(), OTHER):
        with fresh(**CUT):
            for other, out in ways(name):
                names = [other, "new"] if place == "MASTER" else ["new", other]
                refused(["edit", "dsdiff", "e.toml", *names], place, what, out)
                count += 1
    with fresh(**CUT):
        for other, out in ways("e.toml"):
            refused(["edit", "dsdiff", "-", other, "new"], "MASTER", "PROJECT", out, "e.toml")
    with fresh(**(CUT | {"in.toml": CUT["e.toml"].replace(b"a.dff", b"-")})):
        for other, out in ways("a.dff"):
            refused(["edit", "dsdiff", "in.toml", "new", other], "CERT", "take 0 of in.toml", out, "a.dff")
    return count


def outputs_that_are_one() -> None:
    """MASTER and CERT are one file, whether it is there or not."""
    for old in (None, b"what was here"):
        for place in OTHER:
            with fresh(**(CUT | ({"m": old} if old else {}))):
                for other, out in ways("m"):
                    names = ["m", other] if place == "MASTER" else [other, "m"]
                    refused(["edit", "dsdiff", "e.toml", *names], "MASTER", "CERT", out)
    with fresh(**CUT):
        os.mkfifo("pipe")
        refused(["edit", "dsdiff", "e.toml", "pipe", "./pipe"], "MASTER", "CERT")
        for both in itertools.product(OPEN, OPEN):
            refused(["edit", "dsdiff", "e.toml", *both], "MASTER", "CERT")


def pipes() -> None:
    """A pipe that is a take is no output. A socket is read and written at once, and the null device is no file."""
    with fresh(**(CUT | {"p.toml": CUT["e.toml"].replace(b"a.dff", b"pipe")})):
        os.mkfifo("pipe")
        for names, place in ((["pipe", "new"], "MASTER"), (["new", "./pipe"], "CERT")):
            refused(["edit", "dsdiff", "p.toml", *names], place, "take 0 of p.toml")
    with fresh(**CUT):
        ours, theirs = socket.socketpair()
        with ours, theirs:
            ours.sendall(CUT["e.toml"])
            ours.shutdown(socket.SHUT_WR)
            arguments = [PROGRAM, "edit", "dsdiff", "-", "-", "c"]
            done = subprocess.run(
                arguments, stdin=theirs.fileno(), stdout=theirs.fileno(), stderr=subprocess.PIPE, check=False
            )
            theirs.close()
            with ours.makefile("rb") as file:
                given = file.read()
        demand((done.returncode, given) == (0, MASTER), f"a socket: {done}, {given!r}")
    for names in (["/dev/null", "/dev/null"], ["-", "-"], ["-", "/dev/null"]):
        with fresh(**CUT):
            result = ran(["edit", "dsdiff", "e.toml", *names], os.devnull)
            demand(result == (0, b"", b""), f"{names}, the null device: {result}")


def played_projects() -> None:
    """OUT is no PROJECT, but it may be IN."""
    for part in list[str](), ["--from", "@0", "--to", "@1"]:
        with fresh(**TO_PLAY):
            for other, out in ways("p.toml"):
                refused(["play", *part, "p.toml", "in.dff", other], "OUT", "PROJECT", out)
    with fresh(**TO_PLAY):
        refused(["play", "-", "in.dff", "p.toml"], "OUT", "PROJECT", None, "p.toml")
        status, said, err = ran(["play", "p.toml", "in.dff", "in.dff"])
        demand((status, said, err) == (0, b"played 46 bytes\n", b""), f"IN in place of OUT: {status}, {said}, {err}")
        with open("in.dff", "rb") as file:
            demand(file.read(4) == b"RIFF", "IN in place of OUT: it was not replaced")


def refuse_inputs() -> int:
    """Tries all: 0, or 1 where something was found."""
    here = os.getcwd()
    try:
        count = outputs_that_are_read()
        outputs_that_are_one()
        pipes()
        played_projects()
    finally:
        os.chdir(here)
    outcome = f"{len(found)} found" if found else "each refused, and every file as it was"
    print(f"outputs that are inputs, or one file: {count} names and {outcome}")
    return 1 if found else 0
