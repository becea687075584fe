"""Sums of files: the SHA-256 of each channel's bits, as bytes with the earliest bit the highest and zeros after the
last. It is taken here by Python of the bytes of which the files are made."""
import hashlib
import itertools
import os
import shlex
import subprocess
import tempfile
from collections.abc import Iterator

from tests.commands.asking import PROGRAM, Case, Step
from tests.commands.shapes import CHANNELS, FORMS, SIZES, file_of, sounds
from tests.commands.small_files import (
    CUT_OFF,
    FILE,
    LEAST,
    LONG,
    LONG_MOST,
    MOST,
    NINE,
    NINE_MOST,
    RATE,
    TAGGED,
    dsf,
    mono,
    stereo,
)
from tests.helpers.trials import ROOT

# The line of one byte of sound, but for its name.
ONE = f"{RATE} 8 {hashlib.sha256(bytes([0xf0])).hexdigest()}"

# A file of one byte of zeros, and how files are judged by a list.
ZERO = mono(b"\0")
LINES, LONG_SIZE = 10_000, 3_000_001  # of a list; bytes of a channel
CHECK = ["sum", "--check", "list"]

# Names that are printed otherwise than they are, as on one line.
NAMES = {"a b": "a b", " two  blanks ": " two  blanks ", "\\": "\\\\", "a\nb": "a\\nb", "a\r": "a\\r", "ä~é": "ä~é"}

# Names that aren't UTF-8, and how they are printed: a byte that isn't is `\x` and two digits.
NO_TEXTS = {
    b"caf\xe9": "caf\\xe9",
    b"\xff\xfe": "\\xff\\xfe",
    b"\\\xff\n\r ": "\\\\\\xff\\n\\r ",
    "ä".encode() + b"\xc3": "ä\\xc3",
    b"\xed\xa0\x80\xc0\xaf": "\\xed\\xa0\\x80\\xc0\\xaf",
}
NOT_UTF_8 = ": a name has to be UTF-8: give the file another name, or a link to it"

# Lines that `sum` never prints.
NO_LINES = (
    "",
    "in",
    f"{ONE} in",
    f"{ONE}  ",
    f"{ONE}  a\\b",
    f"{ONE}  a\\",
    f"{ONE}  a\\x",
    f"{ONE}  a\\xf",
    f"{ONE}  a\\xfg",
    f"{ONE}  a\\xf\\\\",
    f"{ONE}  a\\xFF",
    f"{ONE.upper()}  in",
    "  in",
    # Lines of other programs, and sums of no channel, of seven, and of a channel cut short.
    f"{hashlib.sha256(FILE).hexdigest()}  in",
    f"{hashlib.md5(FILE).hexdigest()}  in",
    "5  in",
    f"{RATE} 8  in",
    f"{RATE} {ONE.split()[2]}  in",
    f"{ONE}{f' {ONE.split()[2]}' * 6}  in",
    f"{ONE[:-1]}  in",
    f"{ONE}0  in",
    f"{ONE} 0  in",
)


def line_of(name: str, bits: int, *channels: bytes, rate: int = RATE) -> str:
    """The line of a file: its rate, how many bits a channel has, and the digest of each channel's bytes."""
    return " ".join([f"{rate} {bits}", *(hashlib.sha256(it).hexdigest() for it in channels)]) + f"  {name}"


def said(arguments: list[str], line: str) -> Step:
    return Step(arguments, 0, line)


def other(arguments: list[str], line: str) -> Step:
    return Step(arguments, 1, line)


def faulty(arguments: list[str], line: str, before: str = "") -> Step:
    return Step(arguments, 2, f"fault: {line}", before=before)


def shaped() -> Iterator[Case]:
    """One to six channels in each form have the same line, and are as it lists them; with another bit they aren't."""
    for number, size in itertools.product(CHANNELS, SIZES):
        channels = sounds("summed", number, size)
        line = line_of("in", 8 * size, *channels)
        listed = {"list": line.encode() + b"\n"}
        for form in FORMS:
            yield Case({"in": file_of(form, channels)} | listed, [said(["sum", "in"], line), said(CHECK, "in: OK")])
        turned = [*channels[:-1], channels[-1][:-1] + bytes([channels[-1][-1] ^ 1])]
        exchanged = channels[::-1]
        for each in (turned, exchanged) if number > 1 else (turned,):
            files = {"in": file_of("dsf", each)} | listed
            yield Case(files, [other(CHECK, "in: FAILED")])


# What ends within a byte: of 1, 7, 8 and 9 bits, of which a stored bit after the last isn't one; 32,769 bits, of which
# the last is in a block of its own; and 9 bits of two channels.
PARTS = (
    (dsf(1, 1, b"\xff"), line_of("in", 1, b"\x80")),
    (dsf(1, 7, b"\xff"), line_of("in", 7, b"\xfe")),
    (dsf(8, 7, b"\xff"), line_of("in", 7, b"\xfe")),
    (dsf(1, 8, b"\xff"), line_of("in", 8, b"\xff")),
    (dsf(1, 9, b"\xff\xff"), line_of("in", 9, b"\xff\x80")),
    (LONG, line_of("in", 32769, b"\x01" + bytes(4096), bytes(4097))),
    (LONG_MOST, line_of("in", 32769, b"\x01" + bytes(4096), bytes(4097))),
    (NINE, line_of("in", 9, b"\xf0\0", bytes(2))),
    (NINE_MOST, line_of("in", 9, b"\x0f\0", bytes(2))),
)

# Zeros of other lengths that take as many bytes, and the line of another rate.
ALIKE = (
    (dsf(1, 9, b""), line_of("in", 10, bytes(2))),
    (dsf(1, 10, b""), line_of("in", 9, bytes(2))),
    (mono(bytes(2)), line_of("in", 16, bytes(2), rate=2 * RATE)),
)


def several() -> Iterator[Case]:
    """Files are summed and judged one by one, and a fault of one doesn't keep the others."""
    files = {"a": FILE, "b": LEAST, "c": MOST, "d": TAGGED, "e": stereo(b"\xf0\x0f")}
    lines = [f"{ONE}  {name}" for name in "abcd"] + [line_of("e", 8, b"\xf0", b"\x0f")]
    both = "\n".join(lines)
    files |= {"list": both.encode() + b"\n", "same": f"{lines[1]}\r\n{lines[0]}".encode(), "cut": CUT_OFF}
    names = list("abcde")
    yield Case(
        files,
        [
            said(["sum", *names], both),
            said(CHECK, "\n".join(f"{name}: OK" for name in names)),
            said(["sum", "--check", "same", "list"], "\n".join(f"{name}: OK" for name in ["b", "a", *names])),
            said(["sum", "--", "a"], lines[0]),
            faulty(["sum", "a", "none", "b"], "ReadFailed  none", f"{lines[0]}\n{lines[1]}\n"),
            faulty(["sum", "cut", "a"], "FileUnread Dsdiff Chunk DataCut 114  cut", f"{lines[0]}\n"),
            faulty(["sum", "list"], "FileUnread UnknownForm  list"),
            faulty(["sum", "--check", "none"], "ReadFailed  none"),
            faulty(["sum", "--check", "a"], "ListRefused  a"),
        ],
    )
    wrong = f"{ONE}  none\n{ONE}  e\n{ONE}  a\n".encode()
    yield Case(
        {"a": FILE, "e": ZERO, "list": wrong}, [faulty(CHECK, "ReadFailed  none", "none: FAILED\ne: FAILED\na: OK\n")]
    )
    for line in NO_LINES:
        text = f"{ONE}  in\n{line}\n{ONE}  in\n"
        yield Case({"in": FILE, "list": text.encode()}, [faulty(CHECK, "ListRefused line 2  list", "in: OK\nin: OK\n")])
    for other in (b"", b"\0\xff\n", f"{ONE}  in\n\0\n".encode()):
        yield Case({"in": FILE, "list": other}, [faulty(CHECK, "ListRefused  list")])


def long_ones() -> Iterator[Case]:
    """Each line of a long list is judged, and each byte of a long file is summed."""
    for last, judged in ((f"{ONE}  in", said), (line_of("in", 8, b"\0"), other)):
        lines = [f"{ONE}  in"] * (LINES - 1) + [last]
        shown = "in: OK\n" * (LINES - 1) + ("in: OK" if judged is said else "in: FAILED")
        yield Case({"in": FILE, "list": "\n".join(lines).encode()}, [judged(CHECK, shown)])
    channels = sounds("long", 2, LONG_SIZE)
    line = line_of("in", 8 * LONG_SIZE, *channels)
    turned = [channels[0], channels[1][:-1] + bytes([channels[1][-1] ^ 1])]
    for form in FORMS:
        yield Case(
            {"in": file_of(form, channels), "list": line.encode()}, [said(["sum", "in"], line), said(CHECK, "in: OK")]
        )
        yield Case({"in": file_of(form, turned), "list": line.encode()}, [other(CHECK, "in: FAILED")])


def untexted() -> Iterator[Case]:
    """A name that isn't UTF-8 is one fault, and all others are summed or judged; as an argument, in a list, and of a
    list."""
    for bytes_of, shown in NO_TEXTS.items():
        name = os.fsdecode(bytes_of)
        files = {"a": FILE, name: FILE, "b": LEAST}
        before, fault = f"{ONE}  a\n{ONE}  b\n", f"ReadFailed  {shown}"
        yield Case(
            files,
            [faulty(["sum", "a", name, "b"], fault, before), faulty(["sum", "--", name, "a", "b"], fault, before)],
        )
        for listed in (bytes_of.replace(b"\\", b"\\\\").replace(b"\n", b"\\n").replace(b"\r", b"\\r"), shown.encode()):
            lines = [f"{ONE}  ".encode() + it for it in (b"a", listed, b"b")]
            before = f"a: OK\n{shown}: FAILED\nb: OK\n"
            yield Case(files | {"list": b"\n".join(lines)}, [faulty(CHECK, fault, before)])
        files |= {"list": f"{ONE}  b\n{ONE}  a".encode()}
        yield Case(files, [faulty(["sum", "--check", name, "list"], fault, "b: OK\na: OK\n")])
    for line in (b"\xff", b"\xff  in", f"{ONE} \xff in".encode("latin-1"), f"{ONE}\xff  in".encode("latin-1")):
        text = f"{ONE}  in\n".encode() + line + f"\r\n{ONE}  in".encode()
        yield Case({"in": FILE, "list": text}, [faulty(CHECK, "ListRefused line 2  list", "in: OK\nin: OK\n")])
    # Each is reported by itself.
    names = [b"%d\xff" % number for number in range(3)]
    faults = "".join(f"\nfault: ReadFailed  {number}\\xff" for number in range(3))
    yield Case({"a": FILE}, [Step(["sum", *names, "a"], 2, faults[1:], before=f"{ONE}  a\n")])


def sum_cases() -> Iterator[Case]:
    """The tables of files that are summed, and judged by lists."""
    yield from shaped()
    for data, line in PARTS:
        files = {"in": data, "list": line.encode()}
        yield Case(files, [said(["sum", "in"], line), said(CHECK, "in: OK")])
    for data, line in ALIKE:
        yield Case({"in": data, "list": line.encode()}, [other(CHECK, "in: FAILED")])
    for name, shown in NAMES.items():
        line = f"{ONE}  {shown}"
        files = {name: FILE, "list": line.encode()}
        yield Case(files, [said(["sum", name], line), said(CHECK, f"{shown}: OK")])
    yield from several()
    yield from long_ones()
    yield from untexted()


# An archive, of which two names aren't UTF-8, and how these are printed.
BELOW = {"./a.dff": FILE, "./by/a\nb.dsf": LEAST, "./by/z.DSF": MOST}
BELOW_NOT = {"./by/caf\udce9.dff": "./by/caf\\xe9.dff", "./\udcff.dsf": "./\\xff.dsf"}
# What the recipes of docs/ARCHIVES.md come to there: the status of xargs, or that of the program.
FAULTS = "".join(f"fault: ReadFailed  {it}\n" for it in BELOW_NOT.values())
JUDGED = "".join(f"{it}: OK\n".replace("a\nb", "a\\nb") for it in BELOW)
RECIPES = {"xargs -0 dsdarc sum --": (123, "", FAULTS), "dsdarc sum --check SOUNDS": (0, JUDGED, "")}
# The program as `dsdarc`, by itself and by the launcher.
LAUNCHERS = ('exec {program} "$@"', '. {root}/bin/launch.sh\nrun_child {program} "$@"')


def cooked(folder: str, launcher: str) -> Iterator[str]:
    """Runs the recipes in an archive below a folder, and answers those that come to something else."""
    os.makedirs(f"{folder}/archive/by")
    for name, data in (BELOW | dict.fromkeys(BELOW_NOT, FILE)).items():
        with open(os.path.join(folder, "archive", name), "wb") as file:
            file.write(data)
    with open(f"{folder}/dsdarc", "w", encoding="utf-8") as file:
        file.write("#!/bin/sh\n" + launcher.format(program=shlex.quote(PROGRAM), root=shlex.quote(ROOT)))
    os.chmod(f"{folder}/dsdarc", 0o755)
    with open(os.path.join(ROOT, "docs", "ARCHIVES.md"), encoding="utf-8") as file:
        lines = [it.strip() for it in file if it.startswith("    ")]
    env = os.environ | {"PATH": f"{folder}:{os.environ['PATH']}", "LC_ALL": "C"}
    for part, must in RECIPES.items():
        (line,) = (it for it in lines if part in it)
        ran = subprocess.run(["sh", "-c", line], capture_output=True, cwd=f"{folder}/archive", env=env, check=False)
        result = (ran.returncode, ran.stdout.decode(), ran.stderr.decode())
        if result != must:
            yield f"{line}: {result}, not {must}"


def recipe() -> int:
    """The recipe sums each file of an archive whose name is UTF-8, and judges these: 0, or 1 where something was found."""
    found: list[str] = []
    for launcher in LAUNCHERS:
        with tempfile.TemporaryDirectory() as folder:
            found += cooked(folder, launcher)
    for it in found:
        print(f"  FOUND: {it}")
    print(
        f"the recipe for sums of an archive: {len(found)} found"
        if found
        else "the recipe for sums of an archive: tried"
    )
    return 1 if found else 0
