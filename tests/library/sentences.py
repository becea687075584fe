"""Tries what dsdarc.h says: its sentences by calls (sentences.c), the calls that need no player (pure.c), and the status
on a processor that lacks what the library was built for."""
import os
import shutil

from dsdarc_scripts.dsdiffs import dsdiff
from tests.helpers.trials import ROOT, demand, get
from tests.helpers.trials import said as run
from tests.library.playing import BUILT, PROGRAM, compiled

SOURCES = [
    os.path.join(ROOT, "library", f"{it}.c")
    for it in ("dsdarc", "formats", "describing", "ready", "filters", "channels", "mending")
]
ARCHIVE = os.path.join(BUILT, "libdsdarc.a")


def all_parts(folder: str) -> list[str]:
    """The library in its parts: its files in C with the ready filters, the proved part, and the toolchain's heap that it
    calls."""
    ready = os.path.join(folder, "ready_filters.c")
    status, said = run(os.path.join(ROOT, "library", "ready.py"), os.path.join(ROOT, "filters"))
    demand(status == 0, f"the ready filters aren't written: {said[-200:]}")
    with open(ready, "w", encoding="ascii") as file:
        file.write(said)
    heap = os.path.join(os.path.dirname(run("rt", "doc")[1].strip()), "c", "liblibc_c.a")
    return [*SOURCES, ready, os.path.join(BUILT, "libdsdarc_c.a"), heap]


# The C library counts what it keeps of freed memory for the next request as held, unless it keeps nothing.
KEEPING_NOTHING = os.environ | {"GLIBC_TUNABLES": "glibc.malloc.tcache_count=0"}


def three_channels(folder: str) -> tuple[str, str]:
    """Files with a channel of ones, one of zeros and one of both in turn."""
    dff, dsf = (os.path.join(folder, f"three.{it}") for it in ("dff", "dsf"))
    with open(dff, "wb") as file:
        file.write(dsdiff(2822400, 3, bytes([0xFF, 0x00, 0x55]) * 120_001, more=b"MORE" + bytes(7) + b"\4" + bytes(4)))
    demand(run(PROGRAM, "convert", "dsf", dff, dsf)[0] == 0, "no DSF file")
    return dff, dsf


def try_sentences(folder: str) -> None:
    """All sentences, and the calls that need no player."""
    made = os.path.join(folder, "sentences")
    compiled("tests/library/sentences.c", "-O2", "-Wall", "-Wextra", "-Werror", ARCHIVE, "-o", made)
    files = three_channels(folder)
    for filter in ("dsd64-to-88200-24", "dsd64-to-44100-16"):
        status, said = run(made, os.path.join(ROOT, "filters", f"{filter}.toml"), *files, env=KEEPING_NOTHING)
        demand(status == 0 and said == "", f"dsdarc.h, by {filter}: status {status}\n{said}")
    status, said = run("nm", "--defined-only", "--extern-only", "--format=just-symbols", ARCHIVE)
    shown = [it for it in said.split() if not it.startswith("dsdarc_") or it.startswith("dsdarc_c_")]
    demand(status == 0 and said and not shown, f"the archive shows more than the calls of dsdarc.h: {shown}")
    made = os.path.join(folder, "pure")
    flags = ["-g", "-fsanitize=address,undefined", "-fno-sanitize-recover", "-Wall", "-Wextra", "-Werror"]
    compiled("tests/library/pure.c", *flags, *all_parts(folder), "-o", made)
    status, said = run(made)
    demand(status == 0 and said == "", f"calls without a player: status {status}\n{said}")


def try_processor(folder: str, filter: str, name: str) -> None:
    """A processor that lacks what the library was built for gets a status, and no other ends by a signal."""
    made, out = os.path.join(folder, "lacking"), os.path.join(folder, "lacking.pcm")
    for level in ("2", "3"):
        lacks = ["-D__builtin_cpu_supports(it)=0", f"-DDSDARC_LEVEL={level}", "-DDSDARC_BUILD"]
        compiled("tests/library/cut.c", *lacks, *all_parts(folder), "-o", made)
        status, said = run(made, filter, name, out, "0")
        demand((status, said) == (1, "new Processor\n"), f"a processor that lacks level {level}: {status}, {said}")
    marks = [os.path.join(BUILT, it) for it in ("libdsdarc_c.cpu", "dsdarc.cpu")]
    built_for = get(next(it for it in marks if os.path.exists(it))).decode().strip()
    compiled("tests/library/cut.c", ARCHIVE, "-o", made)
    if not shutil.which("qemu-x86_64"):
        print("left out: other processors, as qemu-user isn't installed")
        return
    for processor, levels in (("core2duo", ()), ("Nehalem", ("x86-64-v2",)), ("Haswell", ("x86-64-v2", "x86-64-v3"))):
        status, said = run("qemu-x86_64", "-cpu", processor, made, filter, name, out, "0")
        is_able = status == 0 if built_for in levels else (status, said[-14:]) == (1, "new Processor\n")
        demand(is_able, f"built for {built_for}, run on {processor}: status {status}, {said[-200:]}")
