"""How much memory each command takes of large valid files: as a multiple of the files that it reads and writes."""
import os
import random
from collections.abc import Iterator

from tests.fuzz import bases
from tests.fuzz.running import MEGABYTE, Program

FRAMES = 2 * MEGABYTE


def put(folder: str, name: str, data: bytes) -> None:
    with open(os.path.join(folder, name), "wb") as file:
        file.write(data)


def make_files(folder: str) -> None:
    """Stereo takes of 4 MB, and a project that puts a bridge between them."""
    rng = random.Random(0)
    for name in ("a.dff", "b.dff"):
        put(folder, name, bases.dsdiff(rng, name, 2, FRAMES).data)
    put(folder, "c.dsf", bases.dsf(rng, "c", 2, 8 * FRAMES, tag=b"ID3").data)
    bits = 8 * FRAMES
    cues = [(0, 0, bits - 64, 64), (1, 1024, bits - 64)]
    put(folder, "cutting", bases.splice_text([1, 2, 2, 1], ("a.dff", "b.dff"), cues).encode())
    put(folder, "project", bases.filters()[0].encode())


# The arguments of each command, and the files that are read and written.
COMMANDS = (
    (["info", "a.dff"], ("a.dff",)),
    (["info", "c.dsf"], ("c.dsf",)),
    (["convert", "dsf", "a.dff", "out"], ("a.dff", "out")),
    (["convert", "dsdiff", "c.dsf", "out"], ("c.dsf", "out")),
    (["play", "project", "a.dff", "wave"], ("a.dff", "wave")),
    (["edit", "dsdiff", "cutting", "master", "cert"], ("a.dff", "b.dff", "master", "cert")),
    (["check", "cutting", "master", "cert"], ("a.dff", "b.dff", "master", "cert")),
)


def multiples(program: Program) -> Iterator[tuple[list[str], float | None]]:
    """For each command its arguments and the multiple, with what it needs to start not counted: None where it isn't
    done."""
    make_files(program.folder)
    for arguments, names in COMMANDS:
        if program.run(arguments).status != 0:
            yield arguments, None
            continue
        least = program.find_least(arguments)
        size = sum(os.path.getsize(os.path.join(program.folder, name)) for name in names)
        yield arguments, (least - program.start) / size
