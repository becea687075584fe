"""What the library holds of what comes before and after a sound, and for seeks: how much, and how often it's made."""

import os

from dsdarc_scripts.dsdiffs import VERSION, chunk, dsdiff, property_chunks
from tests.helpers.trials import ROOT, demand
from tests.helpers.trials import said as run

FILTER = os.path.join(ROOT, "filters", "dsd64-to-88200-24.toml")
HELD = 1 << 28  # bytes that are held of either
TINY = 2_000_000  # chunks of no data, of 12 bytes each: 24 MB
PIECE = 4096  # bytes of a push
TOUCHED = 1024  # KiB that such a push may touch of memory
LONGEST = os.path.join(ROOT, "filters", "dsd128-to-44100-24.toml")  # a filter with large tables
ASKED = 65536  # bytes that a seek may ask for: a copy of its 4,063 taps for each of two channels, and little more


def a_form(before: bytes, sound: bytes, after: bytes, size: int) -> bytes:
    """A DSDIFF file up to the last byte of `after`, with chunks before its sound. Its form has so many more bytes."""
    inner = b"".join(chunk(*it) for it in property_chunks(2_822_400, 2))
    body = b"DSD " + chunk(*VERSION) + before + chunk(b"PROP", b"SND " + inner) + sound + after
    return b"FRM8" + (len(body) + size).to_bytes(8, "big") + body


def try_held(folder: str, held: str) -> None:
    """A push doesn't look again at what is held, and more than the limit isn't held."""
    tiny, sound = chunk(b"TINY", b"") * TINY, chunk(b"DSD ", bytes(2 * 9000))
    head = b"LONG" + (2 * HELD).to_bytes(8, "big")
    in_header, in_tail = a_form(tiny, b"", b"", 2 * HELD), a_form(b"", sound, tiny, 2 * HELD)
    long_header, long_tail = a_form(b"", b"", head, 2 * HELD), a_form(b"", sound, head, 2 * HELD)
    # What is pushed first, how many zero bytes then, and what is said of these, of one more and of the next.
    for name, first, zeros, wanted in (
        ("tiny chunks before the sound", in_header, 0, None),
        ("tiny chunks after it", in_tail, 0, None),
        ("a long chunk before the sound", long_header, HELD - len(long_header), "Ok TooMuchHeld AfterFault"),
        ("a long chunk after it", long_tail, HELD - len(head), "Ok TooMuchHeld AfterFault"),
        ("what follows a form", dsdiff(2_822_400, 2, bytes(2 * 9000)), HELD, "Ok Ok Ok"),
    ):
        file_name = os.path.join(folder, "held.dff")
        with open(file_name, "wb") as file:
            file.write(first)
        status, said = run(held, FILTER, file_name, str(PIECE), str(zeros))
        touched, _, said = said.strip().partition(" ")
        demand(status == 0, f"{name}: status {status}")
        if status == 0 and wanted:
            demand(said == wanted, f"{name}: {said}, not {wanted}")
        elif status == 0:
            demand(int(touched) <= TOUCHED, f"{name}: a push of {PIECE} bytes touches {touched} KiB of memory")


def try_sought(folder: str, sought: str) -> None:
    """A seek makes no tables of the filter, neither in the sound nor after it: they have more than half a megabyte."""
    file_name = os.path.join(folder, "sought.dff")
    with open(file_name, "wb") as file:
        file.write(dsdiff(5_644_800, 2, bytes(2 * 90_000)))
    status, said = run(sought, LONGEST, file_name)
    demand(status == 0, f"seeks: status {status}")
    if status == 0:
        demand(all(int(it) <= ASKED for it in said.split()), f"seeks ask for {said.strip()} bytes of memory")
