"""Tries what the GStreamer element does beside playing a file: stops, segments, loudspeakers, warnings, and its names."""
import os
import re
import signal
import subprocess
import threading
import time
from typing import Any

from dsdarc_scripts.dsdiffs import dsdiff
from tests.helpers.trials import ROOT, demand, get, stream
from tests.helpers.trials import said as run
from tests.library.playing import PROGRAM, compiled

MOST_SECONDS = 60  # what doesn't come to its end is killed then
SECONDS_AFTER_ERRORS = 20  # what may wait for ever is killed then
SURROUND = [b"MLFT", b"MRGT", b"C   ", b"LFE ", b"LS  ", b"RS  "]


def launched(*arguments: str, **how: Any) -> tuple[int | None, str]:
    """Status and output of gst-launch. The status is None if it didn't end by itself: after an error before the first
    buffer its loop may wait for ever, with `wavparse` too."""
    try:
        done = subprocess.run(
            ["gst-launch-1.0", *arguments], capture_output=True, check=False, timeout=SECONDS_AFTER_ERRORS, **how
        )
    except subprocess.TimeoutExpired as late:
        return None, ((late.stdout or b"") + (late.stderr or b"")).decode()
    return done.returncode, (done.stdout + done.stderr).decode()


def await_handler(child: subprocess.Popen[str]) -> None:
    """Waits until a program catches SIGINT, or has ended."""
    while child.poll() is None:
        caught = re.search(rb"^SigCgt:\s*(\w+)", get(f"/proc/{child.pid}/status"), re.MULTILINE)
        if caught and int(caught[1], 16) >> (signal.SIGINT - 1) & 1:
            return
        time.sleep(0.01)


def interrupted(arguments: list[str], when: str = "New clock", **how: Any) -> tuple[int | None, str]:
    """Status and output of gst-launch that is interrupted once it says this, as it plays, and asked to end its stream
    then (-e)."""
    child = subprocess.Popen(
        ["gst-launch-1.0", "-e", *arguments], stdout=subprocess.PIPE, stderr=subprocess.STDOUT, text=True, **how
    )
    killing = threading.Timer(MOST_SECONDS, child.kill)
    killing.start()
    said = ""
    for line in stream(child.stdout):
        said += line
        if when in line:
            await_handler(child)
            child.send_signal(signal.SIGINT)
    status = child.wait()
    killing.cancel()
    return status, said


def is_stopped(status: int | None, said: str) -> bool:
    """Whether a stream that the application ended came to its end without an error."""
    return status == 0 and "ERROR" not in said and "Forcing EOS" in said and "EOS received" in said


def ends(long: str, short: str) -> None:
    """Stops before the end of a file are no errors; a file that ends early is one."""
    dec = ["!", "dsdarcdec", "filter=88200/24", "!"]
    for name in (long, long.replace(".dff", ".dsf")):
        source = ["filesrc", f"location={name}", *dec]
        status, said = interrupted([*source, "fakesink", "sync=true"])
        is_right = is_stopped(status, said)
        demand(is_right, f"dsdarcdec: stopped by the application: status {status}, {said[-400:]}")
        with open(name, "rb") as file:
            status, said = interrupted(["fdsrc", *dec, "fakesink", "sync=true"], stdin=file)
        demand(is_stopped(status, said), f"dsdarcdec: stopped at a file's number: {status}, {said[-400:]}")
        with subprocess.Popen(["cat", name], stdout=subprocess.PIPE) as pipe:
            status, said = interrupted(["fdsrc", *dec, "fakesink", "sync=true"], stdin=pipe.stdout)
            stream(pipe.stdout).close()
        demand(is_stopped(status, said), f"dsdarcdec: stopped at a pipe: {status}, {said[-400:]}")
        with subprocess.Popen(["sleep", "60"], stdout=subprocess.PIPE) as pipe:
            # By its start alone the element can distinguish an end of the application from an empty file.
            status, said = interrupted(["-m", "fdsrc", *dec, "fakesink"], "(stream-start)", stdin=pipe.stdout)
            pipe.kill()
        demand(is_stopped(status, said), f"dsdarcdec: stopped before the first byte: {status}, {said[-400:]}")
        for sink in (["fakesink", "num-buffers=3"], ["identity", "eos-after=3", "!", "fakesink"]):
            status, said = launched(*source, *sink)
            is_right = status == 0 and "ERROR" not in said
            demand(is_right, f"dsdarcdec: stopped by {sink[0]}: status {status}, {said[-400:]}")
    early: list[Any] = [(["filesrc", f"location={short}"], {}), (["fdsrc"], {"input": get(short)})]
    empty: list[Any] = [(["fdsrc"], {"input": b""}), (["filesrc", "location=/dev/null"], {})]
    for ways, how in (*early, *empty):
        status, said = launched(*ways, *dec, "fakesink", **how)
        is_ended = status == 1 or (status is None and (ways, how) in empty)
        is_right = is_ended and "FileRefused" in said
        demand(is_right, f"dsdarcdec: a file that ends early, by {ways[0]}: status {status}, {said[-400:]}")


def segments(folder: str, flags: list[str], long: str, out: str, whole: bytes) -> None:
    """Segments are answered in time, with and without a flush, and go on without a gap."""
    made = os.path.join(folder, "segments")
    compiled("tests/library/segments.c", *flags, "-o", made)
    for name in (long, long.replace(".dff", ".dsf")):
        for first, stop, times in ((1000, 50_000, 3), (0, 1, 2), (300_000, len(whole) // 6, 2)):
            status, said = run(made, "88200/24", name, out, str(first), str(stop), str(times))
            right = whole[6 * first : 6 * stop] * times + whole[6 * stop :]
            is_right = status == 0 and get(out) == right
            demand(is_right, f"dsdarcdec: the segment {first} to {stop}, {times} times: status {status}, {said[-300:]}")


def caps_of(name: str) -> tuple[int | None, int | None, str]:
    """What the element says of the channels of a file."""
    ways = ["-v", "filesrc", f"location={name}", "!", "dsdarcdec", "name=dec", "!", "fakesink", "num-buffers=1"]
    status, said = launched(*ways)
    caps = re.search(r"dec\.GstPad:src: caps = (.*)", said)
    mask = re.search(r"channel-mask=\(bitmask\)(0x[0-9a-f]+)", caps[1]) if caps else None
    return int(mask[1], 16) if mask else None, status, said


def loudspeakers(folder: str) -> None:
    """Masks by the channel types of DSF and the IDs of DSDIFF; those that go to no loudspeakers have none."""
    name = os.path.join(folder, "channels.dsf")
    dff = os.path.join(folder, "channels.dff")
    rows = ((3, 3, 0x7), (4, 4, 0x33), (5, 4, 0xF), (6, 5, 0x37), (7, 6, 0x3F), (2, 2, (None, 3)), (1, 1, (None,)))
    for kind, count, mask in rows:
        with open(dff, "wb") as file:
            file.write(dsdiff(2822400, count, bytes(count * 35280)))
        run(PROGRAM, "convert", "dsf", dff, name)
        data = bytearray(get(name))
        data[48] = kind
        with open(name, "wb") as file:
            file.write(data)
        found, status, said = caps_of(name)
        is_right = status == 0 and (found in mask if isinstance(mask, tuple) else found == mask)
        demand(is_right, f"dsdarcdec: channel type {kind}: mask {found}, not {mask}: {said[-300:]}")
    turned, unknown = [*SURROUND[:2], *SURROUND[4:], *SURROUND[2:4]], [*SURROUND[:2], b"XXXX"]
    by_ids = ((SURROUND, 0x3F), (turned, 0x3F), (unknown, 0), ([b"RS  ", b"LS  "], 0x30))
    for ids, mask in by_ids:
        with open(dff, "wb") as file:
            file.write(dsdiff(2822400, len(ids), bytes(len(ids) * 35280), ids=ids))
        found, status, said = caps_of(dff)
        demand(status == 0 and found == mask, f"dsdarcdec: channels {ids}: mask {found}, not {mask}: {said[-300:]}")


def names(folder: str, long: str) -> None:
    """The element, its type, its debug category and its origin have names of its own."""
    status: int | None
    status, said = run("gst-inspect-1.0", "dsdarcdec")
    is_right = status == 0 and "+----DsdarcDec\n" in said and "example" not in said
    demand(is_right, f"dsdarcdec: its names: {said[:900]}")
    given = os.environ | {"GST_DEBUG": "dsdarcdec:5", "GST_DEBUG_NO_COLOR": "1"}
    ways = ["filesrc", f"location={long}", "!", "dsdarcdec", "filter=88200/24", "!", "fakesink", "num-buffers=1"]
    status, said = launched(*ways, env=given)
    demand(status == 0 and " dsdarcdec " in said, f"dsdarcdec: no debug category: {said[:300]}")
    other = os.path.join(ROOT, "filters", "dsd128-to-88200-24.toml")
    for filter, is_warned in (
        (other, True),
        ("88200/24", False),
        (os.path.join(ROOT, "examples/decimate.toml"), False),
    ):
        ways[4] = f"filter={filter}"
        status, said = launched(*ways)
        is_right = status == 0 and is_warned == ("is for files of 5644800 Hz, and this one has 2822400 Hz" in said)
        demand(is_right and is_warned == ("WARNING" in said), f"dsdarcdec: the warning of {filter}: {said[-300:]}")


def try_stopped(folder: str, flags: list[str], long: str, out: str, whole: bytes) -> None:
    """All of these; `whole` has the frames of the file that is named."""
    short = os.path.join(folder, "short.dff")
    with open(short, "wb") as file:
        file.write(get(long)[:-1000])
    ends(long, short)
    segments(folder, flags, long, out, whole)
    loudspeakers(folder)
    names(folder, long)
