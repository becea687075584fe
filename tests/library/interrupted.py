"""Tries the Python package where calls don't come to their end: whatever is raised, and wherever, the next read gives the
frames that belong to `tell()`, or a fault. What is expected are the frames of the WAVE file that `play` writes."""
import copy
import io
import os
import pickle
import random
import signal
import sys
import tempfile
import threading
import time
from collections.abc import Callable, Iterator
from types import FrameType
from typing import TYPE_CHECKING, Any

from tests.helpers.trials import ROOT, demand, get
from tests.helpers.trials import said as run
from tests.library.playing import played

if TYPE_CHECKING:
    from dsdarc import Sound
    from numpy import ndarray

MOST_SECONDS = 60  # what doesn't come to its end is stopped then


class Stop(KeyboardInterrupt):
    """What an interrupt raises."""


class Failing(io.BytesIO):
    """A file whose n-th call fails; a count says how many there were."""

    def __init__(self, data: bytes, at: int) -> None:
        super().__init__(data)
        self.left = at

    def _called(self) -> None:
        self.left -= 1
        if self.left == 0:
            raise OSError(5, "a call that fails")

    def read(self, *arguments: int | None) -> bytes:
        self._called()
        return super().read(*arguments)

    def seek(self, *arguments: int) -> int:
        self._called()
        return super().seek(*arguments)

    def tell(self) -> int:
        self._called()
        return super().tell()


class Growing(io.BytesIO):
    """A file that has more each time it is read."""

    def read(self, size: int | None = -1) -> bytes:
        return super().read(size) or bytes(max(size or 1, 1))


def numbers_of(frames: bytes, align: int, width: int) -> "ndarray":
    """The samples of the frames of a WAVE file, a row each."""
    import numpy

    packed = numpy.frombuffer(frames, numpy.uint8).reshape(-1, width)
    wide = numpy.zeros((len(packed), 4), numpy.uint8)
    wide[:, 4 - width :] = packed
    return (wide.view("<i4") >> (32 - 8 * width)).reshape(-1, align // width)


def is_next(sound: "Sound", whole: "ndarray", count: int = 50) -> bool:
    """Whether the next frames are those that belong to `tell()`; or a fault says that there are none."""
    import dsdarc
    import numpy

    try:
        at = sound.tell()
        read = sound.read(count, "native", always_2d=True)
    except dsdarc.Fault:
        return True
    except OSError:
        return sound.tell() == at
    return numpy.array_equal(read, whole[at : at + count])


def steps(sound: "Sound", count: int) -> Iterator[Callable[[], object]]:
    """Reads and seeks, one after the other."""
    yield lambda: sound.read(count // 3, "native")
    yield lambda: sound.seek(count // 2)
    yield lambda: sound.read(7)
    yield lambda: sound.seek(-3, os.SEEK_END)
    yield sound.read
    yield lambda: sound.seek(1)
    yield lambda: sound.bits(count // 2, 300)
    yield lambda: list(sound.blocks(count // 2))


def each_call_fails(name: str, filter: str, whole: "ndarray") -> None:
    """An OSError at each call of the file in turn."""
    import dsdarc

    data, tried, wrong = get(name), 0, 0
    for at in range(1, 500):
        file = Failing(data, at)
        try:
            sound = dsdarc.open(file, filter)
        except OSError:
            tried += 1
            continue
        for step in steps(sound, len(whole)):
            try:
                step()
            except OSError:
                tried += 1
                wrong += not is_next(sound, whole)
        try:
            sound.close()
        except OSError:
            pass
        if file.left > 0:
            break
    demand(tried > 8 and file.left > 0, f"Python: only {tried} of a file's calls failed")
    demand(wrong == 0, f"Python: {wrong} of {tried} reads after a failed call gave other frames")


def each_place_raises(opened: "Sound", whole: "ndarray", stride: int) -> None:
    """An interrupt at each place of the package's code in turn: at every line, call and return, and within lines."""
    import dsdarc

    left = [0]
    trace = raiser(os.path.dirname(dsdarc.__file__), left)
    tried = wrong = 0
    with opened as sound:
        for number, step in enumerate(steps(sound, len(whole))):
            for at in range(1 + number % stride, 1_000_000, stride):
                sound.seek(number)
                left[0] = at
                sys.settrace(trace)
                try:
                    step()
                except Stop:
                    tried += 1
                finally:
                    sys.settrace(None)
                if left[0] > 0:
                    break
                wrong += not is_next(sound, whole)
    demand(tried > 100 // stride, f"Python: only {tried} places raised")
    demand(wrong == 0, f"Python: {wrong} of {tried} reads after an interrupt at a place gave other frames")


def while_writing(folder: str, stride: int) -> None:
    """An interrupt at each place of the code that writes a file: the old file is there or the new one, and nothing
    else."""
    import dsdarc
    import numpy

    room = os.path.join(folder, "writing")
    os.mkdir(room)
    old, new = (numpy.full((9000, 2), byte, numpy.uint8) for byte in (0x55, 0xAA))
    for ending in ("dff", "dsf"):
        name = os.path.join(room, f"file.{ending}")
        whole = []
        for bits in (old, new):
            dsdarc.write(name, bits, 2822400)
            whole.append(get(name))
        left, tried, wrong = [0], 0, 0
        trace = raiser(os.path.dirname(dsdarc.__file__), left)
        for at in range(1, 1_000_000, stride):
            dsdarc.write(name, old, 2822400)
            left[0] = at
            sys.settrace(trace)
            try:
                dsdarc.write(name, new, 2822400)
            except Stop:
                tried += 1
            finally:
                sys.settrace(None)
            wrong += get(name) not in whole or os.listdir(room) != [f"file.{ending}"]
            if left[0] > 0:
                break
        demand(get(name) == whole[1] and tried > 100 // stride, f"Python: only {tried} places of a write raised")
        demand(wrong == 0, f"Python: {wrong} of {tried} interrupted writes leave something")
        os.remove(name)


def raiser(folder: str, left: list[int]) -> Callable[[FrameType, str, object], Callable[..., Any] | None]:
    """What raises an interrupt in the code of a folder, after so many places of it."""

    def trace(frame: FrameType, event: str, _: object) -> Callable[..., Any] | None:
        if not frame.f_code.co_filename.startswith(folder) or frame.f_code.co_name in ("__del__", "drop"):
            return None
        frame.f_trace_opcodes = True
        left[0] -= 1
        if left[0] == 0:
            raise Stop
        return trace

    return trace


def at_any_time(name: str, filter: str, whole: "ndarray", count: int) -> None:
    """Interrupts at random times."""
    import dsdarc

    def stop(*_: object) -> None:
        raise Stop

    tried = wrong = 0
    chance, before = random.Random(5), signal.signal(signal.SIGALRM, stop)
    sound = dsdarc.open(name, filter)
    try:
        while tried < count:
            try:
                signal.setitimer(signal.ITIMER_REAL, chance.uniform(1e-5, 3e-3))
                sound.seek(chance.randrange(len(whole)))
                while True:
                    sound.read(chance.randrange(1, 3000), chance.choice(["float32", "native", "int32"]))
                    if sound.tell() == len(whole):
                        sound.seek(tried)
            except Stop:
                tried += 1
                wrong += not is_next(sound, whole)
            except dsdarc.Fault:
                signal.setitimer(signal.ITIMER_REAL, 0)
                sound = dsdarc.open(name, filter)  # a fault is an answer, too
    finally:
        signal.setitimer(signal.ITIMER_REAL, 0)
        signal.signal(signal.SIGALRM, before)
    sound.close()
    demand(wrong == 0, f"Python: {wrong} of {tried} interrupted reads were followed by other frames")


def within(name: str, filter: str, whole: "ndarray", count: int) -> None:
    """Handlers of signals that read the same sound amid a read, which is refused then, or goes on; and those that raise
    after that."""
    import dsdarc

    chance, wrong, refused = random.Random(6), [], 0

    def reads(*_: object) -> None:
        sound.seek(chance.randrange(len(whole)))
        wrong.extend([] if is_next(sound, whole) else ["in a handler"])
        if chance.random() < 0.3:
            raise Stop

    before = signal.signal(signal.SIGALRM, reads)
    sound = dsdarc.open(name, filter)
    try:
        for _ in range(count):
            sound.seek(chance.randrange(len(whole)))
            signal.setitimer(signal.ITIMER_REAL, chance.uniform(1e-5, 2e-3))
            at = sound.tell()
            try:
                read = sound.read(2000, "native")
                signal.setitimer(signal.ITIMER_REAL, 0)
                starts = [it for it in (at, sound.tell() - len(read)) if (read == whole[it : it + len(read)]).all()]
                wrong.extend([] if starts else ["amid a handler"])
            except (RuntimeError, Stop):
                signal.setitimer(signal.ITIMER_REAL, 0)
                refused += 1
            wrong.extend([] if is_next(sound, whole) else ["after a handler"])
    finally:
        signal.setitimer(signal.ITIMER_REAL, 0)
        signal.signal(signal.SIGALRM, before)
    sound.close()
    demand(refused > 0, "Python: no handler came amid a read")
    demand(not wrong, f"Python: a sound that a handler of a signal reads: other frames {wrong[:3]}")


def shared(name: str, filter: str, whole: "ndarray") -> None:
    """Sounds that share a file object, one after the other and side by side, and who else moves it."""
    import dsdarc

    for file in (open(name, "rb"), open(name, "rb", buffering=0), io.BytesIO(get(name))):
        with file, dsdarc.open(file, filter) as one:
            file.seek(0)
            with dsdarc.open(file, filter) as other:
                right = is_next(one, whole) and is_next(other, whole, 11)
                file.seek(5)
                right = right and is_next(one, whole, 500) and is_next(other, whole)
                wrong = []

                def reads(sound: "Sound") -> None:
                    for at in range(0, len(whole), max(len(whole) // 40, 1)):
                        sound.seek(at)
                        if not is_next(sound, whole, 300):
                            wrong.append(at)

                threads = [threading.Thread(target=reads, args=[it]) for it in (one, other)]
                for each in threads:
                    each.start()
                for each in threads:
                    each.join()
                kind = type(file).__name__
                demand(right, f"Python: sounds that share a {kind}, in turn: other frames")
                demand(not wrong, f"Python: sounds that share a {kind}, in threads: {len(wrong)} wrong reads")


def forked(name: str, filter: str, whole: "ndarray") -> None:
    """A process that is forked, also while another thread reads: both read on, or the new one is refused."""
    import dsdarc

    with dsdarc.open(name, filter) as sound, dsdarc.open(io.BytesIO(get(name)), filter) as held:
        sound.seek(9)
        held.seek(9)
        going = threading.Event()

        def reads() -> None:
            while not going.is_set():
                busy.seek(0)
                busy.read(-1, "float32")

        with dsdarc.open(name, filter) as busy:
            thread = threading.Thread(target=reads)
            thread.start()
            for turn in range(6):
                time.sleep(0.003 * turn)
                child = os.fork()
                if child == 0:
                    signal.alarm(20)
                    right = all(is_next(sound, whole) for _ in range(3))
                    busy.seek(turn)
                    right = right and is_next(busy, whole, 2000)
                    try:
                        held.seek(len(whole) // 2)
                        held.read(10)
                        right = False
                    except ValueError:
                        pass
                    os._exit(0 if right else 1)
                right = is_next(sound, whole) and is_next(held, whole)
                demand(right, "Python: other frames beside a forked process")
                demand(os.waitpid(child, 0)[1] == 0, "Python: other frames in a forked process, or none")
            going.set()
            thread.join()


def copies(name: str, filter: str) -> None:
    """What copies a sound is refused, and the sound goes on."""
    import dsdarc

    with dsdarc.open(name, filter) as sound:
        ways: tuple[Any, ...] = copy.copy, copy.deepcopy, pickle.dumps
        for way in ways:
            try:
                way(sound)
                demand(False, f"Python: {way.__name__} makes a second sound")
            except TypeError as why:
                demand("can't be copied" in str(why), f"Python: {way.__name__}: {why}")
        demand(len(sound.read(5)) == 5, "Python: a sound ends with what would copy it")
    fault = pickle.loads(pickle.dumps(dsdarc.Fault("FileRefused", "in.dsf")))
    demand((fault.name, str(fault)) == ("FileRefused", "FileRefused: in.dsf"), f"Python: a pickled fault: {fault}")


def grows(name: str, filter: str, whole: "ndarray") -> None:
    """A file that grows comes to an end, and its frames are given."""
    import dsdarc

    def stop(*_: object) -> None:
        raise Stop

    before = signal.signal(signal.SIGALRM, stop)
    signal.alarm(MOST_SECONDS)
    try:
        with dsdarc.open(Growing(get(name)), filter) as sound:
            demand(is_next(sound, whole, len(whole)), "Python: other frames of a file that grows")
            demand(len(sound.read()) == 0, "Python: frames after the last")
    except Stop:
        demand(False, "Python: a file that grows doesn't end")
    finally:
        signal.alarm(0)
        signal.signal(signal.SIGALRM, before)


def comes_first(folder: str, cut: str, name: str, filter: str, whole: "ndarray") -> None:
    """Of a file that ends early the frames that C gives are given, and then the fault, whatever is read at once."""
    import dsdarc

    data = get(name)
    short, out = os.path.join(folder, f"short{name[-4:]}"), os.path.join(folder, "short.pcm")
    for size in (len(data) * 2 // 3, len(data) - 1):
        with open(short, "wb") as file:
            file.write(data[:size])
        run(cut, filter, short, out, "0")
        given = os.path.getsize(out)
        for each in (-1, 1000, 10**9):
            found, fault = [], None
            try:
                with dsdarc.open(short, filter) as sound:
                    given_frames = given // (sound.channels * sound.info.width // 8)
                    while len(part := sound.read(each, "native", always_2d=True)) > 0:
                        found += part.tolist()
            except dsdarc.Fault as why:
                fault = why.name
            is_right = found == whole[:given_frames].tolist() and fault == "FileRefused"
            demand(is_right, f"Python: {len(found)} of {given_frames} frames of a file of {size} bytes, then {fault}")
        blocks = []
        try:
            for block in dsdarc.open(short, filter).blocks(777, "native", always_2d=True):
                blocks += block.tolist()
            fault = None
        except dsdarc.Fault as why:
            fault = why.name
        demand((blocks, fault) == (found, "FileRefused"), f"Python: {len(blocks)} frames in blocks, then {fault}")
        for way in (lambda: dsdarc.read(short, filter), lambda: closes(short, filter)):
            try:
                way()
                demand(False, "Python: a file that ends early is read without a fault")
            except dsdarc.Fault as why:
                demand(why.name == "FileRefused", f"Python: a file that ends early: {why}")


def closes(name: str, filter: str) -> None:
    """Reads all at once, and closes."""
    import dsdarc

    sound = dsdarc.open(name, filter)
    sound.read()
    sound.close()


def filters(folder: str, name: str) -> None:
    """Filters by an index, the warning of one for another rate, and what is no filter."""
    import warnings

    import dsdarc

    wrong: tuple[Any, ...] = 88200, 88200.24
    for filter in wrong:
        try:
            dsdarc.open(name, filter)
            demand(False, f"Python: {filter} is a filter")
        except Exception as why:
            is_right = type(why) is TypeError and "a filter is a path" in str(why)
            demand(is_right, f"Python: the filter {filter}: {why!r}")
    ready = os.path.join(ROOT, "filters")
    for filter, rates in (
        ("dsd128-to-88200-24", "5644800"),
        (f"{ready}/dsd256-to-88200-24.toml", "11289600 or 12288000"),
    ):
        with warnings.catch_warnings(record=True) as said:
            warnings.simplefilter("always")
            dsdarc.open(name, filter).close()
        texts = [str(it.message) for it in said]
        is_right = len(said) == 1 and said[0].category is dsdarc.FilterWarning and said[0].filename == __file__
        demand(is_right and f"for files of {rates} Hz" in texts[0], f"Python: the warning of {filter}: {texts}")
    with warnings.catch_warnings():
        warnings.simplefilter("error")
        for filter in ("dsd64-to-88200-24", "88200/24", os.path.join(ROOT, "examples", "decimate.toml")):
            dsdarc.open(name, filter).close()
    own = os.path.join(folder, "own")
    os.mkdir(own)
    with open(os.path.join(own, "mine.toml"), "wb") as file:
        file.write(get(os.path.join(ready, "dsd64-to-88200-24.toml")))
    with open(os.path.join(own, "index.txt"), "w", encoding="ascii") as file:
        file.write("# mine\nmine.toml 2822400 32 20 0\n")
    os.environ["DSDARC_FILTERS"] = own
    try:
        demand(
            dsdarc.filter_for("88200/20", 2822400) == os.path.join(own, "mine.toml"), "Python: no filter by the index"
        )
    finally:
        del os.environ["DSDARC_FILTERS"]
    plus = dsdarc.filter_for("1/24,88200/24", 2822400, louder=True)
    demand(plus.endswith("/dsd64-to-88200-24-plus6.toml"), f"Python: the louder filter is {plus}")


def try_interrupted(folder: str, cut: str, interrupts: int) -> None:
    """All of these, over files with the frames of WAVE files."""
    import dsdarc

    with tempfile.TemporaryDirectory(dir=folder) as room:
        dff, dsf, filter, frames, align = played(room, "long", 300_001)
        whole = numbers_of(frames, align, 3)
        for name in (dff, dsf):
            each_call_fails(name, filter, whole)
            grows(name, filter, whole)
            comes_first(room, cut, name, filter, whole)
        at_any_time(dsf, filter, whole, interrupts)
        within(dff, filter, whole, interrupts // 4)
        shared(dsf, filter, whole)
        forked(dff, filter, whole)
        copies(dff, filter)
        filters(room, dff)
        short, _, filter, frames, align = played(room, "few", 12_000)
        few, stride = numbers_of(frames, align, 3), max(1, 4000 // interrupts)
        each_place_raises(dsdarc.open(short, filter), few, stride)
        with dsdarc.open(short, filter) as sound:
            bits, parts = sound.bits(), [os.path.join(room, f"part-{it}.dsf") for it in range(3)]
        for number, part in enumerate(parts):
            dsdarc.write(part, bits[5000 * number :][:5000], 2822400)
        each_place_raises(next(sounds := dsdarc.play_list(parts, filter)), few, 3 * stride)
        del sounds
        while_writing(room, max(1, 1000 // interrupts))
