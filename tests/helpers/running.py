"""Runs scripts for try_writing and try_cuts, each in a process of its own which has its modules already."""
import contextlib
import multiprocessing
import os
import runpy
import signal
import sys
import tempfile
from collections.abc import Callable
from pathlib import Path
from typing import IO

sys.dont_write_bytecode = True
os.environ.setdefault("OMP_NUM_THREADS", "1")
os.environ.setdefault("OPENBLAS_NUM_THREADS", "1")

from cuts import commands, fading, masters, null_tests, placing
from modulator import modulators
from tests.helpers import usual_signals
from tests.helpers.trials import ROOT, demand, found

LOADED = (commands, fading, placing, masters, null_tests, modulators)  # what scripts need: they find it loaded
STOPS = (signal.SIGINT, signal.SIGTERM, signal.SIGHUP)
LIMIT = 120  # seconds that a script may take


def child(arguments: tuple[str | Path, ...]) -> None:
    """Runs a script in this process, and ends it."""
    status = 1
    try:
        usual_signals.begin_child()
        signal.pthread_sigmask(signal.SIG_UNBLOCK, STOPS)
        sys.argv = [os.path.join(ROOT, arguments[0]), *map(str, arguments[1:])]
        runpy.run_path(sys.argv[0], run_name="__main__")
        status = 0
    except SystemExit as error:
        status = error.code if isinstance(error.code, int) else 0 if error.code is None else 1
        if isinstance(error.code, str):
            print(error.code, file=sys.stderr)
    except BaseException:
        sys.excepthook(*sys.exc_info())
    finally:
        with contextlib.suppress(OSError):
            sys.stdout.flush()
        os._exit(status)


def start(arguments: tuple[str | Path, ...], out: IO[bytes], err: IO[bytes]) -> int:
    """A process that runs a script."""
    sys.stdout.flush()
    signal.pthread_sigmask(signal.SIG_BLOCK, STOPS)
    number = os.fork()
    if number == 0:
        os.dup2(os.open(os.devnull, os.O_RDONLY), 0)
        os.dup2(out.fileno(), 1)
        os.dup2(err.fileno(), 2)
        signal.alarm(LIMIT)
        child(arguments)
    signal.pthread_sigmask(signal.SIG_UNBLOCK, STOPS)
    return number


def ended(number: int) -> int:
    """The status of a process, the negative number of a signal."""
    return os.waitstatus_to_exitcode(os.waitpid(number, 0)[1])


def run_script(*arguments: str | Path, out: IO[bytes] | None = None) -> tuple[int, str, str]:
    """Status, standard output and standard error of a script; the output of one that writes to a file is empty."""
    with tempfile.TemporaryFile() as err, tempfile.TemporaryFile() as usual:
        status = ended(start(arguments, out or usual, err))
        texts = []
        for file in (usual, err):
            file.seek(0)
            texts.append(file.read().decode(errors="surrogateescape"))
        return status, texts[0], texts[1]


def found_by(trial: Callable[[], object]) -> list[str]:
    """What a trial found."""
    found.clear()
    try:
        trial()
    except Exception as error:  # of files that aren't there, as nothing was made
        demand(False, f"{getattr(trial, '__name__', trial)}: {error!r}")
    return list(found)


def status_of(trials: tuple[Callable[[], object], ...]) -> int:
    """Tries all, side by side, and says what was found: the status."""
    everything = []
    with multiprocessing.get_context("fork").Pool(min(len(trials), os.cpu_count() or 1)) as pool:
        for each in pool.imap(found_by, trials, chunksize=1):
            everything.extend(each)
    print(f"{len(everything)} found" if everything else "nothing was found")
    return 1 if everything else 0
