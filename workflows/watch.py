"""Has Snakemake 7 end with one line where the disk of OUT is full.

By itself it says some fifty lines for each line that its log doesn't take, and with `--keep-going` begins every job.
"""
import contextlib
import logging
import os
import sys
import threading
from collections.abc import Iterator
from typing import Any

from dsdarc_scripts import room

# What Snakemake is quiet about once the line is said.
HUSHED = frozenset({"all"})


class Log(logging.FileHandler):
    """Snakemake's log: what the disk doesn't take is left out of it, and nothing is said of that."""

    def handleError(self, record: logging.LogRecord) -> None:
        pass

    def flush(self) -> None:
        with contextlib.suppress(OSError):
            super().flush()

    def close(self) -> None:
        with contextlib.suppress(OSError):
            super().close()


def hush(logger: Any) -> None:
    """As `--quiet all` does."""
    logger.quiet = HUSHED


def tolerate(logger: Any) -> None:
    """Puts a log in the place of Snakemake's, whose errors take some fifty lines each."""
    old = logger.logfile_handler
    if old is not None:
        logger.logger.removeHandler(old)
        with contextlib.suppress(OSError):
            old.close()
        logger.logfile_handler = Log(old.baseFilename)
        logger.logger.addHandler(logger.logfile_handler)


def tells_full(message: dict[str, Any], has_jobs: bool) -> bool:
    """Whether Snakemake has to say that the disk is full, or that a job failed where one met a full disk."""
    said = str(message.get("msg"))
    return any(f"[Errno {number}]" in said for number in room.FULL) or (
        has_jobs and message["level"].endswith("error") and not os.path.exists(room.MARK)
    )


def watch(workflow: Any, logger: Any) -> None:
    """Where the disk is full, has Snakemake start no more jobs, also with `--keep-going`, and says one line in place of
    what it would say."""
    lock = threading.Lock()

    def heed(message: dict[str, Any]) -> None:
        with lock:
            has_jobs = workflow.scheduler is not None
            if logger.quiet is HUSHED or not tells_full(message, has_jobs):
                return
            hush(logger)
        if has_jobs:
            workflow.scheduler.keepgoing = False
        print(room.advice("OUT"), file=sys.stderr, flush=True)

    tolerate(logger)
    logger.log_handler.insert(0, heed)


@contextlib.contextmanager
def one_line(logger: Any) -> Iterator[None]:
    """Ends Snakemake before it starts with the line that stops it, without where in the Snakefile that was."""
    try:
        with room.reported("OUT"):
            yield
    except SystemExit as stop:
        hush(logger)
        print(stop.code, file=sys.stderr, flush=True)
        raise
