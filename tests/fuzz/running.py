"""The program, run over the files of a folder under a limit of memory."""
import os
import resource
import shutil
import signal
import sys
import tempfile
from collections import namedtuple

MEGABYTE = 1 << 20
SECONDS = 60

# What a run came to: the arguments, the status, the signal that ended it (or 0), its two outputs, and its limit of
# memory.
Run = namedtuple("Run", "arguments status signal out err limit")


def memory_folder() -> str:
    """A fresh folder, in memory where there is a place for that."""
    return tempfile.mkdtemp(prefix="fuzz-", dir="/dev/shm" if os.access("/dev/shm", os.W_OK) else None)


class Program:
    """A program that runs in a folder of its own, each time under a limit."""

    def __init__(self, path: str, folder: str) -> None:
        self.path, self.folder = path, folder
        self.own = memory_folder()
        self.out, self.err = (os.open(os.path.join(self.own, it), os.O_RDWR | os.O_CREAT) for it in ("out", "err"))
        self.null = os.open("/dev/null", os.O_RDONLY)
        self.start = 0

    def close(self) -> None:
        shutil.rmtree(self.own)

    def run(self, arguments: list[str], limit: int | None = None, source: str | None = None) -> Run:
        """Runs it with these arguments, under a limit of memory in bytes, with a file of the folder to read from."""
        for file in (self.out, self.err):
            os.ftruncate(file, 0)
            os.lseek(file, 0, os.SEEK_SET)
        sys.stdout.flush()
        process = os.fork()
        if process == 0:
            self.become(arguments, limit, source)
        _, ended = os.waitpid(process, 0)
        status = os.WEXITSTATUS(ended) if os.WIFEXITED(ended) else None
        killed = os.WTERMSIG(ended) if os.WIFSIGNALED(ended) else 0
        return Run(arguments, status, killed, self.read(self.out), self.read(self.err), limit)

    def become(self, arguments: list[str], limit: int | None, source: str | None) -> None:
        """In the child: becomes the program."""
        try:
            os.chdir(self.folder)
            os.dup2(os.open(source, os.O_RDONLY) if source else self.null, 0)
            os.dup2(self.out, 1)
            os.dup2(self.err, 2)
            signal.signal(signal.SIGPIPE, signal.SIG_DFL)
            resource.setrlimit(resource.RLIMIT_CORE, (0, 0))
            resource.setrlimit(resource.RLIMIT_CPU, (SECONDS, SECONDS))
            if limit:
                resource.setrlimit(resource.RLIMIT_AS, (limit, limit))
            os.execv(self.path, [self.path, *arguments])
        finally:
            os._exit(127)

    @staticmethod
    def read(file: int) -> bytes:
        return os.pread(file, os.fstat(file).st_size, 0)

    def find_least(self, arguments: list[str]) -> int:
        """The least limit of memory, to 64 KB, under which the command is done."""
        low, high = 0, 1 << 34
        while high - low > 1 << 16:
            middle = (low + high) // 2
            if self.run(arguments, middle).status == 0:
                high = middle
            else:
                low = middle
        return high
