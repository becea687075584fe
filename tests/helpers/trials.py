"""What each test does: it notes what it finds, writes and reads files in folders of its own, and runs commands."""
import contextlib
import importlib.machinery
import importlib.util
import os
import shutil
import subprocess
import tempfile
from collections.abc import Callable, Iterable, Iterator
from typing import IO, Any

ROOT = os.path.dirname(os.path.dirname(os.path.dirname(os.path.abspath(__file__))))
found: list[str] = []


def demand(holds: object, why: str) -> None:
    """Notes what doesn't hold."""
    if not holds:
        found.append(why)
        print(f"  FOUND: {why}", flush=True)


def outcome() -> int:
    """Says what was found: the status of the test."""
    print(f"{len(found)} found" if found else "nothing was found")
    return 1 if found else 0


def status_of(trials: Iterable[Callable[[], object]]) -> int:
    """Tries all, and says what was found."""
    for trial in trials:
        trial()
    return outcome()


def put(name: str | bytes, data: bytes | str) -> None:
    """Writes a file, in a folder that is made where there is none."""
    os.makedirs(os.path.dirname(os.path.abspath(name)), exist_ok=True)
    with open(name, "wb") as file:
        file.write(data.encode(errors="surrogateescape") if isinstance(data, str) else data)


def get(name: str) -> bytes:
    with open(name, "rb") as file:
        return file.read()


def there(name: str) -> bytes | None:
    return get(name) if os.path.exists(name) else None


def files_in(folder: str) -> dict[str, bytes | None]:
    """The bytes of each file of a folder, and None of what is no file."""
    return {it.name: get(it.path) if it.is_file(follow_symlinks=False) else None for it in os.scandir(folder)}


@contextlib.contextmanager
def fresh(**files: bytes | str) -> Iterator[str]:
    """An empty folder, which is gone into, with these files."""
    before = os.getcwd()
    with tempfile.TemporaryDirectory() as folder:
        os.chmod(folder, 0o755)
        os.chdir(folder)
        for name, data in files.items():
            put(name, data)
        try:
            yield folder
        finally:
            os.chdir(before)
            for each, _, _ in os.walk(folder):
                os.chmod(each, 0o755)


def run(*arguments: str, **how: Any) -> subprocess.CompletedProcess[bytes]:
    """Runs a command, without input and with what it prints kept, where nothing else is said."""
    how = {"stdin": subprocess.DEVNULL, "stdout": subprocess.PIPE, "stderr": subprocess.PIPE} | how
    return subprocess.run(arguments, check=False, **how)


def said(*arguments: str, **how: Any) -> tuple[int, str]:
    """Status of a command, and all that it says."""
    done = run(*arguments, stderr=subprocess.STDOUT, **how)
    return done.returncode, done.stdout.decode(errors="replace")


def stream(pipe: IO[Any] | None) -> Any:
    """A pipe to or from a process, which was asked for."""
    assert pipe
    return pipe


def languages() -> dict[str, dict[str, str]]:
    """What the environment has in each language of the system, by the letters of that: UTF-8, ASCII, and Latin-1, where
    it can be made."""
    found = {"UTF-8": {"LC_ALL": "C.UTF-8"}}
    found["ASCII"] = {"LC_ALL": "C", "PYTHONUTF8": "0", "PYTHONCOERCECLOCALE": "0"}
    if shutil.which("localedef"):
        folder = os.path.abspath("languages")
        os.mkdir(folder)
        run("localedef", "-i", "en_US", "-f", "ISO-8859-1", f"{folder}/en_US.ISO-8859-1")
        if os.listdir(folder):
            found["Latin-1"] = {"LOCPATH": folder, "LC_ALL": "en_US.ISO-8859-1"}
    return found


def script(name: str) -> Any:
    """A script as a module."""
    loader = importlib.machinery.SourceFileLoader(os.path.basename(name), os.path.join(ROOT, name))
    spec = importlib.util.spec_from_loader(loader.name, loader)
    assert spec
    module = importlib.util.module_from_spec(spec)
    loader.exec_module(module)
    return module


def built_program() -> str:
    """The program that DSDARC names, or the built one: bin/dsdarc builds it."""
    if "DSDARC" in os.environ:
        return os.path.abspath(os.environ["DSDARC"])
    run(os.path.join(ROOT, "bin", "dsdarc"), "info")
    return os.path.join(ROOT, "crates", "dsdarc", "out", "dsdarc")
