"""The program that scripts run: what DSDARC names, else that of the clone, or of the installation, that they are in."""
import os
import shutil
import subprocess
from collections.abc import Sequence
from pathlib import Path
from typing import BinaryIO

from dsdarc_scripts.outputs import Refused

# The folder of workflows/, filters/ and examples/: the top of a clone, or share/dsdarc of an installation.
ROOT = os.path.dirname(os.path.dirname(os.path.abspath(__file__)))


def found() -> str:
    """The program of a clone, which builds itself, or the installed one."""
    built = os.path.join(ROOT, "bin", "dsdarc")
    return built if os.path.exists(built) else os.path.normpath(os.path.join(ROOT, "..", "..", "bin", "dsdarc"))


PROGRAM = os.environ.get("DSDARC") or found()


def unlaunched(program: str) -> str:
    """The path of what the launcher of a clone or an installation runs, once it is built, or of any other program. All
    that a launcher does besides is to remove, after a signal, what the program was writing."""
    path = os.path.realpath(shutil.which(program) or program)
    top = os.path.dirname(os.path.dirname(path))
    if path == os.path.join(top, "bin", "dsdarc"):
        for place in ("crates/dsdarc/out/dsdarc", "lib/dsdarc/dsdarc"):
            if os.access(os.path.join(top, place), os.X_OK):
                return os.path.join(top, place)
    return path


def finished(
    arguments: Sequence[Path | str], folder: str | None = None, given: BinaryIO | None = None
) -> tuple[int, bytes, bytes]:
    """Runs a command, in a folder, with a file as its input: its status, and what it prints on both outputs. Where this is
    stopped the command is asked to end, so that it removes what it was writing."""
    child = subprocess.Popen(
        arguments, stdin=given or subprocess.DEVNULL, stdout=subprocess.PIPE, stderr=subprocess.PIPE, cwd=folder
    )
    try:
        out, err = child.communicate()
    except BaseException:
        child.terminate()
        child.wait()
        raise
    return child.returncode, out, err


def must(program: Path | str, *arguments: Path | str) -> None:
    """Runs a command that has to be done."""
    try:
        status, out, err = finished([program, *arguments])
    except (OSError, ValueError) as error:
        raise Refused(f"the program {program} can't be run ({error}): build it, or name it by DSDARC") from None
    if status:
        said = (err or out).decode(errors="replace").strip()
        raise Refused(f"{' '.join(map(str, [program, *arguments]))}: {said or f'status {status}'}")
