"""Asks the built program command lines, each case in a fresh folder. A status has to be the one that is written, standard
output and standard error too, byte by byte. After each command line the folder has to hold just the files that were
there and those that it has to make, with their bytes.

DSDARC names another program: the built one itself, as bin/dsdarc answers some arguments itself."""
import os
import subprocess
import sys
import tempfile
from collections import namedtuple
from collections.abc import Iterable, Iterator
from typing import Any
from concurrent.futures import ThreadPoolExecutor

from tests.helpers.trials import ROOT, files_in

PROGRAM = os.path.abspath(os.environ.get("DSDARC") or os.path.join(ROOT, "crates", "dsdarc", "out", "dsdarc"))

# No file.
NONE: dict[str, bytes] = {}

# The usual names of what a master is cut by and of what is cut.
EDIT = "edit dsdiff e.toml m.dff c.cert"
CHECK = "check e.toml m.dff c.cert"

# A command line: its arguments after the program's name, or none where there is no name either; the status, the line
# that is printed, on standard output where the status is 0 or 1 and else on standard error, and the files that are
# made. Then the line that explains it, on standard error, or nothing; `{folder}` in it is the folder that the command
# line is run in. Last what is printed on standard output before a fault.
Step = namedtuple("Step", "arguments status line made why before", defaults=(NONE, "", ""))

# The files that are there, and command lines one after the other.
Case = namedtuple("Case", "files steps")


def done(arguments: str, line: str, made: dict[str, bytes] = NONE) -> Step:
    return Step(arguments.split(), 0, line, made)


def refused(arguments: str, line: str, made: dict[str, bytes] = NONE) -> Step:
    return Step(arguments.split(), 2, f"fault: {line}", made)


def rejected(arguments: str, line: str) -> Step:
    return Step(arguments.split(), 1, f"rejected {line}")


def unread(arguments: list[str] | list[str | bytes] | None, line: str) -> Step:
    return Step(arguments, 3, f"fault: {line}")


def demand(holds: object, text: str) -> None:
    """Ends all where what is written in a table doesn't fit itself."""
    if not holds:
        sys.exit(f"{os.path.basename(sys.argv[0])}: {text}")


def differences(found: dict[str, Any], expected: dict[str, bytes]) -> Iterator[str]:
    """In what the files of a folder differ from those that have to be there."""
    for name in sorted(found.keys() | expected.keys()):
        if name not in expected:
            yield f"{name} was made"
        elif found.get(name) is None:
            yield f"{name} is missing, or no file"
        elif found[name] != expected[name]:
            yield f"{name} has other bytes, {found[name][:200].hex()}.. of {len(found[name])}"


def wrong_in(step: Step, folder: str, expected: dict[str, bytes]) -> Iterator[str]:
    """What is wrong where a command line is run in a folder, and its folder has to hold these files afterwards."""
    arguments = [] if step.arguments is None else ["dsdarc", *step.arguments]
    ran = subprocess.run(
        arguments, executable=PROGRAM, cwd=folder, stdin=subprocess.DEVNULL, capture_output=True, check=False
    )
    line, why = step.line.encode() + b"\n", step.why.replace("{folder}", os.path.realpath(folder))
    out, err = (line, b"") if step.status < 2 else (step.before.encode(), line)
    err += why.encode() + b"\n" if why else b""
    if ran.returncode != step.status:
        yield f"status {ran.returncode}, not {step.status}"
    if ran.stdout != out:
        yield f"standard output {ran.stdout}, not {out}"
    if ran.stderr != err:
        yield f"standard error {ran.stderr}, not {err}"
    yield from differences(files_in(folder), expected)


def try_case(case: Case) -> list[list[str]]:
    """Runs the command lines of a case: what is wrong with each."""
    found, expected = [], dict(case.files)
    with tempfile.TemporaryDirectory() as folder:
        for name, data in expected.items():
            with open(os.path.join(folder, name), "wb") as file:
                file.write(data)
        for step in case.steps:
            expected.update(step.made)
            found.append(list(wrong_in(step, folder, expected)))
    return found


def show(case: Case, found: list[list[str]]) -> int:
    """Prints what is wrong with the command lines of a case, and over which files: how many were answered as they must
    be."""
    for step, wrong in zip(case.steps, found):
        for each in wrong:
            print(f"  FOUND: dsdarc {step.arguments}: {each}", flush=True)
    if any(found):
        over = (f"{ascii(name)} {data if len(data) < 500 else len(data)}" for name, data in case.files.items())
        print(f"  OVER: {'; '.join(over)}", flush=True)
    return sum(not wrong for wrong in found)


def ask(title: str, cases: Iterable[Case]) -> int:
    """Runs all cases, some side by side, and prints how they were answered: 0, or 1 where one failed."""
    if not os.path.exists(PROGRAM):
        sys.exit(f"{os.path.basename(sys.argv[0])}: run bin/dsdarc first")
    cases = list(cases)
    with ThreadPoolExecutor(os.cpu_count()) as pool:
        right = sum(map(show, cases, pool.map(try_case, cases)))
    number = sum(len(case.steps) for case in cases)
    answers = "each answered as it must be" if right == number else f"{number - right} not answered as they must be"
    print(f"{title}: {number} cases, {answers}")
    return 0 if right == number else 1
