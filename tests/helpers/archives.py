"""What tests of whole archives share: files, commands, and runs of the workflow."""
import os
import subprocess
from collections.abc import Iterable
from typing import Any

from dsdarc_scripts import names
from dsdarc_scripts.program import PROGRAM
from tests.helpers.trials import ROOT, demand, get, put

ENVIRONMENT = os.environ | {"DSDARC": PROGRAM, "PYTHONDONTWRITEBYTECODE": "1"}
SNAKEMAKE = ["snakemake", "--snakefile", os.path.join(ROOT, "workflows", "Snakefile"), "--scheduler", "greedy"]
PLAY_ALL, RESTORE = (os.path.join(ROOT, "workflows", it) for it in ("play_all", "restore.py"))


def run(*arguments: str, **more: str) -> tuple[int, str, str]:
    """Status of a command, and what it prints on both outputs."""
    done = subprocess.run(arguments, stdin=subprocess.DEVNULL, capture_output=True, env=ENVIRONMENT | more, check=False)
    return done.returncode, done.stdout.decode(errors="replace"), done.stderr.decode(errors="replace")


def dsdarc(*arguments: str) -> None:
    subprocess.run([PROGRAM, *arguments], stdout=subprocess.DEVNULL, check=True)


def is_plain(path: str) -> bool:
    return os.path.isfile(path) and not os.path.islink(path)


def files_in(folder: str) -> dict[str, bytes]:
    """All files of a folder by their names, but links and those that are hidden."""
    paths = (os.path.join(at, name) for at, _, there in os.walk(folder) for name in there if name[0] != ".")
    return {os.path.relpath(path, folder): get(path) for path in paths if is_plain(path)}


def wave_of(archive: str, name: str, filter_name: str) -> bytes:
    """The WAVE file that the program makes."""
    put("in", get(os.path.join(archive, name)))
    dsdarc("play", os.path.join(ROOT, "filters", filter_name), "in", "out.wav")
    return get("out.wav")


def workflow(
    archive: str, form: str, *arguments: str, out: str | None = None, more: Iterable[str] = ()
) -> tuple[dict[str, bytes], dict[str, dict[str, Any]], str]:
    """A run of the workflow: what it made, its results, and the folder."""
    out = out or f"workflow {form}"
    os.makedirs(out, exist_ok=True)
    names.link(os.path.abspath(archive), f"{out}/archive")
    asked = ["--directory", out, *more, "--config", f"form={form}", *arguments, "--cores", "4"]
    status, printed, err = run(*SNAKEMAKE, *asked)
    demand(status == 0, f"the workflow to {form}: {status} {printed[-500:]} {err[-500:]}")
    return files_in(out), names.load(f"{out}/results.json"), out
