"""What a script says where a package of Debian's isn't installed."""
import os
import sys
from types import TracebackType

from dsdarc_scripts.explained import shown_name

NEEDED = ("aiohttp", "jinja2", "matplotlib", "mutagen", "numpy", "scipy", "tomlkit")


def say(kind: type[BaseException], error: BaseException, trace: TracebackType | None) -> None:
    """One line and the status 2 for a package that isn't there; what else ends a script is shown as always."""
    name = (error.name or "").partition(".")[0] if isinstance(error, ModuleNotFoundError) else ""
    if name not in NEEDED:
        sys.__excepthook__(kind, error, trace)
        return
    line = f"it needs Debian's python3-{name}: apt-get install python3-{name}"
    print(f"{shown_name(os.path.basename(sys.argv[0]))}: {line}", file=sys.stderr, flush=True)
    os._exit(2)


def say_missing() -> None:
    """Has a script say in one line which package it lacks."""
    sys.excepthook = say
