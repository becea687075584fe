"""What runs of `play_all` made in OUT, so that the next one sees what changed: `.played` has a line for each WAVE file.

A line is added before a WAVE file gets its name, so after a hard stop each file that is there has one. A line that isn't
whole, or isn't of the file that is there, makes the next run play the file again."""
import contextlib
import dataclasses
import json
import os
import threading

from dsdarc_scripts import names
from workflows import tagging

NOTES = ".played"
# WAVE files of earlier runs that are still there, and are not what was asked for.
EARLIER = "earlier.txt"


@dataclasses.dataclass(frozen=True)
class Recipe:
    """What a WAVE file is made of: the name of its source in the archive and what shows a change of that
    (`walks.identity_of`), the SHA-256 of the filter, and the options for the part that is played."""

    source: str
    identity: tuple[int, ...]
    filter: str
    part: str


@dataclasses.dataclass
class Made:
    """A WAVE file that was made: its path in OUT, of what, its size, when it was written, its SHA-256, and what became of
    the tag."""

    result: str
    recipe: Recipe
    size: int
    time: int
    total: str
    tag: str | None


def made_of(path: str, result: str, recipe: Recipe, total: str, tag: str | None) -> Made:
    """What is noted of a WAVE file that is whole, before it gets its name."""
    it = os.stat(path)
    return Made(result, recipe, it.st_size, it.st_mtime_ns, total, tag)


def line_of(made: Made) -> str:
    return json.dumps(dataclasses.asdict(made), sort_keys=True) + "\n"


def read_line(line: str) -> Made | None:
    """What a line says, or None where it isn't whole."""
    try:
        found = json.loads(line)
        recipe = found.pop("recipe")
        recipe["identity"] = tuple(recipe["identity"])
        made = Made(recipe=Recipe(**recipe), **found)
    except (ValueError, TypeError, LookupError, AttributeError):
        return None
    is_right = isinstance(made.result, str) and isinstance(made.total, str) and isinstance(made.tag, str | None)
    return made if is_right else None


class Notes:
    """What is known of the WAVE files in OUT, by their paths there."""

    def __init__(self, out: str) -> None:
        self.out, self.path, self.lock = out, os.path.join(out, NOTES), threading.Lock()
        self.known: dict[str, Made] = {}
        with contextlib.suppress(FileNotFoundError), open(self.path, encoding="ascii", errors="replace") as file:
            for made in filter(None, map(read_line, file.read().split("\n"))):
                self.known[made.result] = made

    def add(self, made: Made) -> None:
        """Adds a line, which begins on a new line also where the last one isn't whole."""
        with self.lock:
            with open(self.path, "ab", buffering=0) as file:
                file.write(f"\n{line_of(made)}".encode())
            self.known[made.result] = made

    def current(self, result: str, recipe: Recipe) -> Made | None:
        """What is known of a WAVE file that is there as it was made, and of this; None where it is to be played."""
        made = self.known.get(result)
        if made is None or made.recipe != recipe or made.tag == tagging.NOT_INSTALLED and tagging.has_mutagen():
            return None
        return made if self.is_there(made) else None

    def is_there(self, made: Made) -> bool:
        """Whether a WAVE file is as it was made. What has another time, as copies may have, is read."""
        path = os.path.join(self.out, made.result)
        try:
            it = os.stat(path)
            return it.st_size == made.size and (it.st_mtime_ns == made.time or names.sum_of(path) == made.total)
        except OSError:
            return False

    def earlier(self, results: set[str]) -> list[str]:
        """The WAVE files of earlier runs that are there, but for these; what is gone is forgotten."""
        self.known = {it: made for it, made in self.known.items() if os.path.isfile(os.path.join(self.out, it))}
        return sorted(it for it in self.known if it not in results)

    def keep(self) -> None:
        """Rewrites all lines, each file once."""
        names.keep(self.path, "".join(line_of(self.known[it]) for it in sorted(self.known)))
