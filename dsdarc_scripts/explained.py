"""Names on one line, as the program shows them, and what it says of a refused file: its fault, and the line that
explains it, for the lists of refusals."""
import re

ESCAPES = {"\\": "\\\\", "\0": "\\0", "\t": "\\t", "\n": "\\n", "\r": "\\r"}


def shown_letter(letter: str) -> str:
    if "\udc80" <= letter <= "\udcff":
        return f"\\x{ord(letter) - 0xDC00:02x}"
    return ESCAPES.get(letter) or (letter if letter.isprintable() else f"\\u{{{ord(letter):x}}}")


def shown_part(error: UnicodeError) -> tuple[str, int]:
    """What a stream prints of a text that it can't encode."""
    assert isinstance(error, UnicodeEncodeError)
    return "".join(map(shown_letter, error.object[error.start : error.end])), error.end


def shown_name(name: str) -> str:
    """A name on one line: a byte that isn't UTF-8 as \\xe9. An empty one is seen, too."""
    return "".join(map(shown_letter, name)) or "''"


def lines_of(said: str, key: str = "") -> list[str]:
    """The fault with which what was said ends, and the lines after it. A list has the name of the file already, so the
    lines don't name it again by its key in the run."""
    lines = said.splitlines()
    begins = [number for number, line in enumerate(lines) if line.startswith("fault: ")]
    if not begins:
        return lines[-1:]
    fault, *more = lines[begins[-1] :]
    return [fault, *(unnamed(line, key) for line in more)]


def unnamed(line: str, key: str) -> str:
    """A line that explains, without the names that the files have in the run."""
    if key:
        line = line.replace(f"{key}.filter", "the filter")
    return re.sub(r"^.*? \(([A-Z]+)\)", r"\1", line).removeprefix("FILE: ").removeprefix("IN: ")
