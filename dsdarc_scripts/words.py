"""What is after `dsdarc` where a script does what is asked for: read, and refused, as the program does it.

These scripts are begun by bin/launch.sh, and print what they say of a fault as the program: a line, and after
`--explain`, or on a terminal, what explains it."""
import contextlib
import sys

WRONG = 3  # the status of words that ask for nothing


class Wrong(Exception):
    """The words ask for nothing that there is, and why."""


def explains() -> bool:
    """Whether faults are to be explained."""
    with contextlib.suppress(AttributeError, ValueError):
        return sys.stderr.isatty() or sys.argv[1:2] == ["--explain"]
    return False


def read(words: list[str], options: tuple[str, ...], least: int, is_most: bool = False) -> tuple[set[str], list[str]]:
    """The options among the words after a command's name, and the names, of which there are at least that many, or just
    that many. `--` ends the options."""
    found, names = set[str](), list[str]()
    for number, word in enumerate(words):
        if word == "--":
            names += words[number + 1 :]
            break
        if word in found:
            raise Wrong(f"{word} is named twice")
        if word in options:
            found.add(word)
        elif word.startswith("-") and word != "-":
            raise Wrong(f"{word} begins with -; as a name it is written ./{word}")
        else:
            names.append(word)
    if len(names) < least or is_most and len(names) > least:
        more = "" if is_most else " or more"
        raise Wrong(f"it takes {least} name{'' if least == 1 else 's'}{more} and got {len(names)}")
    return found, names


def say(*lines: str) -> None:
    """Prints a fault, and the lines that explain it."""
    for line in lines if explains() else lines[:1]:
        with contextlib.suppress(OSError, ValueError):
            print(line, file=sys.stderr)


def refuse(why: Wrong, usage: str) -> int:
    """Says why words ask for nothing: the status."""
    say("fault: WrongWords", f"{why}; usage: {usage}")
    return WRONG
