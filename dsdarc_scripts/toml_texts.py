"""TOML texts as they are written: the lines that their keys are in, and TOML 1.1 spelled as TOML 1.0.

Python's `tomllib` reads TOML 1.0 and gives no lines. TOML 1.1 may also have line ends, comments and a last comma in
inline tables, the escapes \\e and \\xHH, and times without seconds. Nothing here judges a text, as a parser does."""
import re
import tomllib
from collections.abc import Iterator

# Where a value is: the names of tables and keys, and numbers of cues and elements.
Place = tuple[str | int, ...]

PARTS = re.compile(
    r'(?P<text>"""(?:\\[\s\S]|"{1,2}(?!")|[^"\\])*"{3,5}'
    r"|'''(?:'{1,2}(?!')|[^'])*'{3,5}"
    r'|"(?:\\.|[^"\\\n])*"'
    r"|'[^'\n]*')"
    r"|(?P<comment>#(?:[^\r\n]|\r(?!\n))*)"
    r"|(?P<end>\r?\n)"
    r"|(?P<blank>[ \t]+)"
    r"|(?P<sign>[\[\]{}=,.])"
    r"|(?P<word>[^ \t\r\n\[\]{}=,.#\"']+)"
    r"|(?P<other>[\s\S])"
)
ESCAPES = re.compile(r"\\(?:x([0-9A-Fa-f]{2})|(e)|[\s\S])")
SHORT_TIME = re.compile(r"((?:\d{4}-\d{2}-\d{2}[Tt])?\d{2}:\d{2})((?:[Zz]|[+-]\d{2}:\d{2})?)")
CONTROLS = re.compile(r"[\x00-\x08\x0a-\x1f\x7f]")


def parts_of(text: str) -> Iterator[tuple[str, str, int]]:
    """The parts of a text in turn: kind, the part itself, and the line it begins in."""
    line = 1
    for found in PARTS.finditer(text):
        yield found.lastgroup or "", found[0], line
        line += found[0].count("\n")


def older_escape(found: re.Match[str]) -> str:
    if found[1]:
        return f"\\u00{found[1]}"
    return "\\u001b" if found[2] else found[0]


def older_word(word: str) -> str:
    """A time without seconds, with them."""
    short = SHORT_TIME.fullmatch(word)
    return f"{short[1]}:00{short[2]}" if short else word


class Older:
    """A text of TOML 1.1 spelled as TOML 1.0, and for each of its lines that which it had. An inline table may have
    line ends before a key and after a value; others stay, and so does all after what is no TOML."""

    def __init__(self, text: str) -> None:
        self.parts, self.lines = [], [1]
        self.open: list[list[str]] = []  # brackets, each with what came last after it
        self.ends: list[int] = []  # where line ends were that a value may not go on after
        self.comma, self.word = 0, ""
        self.is_broken = False
        for kind, part, line in parts_of(text):
            self.is_broken = self.is_broken or kind == "other"
            part = part if self.is_broken else self.older(kind, part)
            self.parts.append(part)
            self.lines += range(line + 1, line + 1 + part.count("\n"))
        self.text = "".join(self.parts)

    def older(self, kind: str, part: str) -> str:
        last = self.open[-1] if self.open else ["", ""]
        if last[0] == "{" and kind in ("end", "comment"):
            return self.between(last, kind, part)
        if kind == "text" and part[0] == '"':
            part = ESCAPES.sub(older_escape, part)
        elif kind == "word":
            self.word = part
            part = older_word(part)
        elif part == "." and self.parts and self.word and self.parts[-1] == older_word(self.word):
            self.parts[-1] = self.word  # a time with a point has its seconds
        if kind in ("text", "word", "sign"):
            self.note(last, part)
        return part

    def between(self, last: list[str], kind: str, part: str) -> str:
        """A line end or a comment in an inline table."""
        if last[1] not in ("", "comma", "value", "after"):
            return part
        if kind == "comment":
            return part if CONTROLS.search(part) else ""
        if last[1] in ("value", "after"):
            last[1] = "after"
            self.ends.append(len(self.parts))
        return " "

    def note(self, last: list[str], part: str) -> None:
        """What comes next in the innermost bracket."""
        if part in ("]", "}") and self.open:
            if self.open.pop() == ["{", "comma"] and part == "}":
                self.parts[self.comma] = ""
            return
        if last[1] == "after" and part != ",":
            self.parts[self.ends[-1]] = "\n"
        if part == "," and last[1] in ("value", "after"):
            self.comma = len(self.parts)
            last[1] = "comma"
        elif part == "=":
            last[1] = "equals"
        else:
            last[1] = "value" if last[1] in ("equals", "value") else "key"
        if part in ("[", "{"):
            self.open.append([part, ""])


class Lines:
    """The line of each key, array's element and table of a text that is TOML, by its path of names and numbers."""

    def __init__(self, text: str) -> None:
        self.parts = [it for it in parts_of(text) if it[0] != "blank"]
        self.at, self.found, self.counts, prefix = 0, dict[Place, int](), dict[Place, int](), Place()
        while self.at < len(self.parts):
            kind, part, _ = self.parts[self.at]
            if kind in ("end", "comment"):
                self.at += 1
            elif part == "[":
                prefix = self.header()
            else:
                self.pair(prefix)

    def peek(self) -> str:
        return self.parts[self.at][1] if self.at < len(self.parts) else ""

    def note(self, path: Place, line: int) -> None:
        self.found.setdefault(path, line)

    def names(self) -> tuple[list[str], int]:
        """The names of a key, up to what is after them, and its line."""
        names, line = [], self.parts[self.at][2]
        while self.at < len(self.parts) and self.peek() not in ("=", "]", "\n"):
            kind, part, _ = self.parts[self.at]
            if kind == "text":
                names.append(tomllib.loads("it = " + Older(part).text)["it"])
            elif kind == "word":
                names.append(part)
            self.at += 1
        return names, line

    def below(self, prefix: Place, names: list[str], line: int) -> Place:
        """The path of a key; of an array of tables the last table is meant."""
        for name in names:
            prefix = (*prefix, name)
            self.note(prefix, line)
            if prefix in self.counts:
                prefix = (*prefix, self.counts[prefix])
        return prefix

    def header(self) -> Place:
        """The path of the table that a line begins."""
        is_array = self.parts[self.at + 1][1] == "["
        self.at += 1 + is_array
        names, line = self.names()
        self.at += 1 + is_array
        prefix = self.below((), names[:-1], line)
        path = (*prefix, names[-1])
        self.note(path, line)
        if is_array:
            self.counts[path] = self.counts.get(path, -1) + 1
        if path in self.counts:
            path = (*path, self.counts[path])
            self.note(path, line)
        return path

    def pair(self, prefix: Place) -> None:
        names, line = self.names()
        self.at += 1
        path = prefix
        for name in names:
            path = (*path, name)
            self.note(path, line)
        self.value(path)

    def value(self, path: Place) -> None:
        """Goes past a value."""
        opened = self.peek()
        if opened in ("[", "{"):
            self.at += 1
            self.inside(path, opened)
            return
        while self.at < len(self.parts) and self.parts[self.at][0] not in ("end", "comment"):
            if self.peek() in (",", "]", "}"):
                return
            self.at += 1

    def inside(self, path: Place, opened: str) -> None:
        """Goes through an array or an inline table, and past it."""
        number = 0
        while self.at < len(self.parts):
            kind, part, line = self.parts[self.at]
            if kind in ("end", "comment") or part == ",":
                self.at += 1
            elif part in ("]", "}"):
                self.at += 1
                return
            elif opened == "{":
                self.pair(path)
            else:
                self.note((*path, number), line)
                self.value((*path, number))
                number += 1
