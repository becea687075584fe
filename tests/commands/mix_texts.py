"""Mix texts with their first faults (docs/NULL_TEST.md)."""
from collections.abc import Iterator

KEYS = {
    "unit": "4",
    "audible": "[1, 2, 1]",
    "limit": "1000",
    "takes": '["a", "b"]',
    "decoder": "[{taps = [1, 2, 1]}]",
    "clip": "[{take = 0, start = 0, at = 0, length = 16}]",
}
CLIP = {"take": "0", "start": "0", "at": "0", "length": "16"}
HUGE, FITS_NOT = "9223372036854775807", "9223372036854775808"

DOCUMENTS = (
    ("", "MissingKey mix"),
    ("= 1", "NotToml"),
    ("gain = 1\ngain = 1", "NotToml"),
    (f"gain = {FITS_NOT}", "NotToml"),
    ("gain = " + "9" * 5000, "NotToml"),
    ("gain = " + "[" * 80 + "]" * 80, "UnknownKey"),
    ("gain = " + "[" * 81 + "]" * 81, "NotToml"),
    ("gain = " + "[" * 5000 + "]" * 5000, "NotToml"),
    ("mix = '\xe9", "NotToml"),
    ("gain = 1", "UnknownKey"),
    ("gain = 1\nmix = 1", "UnknownKey"),
    ("Mix = {}", "UnknownKey"),
    ("mix = 1", "WrongKind mix"),
    ("mix = []", "WrongKind mix"),
    ("[[mix]]", "WrongKind mix"),
    ("mix = {}", "MissingKey unit"),
    ("[mix]\ngain = 1", "UnknownKey"),
)

# Changes of the keys of the table; None leaves one out. The first key in its order comes first.
TABLES: tuple[tuple[dict[str, str | None], str], ...] = (
    ({"unit": None, "audible": None}, "MissingKey unit"),
    ({"unit": "true", "audible": "1"}, "WrongKind unit"),
    ({"unit": "4.0"}, "WrongKind unit"),
    ({"unit": "[4]"}, "WrongKind unit"),
    ({"unit": "0", "audible": "1"}, "OutOfLimit unit"),
    ({"unit": "-1"}, "OutOfLimit unit"),
    ({"unit": "268435457"}, "OutOfLimit unit"),
    ({"unit": "268435456"}, ""),
    ({"audible": None, "limit": None}, "MissingKey audible"),
    ({"audible": "1", "limit": None}, "WrongKind audible"),
    ({"audible": "[1, 2.0, 1]"}, "WrongKind audible"),
    ({"audible": '["1"]'}, "WrongKind audible"),
    ({"audible": "[[1]]"}, "WrongKind audible"),
    ({"audible": "[]", "limit": None}, "OutOfLimit audible"),
    ({"audible": "[1, 1]"}, "OutOfLimit audible"),
    ({"audible": "[0]"}, "OutOfLimit audible"),
    ({"audible": "[1, -2, 1]"}, "OutOfLimit audible"),
    ({"audible": "[2147483648]"}, "OutOfLimit audible"),
    ({"audible": f"[{HUGE}, 1, {HUGE}]"}, "OutOfLimit audible"),
    ({"audible": "[-2147483648, 2147483647, 1]"}, "OutOfLimit audible"),
    ({"audible": "[2147483647, 1, 0]"}, "OutOfLimit audible"),
    ({"audible": "[2147483647]"}, ""),
    ({"audible": str([1] * 65_535)}, ""),
    ({"audible": str([1] * 65_537)}, "OutOfLimit audible"),
    ({"limit": None, "every": "0"}, "MissingKey limit"),
    ({"limit": '"1"', "every": "0"}, "WrongKind limit"),
    ({"limit": "-1", "every": "0"}, "OutOfLimit limit"),
    ({"limit": HUGE}, ""),
    ({"every": "1.0", "takes": None}, "WrongKind every"),
    ({"every": "0", "takes": None}, "OutOfLimit every"),
    ({"every": "65"}, "OutOfLimit every"),
    ({"every": "64"}, ""),
    ({"takes": None, "decoder": None}, "MissingKey takes"),
    ({"takes": '"a"', "decoder": None}, "WrongKind takes"),
    ({"takes": '["a", 1]'}, "WrongKind takes"),
    ({"takes": "[]", "decoder": None}, "OutOfLimit takes"),
    ({"takes": str(["a"] * 17)}, "OutOfLimit takes"),
    ({"takes": str(["a"] * 16)}, ""),
    ({"decoder": None, "clip": None}, "MissingKey decoder"),
    ({"decoder": "{taps = [1]}", "clip": None}, "WrongKind decoder"),
    ({"decoder": "[]", "clip": None}, "OutOfLimit decoder"),
    ({"decoder": "[" + "{taps = [1]}, " * 17 + "]", "clip": None}, "OutOfLimit decoder"),
    ({"decoder": "[" + "{taps = [1]}, " * 16 + "]"}, ""),
    ({"decoder": "[1]", "clip": None}, "MissingKey clip"),
    ({"decoder": "[1]", "clip": "1"}, "WrongKind clip"),
    ({"decoder": "[1]", "clip": "[]"}, "OutOfLimit clip"),
    ({"decoder": "[1]", "clip": "[1]"}, "WrongKind decoder"),
    ({"decoder": "[{taps = [1]}, 1]", "clip": "[1]"}, "WrongKind decoder"),
    ({"decoder": "[{}]", "clip": "[1]"}, "MissingKey taps"),
    ({"decoder": "[{tap = [1]}]", "clip": "[1]"}, "UnknownKey"),
    ({"decoder": "[{taps = 1}]", "clip": "[1]"}, "WrongKind taps"),
    ({"decoder": "[{taps = []}]", "clip": "[1]"}, "OutOfLimit taps"),
    ({"decoder": "[{taps = [1, 1]}]"}, "OutOfLimit taps"),
    ({"decoder": "[{taps = [268435456, 0, -1]}]"}, "OutOfLimit taps"),
    ({"decoder": "[{taps = [-268435457]}]"}, "OutOfLimit taps"),
    ({"decoder": "[{taps = [-268435456]}]"}, ""),
    ({"decoder": "[{taps = [0]}]"}, ""),
    ({"clip": "[1]"}, "WrongKind clip"),
    ({"clip": "[{take = 0, start = 0, at = 0, length = 16}, 1]"}, "WrongKind clip"),
    ({"clip": "[" + "{take = 0, start = 0, at = 0, length = 1}, " * 65 + "]"}, "OutOfLimit clip"),
    ({"clip": "[" + "{take = 0, start = 0, at = 0, length = 1}, " * 64 + "]"}, ""),
    ({"clip": "[" + ", ".join(f"{{take = 0, start = 0, at = {it}, length = 1}}" for it in range(1024)) + "]"}, ""),
    (
        {"clip": "[" + ", ".join(f"{{take = 0, start = 0, at = {it}, length = 1}}" for it in range(1025)) + "]"},
        "OutOfLimit clip",
    ),
    # Where one clip ends another begins.
    (
        {"clip": "[" + "".join(f"{{take = 0, start = 0, at = {it % 2 * 3}, length = 3}}, " for it in range(128)) + "]"},
        "",
    ),
    (
        {"clip": "[" + "".join(f"{{take = 0, start = 0, at = {it % 2 * 3}, length = 4}}, " for it in range(128)) + "]"},
        "OutOfLimit clip",
    ),
)

# The same of the keys of a clip.
CLIPS: tuple[tuple[dict[str, str | None], str], ...] = (
    ({"takes": "0", "take": None}, "UnknownKey"),
    ({"take": None, "decoder": "9"}, "MissingKey take"),
    ({"take": "false"}, "WrongKind take"),
    ({"take": "-1", "decoder": "9"}, "NoTake 0"),
    ({"take": "2", "start": "-1"}, "NoTake 0"),
    ({"decoder": '"0"', "start": "-1"}, "WrongKind decoder"),
    ({"decoder": "1", "start": "-1"}, "OutOfLimit decoder"),
    ({"decoder": "-1"}, "OutOfLimit decoder"),
    ({"decoder": "0"}, ""),
    ({"start": None, "at": "-1"}, "MissingKey start"),
    ({"start": "[]"}, "WrongKind start"),
    ({"start": "-1", "at": None}, "OutOfLimit start"),
    ({"start": "68719476737"}, "OutOfLimit start"),
    ({"at": None, "length": "0"}, "MissingKey at"),
    ({"at": "0.0", "length": "0"}, "WrongKind at"),
    ({"at": "68719476737"}, "OutOfLimit at"),
    ({"length": None, "gain": "1"}, "MissingKey length"),
    ({"length": "{}", "gain": "1"}, "WrongKind length"),
    ({"length": "0", "gain": "1"}, "OutOfLimit length"),
    ({"at": "1", "length": "68719476736"}, "OutOfLimit length"),
    ({"at": "68719476736", "length": "1"}, "OutOfLimit length"),
    ({"gain": "1", "gains": "1"}, "WrongKind gain"),
    ({"gain": "[0, 1]"}, "WrongKind gain"),
    ({"gain": "[[0, 1.0]]"}, "WrongKind gain"),
    ({"gain": "[[[0, 1]]]"}, "WrongKind gain"),
    ({"gain": "[]", "gains": "1"}, "OutOfLimit gain"),
    ({"gain": "[[]]"}, "OutOfLimit gain"),
    ({"gain": "[[0]]"}, "OutOfLimit gain"),
    ({"gain": "[[0, 1, 2]]"}, "OutOfLimit gain"),
    ({"gain": "[[-1, 0]]"}, "OutOfLimit gain"),
    ({"gain": "[[68719476737, 0]]"}, "OutOfLimit gain"),
    ({"gain": "[[0, 67108865]]"}, "OutOfLimit gain"),
    ({"gain": "[[0, -67108865]]"}, "OutOfLimit gain"),
    ({"gain": "[[1, 0], [1, 0]]"}, "OutOfLimit gain"),
    ({"gain": "[[1, 0], [0, 0]]"}, "OutOfLimit gain"),
    ({"gain": str([[it, 0] for it in range(4097)])}, "OutOfLimit gain"),
    ({"gain": str([[it, 0] for it in range(4096)])}, ""),
    ({"gain": "[[0, -67108864], [68719476736, 67108864]]"}, ""),
    ({"gain": "[[0, 0]]", "gains": "1"}, "OutOfLimit gains"),
    ({"gain": "[[0, 0]]", "gains": "[[[0, 0]]]"}, "OutOfLimit gains"),
    ({"gains": "1"}, "WrongKind gains"),
    ({"gains": "[[0, 0]]"}, "WrongKind gains"),
    ({"gains": "[[[0, 0.5]]]"}, "WrongKind gains"),
    ({"gains": "[]"}, "OutOfLimit gains"),
    ({"gains": "[[]]"}, "OutOfLimit gains"),
    ({"gains": "[[[0, 0]], []]"}, "OutOfLimit gains"),
    ({"gains": "[[[0, 0]], [[1, 0], [1, 0]]]"}, "OutOfLimit gains"),
    ({"gains": "[" + "[[0, 0]], " * 7 + "]"}, ""),
)


def changed(usual: dict[str, str], change: dict[str, str | None]) -> dict[str, str]:
    return {key: it for key, it in (usual | change).items() if it is not None}


def texts() -> Iterator[tuple[str, str]]:
    """Mix texts with their first faults, empty where there is none."""
    yield from DOCUMENTS
    for change, fault in TABLES:
        yield "[mix]\n" + "".join(f"{key} = {it}\n" for key, it in changed(KEYS, change).items()), fault
    for change, fault in CLIPS:
        clip = ", ".join(f"{key} = {it}" for key, it in changed(CLIP, change).items())
        table = KEYS | {"clip": f"[{{{clip}}}]"}
        yield "[mix]\n" + "".join(f"{key} = {it}\n" for key, it in table.items()), fault
        # A fault of a clip comes before those of the next one.
        both = KEYS | {"clip": f"[{{{clip}}}, 1]"}
        yield "[mix]\n" + "".join(f"{key} = {it}\n" for key, it in both.items()), fault or "WrongKind clip"
