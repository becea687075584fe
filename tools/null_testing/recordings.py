"""Takes and masters as signals, read as tools/check_certificate reads them."""
import importlib.machinery
import importlib.util
import struct
from dataclasses import dataclass
from pathlib import Path
from typing import Any

import numpy as np
import numpy.typing as npt

from tools.null_testing.sums import Numbers

Bytes = npt.NDArray[np.uint8]


def reader() -> Any:
    """The script tools/check_certificate as a module."""
    name = "check_certificate"
    loader = importlib.machinery.SourceFileLoader(name, str(Path(__file__).resolve().parents[1] / name))
    spec = importlib.util.spec_from_loader(name, loader)
    assert spec
    module = importlib.util.module_from_spec(spec)
    loader.exec_module(module)
    return module


READER = reader()


class Unread(Exception):
    """Why a file is no recording."""


@dataclass(frozen=True)
class Recording:
    """Its rate, the packed bits of each channel, the earliest the most significant, and how many there are."""

    rate: int
    rows: list[Bytes]
    count: int

    @property
    def channels(self) -> int:
        return len(self.rows)

    def signs(self, channel: int, first: int, stop: int) -> Numbers:
        """+1 for a stored 1, -1 for a stored 0, and 0 outside of the recording."""
        found = np.zeros(stop - first, np.int64)
        low, high = max(first, 0), min(stop, self.count)
        if low < high:
            start = low // 8
            bits = np.unpackbits(self.rows[channel][start : (high + 7) // 8])[low - 8 * start : high - 8 * start]
            found[low - first : high - first] = bits.astype(np.int64) * 2 - 1
        return found


def read(data: bytes) -> Recording:
    """The recording of a DSDIFF or DSF file."""
    try:
        found = READER.read(data)
    except struct.error:
        raise Unread("it is cut") from None
    except (READER.Fault, ValueError, IndexError) as error:
        raise Unread(str(error)) from None
    return Recording(found.rate, found.rows, found.count)
