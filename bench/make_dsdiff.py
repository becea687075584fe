#!/usr/bin/env python3
"""Writes a DSDIFF 1.5 file of a given size: make_dsdiff.py OUT MEGABYTES [CHANNELS [SEED [RATE]]].

Its stored rate is 2,822,400 Hz where RATE is left out."""
import os
import random
import re
import sys

sys.path.insert(0, os.path.dirname(os.path.dirname(os.path.realpath(__file__))))
from dsdarc_scripts.dsdiffs import dsdiff, numbered
from dsdarc_scripts.outputs import Outputs, Refused, ended

USUAL = ("2", "1", "2822400")  # channels, seed, rate
MOST = (100_000, 1000, 10**9, 2**32 - 1)


def numbers(texts: list[str]) -> list[int]:
    """Megabytes, channels, seed and rate."""
    for text, most in zip(texts, MOST):
        if not re.fullmatch(r"\d{1,10}", text) or not 1 <= int(text) <= most:
            raise Refused(f"{text} is no number from 1 to {most}")
    return [int(text) for text in texts]


def main() -> int:
    if not 3 <= len(sys.argv) <= 6:
        raise Refused(__doc__.partition("\n")[0])
    out, *texts = sys.argv[1:]
    megabytes, channels, seed, rate = numbers([*texts, *USUAL[len(texts) - 1 :]])
    # DSF has no place for IDs: of more channels than two it gives numbers back.
    ids = numbered(channels) if channels > 2 else None
    block = random.Random(seed).randbytes(channels * 10_000)
    with Outputs() as files:
        files.add("OUT", out)
        files.put(out, dsdiff(rate, channels, block * (megabytes * 1_000_000 // len(block)), ids=ids))
    return 0


sys.exit(ended(main))
