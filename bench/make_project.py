#!/usr/bin/env python3
"""Writes a project that cuts a master from two takes:
make_project.py OUT FIRST SECOND BITS CUES BRIDGE [WEIGHTS [PLAN]].

The takes have BITS bits a channel. CUES cues of one length, which start inside a byte, come from the one take
and the other in turn, with a bridge of BRIDGE bits between each two, which is judged by WEIGHTS weights (2 to 12;
12 where it is left out). CUES and BRIDGE are such that the master ends with a whole byte.

PLAN is a plain text of the same project for the C program that is measured beside: the takes' names, a line each, then
the number of weights and the weights, then the number of cues and for each its take, start, stop and bridge."""
import os
import re
import sys
from collections.abc import Iterator

sys.path.insert(0, os.path.dirname(os.path.dirname(os.path.realpath(__file__))))
from dsdarc_scripts.outputs import Outputs, Refused, ended

WEIGHTS = [16, 62, 146, 260, 360, 412, 412, 360, 260, 146, 62, 16]


def middle_weights(number: int) -> list[int]:
    """So many of the weights, those in the middle."""
    first = (len(WEIGHTS) - number) // 2
    return WEIGHTS[first : first + number]


def cues_of(bits: int, number: int, bridge: int) -> Iterator[tuple[int, int, int, int]]:
    """The take, start, stop and bridge of each cue."""
    room = 3 + bridge + len(WEIGHTS)
    length = (bits - 2 * room) // number // 8 * 8
    for k in range(number):
        start = room + k * length
        yield k % 2, start, start + length, bridge if k < number - 1 else 0


def project(takes: list[str], weights: list[int], cues: list[tuple[int, int, int, int]]) -> list[str]:
    lines = ["[splice]", f"weights = {weights}", f'takes = ["{takes[0]}", "{takes[1]}"]']
    for take, start, stop, bridge in cues:
        lines += ["[[splice.cue]]", f"take = {take}", f"start = {start}", f"stop = {stop}"]
        if bridge:
            lines.append(f"bridge = {bridge}")
    return lines


def plan(takes: list[str], weights: list[int], cues: list[tuple[int, int, int, int]]) -> list[str]:
    numbers = [(len(weights), *weights), (len(cues),), *cues]
    return [*takes, *(" ".join(map(str, it)) for it in numbers)]


def numbers(texts: list[str]) -> tuple[int, int, int, int]:
    """Bits, cues, the bits of a bridge and how many weights."""
    for text in texts:
        if not re.fullmatch(r"\d{1,12}", text):
            raise Refused(f"{text} is no number")
    bits, number, bridge, weights = (int(text) for text in texts)
    if not (1 <= number <= 256 and 2 <= weights <= len(WEIGHTS)):
        raise Refused("there are 1 to 256 cues, and 2 to 12 weights")
    return bits, number, bridge, weights


def main() -> int:
    if not 7 <= len(sys.argv) <= 9:
        raise Refused("make_project.py OUT FIRST SECOND BITS CUES BRIDGE [WEIGHTS [PLAN]]")
    out, *takes = sys.argv[1:4]
    bits, number, bridge, some = numbers([*sys.argv[4:8], *([str(len(WEIGHTS))] if len(sys.argv) == 7 else [])])
    weights = middle_weights(some)
    cues = list(cues_of(bits, number, bridge))
    made = [("OUT", out, project(takes, weights, cues))]
    if len(sys.argv) > 8:
        made.append(("PLAN", sys.argv[8], plan(takes, weights, cues)))
    with Outputs(("a take", it) for it in takes if os.path.exists(it)) as files:
        for what, name, lines in made:
            files.add(what, name)
            files.put(name, "\n".join(lines) + "\n")
    return 0


sys.exit(ended(main))
