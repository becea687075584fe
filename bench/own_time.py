#!/usr/bin/env python3
"""Prints what a program's own instructions take: own_time.py PROGRAM ARGUMENT..

It runs the program under `perf`, whose clock takes two samples a millisecond, and prints two numbers of milliseconds:
what the program's own instructions took, neither the C library's nor the system's; and of this what the innermost loops
took that turn the bytes of numbers (found by `objdump`), as only the spelling and reading of certificates does."""
import os
import re
import subprocess
import sys
import tempfile
from collections.abc import Iterator

Steps = list[tuple[int, str]]  # the places of instructions and their texts

TURNING = re.compile(r"bswap|\bmovbe|pshufb")
JUMP = re.compile(r"j\w+ +([0-9a-f]+) ")


def answer_of(*arguments: str) -> str:
    return subprocess.run(arguments, check=True, stdout=subprocess.PIPE, stderr=subprocess.DEVNULL, text=True).stdout


def functions_of(program: str) -> dict[str, Steps]:
    """The instructions of each function: their places and texts."""
    functions, of = dict[str, Steps](), Steps()
    for line in answer_of("objdump", "-d", "--no-show-raw-insn", program).splitlines():
        if head := re.match(r"[0-9a-f]+ <(.*)>:$", line):
            of = functions.setdefault(head[1], [])
        elif step := re.match(r" *([0-9a-f]+):\t(.*)", line):
            of.append((int(step[1], 16), step[2]))
    return functions


def turning_loops(steps: Steps) -> Iterator[tuple[int, int]]:
    """The first and last places of the innermost loops with an instruction that turns bytes."""
    jumps = [(int(it[1], 16), place) for place, text in steps if (it := JUMP.match(text))]
    loops = [(to, place) for to, place in jumps if to < place]
    for first, last in loops:
        is_innermost = not any((a, b) != (first, last) and first <= a and b <= last for a, b in loops)
        if is_innermost and any(first <= place <= last and TURNING.search(text) for place, text in steps):
            yield first, last


def samples_of(program: str, arguments: list[str]) -> Iterator[tuple[int, str, int]]:
    """Of each sample in the program: how long it stands for, the function and the distance from its start."""
    with tempfile.NamedTemporaryFile() as file:
        record = ("perf", "record", "-q", "-e", "cpu-clock", "-F", "1999", "-o", file.name, "--")
        answer_of(*record, program, *arguments)
        text = answer_of("perf", "script", "-i", file.name, "-F", "period,ip,sym,symoff,dso")
    for line in text.splitlines():
        if it := re.match(r" *(\d+) +[0-9a-f]+ (.*)\+0x([0-9a-f]+) \((.*)\)$", line):
            if os.path.realpath(it[4]) == program:
                yield int(it[1]), it[2], int(it[3], 16)


def main() -> None:
    program, arguments = os.path.realpath(sys.argv[1]), sys.argv[2:]
    functions = functions_of(program)
    loops, own, turned = {}, 0, 0
    for period, name, distance in samples_of(program, arguments):
        steps = functions.get(name, [])
        if name not in loops:
            loops[name] = list(turning_loops(steps))
        own += period
        if steps and any(first <= steps[0][0] + distance <= last for first, last in loops[name]):
            turned += period
    print(own // 1_000_000, turned // 1_000_000)


main()
