#!/usr/bin/env python3
"""Writes the ready filters as C: library/ready.py FILTERS >ready_filters.c

FILTERS is the folder of the filters, with their index.txt. inside.h says how their taps are written.
"""
import os
import sys
import tomllib


def numbers(values: list[int]) -> bytes:
    made = bytearray()
    last = 0
    for value in values:
        step, last = value - last, value
        left = 2 * step if step >= 0 else -2 * step - 1
        while left > 127:
            made.append(left & 127 | 128)
            left >>= 7
        made.append(left)
    return bytes(made)


def array(name: str, made: bytes) -> str:
    lines = [", ".join(map(str, made[k : k + 24])) for k in range(0, len(made), 24)]
    return f"static const uint8_t {name}[] = {{\n    " + ",\n    ".join(lines) + "};\n"


def main(folder: str) -> int:
    with open(os.path.join(folder, "index.txt"), encoding="ascii") as file:
        lines = [line for line in file if line.strip() and not line.startswith("#")]
    arrays: dict[bytes, str] = {}
    rows = []
    for line in lines:
        name = line.split()[0]
        with open(os.path.join(folder, name), "rb") as file:
            keys = tomllib.load(file)
        if set(keys) != {"decimate"} or any(
            type(value) is not int for key, value in keys["decimate"].items() if key != "taps"
        ):
            print(f"{name} isn't a filter alone", file=sys.stderr)
            return 1
        taps = keys["decimate"].pop("taps")
        symmetric = taps == taps[::-1]
        made = numbers(taps[: (len(taps) + 1) // 2] if symmetric else taps)
        known = arrays.setdefault(made, f"taps_{len(arrays)}")
        rest = "".join(f"{key} = {value}\\n" for key, value in keys["decimate"].items())
        rows.append(f'    {{"{name}", "{rest}", {known}, {len(taps)}, {int(symmetric)}}},\n')
    print("/* Written by library/ready.py from the ready filters. */")
    print('#include "inside.h"\n')
    for made, name in arrays.items():
        print(array(name, made))
    print("const ready_filter dsdarc_ready[] = {\n" + "".join(rows) + "};")
    print(f"const size_t dsdarc_ready_count = {len(rows)};\n")
    print("const char dsdarc_ready_index[] =")
    print("\n".join('    "' + line.strip() + '\\n"' for line in lines) + ";")
    print("const size_t dsdarc_ready_index_size = sizeof dsdarc_ready_index - 1;")
    return 0


if __name__ == "__main__":
    sys.exit(main(*sys.argv[1:]))
