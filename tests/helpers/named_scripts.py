"""Runs the scripts that take names over an archive whose names are made to break them: each has to take every name, and
to say nothing that shows that it fell over one."""
import functools
import json
import os
import shutil
import stat
import subprocess
from collections.abc import Callable, Iterable

from dsdarc_scripts import names
from dsdarc_scripts.program import PROGRAM
from tests.helpers.trials import ROOT

LIBRARY = os.path.join(ROOT, "crates", "dsdarc", "out", "libdsdarc.so.0")


class Wrong(Exception):
    """What was tried went wrong."""


def expect(holds: object, what: str) -> None:
    if not holds:
        raise Wrong(what)


@functools.cache
def has(*modules: str) -> bool:
    """Whether the Python of the scripts has these modules."""
    command = ["/usr/bin/python3", "-c", f"import {', '.join(modules)}"]
    return subprocess.run(command, stderr=subprocess.DEVNULL, check=False).returncode == 0


def said(script: str, *words: str, statuses: Iterable[int] = (0,), folder: str | None = None) -> str:
    """What a script prints, which ends with one of these statuses."""
    done = subprocess.run(
        [os.path.join(ROOT, script), *words],
        stdin=subprocess.DEVNULL,
        capture_output=True,
        cwd=folder,
        env=os.environ | {"DSDARC": os.path.abspath(PROGRAM), "PYTHONDONTWRITEBYTECODE": "1"},
        check=False,
    )
    out, err = (it.decode(errors="surrogateescape") for it in (done.stdout, done.stderr))
    is_right = done.returncode in statuses and "Traceback" not in err
    expect(is_right, f"{script} {words[:4]!r}: status {done.returncode}: {out[-500:]!r} {err[-500:]!r}")
    return out


def sums_of(files: list[str]) -> list[str]:
    """The sums of each file's channels, of which each name has one line."""
    done = subprocess.run([PROGRAM, "sum", "--", *files], capture_output=True, check=True)
    lines = done.stdout.decode(errors="surrogateescape").split("\n")[:-1]
    shown = [it.partition("  ")[2] for it in lines]
    expect(shown == list(map(names.shown, files)), f"sum: {len(lines)} lines for {len(files)} files")
    return [it.partition("  ")[0] for it in lines]


def with_channels(archive: str, good: list[str], count: int) -> list[str]:
    """The paths of the DSDIFF files with that many channels."""
    paths = [os.path.join(archive, it) for it in good if it.endswith(".dff")]
    return [it for it, sums in zip(paths, sums_of(paths)) if len(sums.split()) == 2 + count]


def lists(archive: str, good: list[str], refused: dict[str, str], list_name: str) -> None:
    """`sum -r`, what it says later, and `filters/pick`."""
    lines = said("workflows/sum_folder", "sum", "-r", archive, statuses=(2,))
    for name in good:
        shown = f"  {names.shown(os.path.join(archive, name))}\n"
        expect(lines.count(shown) == 1, f"sum -r: {name!r} is in {lines.count(shown)} lines")
    expect(lines.count("\n") == len(good), f"sum -r: {lines.count(chr(10))} lines for {len(good)} files")
    with open(list_name, "w", encoding="utf-8", errors="surrogateescape", newline="") as file:
        file.write(lines)
    told = said("workflows/sum_folder", "sum", "--check", "-r", archive, list_name, statuses=(2,))
    count = f": {len(good)} as listed, {len(refused)} unread\n"
    expect(told.endswith(count), f"sum --check -r: {told[-300:]!r}, not {count!r}")
    found = said("filters/pick", "88200/24", "--", *(os.path.join(archive, it) for it in good))
    expect(found.count("\n") == len(good), f"pick: {found.count(chr(10))} paths for {len(good)} files")


def bits_of(archive: str, good: list[str]) -> dict[str, int]:
    """How many bits each channel of the files has, by `info --json`."""
    paths = [os.path.join(archive, it) for it in good]
    rows = json.loads(said("tools/info_json", "info", "--json", *paths))
    expect([it["file"] for it in rows] == paths, "info --json: other names")
    return {name: row["samples"] for name, row in zip(good, rows)}


def one(archive: str, name: str, bits: int, out: str) -> list[str]:
    """What takes one file: it is converted with its tag, to its own name in another folder, gets a tag, and is mended. The
    files that are made."""
    path, made = os.path.join(archive, name), os.path.join(out, os.path.basename(name))
    os.makedirs(out)
    form = "dsf" if name.lower().endswith("dff") else "dsf8" if bits % 8 else "dsdiff"
    folder, last = os.path.split(path)
    answer = said("workflows/convert_tag", "convert", "--tag", "--", form, last, made, folder=folder)
    expect(answer.startswith("converted dropped "), f"convert --tag of {name!r}: {answer!r}")
    expect(os.listdir(out) == [os.path.basename(name)], f"convert --tag of {name!r}: {os.listdir(out)}")
    if has("mutagen"):
        said("workflows/tag", made, "--title", "x")
        said("workflows/copy_tag", made, path, "-o", os.path.join(out, "new"))
    said("tools/mend", path, os.path.join(out, "mended"), "--copy")
    return [os.path.join(out, it) for it in sorted(os.listdir(out))]


def each(archive: str, good: list[str], top: str) -> None:
    """All files, one after the other; what is made of them has their bits."""
    sums = sums_of([os.path.join(archive, it) for it in good])
    made, wanted = list[str](), list[str]()
    for number, (name, bits) in enumerate(bits_of(archive, good).items()):
        files = one(archive, name, bits, os.path.join(top, "each", str(number)))
        made += files
        wanted += [sums[number]] * len(files)
    other = [name for name, found, right in zip(made, sums_of(made), wanted) if found != right]
    expect(not other, f"other bits: {other[:3]!r}")


def copied(archive: str, folder: str) -> None:
    """A copy of an archive without what can't be copied."""

    def left_out(inside: str, entries: list[str]) -> list[str]:
        places = ((it, os.lstat(os.path.join(inside, it)).st_mode) for it in entries)
        return [it for it, mode in places if it == "deep" or stat.S_ISFIFO(mode)]

    shutil.copytree(archive, folder, symlinks=True, ignore=left_out)


def folders(archive: str, good: list[str], top: str) -> None:
    """What takes a whole folder: it is mended, and made a bag."""
    said("tools/mend", archive, os.path.join(top, "mended"), statuses=(2,))
    bag = os.path.join(top, "bag", os.path.basename(archive))
    copied(archive, bag)
    said("workflows/bag", bag, statuses=(0, 1))
    for name in good:
        expect(os.path.isfile(os.path.join(bag, "data", name)), f"bag: lost {name!r}")
    said("workflows/bag", "--check", bag, statuses=(0, 1))


def albums(archive: str, good: list[str], top: str) -> None:
    """Recordings are joined to a master, and that is split into its tracks."""
    takes = with_channels(archive, good, 2)
    master, tracks = os.path.join(top, os.path.basename(archive) + ".dff"), os.path.join(top, os.path.basename(archive))
    said("cuts/join", *takes, "-o", master)
    lines = said("cuts/tracks", master, "-o", tracks)
    expect(lines.count("\n") == len(os.listdir(tracks)) == len(takes), f"tracks: {lines!r} of {len(takes)} files")


def page(archive: str, out: str, top: str) -> None:
    """The page of a run."""
    name = os.path.join(top, "page.html")
    said("workflows/report", out, "--archive", archive, "-o", name)
    with open(name, encoding="utf-8") as file:
        text = file.read()
    is_plain = "(a)<b>" not in text and "(a)&lt;b&gt;|c;d&amp;e" in text
    expect(is_plain, "the page has a name that a browser reads otherwise")


def desk(archive: str, good: list[str], top: str) -> None:
    """The desk opens takes, saves a mix of them, and tries to make a master. A mix names takes on one line."""
    from tests.desk.desks import Desk, clip, refused, until

    place = os.path.join(top, 'it\'s `touch PWNED`, $(touch PWNED); "x" {a}')
    os.symlink(archive, place)
    takes = with_channels(place, good, 1)
    lost = [it for it in takes if not it.isprintable()]
    expect("no mix can name it" in refused(*lost, "-o", f"{place}.mix.toml"), "the desk: names of several lines")
    takes = [it for it in takes if it.isprintable()]
    opened = Desk(*takes, "-o", f"{place}.mix.toml")
    try:
        found = [it["name"] for it in opened.json("about")["takes"]]
        expect(len(found) == len(takes), f"the desk: {len(found)} takes of {len(takes)}")
        clips = {str(it): clip(take=it, start=0, at=2000 * it, length=2000) for it in range(len(takes))}
        expect(opened.change(label="put", clips=clips)[0] == 200, "the desk: takes aren't put")
        expect(opened.save()[0] == 200, "the desk: the mix isn't saved")
        opened.json("make", {})
        state = until(lambda: not (it := opened.state())["make"]["running"] and it, 300)
        expect(state and "Traceback" not in str(state["make"]), f"the desk: no master: {state and state['make']}")
    finally:
        status, err = opened.end()
    expect(status == 0 and not err, f"the desk: {status} {err}")


def try_all(archive: str, good: list[str], refused: dict[str, str], top: str, look: Callable[[], None]) -> None:
    """All of them, one after the other; `look` finds what was run."""
    lists(archive, good, refused, os.path.join(top, "SOUNDS"))
    look()
    each(archive, good, top)
    look()
    folders(archive, good, top)
    albums(archive, good, top)
    look()
    print(f"scripts: sums, JSON, tags, mended files, a bag and an album, of {len(good)} names, nothing run", flush=True)
    if not os.path.exists(LIBRARY) or not has("aiohttp", "numpy", "scipy", "tomlkit"):
        print("left out: the desk, as the library isn't built or a Python package isn't installed")
        return
    desk(archive, good, top)
    look()
    print("scripts: the desk, nothing run", flush=True)
