"""Makes the master of a mix: render, edit, check, null test, one after the other, and what came of each cut.

All files are in a folder beside the mix: of `album.mix.toml` in `album.made`. `made.json` there has what came of it, with
the sum of the mix text, and is written last: where it isn't there, or has another sum, the files are of another mix.

To predict what cuts will leave, `render` runs alone, in a folder that goes afterwards: it says what the null test will
find at the bits that it makes."""
import asyncio
import contextlib
import json
import os
import re
import signal
import sys
import tempfile
from collections.abc import Callable
from dataclasses import dataclass, field
from typing import Any

from desk import mixes
from dsdarc_scripts import program
from dsdarc_scripts.explained import shown_name
from dsdarc_scripts.outputs import Refused

FOLDER = ".made"
DONE = "made.json"
MOVED = ".moved.mix.toml"  # the mix whose cuts moved
MASTERS = {"dsdiff": ".dff", "dsf": ".dsf"}
ENDINGS = (*MASTERS.values(), ".cert", ".mix.toml", ".report.txt", ".toml", ".new.dff", MOVED)
STEPS = ("render", "edit", "check", "nulltest")
SAYS = {
    "render": "new bits where the mix changes",
    "edit": "the master, cut from takes and new bits",
    "check": "whether it holds the takes' bits",
    "nulltest": "whether it sounds like the mix",
}
MOST_LINES = 20_000
MOST_MOVE = 100_000  # us that a cut may move
# What the file of what came of it has.
KEYS = {"sum", "endings", "sizes", "master", "share", "residual", "accepted", "checked", "cuts", "new"}
NEW = re.compile(r"new bits from (\S+) to (\S+) \(bits (\d+) to (\d+)\): ([^;]*)(.*)")
OF_CHANNEL = re.compile(r"channel (\d+) residual (-?[\d.]+|-inf) dB")
MOVE = re.compile(
    r"channel (\d+): the (\w+) from \S+ to \S+ \(bits (\d+) to (\d+)\) comes ([\d.]+) us (earlier|later); .*"
)
STRETCH = re.compile(r"channel (\d+) first (\d+) last (\d+) residual (\d+) dBFS (-?[\d.]+|-inf) place (\d+)")
SHARE = re.compile(r"([\d.]+) % of the master's bits are its takes' own")
ACCEPTED = re.compile(r"accepted residual (\d+) dBFS (-?[\d.]+|-inf)")
CHECKED = re.compile(r"accepted total (\d+)")

Say = Callable[[dict[str, Any]], None]
Demand = Callable[[str, str], str]


def base_of(name: str) -> str:
    """What a mix is called without its endings."""
    for ending in (".mix.toml", ".toml"):
        if name.endswith(ending) and len(name) > len(ending):
            return name[: -len(ending)]
    return name


def level_of(text: str) -> float | None:
    return None if text == "-inf" else float(text)


@dataclass(frozen=True)
class Wanted:
    """What is to be made: the text of a mix, how many places it has, and by how much cuts may move (us)."""

    data: bytes
    places: int
    move: int


@dataclass
class Result:
    """What came of it: new bits, cuts that moved, stretches that the null test judged, and what was accepted."""

    new: list[dict[str, Any]] = field(default_factory=list)
    moves: list[dict[str, Any]] = field(default_factory=list)
    stretches: list[dict[str, Any]] = field(default_factory=list)
    share: float | None = None
    residual: float | None = None
    is_accepted: bool = False
    is_checked: bool = False

    def take(self, line: str) -> None:
        """Takes a line that a command printed."""
        if it := NEW.fullmatch(line):
            rows = {channel: level_of(level) for channel, level in OF_CHANNEL.findall(it[6])}
            self.new.append({"first": int(it[3]), "stop": int(it[4]), "why": it[5], "expected": rows})
        elif it := MOVE.fullmatch(line):
            away = float(it[5]) * (1 if it[6] == "later" else -1)
            row = {"channel": int(it[1]), "what": it[2], "first": int(it[3]), "stop": int(it[4]), "us": away}
            self.moves.append(row)
        elif it := STRETCH.fullmatch(line):
            row = {"channel": int(it[1]), "first": int(it[2]), "last": int(it[3])}
            self.stretches.append(row | {"db": level_of(it[5]), "place": int(it[6])})
        elif it := SHARE.fullmatch(line):
            self.share = float(it[1])
        elif it := ACCEPTED.fullmatch(line):
            self.is_accepted, self.residual = True, level_of(it[2])
        elif CHECKED.fullmatch(line):
            self.is_checked = True

    def cuts(self) -> list[dict[str, Any]]:
        """The places where something was judged: the stretches of all channels that meet, with what is left of each
        channel, and why there are new bits."""
        found = list[dict[str, Any]]()
        for it in sorted(self.stretches, key=lambda it: (it["first"], it["channel"])):
            if not found or it["first"] > found[-1]["last"]:
                found.append({"first": it["first"], "last": it["last"], "db": {}, "why": "", "new": None})
            cut = found[-1]
            cut["last"] = max(cut["last"], it["last"])
            known = cut["db"].get(it["channel"])
            if it["db"] is not None and (known is None or it["db"] > known):
                cut["db"][it["channel"]] = it["db"]
            else:
                cut["db"].setdefault(it["channel"], it["db"])
        for cut in found:
            for it in self.new:
                if it["first"] <= cut["last"] and it["stop"] > cut["first"]:
                    parts = [*filter(None, cut["why"].split(", ")), *it["why"].split(", ")]
                    cut["why"] = ", ".join(dict.fromkeys(parts))
                    low, high = cut["new"] or (it["first"], it["stop"])
                    cut["new"] = [min(low, it["first"]), max(high, it["stop"])]
        return found

    def expected(self) -> list[dict[str, Any]]:
        """The same before there is a master: what each stretch of new bits will leave."""
        rows = []
        for it in self.new:
            row = {"first": it["first"], "last": it["stop"] - 1, "db": it["expected"], "why": it["why"]}
            rows.append(row | {"new": [it["first"], it["stop"]]})
        return rows


class Maker:
    """Makes masters of the mix of a path. `say` is told of each step and line; `demand` refuses a path that leads out of
    the folders that were named."""

    def __init__(self, path: str, say: Say, demand: Demand) -> None:
        self.path, self.say, self.demand = path, say, demand
        self.top, name = os.path.split(path)
        self.base = base_of(name)
        self.folder = os.path.join(self.top, f"{self.base}{FOLDER}")
        self.child: asyncio.subprocess.Process | None = None
        self.task: asyncio.Task[None] | None = None
        self.is_stopped = False
        self.predicted: dict[str, Any] | None = None
        self.state: dict[str, Any] = {"running": False}

    def file(self, ending: str) -> str:
        return os.path.join(self.folder, f"{self.base}{ending}")

    def named(self, ending: str) -> str:
        """The name of a file as seen from the folder of the mix, as its takes are."""
        return os.path.join(f"{self.base}{FOLDER}", f"{self.base}{ending}")

    def demand_inside(self) -> None:
        """No link leads out of the folders that were named, in place of the folder of the master or of a file in it."""
        self.demand(self.folder, "the folder of the master")
        for it in (os.path.join(self.folder, DONE), *map(self.file, ENDINGS)):
            self.demand(it, "a file of the master")

    def result(self) -> dict[str, Any] | None:
        """What came of the last making, if its files are there."""
        try:
            if not os.path.lexists(self.folder):
                return None
            self.demand_inside()
            with open(os.path.join(self.folder, DONE), "rb") as file:
                found = json.loads(file.read(1 << 26))
            is_whole = isinstance(found, dict) and KEYS <= set(found) and set(found["endings"]) <= set(ENDINGS)
            is_whole = is_whole and found["master"] in found["endings"] and found["master"] in MASTERS.values()
            return found if is_whole and all(os.path.isfile(self.file(it)) for it in found["endings"]) else None
        except (OSError, ValueError, KeyError, TypeError, RecursionError, Refused):
            return None

    def start(self, wanted: Wanted, predicts: bool) -> None:
        """Begins to make a master, or to predict what its cuts will leave."""
        self.is_stopped = False
        self.state = {"running": True, "step": STEPS[0], "part": 0.0, "lines": [], "why": None, "predicts": predicts}
        call = self.predict(wanted) if predicts else self.make(wanted)
        self.task = asyncio.get_running_loop().create_task(call)

    async def stop(self) -> None:
        """Ends what runs, and waits until it has ended."""
        self.is_stopped = True
        self.end_child()
        if self.task is not None:
            with contextlib.suppress(asyncio.CancelledError):
                await self.task

    def end_child(self) -> None:
        if self.child is not None and self.child.returncode is None:
            with contextlib.suppress(ProcessLookupError):
                os.killpg(self.child.pid, signal.SIGTERM)

    def told(self, **news: Any) -> None:
        self.state |= news
        self.say({"make": {key: it for key, it in self.state.items() if key != "lines"}})

    def line(self, text: str) -> None:
        if len(self.state["lines"]) < MOST_LINES:
            self.state["lines"].append(text)
            self.say({"line": text})

    async def predict(self, wanted: Wanted) -> None:
        """Makes the new bits alone, and notes what they leave."""
        result, why, self.predicted = Result(), None, None
        try:
            with tempfile.TemporaryDirectory(prefix="dsdarc-desk-") as folder:
                paths = {it: os.path.join(folder, f"it{it}") for it in (".mix.toml", ".toml", ".new.dff", MOVED)}
                with open(paths[".mix.toml"], "xb") as file:
                    file.write(wanted.data)
                status, last = await self.run([*self.render(paths, wanted.move), "--keep-going"], result, wanted.places)
            if self.is_stopped:
                why = "stopped"
            elif status and not (status == 1 and result.share is not None):
                why = f"render: {last or f'it ended with status {status}'}"
            else:
                found = {"cuts": result.expected(), "share": result.share, "moves": result.moves}
                self.predicted = found | {"move": wanted.move}
        except OSError as error:
            why = f"{shown_name(str(error.filename))}: {error.strerror}"
        except asyncio.CancelledError:
            why = "stopped"
        self.told(running=False, why=why, done=why is None)

    async def make(self, wanted: Wanted) -> None:
        """Runs all steps, and notes what came of them."""
        result, form = Result(), "dsdiff" if wanted.places % 8 == 0 else "dsf"
        master = MASTERS[form]
        try:
            self.demand_inside()
            os.makedirs(self.folder, exist_ok=True)
            with contextlib.suppress(FileNotFoundError):
                os.remove(os.path.join(self.folder, DONE))
            mix = self.file(".mix.toml")
            mixes.write_bytes(mix, wanted.data)
            with contextlib.suppress(FileNotFoundError):
                os.remove(self.file(MOVED))
            why = await self.run_all(result, self.commands(form, master, wanted.move), wanted.places)
            if why is None:
                self.keep(result, wanted, form, master)
        except OSError as error:
            why = f"{shown_name(str(error.filename or self.folder))}: {error.strerror}"
        except Refused as error:
            why = str(error)
        except asyncio.CancelledError:
            why = "stopped"
        self.told(running=False, why=why, done=why is None)

    @staticmethod
    def render(paths: dict[str, str], move: int) -> list[str]:
        """The command that makes new bits; if cuts may move, by so many us, also the mix that has them where they are."""
        script = os.path.join(program.ROOT, "cuts", "render")
        found = [sys.executable, script, paths[".mix.toml"], "-o", paths[".toml"], "--take", paths[".new.dff"]]
        return [*found, "--move", f"{move}us", "--mix", paths[MOVED]] if move else found

    def commands(self, form: str, master: str, move: int) -> list[list[str]]:
        """The command of each step."""
        paths = {it: self.named(it) for it in (".mix.toml", ".toml", ".cert", ".new.dff", MOVED, master)}
        made, run = paths[master], [program.PROGRAM, "--explain"]
        project, cert, judged = paths[".toml"], paths[".cert"], paths[MOVED if move else ".mix.toml"]
        return [
            self.render(paths, move),
            [*run, "edit", form, project, made, cert],
            [*run, "check", project, made, cert],
            [*run, "nulltest", judged, made],
        ]

    async def run_all(self, result: Result, commands: list[list[str]], places: int) -> str | None:
        """Runs the steps; why one failed."""
        for step, command in zip(STEPS, commands):
            if self.is_stopped:
                return "stopped"
            self.told(step=step, part=0.0)
            status, last = await self.run(command, result, places)
            if self.is_stopped:
                return "stopped"
            if status == 1 and step in ("check", "nulltest"):
                return f"{step}: {last}"
            if status:
                return f"{step}: {last or f'it ended with status {status}'}"
        return None

    async def run(self, command: list[str], result: Result, places: int) -> tuple[int, str]:
        """Runs a command: its status, and what it said at last."""
        self.line("$ " + " ".join(os.path.basename(it) if os.path.isabs(it) else it for it in command))
        environment = {key: it for key, it in os.environ.items() if key != "DSDARC_COMMAND"}
        self.child = await asyncio.create_subprocess_exec(
            *command,
            cwd=self.top,
            env=environment,
            stdin=asyncio.subprocess.DEVNULL,
            stdout=asyncio.subprocess.PIPE,
            stderr=asyncio.subprocess.STDOUT,
            limit=1 << 20,
            start_new_session=True,
        )
        if self.is_stopped:
            self.end_child()
        said, output = list[str](), self.child.stdout
        assert output is not None
        while data := await output.readline():
            text = data.decode(errors="replace").rstrip("\r\n")
            result.take(text)
            said.append(text)
            self.line(text)
            if it := NEW.fullmatch(text):
                self.told(part=min(int(it[4]) / max(places, 1), 1.0))
        status = await self.child.wait()
        begins = [number for number, it in enumerate(said) if it.startswith("fault: ")]
        return status, "\n".join(said[begins[-1] :] if begins else said[-1:])

    def keep(self, result: Result, wanted: Wanted, form: str, master: str) -> None:
        """Writes what came of it, and the report."""
        report = "\n".join(self.state["lines"]) + "\n"
        mixes.write_bytes(self.file(".report.txt"), report.encode())
        endings = [master, ".cert", ".mix.toml", ".report.txt", ".toml"]
        endings += [it for it in (".new.dff", MOVED) if os.path.exists(self.file(it))]
        sizes = {it: os.path.getsize(self.file(it)) for it in endings}
        found: dict[str, Any] = {
            "sum": mixes.sum_of(wanted.data),
            "form": form,
            "endings": endings,
            "sizes": sizes,
            "master": master,
        }
        found |= {"share": result.share, "residual": result.residual, "accepted": result.is_accepted}
        found |= {"checked": result.is_checked, "cuts": result.cuts(), "new": result.new}
        found |= {"move": wanted.move, "moves": result.moves}
        mixes.write_bytes(os.path.join(self.folder, DONE), json.dumps(found).encode())
