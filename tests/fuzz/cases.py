"""The cases: each makes files, runs commands over them and demands what has to hold of them together."""
import itertools
import os
import random
import re
import struct
import tomllib
from collections import namedtuple
from collections.abc import Callable, Iterable
from typing import Any

from dsdarc_scripts import waves
from dsdarc_scripts.channels import read as sums_of
from tests.fuzz import bases, bridging, certificates, mutating, projects, reading
from tests.fuzz.judging import STRETCH, Failure, cert_sizes, converted, demand, fault_of, judge_run, info_of, wave_head
from tests.fuzz.running import MEGABYTE, Program, Run
from tests.helpers import dops

# How much memory a run may take: TIMES times the bytes that it reads and writes, and MORE bytes.
TIMES = 4
MORE = 1 * MEGABYTE
# The tables of a filter of 4096 taps, for six channels: some 1.1 MB each.
TABLES = 7 * MEGABYTE // TIMES
# At most this many bounds of a certificate are found here.
MOST_BOUNDS = 20_000
# No run may take more than this; where it should, it may say that it is out of memory.
MOST = 1024 * MEGABYTE
# A long file has at least this many bytes of sound.
LONG = 2 * MEGABYTE
FORMS = ("dsdiff", "dsf", "dsf8")
MEMORY = b"fault: Memory\n"
OLD = b"what was here before"


class Case:
    """One case: its files, its runs and what was done to the files."""

    def __init__(self, program: Program, rng: random.Random, note: Callable[[Run], None]) -> None:
        self.program, self.rng, self.note = program, rng, note
        self.changes: list[object] = []
        self.files: dict[str, bytes] = {}
        self.made: set[str] = set()
        self.limit_part: float | None = None
        for name in os.listdir(program.folder):
            os.remove(os.path.join(program.folder, name))

    def path(self, name: str) -> str:
        return os.path.join(self.program.folder, name)

    def put(self, name: str, data: bytes) -> None:
        self.files[name] = data
        with open(self.path(name), "wb") as file:
            file.write(data)

    def get(self, name: str) -> bytes:
        demand(self.has(name), f"{name} isn't there")
        with open(self.path(name), "rb") as file:
            return file.read()

    def has(self, name: str) -> bool:
        return os.path.exists(self.path(name))

    def take(self, name: str) -> None:
        """A file that the program wrote: it is one of the case's files from now on."""
        self.files[name] = self.get(name)

    def run(self, arguments: list[str], made: Iterable[str] = (), more: int = 0, source: str | None = None) -> Run:
        """Runs the program, and demands what holds of every run. `made` are the files that it may make or write, `more`
        bytes of memory that the files' sizes don't show."""
        read = sum(map(len, self.files.values()))
        need = TIMES * (read + more) + MORE
        limit = self.program.start + int(min(need, MOST) * (1.0 if self.limit_part is None else self.limit_part))
        run = self.program.run(arguments, limit, source and self.path(source))
        self.note(run)
        judge_run(run, self.limit_part is not None or need > MOST)
        for name, data in self.files.items():
            if name not in made:
                demand(self.get(name) == data, f"{name} was changed")
        self.made |= set(made)
        extra = set(os.listdir(self.program.folder)) - set(self.files) - self.made
        demand(not extra, f"made {extra}")
        return run

    def demand_unmade(self, run: Run, *names: str) -> None:
        """After a fault no file is made, and one that was there is as it was."""
        for name in names:
            if name in self.files:
                demand(self.get(name) == self.files[name], f"{name} was written, though {run.err!r}")
            else:
                demand(not self.has(name), f"{name} was made, though {run.err!r}")

    def demand_made(self, *names: str) -> None:
        for name in names:
            self.take(name)


def name_now_and_then(case: Case, name: str) -> str:
    """An output's name is that of a file before, now and then."""
    if case.rng.random() < 0.1:
        case.put(name, OLD)
    return name


# Recordings.


def a_recording(case: Case) -> tuple[bases.Base, bytes, bool]:
    base = case.rng.choice(bases.recordings(case.rng))
    if case.rng.random() < 0.1:
        case.changes = [base.name, "change_sound"]
        return base, mutating.change_sound(case.rng, base), True
    data, names = mutating.mutate_recording(case.rng, base)
    case.changes = [base.name, *names]
    return base, data, False


def convert(case: Case, info: dict[str, Any], form: str, source: str, out: str) -> dict[str, Any] | None:
    """Converts a file that is read as `info`. Answers what is read of the other file, or None where there is none."""
    run = case.run(["convert", form, source, out], made=[out], more=6 * 4096)
    if form == "dsdiff" and info["samples"] % 8:
        demand(run.err == b"fault: NotWholeBytes\n", "a channel ends inside a byte")
        case.demand_unmade(run, out)
        return None
    expected, dropped = converted(info, form)
    demand(run.out == b"converted dropped %d\n" % dropped, f"{dropped} parts have no place there")
    case.demand_made(out)
    there = info_of(case.run(["info", out]))
    demand(there == expected, f"the written file has {there}, not {expected}")
    return there


def convert_and_back(case: Case, info: dict[str, Any], source: str) -> dict[str, Any] | None:
    """Converts a file, back, and once more: the first and the last are equal."""
    form = case.rng.choice(FORMS)
    there = convert(case, info, form, source, name_now_and_then(case, "out"))
    if there:
        back = convert(case, there, info["form"], "out", "back")
        if back:
            convert(case, back, form, "back", "again")
            demand(case.get("again") == case.get("out"), "converted, back, and once more is another file")
    return there


def play(case: Case, info: dict[str, Any], source: str, out: str, decimate: dict[str, Any]) -> bytes | None:
    """Plays a file that is read as `info` by a valid project."""
    through = case.rng.random() < 0.1
    arguments = ["play", "project", "/dev/stdin" if through else source, out]
    run = case.run(arguments, made=[out], source=source if through else None)
    if info["rate"] % decimate["factor"]:
        demand(run.err == b"fault: RateNotDivided\n", "the factor doesn't divide the rate")
        demand(case.get(out) == b"", "written before the rate was looked at")
        return None
    head, size = wave_head(info, decimate["factor"], decimate["width"])
    demand(run.out == b"played %d bytes\n" % size, f"{size} bytes are played")
    wave = case.get(out)
    demand(wave.startswith(head) and len(wave) == size, "the WAVE file isn't of that sound")
    return wave


def refuse_to_play(case: Case, run: Run, out: str) -> None:
    """What is left of a WAVE file after a fault: nothing where it comes before the first write, else a prefix."""
    demand(run.status == 2, "played, but not read")
    left = case.get(out)
    if run.err != b"fault: FileRefused\n":
        demand(left == b"", "written before the first fault was looked for")
    demand(left[:4] == b"RIFF"[: len(left)], "what is left is no prefix of a WAVE file")


def described(case: Case, name: str, data: bytes, is_sound: bool) -> tuple[Run, dict[str, Any] | None, Any]:
    """What `info` prints of a file, or None: as a plain reading of it has it, the refusal too."""
    run = case.run(["info", name])
    try:
        expected, bit_at = reading.read(data)
    except reading.Refused as refused:
        demand(not is_sound, "only the sound was changed")
        demand(run.err.decode() == f"fault: FileUnread {refused}\n", f"not refused as {refused}")
        return run, None, None
    demand(run.status == 0, f"refused, but it holds {expected}")
    demand(info_of(run) == expected, f"it holds {expected}")
    return run, expected, bit_at


def judge_bits(case: Case, info: dict[str, Any], bit_at: Callable[[int, int], int], name: str) -> None:
    """Whether another file of the same recording has the same bits: at some places of each channel."""
    _, other = reading.read(case.get(name))
    count = info["samples"]
    for channel in range(info["channels"] if count else 0):
        for place in {0, count - 1, *(case.rng.randrange(count) for _ in range(20))}:
            demand(
                bit_at(channel, place) == other(channel, place), f"another bit of channel {channel} at place {place}"
            )


def judge_samples(
    case: Case, info: dict[str, Any], bit_at: Callable[[int, int], int], decimate: dict[str, Any], wave: bytes
) -> None:
    """Whether a WAVE file holds the samples of a recording: some of each channel."""
    samples, channels, size = waves.read(wave).samples, info["channels"], decimate["width"] // 8
    frames = -(-info["samples"] // decimate["factor"])
    for channel in range(channels if frames else 0):
        for number in {0, frames - 1, case.rng.randrange(frames)}:
            at = (number * channels + channel) * size
            found = int.from_bytes(samples[at : at + size], "little", signed=True)
            expected = reading.sample(info, bit_at, decimate, channel, number)
            demand(found == expected, f"sample {number} of channel {channel} is {found}, not {expected}")


def refuse_to_convert(case: Case, seen: Run) -> None:
    """A file that `info` refuses is refused by `convert` as well, and nothing is made."""
    run = case.run(["convert", case.rng.choice(FORMS), "in", name_now_and_then(case, "out")], made=["out"])
    demand(run.status == 2 and run.err == seen.err, "info and convert name two faults")
    case.demand_unmade(run, "out")


def recording_case(case: Case) -> None:
    """A recording's file: described, converted, back, and played."""
    base, data, is_sound = a_recording(case)
    case.put("in", data)
    text = case.rng.choice(bases.filters())
    decimate = tomllib.loads(text)["decimate"]
    case.put("project", text.encode())
    seen, info, bit_at = described(case, "in", data, is_sound)
    if info is None:
        refuse_to_convert(case, seen)
        run = case.run(["play", "project", "in", "wave"], made=["wave"])
        refuse_to_play(case, run, "wave")
        demand(fault_of(run) in ("FileRefused", "RateNotDivided", "TooLarge"), "refused for another cause")
        return
    if is_sound:
        demand(info == reading.read(base.data)[0], "other sound, and something else is printed")
    there = convert_and_back(case, info, "in")
    wave = play(case, info, "in", "wave", decimate)
    if wave is not None:
        judge_samples(case, info, bit_at, decimate, wave)
    if there:
        judge_bits(case, info, bit_at, "out")
        demand(wave == play(case, there, "out", "other", decimate), "the converted file plays other samples")


def a_long_recording(case: Case) -> bases.Base:
    """A recording of some megabytes."""
    rng, count = case.rng, case.rng.randint(1, 6)
    frames = LONG // count + rng.randrange(LONG // 2 // count)
    if rng.random() < 0.5:
        return bases.dsdiff(rng, "long", count, frames, is_rich=rng.random() < 0.5)
    tag, rest = rng.choice((b"", b"ID3")), rng.choice((0, 8))
    return bases.dsf(
        rng, "long", count, 8 * frames + rng.randrange(8), per_sample=rng.choice((1, 8)), tag=tag, rest=rest
    )


def long_case(case: Case) -> None:
    """A file that is converted as a stream: described, and converted, back and once more, each channel with all its
    bits."""
    base, names = a_long_recording(case), list[str]()
    data = base.data
    if case.rng.random() < 0.5:
        data, names = mutating.mutate_recording(case.rng, base)
    case.changes = [base.kind, *names]
    case.put("in", data)
    seen, info, _ = described(case, "in", data, not names)
    if info is None:
        refuse_to_convert(case, seen)
    elif convert_and_back(case, info, "in"):
        for name in filter(case.has, ("out", "back")):
            demand(sums_of(case.path(name)) == sums_of(case.path("in")), f"{name} holds other bits")


def bytes_of(info: dict[str, Any], bit_at: Callable[[int, int], int]) -> list[bytes]:
    """Each channel of a recording, as bytes with the earliest bit the highest."""
    count = info["samples"]
    texts = ("".join(str(bit_at(c, place)) for place in range(count)) for c in range(info["channels"]))
    return [int(f"1{it.ljust(-(-count // 8) * 8, '0')}", 2).to_bytes(1 + -(-count // 8), "big")[1:] for it in texts]


def dop_case(case: Case) -> None:
    """A recording's file, played as DoP samples; then the WAVE file of some, changed, which is converted as a plain
    reading has it, or refused with its first fault."""
    base = case.rng.choice(bases.recordings(case.rng))
    info, bit_at = reading.read(base.data)
    wave = dops.wave_of(info["rate"], bytes_of(info, bit_at), info["samples"])
    case.put("in", base.data)
    run = case.run(["play", "--dop", "in", "wave"], made=["wave"])
    demand(run.out == b"played %d bytes\n" % len(wave) and case.get("wave") == wave, "another WAVE file of DoP samples")
    data, names = mutating.mutate_wave(case.rng, wave)
    case.changes = [base.name, *names]
    case.put("dop", data)
    form, out = case.rng.choice(FORMS), name_now_and_then(case, "out")
    run = case.run(["convert", "--dop", form, "dop", out], made=[out], more=6 * 4096)
    try:
        bits = dops.read(data)
    except dops.Refused as refused:
        demand(run.err.decode() == f"fault: FileUnread Dop {refused}\n", f"not refused as {refused}")
        case.demand_unmade(run, out)
        return
    if form == "dsdiff" and bits.count % 8:
        demand(run.err == b"fault: NotWholeBytes\n", "a channel ends inside a byte")
        case.demand_unmade(run, out)
        return
    demand(run.out == b"converted dropped 0\n", "not converted")
    there, other = reading.read(case.get(out))
    shape = there["rate"], there["channels"], there["samples"], there["form"]
    demand(shape == (bits.rate, len(bits.channels), bits.count, form), f"converted to {shape}")
    demand(bytes_of(there, other) == bits.channels, "converted with other bits")


UNKNOWN = object()


def play_fault(data: bytes, info: dict[str, Any]) -> object:
    """The fault of playing a file that is read as `info` by a project: None where it is played, UNKNOWN where that isn't
    known."""
    try:
        document = projects.read(data)
    except projects.Fault as fault:
        return f"Project {fault}"
    except projects.Unknown:
        return UNKNOWN
    if "decimate" not in document:
        return "NoDecimation"
    return "RateNotDivided" if info["rate"] % document["decimate"]["factor"] else None


def edit_fault(case: Case, data: bytes, form: str) -> object:
    try:
        return projects.edit_fault(data, case.program.folder, form)
    except projects.Unknown:
        return UNKNOWN


def judge_refusal(run: Run, expected: object) -> None:
    if expected is UNKNOWN:
        return
    if expected is None:
        demand(run.status == 0, "refused, though nothing is wrong with it")
    else:
        demand(run.err.decode() == f"fault: {expected}\n", f"not refused as {expected}")


def filter_case(case: Case) -> None:
    """A project that plays, changed, and a valid file."""
    data, names = mutating.mutate_project(case.rng, case.rng.choice(bases.filters()).encode())
    base = case.rng.choice(bases.recordings(case.rng))
    case.changes = [base.name, *names]
    case.put("project", data)
    case.put("in", base.data)
    run = case.run(["play", "project", "in", "wave"], made=["wave"], more=TABLES)
    judge_refusal(run, play_fault(data, reading.read(base.data)[0]))
    if run.status == 0:
        wave = case.get("wave")
        demand(run.out == b"played %d bytes\n" % len(wave), "another number of bytes was written")
        demand(wave[:4] == b"RIFF" and struct.unpack("<I", wave[4:8])[0] == len(wave) - 8, "no WAVE file")
        return
    demand(case.get("wave") == b"", "written before the project was read")
    other = case.run(["edit", "dsf", "project", "master", "cert"], made=[])
    if fault_of(run).startswith("Project"):
        demand(other.err == run.err, "play and edit name two faults of one project")
    else:
        demand(fault_of(other) == "NoSplice" or "splice" in data.decode(errors="replace"), "cut without a splice")


# Masters.


Plan = namedtuple("Plan", "weights cues bridges")


def plan_of(data: bytes) -> Plan | None:
    """The number of weights, and the lengths of the cues and bridges, of a project's text: None where it is none."""
    try:
        splice = tomllib.loads(data.decode().removeprefix("\ufeff"))["splice"]
        plan = Plan(
            len(splice["weights"]),
            [it["stop"] - it["start"] for it in splice["cue"]],
            [it.get("bridge", 0) for it in splice["cue"]],
        )
    except (ArithmeticError, AttributeError, KeyError, TypeError, ValueError, RecursionError):
        return None
    numbers = plan.cues + plan.bridges
    is_plan = all(type(it) is int and 0 <= it <= 2**36 for it in numbers) and 2 <= plan.weights <= 12
    return plan if is_plan else None


def room_of(case: Case, name: str) -> int:
    """How much a master and its certificate may take beyond what the files show. No cue that is longer than a take
    comes so far, and no bridge of more than 4096 bits."""
    plan = plan_of(case.files[name])
    if plan is None:
        return 8 * MEGABYTE
    longest = 8 * max(map(len, case.files.values()))
    bridges = [it for it in plan.bridges if it <= 4096]
    bits = sum(it for it in plan.cues if it <= longest) + sum(bridges)
    return cert_sizes(plan.weights, 6, bridges)[1] + 6 * (bits // 8 + 2 * 4096)


def put_takes(case: Case, cut: bases.Cut, can_change: bool) -> None:
    for name, base in cut.takes.items():
        data = base.data
        if can_change and case.rng.random() < 0.5:
            data, names = mutating.mutate_recording(case.rng, base)
            case.changes.append(names)
        case.put(name, data)


def cut_case(case: Case) -> None:
    """A project that cuts or its takes, changed: cut, cut again, and checked."""
    cut = case.rng.choice(bases.cuts(case.rng))
    data = cut.project.encode()
    case.changes = [cut.name]
    which = case.rng.random()
    if which < 0.7:
        data, names = mutating.mutate_project(case.rng, data)
        case.changes += names
    put_takes(case, cut, which >= 0.6)
    case.put("project", data)
    room = room_of(case, "project")
    form = case.rng.choice(FORMS)
    master, cert = name_now_and_then(case, "master"), name_now_and_then(case, "cert")
    expected = edit_fault(case, data, form)
    run = case.run(["edit", form, "project", master, cert], made=[master, cert], more=room)
    if run.err != MEMORY:
        judge_refusal(run, expected)
    if run.status == 2:
        case.demand_unmade(run, master, cert)
        return
    case.demand_made(master, cert)
    judge_cut(case, data, form, run, room)


def judge_cut(case: Case, data: bytes, form: str, run: Run, room: int) -> None:
    """A master that was cut: what `info` prints of it, that it is accepted, and that it is cut again."""
    info = info_of(case.run(["info", "master"], more=room))
    demand(info["form"] == form and info["others"] == 0 and info["tag"] == 0, "another master")
    plan = plan_of(data)
    if plan:
        demand(info["samples"] == sum(plan.cues + plan.bridges), "another length than the cues and bridges have")
        least, most = cert_sizes(plan.weights, info["channels"], plan.bridges)
        demand(least <= len(case.files["cert"]) <= most, "another length of the certificate")
    total = run.out.decode().split()[-1]
    judge_bridges(case, data, total)
    checked = case.run(["check", "project", "master", "cert"], more=room)
    demand(checked.out.decode() == f"accepted total {total}\n", "the own master isn't accepted")
    if case.rng.random() < 0.2:
        case.run(["edit", form, "project", "master", "cert"], made=["master", "cert"], more=room)
        demand(
            case.get("master") == case.files["master"] and case.get("cert") == case.files["cert"],
            "cut again it is another",
        )


def splice_of(case: Case, data: bytes) -> tuple[list[int], list[list[list[int]]], list[bases.Cue]]:
    """The weights of a project's text, the bits of its takes, and its cues."""
    splice, cues = projects.read(data)["splice"], []
    takes = [reading.bits_of(projects.bytes_of(case.program.folder, name)) for name in splice["takes"]]
    for it in splice["cue"]:
        cues.append(bases.Cue(it["take"], it["start"], it["stop"], it.get("bridge", 0), line=it.get("line")))
    return splice["weights"], takes, cues


def judge_bridges(case: Case, data: bytes, total: str) -> None:
    """Whether the bits of a master are those of the cues, its bridges cost what is printed, and its certificate has the
    bounds that come of them, where these aren't too many to be found here."""
    try:
        splice = splice_of(case, data)
    except projects.Unknown:
        return
    channels = reading.bits_of(case.files["master"])
    found = bridging.total_of(*splice, channels)
    demand(found is not None, "other bits in a cue")
    demand(str(found) == total, f"the bridges cost {found}")
    weights, _, cues = splice
    if len(channels) * sum(it.bridge + 1 for it in cues if it.bridge) * 2 ** (len(weights) - 1) <= MOST_BOUNDS:
        cert = bridging.written(weights, bridging.entries_of(*splice, channels))
        demand(case.files["cert"] == cert, "another certificate")


def check_case(case: Case) -> None:
    """A master and its certificate, either changed: judged."""
    cut = case.rng.choice(bases.cuts(case.rng))
    form = case.rng.choice(cut.forms)
    put_takes(case, cut, False)
    case.put("project", cut.project.encode())
    room = room_of(case, "project")
    run = case.run(["edit", form, "project", "master", "cert"], made=["master", "cert"], more=room)
    demand(run.status == 0, "a valid project isn't cut")
    case.demand_made("master", "cert")
    total = run.out.decode().split()[-1]
    case.changes = [cut.name, form]
    change = case.rng.choice(CHECK_CHANGES)
    expected = change(case, cut, form)
    run = case.run(["check", "project", "master", "cert"], more=room)
    demand(run.status in (0, 1), "a fault, though project and takes are valid")
    if run.status == 0:
        # No other bits cost less than those of a least master, so every master that is accepted costs the same.
        demand(run.out.decode() == f"accepted total {total}\n", "accepted at another total")
    if expected is not None:
        demand(re.fullmatch(expected, run.out.decode()), f"not {expected!r}")


def cut_certificate(case: Case, cut: bases.Cut, form: str) -> str:
    """The prefix of a certificate of either version: which entry is cut is known."""
    version = case.rng.choice((1, 2))
    weights, entries = certificates.read(case.files["cert"])
    data = certificates.spelled(version, weights, entries)
    size = case.rng.randrange(len(data))
    case.changes.append(f"version {version} cut to {size}")
    case.put("cert", data[:size])
    if size < 12:
        return "rejected CertHead Cut\n"
    stops = (len(certificates.spelled(version, weights, entries[: k + 1])) for k in range(len(entries)))
    return f"rejected Cert {sum(stop <= size for stop in stops)} Cut\n"


def lengthened_certificate(case: Case, cut: bases.Cut, form: str) -> str:
    case.changes.append("lengthened")
    case.put("cert", case.files["cert"] + case.rng.randbytes(case.rng.choice((1, 8, 5000))))
    return "rejected CertExtra\n"


def changed_certificate(case: Case, cut: bases.Cut, form: str) -> str:
    """A certificate of either version, its bounds cut at the cost or not, changed: a plain reading says what it
    shows."""
    splice, channels = splice_of(case, case.files["project"]), reading.bits_of(case.files["master"])
    weights, entries = certificates.read(case.files["cert"])
    if case.rng.random() < 0.5:
        entries = bridging.entries_of(*splice, channels)
    data, names = mutating.mutate_certificate(case.rng, weights, entries)
    case.changes += names
    case.put("cert", data)
    return bridging.verdict(*splice, channels, data)


def master_base(case: Case, form: str) -> bases.Base:
    """The master as a file to be mutated: as written, the sound of a DSDIFF master comes after `DSD ` and its size."""
    data = case.files["master"]
    if form != "dsdiff":
        return bases.Base("master", "dsf", data, None, (92, len(data)))
    at = data.index(b"DSD ", data.index(b"not compressed"))
    size = int.from_bytes(data[at + 4 : at + 12], "big")
    return bases.Base("master", "dsdiff", data, None, (at + 12, at + 12 + size))


def changed_master(case: Case, cut: bases.Cut, form: str) -> None:
    data, names = mutating.mutate_recording(case.rng, master_base(case, form))
    case.changes += names
    case.put("master", data)
    return None


def channels_of(cut: bases.Cut) -> int:
    """How many channels a cut's takes have."""
    tree = next(iter(cut.takes.values())).tree
    (channels,) = (node[1][:2] for node in tree[2][1][2] if node[0] == b"CHNL")
    return int.from_bytes(channels, "big")


def bit_of_master(case: Case, cut: bases.Cut, form: str) -> str:
    """One bit of a master turned: in a cue its place is reported, in a bridge the certificate doesn't show it to be
    least, unless it costs as little."""
    base = master_base(case, form)
    plan, channels = plan_of(case.files["project"]), channels_of(cut)
    assert plan
    channel, place = case.rng.randrange(channels), case.rng.randrange(sum(plan.cues + plan.bridges))
    case.changes.append(f"bit {place} of channel {channel}")
    if form == "dsdiff":
        at, bit = place // 8 * channels + channel, 7 - place % 8
    else:
        at = ((place // 32768) * channels + channel) * 4096 + place % 32768 // 8
        bit = place % 8 if form == "dsf" else 7 - place % 8
    data = bytearray(base.data)
    data[base.sound[0] + at] ^= 1 << bit
    case.put("master", bytes(data))
    if is_in_cue(plan, place):
        return f"rejected CuedBit {channel} {place}\n"
    return r"accepted total \d+\n|rejected Cert \d+ Cost\n"


def is_in_cue(plan: Plan, place: int) -> bool:
    for cue, bridge in zip(plan.cues, plan.bridges):
        if place < cue + bridge:
            return place < cue
        place -= cue + bridge
    raise Failure("a place after the master's end")


def small_takes(rng: random.Random, channels: int) -> list[tuple[bytes, list[list[int]]]]:
    """Two takes of 128 bits a channel, their channels as lists too: bits by chance, or such as leave bridges that tie."""
    kind = rng.randrange(3)
    takes = []
    for _ in range(2):
        sounds = [rng.randbytes(16) if kind == 0 else bytes([rng.choice((0, 255, 85))] * 16) for _ in range(channels)]
        bits = [[byte >> (7 - k) & 1 for byte in sound for k in range(8)] for sound in sounds]
        takes.append((bytes(itertools.chain.from_iterable(zip(*sounds))), bits))
    return takes


def small_line(rng: random.Random) -> Any:
    """The ends of a line, or None for a fade."""
    most = rng.choice((None, 9, 4096))
    return most and tuple(rng.choice((-most, 0, most, rng.randint(-most, most))) for _ in range(2))


def small_cues(rng: random.Random, weights: int) -> list[bases.Cue]:
    """Up to three cues, whose bridges are short enough to try all lists of bits. Some begin and stop as near to the ends
    of their takes as their fades allow; a line allows all."""
    number, before, cues = rng.randint(1, 3), 0, []
    for k in range(number):
        length, line = rng.randint(0, 6) if k < number - 1 else 0, small_line(rng)
        is_fade = length > 0 and line is None
        start = rng.choice((before, rng.randint(20, 60)))
        stop = rng.choice((128 - length if is_fade else 128, start + rng.randint(weights - 1, 20)))
        cues.append(bases.Cue(rng.randrange(2), start, stop, length, None, line))
        before = length + weights - 1 if is_fade else 0
    return cues


def bridge_case(case: Case) -> None:
    """A small valid project: its master, certificate and total are those that trying all lists of bits finds."""
    rng = case.rng
    weights = [rng.choice((0, 1, -1, 2, rng.randint(-800, 800))) for _ in range(rng.randint(2, 5))]
    takes, cues, form = small_takes(rng, rng.randint(1, 3)), small_cues(rng, len(weights)), rng.choice(FORMS)
    for name, (sound, bits) in zip(("a.dff", "b.dff"), takes):
        case.put(name, bases.dsdiff_of(len(bits), sound))
    case.put("project", bases.splice_text(weights, ("a.dff", "b.dff"), cues).encode())
    case.changes = ["bridges"]
    channels, entries, total = bridging.master(weights, [bits for _, bits in takes], cues)
    room = room_of(case, "project")
    run = case.run(["edit", form, "project", "master", "cert"], made=["master", "cert"], more=room)
    if form == "dsdiff" and len(channels[0]) % 8:
        demand(run.err == b"fault: NotWholeBytes\n", "a master that ends inside a byte")
        return
    demand(run.out == b"edited total %d\n" % total, f"the bridges cost {total}")
    case.demand_made("master", "cert")
    demand(case.files["cert"] == bridging.written(weights, entries), "another certificate")
    for number, (held, kept) in enumerate(zip(reading.bits_of(case.files["master"]), channels, strict=True)):
        demand(held == kept, f"other bits of channel {number}")
    for cert in certificates.spellings(len(weights), entries):
        case.put("cert", cert)
        run = case.run(["check", "project", "master", "cert"], more=room)
        demand(run.out == b"accepted total %d\n" % total, "not accepted")


CHECK_CHANGES = (cut_certificate, lengthened_certificate, *[changed_certificate] * 3, changed_master, bit_of_master)


# Null tests.

MIX = """[mix]
unit = {unit}
audible = {audible}
limit = {limit}
every = {every}
takes = ["a.dff", "b.dff"]

[[mix.decoder]]
taps = {decoder}

[[mix.clip]]
take = 0
start = 0
at = 0
length = {cut}
gain = [[{fade}, 16777216], [{cut}, 0]]

[[mix.clip]]
take = 1
start = {fade}
at = {fade}
length = {left}
gains = [[[0, 0], [{ramp}, {gain}]]]
"""


def mix_of(rng: random.Random, places: int) -> bytes:
    """A mix that fades from one take to the other, of one channel."""
    fade = rng.randrange(places - 1)
    cut = rng.randrange(fade + 1, places)
    numbers = {"fade": fade, "cut": cut, "ramp": cut - fade, "left": places - fade}
    taps = {name: [rng.randrange(1, 9) for _ in range(rng.choice((1, 3, 9)))] for name in ("audible", "decoder")}
    numbers |= {
        "unit": rng.randrange(1, 40),
        "every": rng.choice((1, 1, 7)),
        "gain": rng.choice((1 << 24, -9, 1 << 25)),
    }
    return MIX.format(limit=rng.choice((0, 100, 2**62)), **numbers, **taps).encode()


def null_case(case: Case) -> None:
    """A mix text, its takes and a master, of which one is changed."""
    frames = case.rng.randrange(8, 400)
    recordings = {name: bases.dsdiff(case.rng, name, 1, frames) for name in ("a.dff", "b.dff", "master")}
    files = {name: base.data for name, base in recordings.items()} | {"mix": mix_of(case.rng, 8 * frames)}
    files["master"] = files[case.rng.choice(("a.dff", "b.dff", "master"))]
    changed = case.rng.choice(("mix", "mix", "a.dff", "b.dff", "master", None))
    if changed == "mix":
        files["mix"], names = mutating.mutate_project(case.rng, files["mix"])
        case.changes = [*names]
    elif changed:
        files[changed], names = mutating.mutate_recording(case.rng, recordings[changed])
        case.changes = [*names]
    for name, data in files.items():
        case.put(name, data)
    # Each place may be a stretch, which is held and printed.
    run = case.run(["nulltest", "mix", "master"], more=8 * frames * 40)
    demand(changed or run.status < 2, "a mix and files that fit have a fault")
    found = [(int(it[0]), int(it[2])) for it in re.findall(STRETCH, run.out.decode())]
    words = run.out.decode().split()
    if run.status == 0:
        greatest = int(words[-3])
        demand(greatest == max((residual for residual, _ in found), default=0), "accepted at another residual")
    elif words[-3:-2] == ["Residual"]:
        demand(int(words[-1]) in [place for _, place in found], "rejected at a place that no stretch has")


# Arguments and devices.


def arguments_case(case: Case) -> None:
    """Usage errors, and files that can't be read or written."""
    base = case.rng.choice(bases.recordings(case.rng))
    cut = case.rng.choice(bases.cuts(case.rng)[:2])
    put_takes(case, cut, False)
    case.put("in", base.data)
    case.put("project", bases.filters()[0].encode())
    case.put("cutting", cut.project.encode())
    arguments, status, err = case.rng.choice(ARGUMENTS)
    case.changes = [base.name, "arguments"]
    kept = (
        ["master"] if arguments[-2:] == ["master", "/dev/full"] else ["wave"] if arguments[:2] == ["play", "in"] else []
    )
    run = case.run(arguments, made=kept, more=room_of(case, "cutting"))
    demand(run.status == status, f"the status isn't {status}")
    if err:
        demand(run.err.decode() == f"fault: {err}\n", f"the fault isn't {err}")
    for name in kept:
        demand(case.has(name), f"{name} isn't there")


ARGUMENTS: list[tuple[Any, ...]] = [
    ([], 3, "WrongWords"),
    (["inform", "in"], 3, "WrongWords"),
    (["info"], 3, "WrongWords"),
    (["info", "in", "in"], 3, "WrongWords"),
    (["info", "--help"], 3, "WrongWords"),
    (["--version"], 3, "WrongWords"),
    (["convert", "wav", "in", "out"], 3, "UnknownFormName"),
    (["convert", "", "in", "out"], 3, "UnknownFormName"),
    (["convert", "DSF", "in", "out"], 3, "UnknownFormName"),
    (["convert", "dsf", "in"], 3, "WrongWords"),
    (["edit", "dsf9", "cutting", "master", "cert"], 3, "UnknownFormName"),
    (["edit", "dsf", "cutting", "master"], 3, "WrongWords"),
    (["check", "cutting", "master", "cert", "x"], 3, "WrongWords"),
    (["nulltest", "project"], 3, "WrongWords"),
    (["info", "missing"], 2, "ReadFailed"),
    (["info", "."], 2, "ReadFailed"),
    (["info", "--", "-x"], 2, "ReadFailed"),
    (["info", ""], 2, "ReadFailed"),
    (["info", "x" * 5000], 2, "ReadFailed"),
    (["info", "/dev/null"], 2, "FileUnread UnknownForm"),
    (["convert", "dsf", "missing", "out"], 2, "ReadFailed"),
    (["convert", "dsf", "in", "missing/out"], 2, "WriteFailed"),
    (["convert", "dsf", "in", "."], 2, "WriteFailed"),
    (["convert", "dsf", "in", "/dev/full"], 2, "WriteFailed"),
    (["convert", "--dop", "dsf", "in", "out"], 2, "FileUnread Dop NotWave"),
    (["convert", "--dop", "dsf", "missing", "out"], 2, "ReadFailed"),
    (["convert", "--dop", "wav", "in", "out"], 3, "UnknownFormName"),
    (["play", "--dop", "project", "in", "out"], 3, "WrongWords"),
    (["play", "--dop", "in", "/dev/full"], 2, "WriteFailed"),
    (["play", "--dop", "missing", "out"], 2, "ReadFailed"),
    (["play", "missing", "in", "wave"], 2, "ReadFailed"),
    (["play", "project", "missing", "wave"], 2, "ReadFailed"),
    (["play", "project", "in", "missing/wave"], 2, "WriteFailed"),
    (["play", "project", "in", "/dev/full"], 2, "WriteFailed"),
    (["play", "in", "in", "wave"], 2, "Project NotToml"),
    (["edit", "dsf", "project", "master", "cert"], 2, "NoSplice"),
    (["edit", "dsf", "missing", "master", "cert"], 2, "ReadFailed"),
    (["edit", "dsf", "cutting", "/dev/full", "cert"], 2, "WriteFailed"),
    (["edit", "dsf", "cutting", "missing/master", "cert"], 2, "WriteFailed"),
    (["edit", "dsf", "cutting", "master", "/dev/full"], 2, "WriteFailed"),
    (["check", "cutting", "missing", "cert"], 2, "ReadFailed"),
    (["check", "cutting", "in", "missing"], 2, "ReadFailed"),
    (["check", "cutting", "project", "in"], 1, None),
    (["nulltest", "missing", "in"], 2, "ReadFailed"),
    (["nulltest", "project", "in"], 2, "Mix UnknownKey"),
]


def scarce_case(case: Case) -> None:
    """Larger files under less memory than they take: a run may say that it is out of memory, or nothing at all, but it
    ends by itself and makes no file then. `play` and `convert`, which write while they read, leave a prefix."""
    frames = case.rng.randrange(1000, 200_000)
    for name in ("a.dff", "b.dff"):
        case.put(name, bases.dsdiff(case.rng, name, 1, frames, is_rich=True).data)
    case.put("c.dsf", bases.dsf(case.rng, "c", 2, 4 * frames, tag=b"ID3").data)
    case.put("project", case.rng.choice(bases.filters()).encode())
    cues = [(0, 0, 8 * frames - 2000, 200, "a title"), (1, 3000, 8 * frames)]
    case.put("cutting", bases.splice_text([1] * case.rng.randint(2, 12), ("a.dff", "b.dff"), cues).encode())
    # A line needs no room in the takes, so a short text can ask for a certificate of 10 GB.
    lines = [(0, 0, 16, 4096, None, (12, -12))] * 255 + [(1, 0, 16)]
    case.put("lines", bases.splice_text([1] * 12, ("a.dff", "b.dff"), lines).encode())
    source, form = case.rng.choice(("a.dff", "c.dsf")), case.rng.choice(FORMS)
    arguments = case.rng.choice(
        (
            ["info", source],
            ["convert", form, source, "out"],
            ["play", "project", source, "wave"],
            ["edit", form, "cutting", "master", "cert"],
            ["edit", form, "lines", "master", "cert"],
            ["check", "cutting", "a.dff", "b.dff"],
        )
    )
    case.limit_part = case.rng.random()
    run = case.run(arguments, made=["out", "wave", "master", "cert"])
    demand("lines" not in arguments or run.err == MEMORY, "10 GB within a few megabytes")
    if run.status == 2:
        case.demand_unmade(run, "master", "cert")
    for name, begins in (("wave", (b"RIFF",)), ("out", (b"FRM8", b"DSD "))):
        if case.has(name):
            left = case.get(name)
            demand(any(left[:4] == it[: len(left)] for it in begins), f"what is left in {name} is no prefix of a file")


LARGE = 2**31


def large_file(case: Case) -> dict[str, Any]:
    """Puts a file of two gigabytes that holds only its header, the rest being a hole of zeros. Answers what is read
    of it."""
    if case.rng.random() < 0.5:
        header = bases.dsdiff(case.rng, "large", 1, 0).data
        sizes = ((4, len(header) - 12 + LARGE, "big"), (len(header) - 8, LARGE, "big"))
    else:
        header = bases.dsf(case.rng, "large", 1, 0).data
        sizes = ((64, 8 * LARGE, "little"), (84, 12 + LARGE, "little"))
    info = reading.read(header)[0]
    for at, size, order in sizes:
        header = mutating.put_number(header, at, 8, size, order)
    with open(case.path("large"), "wb") as file:
        file.write(header)
        file.truncate(len(header) + LARGE)
    case.made.add("large")
    return {**info, "samples": 8 * LARGE}


def large_case(case: Case) -> None:
    """A file of two gigabytes, within a few megabytes: it is described and converted, but not played, as its WAVE file
    would be too large; as a project, which is read whole, it is out of memory."""
    info = large_file(case)
    try:
        case.put("project", bases.filters()[0].encode())
        run = case.run(["play", "project", "large", "wave"], made=["wave"])
        demand(run.err == b"fault: TooLarge\n" and case.get("wave") == b"", "a WAVE file of 4 GB")
        case.limit_part = 1.0
        kind = case.rng.choice(("info", "convert", "project"))
        if kind == "info":
            demand(info_of(case.run(["info", "large"])) == info, f"the large file isn't described as {info}")
        elif kind == "convert":
            form = case.rng.choice(FORMS)
            run = case.run(["convert", form, "large", "/dev/null"])
            demand(run.out == b"converted dropped %d\n" % converted(info, form)[1], "the large file isn't converted")
        else:
            run = case.run(["play", "large", "project", "wave"], made=["wave"])
            demand(run.err == MEMORY, "two gigabytes of a project within a few megabytes")
    finally:
        os.remove(case.path("large"))


# How often each case comes.
KINDS = [
    (recording_case, 40),
    (filter_case, 12),
    (cut_case, 20),
    (check_case, 20),
    (arguments_case, 2),
    (scarce_case, 5),
    (null_case, 10),
]
KINDS += [(bridge_case, 3), (long_case, 2), (large_case, 1), (dop_case, 8)]
