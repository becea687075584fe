"""Projects with a table `splice`: read, changed and written again with their order and comments."""
import contextlib
import copy
import sys
import tomllib
from collections.abc import Callable, Iterator
from dataclasses import dataclass
from pathlib import Path
from typing import Any

import numpy as np
import tomlkit

from cuts import hearing, titles
from cuts.seams import Seam, Seams, seams_of
from cuts.takes import Held, Region, Shift, Shifted, Signals, Take, Unread, regions_of, shift_of, unlike, whole_bits
from dsdarc_scripts.outputs import Refused
from dsdarc_scripts.project_texts import MOST_BITS, MOST_CUES, MOST_TAKES, Text, read, shown

LINK = 1e-5  # seconds: a shorter cue between two plain cuts is a link, which has no sound of its own
APART = 40e-3  # seconds at least between cues of one take whose channels are shifted otherwise


@dataclass(frozen=True)
class Spot:
    """A cut: the numbers of the cues before and after it, and what it is: "plain", "bridge", "line", "link" or "seam".
    In the master it begins at `place`, and has `length` bits of its own."""

    before: int
    after: int
    role: str
    place: int
    length: int


def hand_over(one: tomlkit.items.Item, other: tomlkit.items.Item) -> bool:
    """Moves comments and empty lines after the keys of a table, which are those before the next table, to after
    another one's. Returns whether there are any."""
    if not isinstance(one, tomlkit.items.Table) or not isinstance(other, tomlkit.items.Table):
        return False
    for table in (other, one):
        tail, body = list[tuple[tomlkit.items.Key | None, tomlkit.items.Item]](), table.value.body
        while body and isinstance(body[-1][1], (tomlkit.items.Comment, tomlkit.items.Whitespace)):
            tail.insert(0, body.pop())
    other.value.body.extend(tail)
    return bool(tail)


def update(cue: tomlkit.items.Table | tomlkit.items.InlineTable, new: dict) -> None:
    """Sets what is new in a cue."""
    for key in set(cue) - set(new):
        del cue[key]
    for key, value in new.items():
        if cue.get(key) != value:
            cue[key] = value


def insert_into(cues: tomlkit.items.AoT | tomlkit.items.Array, number: int, new: dict) -> None:
    """Puts a new cue into an array of tables, or of inline ones."""
    cue = tomlkit.table() if isinstance(cues, tomlkit.items.AoT) else tomlkit.inline_table()
    cue.update(new)
    if hand_over(cues[number - 1], cue):
        cues[number - 1].value.body.append((None, tomlkit.nl()))
    cues.insert(number, cue)


def opened(text: Text) -> list[Take]:
    """The takes of a project, which are found from the folder that the script runs in, as by the program."""
    takes, names = [], text.data["splice"]["takes"]
    for number, name in enumerate(names):
        try:
            takes.append(Take(name))
        except (Unread, OSError, ValueError) as error:
            fault = f"TakeUnread {number}" if isinstance(error, Unread) else "ReadFailed"
            why = getattr(error, "strerror", None) or str(error)
            raise text.fault(fault, ("splice", "takes", number), f"take {number}, {shown(name)}: {why}") from None
    for number, take in enumerate(takes):
        differing = unlike(take, takes[0])
        if differing:
            why = f"take {number}, {shown(take.name)}, has {differing[0]}, and take 0 has {differing[1]}"
            raise text.fault(f"TakeMismatch {number}", ("splice", "takes", number), why)
    return takes


def written(make: Callable[[], str], data: dict) -> str | None:
    """A text that is made by tomlkit, if it says what it is to say."""
    try:
        text = make()
        return text if tomllib.loads(text) == data else None
    except (tomlkit.exceptions.TOMLKitError, ValueError, LookupError, TypeError, AttributeError):
        return None


class Project:
    """A project and its takes. Its cues are changed as plain tables; `origins` says which of the text each was."""

    def __init__(self, path: Path) -> None:
        self.source = read(path)
        if "splice" not in self.source.data:
            raise self.source.fault("NoSplice", (), "it has no table `splice`")
        splice = self.source.data["splice"]
        self.weights = splice["weights"]
        self.cues: list[dict] = copy.deepcopy(splice["cue"])
        self.names = list(splice["takes"])
        self.takes: list[Signals] = [*opened(self.source)]
        self.records = [seams_of(it) for it in self.takes]
        for take, record in zip(self.takes, self.records):
            if record:
                take.bands = [hearing.USUAL] * take.count
        self.shifts = [self.known_shift(it) for it in self.takes]
        for take, shift in zip(self.takes, self.shifts):
            if shift:
                take.bands = self.takes[self.names.index(shift.take)].bands
        self.seams: Seams | None = None
        self.rate, self.count = self.takes[0].rate, self.takes[0].count
        self.demand_bits()
        self.cues, self.origins = titles.joined(self.cues, self.records)
        self.slot = self.seam_slot()
        self.was_whole = self.length() % 8 == 0

    def known_shift(self, take: Signals) -> Shift | None:
        """How the channels of a take are shifted against those of another one of the project."""
        found = shift_of(take)
        if found is None or found.take not in self.names:
            return None
        source = self.takes[self.names.index(found.take)]
        return found if source is not take and shift_of(source) is None else None

    def demand_bits(self) -> None:
        """The takes have all bits that are asked for."""
        for number, cue in enumerate(self.cues):
            bits = self.take(number).bits
            if cue["stop"] > bits:
                why = f"{cue['stop']} is after the end of take {cue['take']}, which has {bits} bits"
                raise self.fault(f"CueOutside {number}", number, "stop", why)
        if self.length() > MOST_BITS:
            raise self.source.fault("MasterTooLong", ("splice",), "the master has more than 2^36 bits a channel")
        for number, (cue, following) in enumerate(zip(self.cues, self.cues[1:])):
            length = 0 if self.is_line(number) else self.bridge(number)
            if length and following["start"] < length + self.shortest:
                why = f"before bit {following['start']} of its take there is no room for the bridge"
                raise self.fault(f"NoRoomBefore {number}", number + 1, "start", why)
            if length and cue["stop"] + length > self.take(number).bits:
                why = f"after bit {cue['stop']} of its take there is no room for the bridge"
                raise self.fault(f"NoRoomAfter {number}", number, "stop", why)

    @property
    def rows(self) -> list[titles.Row]:
        """The cues as the text is to have them, and the number that each had in it."""
        return [row for it in zip(self.cues, self.origins) for row in titles.rows_of(*it)]

    def fault(self, words: str, cue: int, key: str, why: str) -> Refused:
        return self.source.fault(words, ("splice", "cue", cue, key), why)

    @property
    def inputs(self) -> list[tuple[str, str]]:
        """The files that are read: what each is, and its name."""
        return [("the project", self.source.name), *((f"take {it}", take.name) for it, take in enumerate(self.takes))]

    @property
    def shortest(self) -> int:
        """Bits that each cue has at least."""
        return len(self.weights) - 1

    def least(self, cue: int) -> int:
        """Bits that a cue has to keep: with fewer it would be taken for a link."""
        one = self.cues[cue]
        is_inside = 0 < cue < len(self.cues) - 1
        bits = max(self.shortest, int(np.ceil(LINK * self.rate))) if is_inside else self.shortest
        return min(bits, one["stop"] - one["start"])

    def take(self, cue: int) -> Signals:
        return self.takes[self.cues[cue]["take"]]

    def span(self, cue: int) -> tuple[int, int]:
        """From where to where the bits of a cue's take go on as in the cue."""
        one = self.cues[cue]
        shift = self.shifts[one["take"]] if one["take"] < len(self.shifts) else None
        region = shift.region(one["start"], one["stop"]) if shift else Region(0, self.take(cue).bits, [])
        return region.first, region.stop

    def early(self, cue: int) -> list[int]:
        """How many bits early each channel of a cue comes, against the others."""
        one = self.cues[cue]
        shift = self.shifts[one["take"]]
        return shift.region(one["start"], one["stop"]).early if shift else [0] * self.count

    def origin(self, cue: int) -> int:
        """The take of a cue, or the one whose bits that take has."""
        number = self.cues[cue]["take"]
        shift = self.shifts[number]
        return self.names.index(shift.take) if shift else number

    def is_last_made(self, cue: int) -> bool:
        """Whether nothing that was made depends on how a cue goes on: it isn't followed by a link or a seam."""
        return all(it.role in ("plain", "bridge", "line") for it in self.spots() if it.before == cue)

    def leave_out_shift(self, cue: int) -> None:
        """Lets a cue have the bits of its take's source, unless the cut after it is made for those that it has."""
        number = self.origin(cue)
        if self.is_last_made(cue) and self.cues[cue]["stop"] <= self.takes[number].bits:
            self.cues[cue]["take"] = number

    def used(self, cue: int, reach: int) -> Region:
        """The bits of its take that a cue, and the cuts at both of its ends, need: so many more before its start."""
        first, stop = self.cues[cue]["start"] - reach, self.cues[cue]["stop"]
        for spot in (it for it in self.spots() if cue in (it.before, it.after)):
            seam = self.seam(spot.before + 1) if spot.role == "seam" else None
            links = [it for it in seam.links if it[0] == (spot.after == cue)] if seam else []
            first = min([first - spot.length * (spot.after == cue), *(it[1] for it in links)])
            stop = max([stop + spot.length * (spot.before == cue), *(it[1] + it[2] for it in links)])
        return Region(first, stop, self.early(cue))

    def shift(self, cue: int, early: list[int], name: Callable[[int], str], reach: int) -> None:
        """Lets the channels of a cue, which has the bits of a usual take, come that many bits early: as a cue of a take
        that is made from it, whose name its number gives. The cut before it needs that many more bits of it."""
        source, new = self.cues[cue]["take"], self.used(cue, reach)
        new = Region(new.first, new.stop, early)
        for number, shift in enumerate(self.shifts):
            if shift and shift.take == self.names[source]:
                rows = [self.used(it, 0) for it, one in enumerate(self.cues) if one["take"] == number]
                regions = regions_of([*rows, new], whole_bits(self.takes[source]), round(APART * self.rate))
                if regions:
                    self.put_shifted(cue, number, source, regions, name)
                    return
        self.demand_takes(1)
        number = len(self.takes)
        self.put_shifted(cue, number, source, [Region(0, whole_bits(self.takes[source]), early)], name)

    def put_shifted(
        self, cue: int, number: int, source: int, regions: list[Region], name: Callable[[int], str]
    ) -> None:
        """Makes a take whose channels are shifted, and lets a cue be of it."""
        shift = Shift(self.names[source], regions)
        take = Shifted(name(number), self.takes[source], shift)
        row: tuple[Any, ...] = take, {}, shift, take.name
        for rows, new in zip(self.lists(), row):
            rows[number : number + 1] = [new]
        self.cues[cue]["take"] = number

    def made_shifted(self) -> list[Shifted]:
        """The takes with shifted channels that are to be written."""
        return [it for it in self.takes if isinstance(it, Shifted)]

    def bridge(self, cue: int) -> int:
        return self.cues[cue].get("bridge", 0)

    def is_line(self, cue: int) -> bool:
        return self.cues[cue].get("target") == "line"

    def is_free(self, cue: int) -> bool:
        """Whether a cue lies between two plain cuts."""
        return 0 < cue < len(self.cues) - 1 and not self.bridge(cue - 1) and not self.bridge(cue)

    def lists(self) -> list[list[Any]]:
        """What is known of each take."""
        return [self.takes, self.records, self.shifts, self.names]

    def record(self, cue: int) -> Seam | None:
        """The seam whose bits a cue holds."""
        one = self.cues[cue]
        return self.records[one["take"]].get((one["start"], one["stop"]))

    def seam(self, cue: int) -> Seam:
        """The same of a cue that holds bits of one."""
        found = self.record(cue)
        assert found
        return found

    def roles(self) -> list[str]:
        """What each cue is: "cue", "link" or "seam". The first half of a link replaces bits of the cue before, and the
        rest those of the cue after."""
        found: list[str] = []
        for number, cue in enumerate(self.cues):
            is_between = self.is_free(number) and found[-1] == "cue"
            if is_between and self.record(number):
                found.append("seam")
            else:
                found.append("link" if is_between and cue["stop"] - cue["start"] < LINK * self.rate else "cue")
        return found

    def spots(self) -> list[Spot]:
        """The cuts in their order."""
        found, place, roles = [], 0, self.roles()
        for number, (cue, role) in enumerate(zip(self.cues[:-1], roles)):
            length = cue["stop"] - cue["start"]
            if role != "cue":
                found.append(Spot(number - 1, number + 1, role, place, length))
            place += length
            if role == "cue" and roles[number + 1] == "cue":
                kind = ("line" if self.is_line(number) else "bridge") if self.bridge(number) else "plain"
                found.append(Spot(number, number + 1, kind, place, self.bridge(number)))
            place += self.bridge(number)
        return found

    def length(self) -> int:
        """Bits of a channel of the master."""
        return sum(cue["stop"] - cue["start"] + cue.get("bridge", 0) for cue in self.cues)

    def move(self, cut: int, stop: int, start: int) -> None:
        """Sets the places of the cut after a cue."""
        self.cues[cut]["stop"] = stop
        self.cues[cut + 1]["start"] = start

    @contextlib.contextmanager
    def undone(self) -> Iterator[None]:
        """After a fault in a block the cues and the takes are as before. It is one too if a cue has become so short
        that it would be taken for a link."""
        cues, origins, cuts = copy.deepcopy(self.cues), list(self.origins), len(self.spots())
        takes = [list(it) for it in self.lists()]
        seams = self.seams
        held = seams.state() if seams else ()
        try:
            yield
            if len(self.spots()) != cuts:
                raise Refused("a cue would be shorter than 10 us, and so be taken for a link")
        except BaseException:
            self.cues, self.origins, self.seams = cues, origins, seams
            self.takes, self.records, self.shifts, self.names = takes
            if seams:
                seams.restore(held)
            raise

    def leave_out_bridge(self, cut: int) -> None:
        """Makes a plain cut of one whose bridge fades, in the middle of the bridge: so nothing comes earlier."""
        length, cue = self.bridge(cut), self.cues[cut]
        if length and not self.is_line(cut):
            self.move(cut, cue["stop"] + length - length // 2, self.cues[cut + 1]["start"] - length // 2)
            del cue["bridge"]
            cue.pop("target", None)

    def leave_out_between(self, spot: Spot) -> None:
        """Makes a plain cut of one that has a link, in the middle of it, or a seam, at the place that was wished."""
        if spot.after - spot.before == 1:
            return
        seam = self.seam(spot.before + 1) if spot.role == "seam" else None
        early, late = (seam.before, seam.after) if seam else (spot.length // 2, spot.length - spot.length // 2)
        stop, start = self.cues[spot.before]["stop"] + early, self.cues[spot.after]["start"] - late
        if stop > self.span(spot.before)[1] or start < self.span(spot.after)[0]:
            raise Refused(f"its takes have no bits for those of its {spot.role}")
        kept = [it for cue in self.cues[spot.before + 1 : spot.after + 1] for it in titles.titles_of(cue)]
        if len(kept) > 1:
            raise Refused(f"its {spot.role} and the cue after it have {len(kept)} titles, and there is room for one")
        self.cues[spot.after].update({"title": it for it in kept})
        del self.cues[spot.before + 1], self.origins[spot.before + 1]
        self.move(spot.before, stop, start)

    def demand_room(self, seams: int, cues: int) -> None:
        """Refuses if there is no room for a take of seams, if any are made, and for more cues."""
        if seams and self.slot == len(self.takes):
            self.demand_takes(1)
        if len(self.rows) + cues > MOST_CUES:
            had = f"the project has {len(self.rows)} cues, and {cues} more are needed"
            raise Refused(f"{had}: there is room for {MOST_CUES}")

    def added(self, number: int) -> int:
        """How many more cues the text has once a cut is a seam."""
        spot = self.spots()[number]
        between = self.cues[spot.before + 1 : spot.after]
        has_title = any(titles.titles_of(it) for it in self.cues[spot.before + 1 : spot.after + 1])
        return max(1 + has_title - sum(len(titles.rows_of(it, None)) for it in between), 0)

    def demand_takes(self, more: int) -> None:
        """Refuses if there is no room for more takes."""
        if len(self.takes) + more > MOST_TAKES:
            raise Refused(
                f"the project has {len(self.takes)} takes, and {more} more is needed: there is room for {MOST_TAKES}"
            )

    def seam_slot(self) -> int:
        """The number of the take of seams, that of a new one if there is none."""
        held = [self.cues[it]["take"] for it, role in enumerate(self.roles()) if role == "seam"]
        return min(held, default=len(self.takes))

    def seams_as(self, name: str) -> Seams:
        """The take of seams, which gets a name; it holds all seams that the one before it held."""
        if self.seams is None:
            slot = self.slot
            self.demand_room(1, 0)
            old = self.takes[slot] if slot < len(self.takes) else Held(name, self.rate, np.empty((self.count, 0)))
            self.seams = Seams(name, old, self.records[slot] if slot < len(self.takes) else {})
            row: tuple[Any, ...] = self.seams.take, self.seams.seams, None, name
            for rows, new in zip(self.lists(), row):
                rows[slot : slot + 1] = [new]
        return self.seams

    def insert_seam(self, cut: int, seam: Seam, signs: np.ndarray) -> None:
        """Inserts a seam after a cue, and appends its bits to the take of seams. A title of what follows stays at the
        position that was asked for."""
        following = self.cues[cut + 1]
        self.demand_room(0, 1 + ("title" in following))
        self.insert(cut, self.slot, seam.first, seam.first + seam.length)
        titles.move_into(self.cues[cut + 1], following, seam.first + seam.before, self.shortest)
        assert self.seams
        self.seams.add(seam, signs)

    def seam_file(self) -> bytes:
        """The file of the take of seams."""
        roles = enumerate(self.roles())
        held = [it for it, role in roles if role == "seam" and self.cues[it]["take"] == self.slot]
        assert self.seams
        return self.seams.stored([self.seam(it) for it in held])

    def insert(self, cut: int, take: int, start: int, stop: int) -> None:
        """Puts a cue after another."""
        self.demand_room(0, 1)
        self.cues.insert(cut + 1, {"take": take, "start": start, "stop": stop})
        self.origins.insert(cut + 1, None)

    def end_with_a_byte(self) -> int:
        """Lets the last cue end up to 7 bits earlier, so that a DSDIFF file holds the master. Returns how many."""
        spare = self.length() % 8
        last = self.cues[-1]
        if last["stop"] - last["start"] - spare < self.shortest:
            raise Refused("the last cue is too short to end with a whole byte")
        last["stop"] -= spare
        return spare

    @property
    def data(self) -> dict:
        """What the text is to say."""
        splice = {"weights": self.weights, "takes": self.names, "cue": [it for it, _ in self.rows]}
        return {**self.source.data, "splice": splice}

    def text(self) -> str:
        """The project as a text, with the order and comments that it had unless tomlkit can't keep them."""
        text = written(self.changed, self.data)
        if text is None:
            print("the order and the comments of the project can't be kept, and are left out", file=sys.stderr)
            text = written(lambda: tomlkit.dumps(self.data), self.data)
        if text is None:
            raise Refused(f"{shown(self.source.name)}: tomlkit can't write this project again")
        return text

    def changed(self) -> str:
        """The text with what was changed, by tomlkit."""
        document: Any = tomlkit.parse(self.source.text)
        takes, cues, rows = document["splice"]["takes"], document["splice"]["cue"], self.rows
        for number, name in enumerate(self.names):
            if number == len(takes):
                takes.append(name)
            elif takes[number] != name:
                takes[number] = name
        for number in sorted(set(range(len(cues))) - {it for _, it in rows}, reverse=True):
            hand_over(cues[number], cues[number - 1])
            del cues[number]
        kept = [it for it, origin in rows if origin is not None]
        for cue, new in zip(list(cues), kept):
            update(cue, new)
        for number, (new, origin) in enumerate(rows):
            if origin is None:
                insert_into(cues, number, new)
        return tomlkit.dumps(document)
