"""What the desk holds: a mix with its takes, its journal, the peaks, and the master that is made of it.

Files are known to the page by numbers alone. A take or a mix is opened only below the folders that were named, also
through links."""
import contextlib
import os
import threading
import time
from collections.abc import Callable
from concurrent.futures import ThreadPoolExecutor
from dataclasses import asdict, dataclass
from typing import Any

from cuts import takes
from cuts.albums import MOST_TITLE
from cuts.list_mixes import LIMIT
from cuts.takes import Take
from desk import cache, mixes, sound
from desk.journal import Journal, place_of
from desk.making import MOST_MOVE, Maker, Wanted
from desk.mixes import Clip, Clips, Document, Head, Limits
from desk.peaks import Peaks
from desk.sound import Source
from dsdarc_scripts.explained import shown_name
from dsdarc_scripts.outputs import Refused
from tools.null_testing.mixes import Mix, MixFault, read_mix

MOST_TAKES = 16
MOST_LABEL = 80  # letters
MOST_CHANGED = 2048  # clips of one step
LATER = 0.25  # seconds between two reports of progress


class Outdated(Exception):
    """The page doesn't know what was done last."""


class Folders:
    """The folders that were named. No file outside of them is opened."""

    def __init__(self, folders: list[str]) -> None:
        self.folders = sorted({os.path.realpath(it) for it in folders})

    def demand(self, path: str, what: str) -> str:
        """The real path of a file that lies below one of them."""
        real = os.path.realpath(path)
        if not any(real.startswith(os.path.join(it, "")) for it in self.folders):
            raise Refused(f"{what}: {shown_name(path)} is outside of the folders that were named: name it, too")
        return real


@dataclass
class Asked:
    """What the desk is asked to open: the path of a mix text, which may be a new one, and files of takes."""

    mix: str
    files: list[str]
    is_new: bool


class Desk:
    """The desk. Each of `hearers` is told what the page should know, from any thread."""

    def __init__(self, asked: Asked) -> None:
        self.hearers, self.lock, self.head_lock = (
            list[Callable[[dict[str, Any]], None]](),
            threading.RLock(),
            threading.Lock(),
        )
        self.top, self.name = os.path.split(os.path.abspath(asked.mix))
        self.folders = Folders([self.top, *(os.path.dirname(os.path.abspath(it)) for it in asked.files)])
        self.path = self.folders.demand(os.path.abspath(asked.mix), "the mix")
        self.takes, self.sources = list[Take](), list[Source]()
        self.peaks = dict[str, Peaks]()
        self.known: Head | None = None
        self.unkept: bytes | None = None  # the text, if it isn't remembered yet what is read of it
        self.pool = ThreadPoolExecutor(2, "peaks")
        self.maker = Maker(os.path.join(self.top, self.name), self.say, self.folders.demand)
        self.master: Source | None = None
        self.predicted_of: Clips | None = None  # the clips of which it was predicted what their cuts leave
        self.outside: str | None = None
        self.notes = list[str]()
        self.lost = set[int]()
        self.open(asked)
        self.open_master()

    def say(self, news: dict[str, Any]) -> None:
        for it in self.hearers:
            it(news)

    # Opening.

    def open(self, asked: Asked) -> None:
        """Opens the text with its takes, and the journal."""
        data = None if asked.is_new else self.read_file()
        self.stamp, self.sum = mixes.stamp_of(self.path), None if data is None else mixes.sum_of(data)
        kept = None if data is None or asked.files else self.kept_of(self.sum)
        mix = None if data is None or kept else self.mix_of(data)
        names = kept["takes"] if kept else [] if mix is None else mix.takes
        known = {os.path.realpath(os.path.join(self.top, it)) for it in names}
        more = [it for it in asked.files if os.path.realpath(it) not in known]
        self.take_in([*names, *dict.fromkeys(os.path.relpath(os.path.abspath(it), self.top) for it in more)])
        self.limits = Limits([it.bits for it in self.takes], self.takes[0].count, self.head)
        text = "" if data is None else data.decode("utf-8-sig")
        if data is None or kept is None or not self.recall(text, kept):
            self.read_text(text, mix if data is None else mix or self.mix_of(data))
            self.unkept = data if len(names) == len(self.takes) else None
        self.journal = Journal(self.journal_place(), self.sum, self.document.base, self.limits)
        if self.journal.saved_clips != self.document.base or self.journal.history.steps:
            self.document.is_now(self.document.text, self.journal.saved_clips)
        if self.is_saved:
            self.journal.taken_up = 0  # what wasn't saved was undone
        self.say_opened()

    def journal_place(self) -> str:
        return self.folders.demand(place_of(self.path), "the journal")

    def read_file(self) -> bytes:
        """The bytes of the text that is there now."""
        return mixes.read_bytes(self.folders.demand(self.path, "the mix"))

    @staticmethod
    def kept_name(sum_now: str | None) -> str:
        return f"{(sum_now or '')[:32]}.mix"

    def kept_of(self, sum_now: str | None) -> dict[str, Any] | None:
        """What is remembered of a text."""
        found = cache.recalled(self.kept_name(sum_now)) or {}
        names = found.get("takes")
        return found if isinstance(names, list) and names and all(isinstance(it, str) for it in names) else None

    def recall(self, text: str, kept: dict[str, Any]) -> bool:
        """Takes what was read of this text before; whether that still fits the takes."""
        try:
            self.known = Head(**kept["head"])
            clips = {number: mixes.clip_from(it, self.limits) for number, it in enumerate(kept["clips"])}
        except (Refused, KeyError, TypeError, AttributeError, IndexError):
            return False
        self.document = Document(self.name, text, clips, [it.name for it in self.takes], self.takes[0].rate)
        return True

    def remember(self, data: bytes) -> None:
        """Keeps what is read of a text, so that it is opened at once."""
        with contextlib.suppress(Refused):
            mix, text = self.mix_of(data), data.decode("utf-8-sig")
            clips = mixes.clips_in(mix, text, shown_name(self.name), self.takes[0].count)
            head = mixes.head_of(mix, [mixes.usual(mix, it) for it in range(len(mix.takes))])
            rows = [clips[it].to_json() for it in sorted(clips)]
            kept = {"takes": mix.takes, "head": asdict(head), "clips": rows}
            cache.remember(self.kept_name(mixes.sum_of(data)), kept)

    def warm(self) -> None:
        """Gets ready what the first change needs, and remembers what was read."""
        self.head()
        data, self.unkept = self.unkept, None
        if data is not None:
            self.remember(data)

    def head(self) -> Head:
        """What the text says besides its clips. That of a new text is made when it is first needed: it takes longer than
        to open takes."""
        with self.head_lock:
            if self.known is None:
                self.document.text, self.known = mixes.new_text(self.name, self.takes)
            return self.known

    def mix_of(self, data: bytes) -> Mix:
        try:
            return read_mix(data)
        except MixFault as error:
            why = str(error).removeprefix("Mix ")
            raise Refused(f"{shown_name(self.name)}: {why}: it is no mix as docs/NULL_TEST.md says") from None

    def take_in(self, names: list[str]) -> None:
        """Opens takes, which are of one kind."""
        if not names:
            raise Refused("there is no take: name DSDIFF or DSF files, or a mix")
        if len(names) > MOST_TAKES:
            raise Refused(f"a mix has at most {MOST_TAKES} takes, and there are {len(names)}")
        for number, name in enumerate(names):
            what = f"take {number}, {shown_name(name)}"
            if not name.isprintable():
                raise Refused(f"{what}: no mix can name it: name it by letters of UTF-8 on one line")
            path = self.folders.demand(os.path.join(self.top, name), what)
            take = takes.opened(path, what)
            take.name = name
            differing = takes.unlike(take, self.takes[0]) if self.takes else None
            if differing:
                raise Refused(f"{what} has {differing[0]}, and take 0 has {differing[1]}")
            try:
                self.sources.append(Source(path))
            except Refused as error:
                raise Refused(f"{what}: {str(error).split(': ', 1)[-1]}") from None
            self.takes.append(take)

    def read_text(self, text: str, mix: Mix | None) -> None:
        """Takes the clips of a text, and adds the takes to it that it doesn't name."""
        clips, head = Clips(), None
        if mix is not None:
            takes_of = [self.takes[it] for it in range(len(mix.takes))]
            for number, it in enumerate(mix.clips):
                if it.start + it.length > takes_of[it.take].bits:
                    end, bits = it.start + it.length, takes_of[it.take].bits
                    why = f"ends at bit {end} of take {it.take}, which has {bits} bits"
                    raise Refused(f"{shown_name(self.name)}: clip {number}, counted from 0, {why}")
                if it.gains is not None and len(it.gains) != self.takes[0].count:
                    raise Refused(f"{shown_name(self.name)}: clip {number} has gains of other channels than the takes")
            clips = mixes.clips_in(mix, text, shown_name(self.name), self.takes[0].count)
            head = mixes.head_of(mix, [mixes.usual(mix, it) for it in range(len(mix.takes))])
            if len(mix.takes) < len(self.takes):
                text, head = mixes.with_takes(text, mix, self.takes[len(mix.takes) :])
        self.document = Document(self.name, text, clips, [it.name for it in self.takes], self.takes[0].rate)
        self.known = head

    def say_opened(self) -> None:
        if self.journal.aside:
            self.notes.append(
                f"the journal was of another text: it is {shown_name(os.path.basename(self.journal.aside))} now"
            )

    # Peaks.

    def source(self, name: str) -> Source:
        """The source of a name that the page knows: take-N or master."""
        if name == "master" and self.master is not None:
            return self.master
        if name.startswith("take-") and name[5:].isascii() and name[5:].isdecimal() and len(name) < 9:
            number = int(name[5:])
            if number < len(self.sources):
                return self.sources[number]
        raise Refused(f"there is no source {shown_name(name[:40])}")

    def peaks_of(self, name: str) -> Peaks:
        """The peaks of a source, which are made if they aren't yet."""
        source = self.source(name)
        with self.lock:
            known = self.peaks.get(name)
            if known is None or known.source is not source:
                known = self.peaks[name] = Peaks(source)
                if not known.is_ready:
                    self.pool.submit(self.make_peaks, name, known)
            return known

    def progress(self) -> list[dict[str, Any]]:
        """How far the peaks of each source are, for a page that comes."""
        with self.lock:
            return [{"peaks": it.news(name)} for name, it in self.peaks.items()]

    def make_peaks(self, name: str, peaks: Peaks) -> None:
        last = 0.0

        def step() -> None:
            nonlocal last
            now = time.monotonic()
            if now - last > LATER or peaks.is_ready or peaks.why:
                last = now
                self.say({"peaks": peaks.news(name)})

        peaks.make(step)

    # The mix.

    @property
    def clips(self) -> Clips:
        return self.journal.history.clips

    @property
    def is_saved(self) -> bool:
        return self.sum is not None and self.clips == self.document.base

    def state(self) -> dict[str, Any]:
        """All that the page shows of the mix."""
        with self.lock:
            history = self.journal.history
            undo = history.steps[history.place - 1].label if history.place else None
            redo = history.steps[history.place].label if history.place < len(history.steps) else None
            return {
                "number": history.number,
                "name": self.name,
                "folder": self.top,
                "clips": {str(it): clip.to_json() for it, clip in self.clips.items()},
                "next": 1 + max([-1, *self.clips, *(it for step in history.steps for it in step.changes)]),
                "undo": undo,
                "redo": redo,
                "saved": self.is_saved,
                "is_new": self.sum is None,
                "outside": self.outside,
                "taken_up": self.journal.taken_up,
                "notes": self.notes,
                "limit": LIMIT if self.known is None else self.known.limit,
                "make": {key: it for key, it in self.maker.state.items() if key != "lines"},
                "made": self.made(),
                "predicted": self.predicted(),
                "lost": sorted(self.lost),
            }

    def about(self) -> dict[str, Any]:
        """What doesn't change: the takes, and how they are played."""
        first = self.sources[0]
        rows = []
        for number, (take, source) in enumerate(zip(self.takes, self.sources)):
            peaks = self.peaks_of(f"take-{number}")
            marks = [{"bit": it.bits, "title": it.title} for it in source.sound.marks if 0 <= it.bits <= take.bits]
            row = {"name": take.name, "bits": take.bits, "frames": source.frames}
            rows.append(row | {"marks": marks, "done": peaks.done, "peak": peaks.loudest()})
        names = list(first.sound.channels.names) or [str(it) for it in range(first.count)]
        about = {"rate": first.source_rate, "frame_rate": first.rate, "factor": first.factor, "width": first.width}
        return about | {"channels": names, "takes": rows, "most_title": MOST_TITLE}

    def demand_number(self, number: object) -> None:
        if number != self.journal.history.number:
            raise Outdated

    def change(self, value: dict[str, Any]) -> None:
        """Does what the page asks for: changes clips, undoes, or redoes."""
        with self.lock:
            self.demand_number(value.get("number"))
            if value.get("undo") or value.get("redo"):
                done = self.journal.undo() if value.get("undo") else self.journal.redo()
                if not done:
                    raise Refused("there is nothing to undo" if value.get("undo") else "there is nothing to redo")
                return
            label, rows = value.get("label"), value.get("clips")
            if not isinstance(label, str) or len(label) > MOST_LABEL or not isinstance(rows, dict):
                raise Refused("a change has a label and clips")
            if len(rows) > MOST_CHANGED:
                raise Refused(f"a change has at most {MOST_CHANGED} clips")
            new = dict[int, Clip | None]()
            for key, it in rows.items():
                if not key.isascii() or not key.isdecimal() or len(key) > 9:
                    raise Refused("clips have numbers")
                new[int(key)] = None if it is None else mixes.clip_from(it, self.limits)
            known = {it.title for it in self.clips.values()}
            for clip in new.values():
                if clip is not None and clip.title not in known:
                    mixes.demand_title(clip.title)
            after = {number: it for number, it in self.clips.items() if number not in new}
            after |= {number: it for number, it in new.items() if it is not None}
            mixes.demand_together(after)
            self.journal.do(label, new)

    def drop_taken_up(self, number: object) -> None:
        """Undoes what was taken up from the journal."""
        with self.lock:
            self.demand_number(number)
            base = self.document.base
            new: dict[int, Clip | None] = {it: base.get(it) for it in {*self.clips, *base}}
            self.journal.do("drop what wasn't saved", new)
            self.journal.taken_up = 0

    def keep_taken_up(self, number: object) -> None:
        """Keeps what was taken up from the journal: no page asks for it any more."""
        with self.lock:
            self.demand_number(number)
            self.journal.taken_up = 0

    def save(self, number: object, over: bool) -> None:
        """Writes the text. A file that another program changed is kept under another name, if it is to be written over."""
        with self.lock:
            self.demand_number(number)
            self.head()
            self.look_outside()
            if self.outside is not None and not over:
                raise Outdated
            path = self.folders.demand(self.path, "the mix")
            data = self.document.text_of(self.clips).encode()
            if self.outside is not None and os.path.lexists(path):
                aside = mixes.free_name(path, "other")
                os.link(path, aside, follow_symlinks=False)
                self.notes.append(f"the text of the other program is {shown_name(os.path.basename(aside))} now")
            self.journal.saving(mixes.sum_of(data))
            mixes.write_bytes(path, data)
            self.sum, self.stamp, self.outside = mixes.sum_of(data), mixes.stamp_of(self.path), None
            if self.clips != self.document.base:
                self.document.is_now(data.decode(), self.clips)
            self.journal.saved(self.sum)
            self.pool.submit(self.remember, data)

    def look_outside(self) -> bool:
        """Looks whether another program changed the text; whether there is news."""
        with self.lock:
            stamp = mixes.stamp_of(self.path)
            if stamp == self.stamp:
                return False
            self.stamp = stamp
            if stamp is None:
                self.outside = None if self.sum is None else "the file is gone"
                return self.outside is not None
            try:
                data = self.read_file()
                found = mixes.sum_of(data)
                if found == self.sum:
                    self.outside = None
                    return False
                mix = self.mix_of(data)
            except (OSError, Refused) as error:
                self.outside = f"another program changed the file, and it is no mix now: {error}"
                return True
            self.outside = "another program changed the file"
            if self.is_saved:
                self.reload(data, mix, True)
            return True

    def reload(self, data: bytes, mix: Mix, is_anew: bool) -> None:
        """Takes the text of another program in place of what is there. The journal goes, or is put aside."""
        if mix.takes != [it.name for it in self.takes][: len(mix.takes)] or len(mix.takes) > len(self.takes):
            self.outside = "another program changed the file, which names other takes now: open it again"
            return
        try:
            self.read_text(data.decode("utf-8-sig"), mix)
        except Refused as error:
            self.outside = f"another program changed the file: {error}"
            return
        self.sum, self.outside = mixes.sum_of(data), None
        self.journal.close()
        number = self.journal.history.number
        self.journal = Journal(self.journal_place(), self.sum, self.document.base, self.limits, is_anew)
        self.journal.history.number = number + 1
        self.notes.append("another program changed the file: this is what it has now")

    def take_other(self, number: object) -> None:
        """Drops what is here, and takes the text that another program wrote."""
        with self.lock:
            self.demand_number(number)
            data = self.read_file()
            self.reload(data, self.mix_of(data), False)
            if self.outside is not None:
                raise Refused(self.outside)

    def look_at_takes(self) -> bool:
        """Looks which takes are gone; whether that changed."""
        lost = {it for it, source in enumerate(self.sources) if not os.path.isfile(source.path)}
        is_news, self.lost = lost != self.lost, lost
        return is_news

    # The master.

    def wanted(self, move: object, predicts: bool) -> Wanted:
        """What a master is made of, or what is predicted of one. Cuts may move by so many us."""
        with self.lock:
            self.head()
            if not predicts and not self.is_saved:
                raise Refused("save the mix first")
            if type(move) is not int or not 0 <= move <= MOST_MOVE:
                raise Refused(f"cuts move by 0 to {MOST_MOVE // 1000} ms")
            for take, it in enumerate(self.takes):
                self.folders.demand(os.path.join(self.top, it.name), f"take {take}")
            if not predicts:
                self.maker.demand_inside()
            text = self.document.text_of(self.clips) if predicts else self.document.text
            if not self.maker.state["running"]:
                self.predicted_of = dict(self.clips) if predicts else None
            return Wanted(text.encode(), max(it.stop for it in self.clips.values()), move)

    def predicted(self) -> dict[str, Any] | None:
        """What the cuts of the mix as it is will leave, if that was predicted."""
        if self.maker.state["running"] or self.predicted_of != self.clips:
            return None
        return self.maker.predicted

    def made(self) -> dict[str, Any] | None:
        """What came of the last making, and whether it is of the text as it is."""
        found = self.maker.result()
        if found is None or self.maker.state["running"]:
            return None
        return found | {"is_current": found.get("sum") == self.sum and self.is_saved, "folder": self.maker.folder}

    def open_master(self) -> None:
        """Opens the master that was made, to be heard and seen."""
        with self.lock:
            old, self.master = self.master, None
            self.peaks.pop("master", None)
            try:
                self.maker.demand_inside()
            except Refused as error:
                if str(error) not in self.notes:
                    self.notes.append(str(error))
            found = self.maker.result()
            if found is not None:
                try:
                    path = self.folders.demand(self.maker.file(str(found["master"])), "the master")
                    made = Source(path)
                    if (made.source_rate, made.count) == (self.sources[0].source_rate, self.sources[0].count):
                        self.master = made
                    else:
                        made.close()
                except (Refused, KeyError):
                    pass
            if old is not None:
                old.close()

    def numbers_of(self, name: str, first: int, count: int) -> Any:
        """Frames of a source or of the mix; 1 is full scale."""
        if name == "mix":
            with self.lock:
                clips = dict(self.clips)
            return sound.mixed(self.sources, clips, self.head().totals, first, count)
        source = self.source(name)
        return source.numbers(first, count) * 2.0 ** (1 - source.width)

    def close(self) -> None:
        for it in self.peaks.values():
            it.is_stopped.set()
        self.pool.shutdown(wait=True, cancel_futures=True)
        self.journal.close()
        for source in [*self.sources, *([self.master] if self.master else [])]:
            source.close()
