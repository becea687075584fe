"""What was done to a mix, and undone, in a journal beside it that survives the page, the server and the machine.

The journal of `album.mix.toml` is `.album.mix.toml.journal`: a line of JSON for each step, which is on the device before
the page is told. It begins with the clips that the text had, and says after which steps it was saved, with the text's
sum. If the text is still one of these, all that was done before can be undone, and what came after, which nobody saved,
is done again. If it is another text, the journal is put aside under another name."""
import contextlib
import fcntl
import json
import os
import stat
from dataclasses import dataclass
from typing import Any

from desk import mixes
from desk.mixes import Clip, Clips, Limits
from dsdarc_scripts.explained import shown_name
from dsdarc_scripts.outputs import Refused

VERSION = 1
MOST = 1 << 26  # bytes of a journal that goes on; a longer one begins anew at the next opening

Change = tuple[Clip | None, Clip | None]  # a clip before and after; none where it isn't there


@dataclass(frozen=True)
class Step:
    """What was done at once: its name for the user, and the clips that it changed, by their numbers."""

    label: str
    changes: dict[int, Change]


class History:
    """The clips of a mix, and the steps that led to them. `number` counts all that happened."""

    def __init__(self, clips: Clips) -> None:
        self.clips, self.steps, self.place, self.number = dict(clips), list[Step](), 0, 0

    def do(self, step: Step) -> None:
        """Takes a step. Those that were undone can't be redone any more."""
        del self.steps[self.place :]
        self.steps.append(step)
        self.put({number: new for number, (_, new) in step.changes.items()})
        self.place += 1

    def undo(self) -> bool:
        """Undoes the last step; whether there is one."""
        if self.place == 0:
            return False
        self.place -= 1
        self.put({number: old for number, (old, _) in self.steps[self.place].changes.items()})
        return True

    def redo(self) -> bool:
        """Redoes the step that was undone last; whether there is one."""
        if self.place == len(self.steps):
            return False
        self.put({number: new for number, (_, new) in self.steps[self.place].changes.items()})
        self.place += 1
        return True

    def put(self, clips: dict[int, Clip | None]) -> None:
        for number, clip in clips.items():
            if clip is None:
                self.clips.pop(number, None)
            else:
                self.clips[number] = clip
        self.number += 1


def to_json(clips: dict[int, Clip | None]) -> dict[str, Any]:
    return {str(number): None if it is None else it.to_json() for number, it in clips.items()}


def clips_from(value: dict[str, Any], limits: Limits) -> dict[int, Clip | None]:
    return {int(key): None if it is None else mixes.clip_from(it, limits) for key, it in value.items()}


def place_of(path: str) -> str:
    """Where the journal of a mix is."""
    folder, last = os.path.split(path)
    return os.path.join(folder, f".{last}.journal")


def without_links(path: str, flags: int) -> int:
    """Opens a path that is no link."""
    return os.open(path, flags | os.O_NOFOLLOW, 0o666)


class Journal:
    """The journal of a mix, which is at a path that is no link. `taken_up` is how many steps were done again that nobody
    saved, and `aside` the name under which the journal of another text was put."""

    def __init__(self, path: str, sum_now: str | None, clips: Clips, limits: Limits, is_anew: bool = False) -> None:
        self.path, self.limits, self.taken_up = path, limits, 0
        self.aside: str | None = None
        self.history, self.saved_clips = History(clips), dict(clips)
        self.file = open(self.path, "a+b", opener=without_links)
        try:
            if not stat.S_ISREG(os.fstat(self.file.fileno()).st_mode):
                raise Refused(f"{shown_name(self.path)} is no file: the desk has its journal there")
            self.lock()
            if is_anew or not self.goes_on(sum_now):
                self.begin(sum_now, clips)
        except BaseException:
            self.file.close()
            raise

    def lock(self) -> None:
        try:
            fcntl.flock(self.file, fcntl.LOCK_EX | fcntl.LOCK_NB)
        except BlockingIOError:
            raise Refused(f"another desk has this mix open: {shown_name(self.path)} is its journal") from None

    def goes_on(self, sum_now: str | None) -> bool:
        """Reads the journal; whether it is one of the text that is there. Another one is put aside."""
        self.file.seek(0)
        data = self.file.read()
        if not data:
            return False
        whole = data[: data.rfind(b"\n") + 1]
        found = None if len(data) > MOST else self.read(whole, sum_now)
        if found is None:
            self.aside = mixes.free_name(self.path, "old")
            mixes.write_bytes(self.aside, data)
            return False
        self.history, self.saved_clips, self.taken_up = found
        if len(whole) < len(data):
            self.file.truncate(len(whole))  # a line that wasn't written to its end
        return True

    def read(self, data: bytes, sum_now: str | None) -> tuple[History, Clips, int] | None:
        """What the lines of a journal come to, the clips when the text was saved, and how many steps follow that; nothing
        if that is another text, or it is no journal."""
        try:
            rows = [json.loads(it) for it in data.splitlines()]
            if rows[0]["desk"] != VERSION:
                return None
            first = clips_from(rows[0]["clips"], self.limits)
            history, saved = History({number: it for number, it in first.items() if it is not None}), rows[0]["sum"]
            since, clips = 0, dict(history.clips)
            for row in rows[1:]:
                # What was being saved was saved, if it is the text that is there.
                is_saved = "saved" in row or row.get("saving", "") == sum_now
                if is_saved:
                    saved, since, clips = row.get("saved", sum_now), 0, dict(history.clips)
                elif "saving" not in row:
                    self.take(history, row)
                    since += 1
            return (history, clips, since) if saved == sum_now else None
        except (ValueError, KeyError, IndexError, TypeError, AttributeError, Refused, RecursionError):
            return None

    def take(self, history: History, row: dict[str, Any]) -> None:
        """Takes the step of a line."""
        if "undo" in row or "redo" in row:
            if not (history.undo() if "undo" in row else history.redo()):
                raise ValueError("there is no such step")
            return
        new = clips_from(row["new"], self.limits)
        history.do(Step(str(row["label"]), {it: (history.clips.get(it), clip) for it, clip in new.items()}))

    def begin(self, sum_now: str | None, clips: Clips) -> None:
        """Begins the journal anew, with the clips of the text."""
        os.ftruncate(self.file.fileno(), 0)
        self.history = History(clips)
        self.add({"desk": VERSION, "sum": sum_now, "clips": to_json({**clips})})

    def add(self, row: dict[str, Any]) -> None:
        """Adds a line; it is on the device after that."""
        self.file.write(json.dumps(row, separators=(",", ":")).encode() + b"\n")
        self.file.flush()
        os.fsync(self.file.fileno())

    def do(self, label: str, new: dict[int, Clip | None]) -> None:
        """Changes clips."""
        changes = {it: (self.history.clips.get(it), clip) for it, clip in new.items()}
        changes = {it: both for it, both in changes.items() if both[0] != both[1]}
        if changes:
            self.add({"label": label, "new": to_json({it: clip for it, (_, clip) in changes.items()})})
            self.history.do(Step(label, changes))

    def undo(self) -> bool:
        if self.history.place == 0:
            return False
        self.add({"undo": 1})
        return self.history.undo()

    def redo(self) -> bool:
        if self.history.place == len(self.history.steps):
            return False
        self.add({"redo": 1})
        return self.history.redo()

    def saving(self, sum_next: str) -> None:
        """Notes that the text is about to be saved."""
        self.add({"saving": sum_next})

    def saved(self, sum_now: str) -> None:
        """Notes that the text was saved."""
        self.add({"saved": sum_now})
        self.taken_up = 0

    def close(self) -> None:
        with contextlib.suppress(OSError):
            self.file.close()
