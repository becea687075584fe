"""Titles at the position that was asked for, though a seam is there.

A title is a mark at the first bit of its cue in the master. A seam begins before the position at which its cut was
wished, and ends after it. So the cue of a seam that is followed by a title is written as two: the second begins at that
position and has the title. Scripts join such parts again when they read a project: `PARTS` has the cues of the text,
each with its number there, or none if it is new."""

PARTS = "parts"

Row = tuple[dict, int | None]  # a cue of a text, and its number in the text that was read


def rows_of(cue: dict, origin: int | None) -> list[Row]:
    """The cues of the text that a cue is written as."""
    return cue.get(PARTS) or [(cue, origin)]


def count_at(cues: list[dict], number: int, records: list[dict]) -> int:
    """How many cues from one on are the parts of one seam; 1 if it isn't the first of such."""
    take, start = cues[number]["take"], cues[number]["start"]
    for last in range(number, len(cues) if records[take] else number):
        cue = cues[last]
        follows = last == number or (cue["take"], cue["start"]) == (take, cues[last - 1]["stop"])
        if not follows or cue.get("bridge", 0):
            break
        if (start, cue["stop"]) in records[take]:
            return last + 1 - number
    return 1


def joined(cues: list[dict], records: list[dict]) -> tuple[list[dict], list[int | None]]:
    """The cues of a text, with the parts of each seam as one, and the number of each. `records` has the seams of each
    take, by their ends."""
    made: list[dict] = []
    origins: list[int | None] = []
    number = 0
    while number < len(cues):
        count = count_at(cues, number, records)
        cue = cues[number]
        if count > 1:
            parts = [(it, number + more) for more, it in enumerate(cues[number : number + count])]
            cue = {**cue, "stop": parts[-1][0]["stop"], PARTS: parts}
        made.append(cue)
        origins.append(number)
        number += count
    return made, origins


def titles_of(cue: dict) -> list[str]:
    """The titles of a cue and its parts."""
    return [it["title"] for it, _ in rows_of(cue, None) if "title" in it]


def move_into(seam: dict, following: dict, place: int, shortest: int) -> None:
    """Moves the title of the cue after a seam to a place in the seam, or to the nearest one that leaves each part so
    many bits."""
    if "title" not in following:
        return
    start, stop = seam["start"], seam["stop"]
    inside = min(max(place, start + shortest), stop - shortest)
    found = min((start, stop, *([inside] if start < inside < stop else [])), key=lambda it: abs(it - place))
    if found == stop:
        return
    title = {"title": following.pop("title")}
    if found == start:
        seam.update(title)
    else:
        seam[PARTS] = [({**seam, "stop": found}, None), ({**seam, "start": found, **title}, None)]


def widened(ends: tuple[int, int], wished: int, room: tuple[int, int], shortest: int) -> tuple[int, int]:
    """The ends of a seam, as far as there is room so that the wished place is one of them, or `shortest` bits from both."""
    low, high = ends
    first, last = wished - shortest if low < wished else low, wished + shortest if high > wished else wished
    return min(low, max(first, min(low, room[0]))), max(high, min(last, max(high, room[1])))
