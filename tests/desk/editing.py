"""Edits at the page of the desk: crossfades by overlapping, points of a line of levels, titles, the wheel."""
import math
import os
import time
from typing import Any

from desk.door import Door
from tests.desk.browsing import (
    RULER,
    SCHEMES,
    browser,
    contrast,
    drag,
    element,
    press,
    quiet,
    ready,
    seen,
    settle,
    show_in,
    spot,
)
from tests.desk.desks import FULL, Desk, clip, opened, until
from tests.helpers.trials import ROOT, demand, get

HEAD, LOUDEST, QUIETEST = 18, 6.0, -42.0  # of a clip: pixels of its name, dB at the top and the bottom of its line
SIZE = (1280, 900)
LENGTH = 200_000
STARTS = (0, 250_000)
TRIES = 4  # of a double click


def laid_out(desk: Desk, **what: Any) -> None:
    """Two clips with a gap between them."""
    rows = {str(it): clip(take=it, at=at, length=LENGTH, **what) for it, at in enumerate(STARTS)}
    demand(desk.change(label="put", clips=rows)[0] == 200, "clips aren't put")


def scale(window: Any) -> float:
    """Bits of a pixel of the mix."""
    return float(seen(window)["views"]["mix"]["per"])


def size_of(window: Any, rows: int = 2) -> float:
    """Pixels of a row of clips."""
    return float((window.execute_script("return document.querySelector('#mix').clientHeight") - RULER - 6) / rows)


def x_of(window: Any, bit: float) -> float:
    view = seen(window)["views"]["mix"]
    return float((bit - view["from"]) / view["per"])


def y_of(window: Any, db: float) -> float:
    """Where a level is on the line of a clip in the first row."""
    return RULER + 3 + HEAD + (LOUDEST - db) / (LOUDEST - QUIETEST) * (size_of(window) - 4 - HEAD - 8)


def choose(window: Any, name: str, words: str) -> None:
    """Chooses by its words what a list has."""
    seen(window)
    script = """const [name, words] = arguments, it = document.querySelector(name);
    it.value = [...it.options].find(option => option.text === words).value;
    it.dispatchEvent(new Event("change"))"""
    window.execute_script(script, name, words)


def in_sight(window: Any) -> None:
    window.execute_script("document.querySelector('#mix').scrollIntoView({ block: 'center' })")


def drag_name(window: Any, bits: float) -> None:
    """Drags the second clip by its name."""
    in_sight(window)
    at = seen(window)["clips"]["1"]["at"]
    script = "return import(new URL('draw.js', location)).then(it => it.rows(window.desk.model.clips).found.get(1))"
    y = RULER + 12 + window.execute_script(script) * size_of(window)
    x, by = x_of(window, at + LENGTH / 2), bits / scale(window)
    points = [spot(window, "mix", x + part * by, y) for part in (0, 0.5, 1)]
    drag(window, *points)


def fades(window: Any) -> list[Any]:
    clips = seen(window)["clips"]
    return [clips[number][side] for number, side in (("0", "out"), ("1", "in"))]


def overlap(window: Any) -> int:
    clips = seen(window)["clips"]
    return int(clips["0"]["at"] + clips["0"]["length"] - clips["1"]["at"])


def crossfaded(window: Any, curve: str, what: str) -> None:
    """Both clips fade just where they overlap."""
    bits = overlap(window)
    demand(bits > 0 and fades(window) == [[bits, curve]] * 2, f"{what}: {fades(window)} over {bits} bits")


def overlaps(_: str | None) -> None:
    """A clip over the end of another one makes their crossfade, and takes it away again: one step each."""
    with opened("piece_1.dff", "piece_2.dff") as desk:
        laid_out(desk)
        with browser(desk, SIZE) as window:
            before = seen(window)["clips"]
            drag_name(window, -100_000)
            crossfaded(window, "power", "dragged over the end")
            demand(seen(window)["undo"] == "move", f"the step is called {seen(window)['undo']}")
            press(window, "control z")
            demand(seen(window)["clips"] == before, "undo of one step leaves the crossfade, or the move")
            press(window, "control y")
            choose(window, "#curve-in", "straight")
            until(lambda: fades(window)[0][1] == "linear", 5)
            crossfaded(window, "linear", "another curve")
            by_steps(window)
            desk.save()
            window.refresh()
            until(lambda: window.execute_script("return document.documentElement.dataset.ready"))
            apart(window, desk)
            at_random(window)
            quiet(window, "overlaps")
    with opened("album.mix.toml") as desk:
        after_closing(desk)
    print(
        "in Chromium: clips crossfade where they overlap, by mouse and by keys, and not any more when apart", flush=True
    )


def by_steps(window: Any) -> None:
    """Keys move the clip: its crossfade follows."""
    first = overlap(window)
    element(window, "#mix").click()
    press(window, "0", "n", "n", *["shift ,"] * 3)
    demand(overlap(window) > first, f"keys don't move the clip: {first} and {overlap(window)} bits")
    crossfaded(window, "linear", "moved by keys")
    press(window, *["control z"] * 3)
    demand(overlap(window) == first, "a move by a key is more than a step")


def apart(window: Any, desk: Desk) -> None:
    """Apart there is no crossfade; fades that are the user's own stay or come again."""
    drag_name(window, 120_000)
    demand(overlap(window) < 0 and fades(window) == [None, None], f"apart, and saved before: {fades(window)}")
    press(window, "control z")
    settle(window)
    press(window, "0", "n", "n", "x")
    demand(seen(window)["undo"] == "crossfade", f"X makes no crossfade: {seen(window)['undo']}")
    own = fades(window)
    drag_name(window, 120_000)
    demand(fades(window) == own and overlap(window) < 0, f"what X made is gone: {fades(window)}, not {own}")
    clips = seen(window)["clips"]
    short = {"0": clips["0"] | {"out": [4000, "s"]}, "1": clips["1"] | {"in": [2000, "s"], "at": STARTS[1]}}
    desk.change(label="own fades", clips=short)
    time.sleep(0.5)
    drag_name(window, -100_000)
    crossfaded(window, "power", "over fades of the user")
    drag_name(window, 120_000)
    demand(fades(window) == [[4000, "s"], [2000, "s"]], f"the user's own fades aren't there again: {fades(window)}")
    drag_name(window, -130_000)
    crossfaded(window, "power", "at last")
    desk.save()


def at_random(window: Any) -> None:
    """The rules of fades by overlapping hold for any moves."""
    script = get(os.path.join(ROOT, "tests", "desk", "moves.js")).decode()
    faults, count = window.execute_async_script(script)
    demand(not faults and count > 5000, f"at random, {count} fades: {faults[:1]}")


def after_closing(desk: Desk) -> None:
    """The text alone says which fades came by overlapping."""
    clips = desk.state()["clips"]
    demand(clips["1"]["overlap"] == {"in": [2000, "s"]}, f"the journal: {clips['1']}")
    desk.end()
    os.remove(".album.mix.toml.journal")
    with opened("album.mix.toml") as again:
        demand(again.state()["clips"] == clips, f"the text: {again.state()['clips']}")


# Points of a line of levels.


def hold(window: Any, *points: tuple[int, int]) -> None:
    """Presses the mouse at a point, and moves it."""
    from selenium.webdriver.common.action_chains import ActionChains

    chain = ActionChains(window, duration=40)
    mouse = chain.w3c_actions.pointer_action
    mouse.move_to_location(*points[0])
    mouse.pointer_down()
    for it in points[1:]:
        mouse.move_to_location(*it)
    chain.perform()


def let_go(window: Any) -> None:
    from selenium.webdriver.common.action_chains import ActionChains

    chain = ActionChains(window, duration=40)
    chain.w3c_actions.pointer_action.pointer_up()
    chain.perform()


def click_twice(window: Any, point: tuple[int, int], number: int) -> None:
    """Clicks twice at a point, until the line has so many points: on a busy machine two clicks may be too far apart."""
    from selenium.webdriver.common.action_chains import ActionChains

    for _ in range(TRIES):
        chain = ActionChains(window, duration=20)
        mouse = chain.w3c_actions.pointer_action
        mouse.move_to_location(*point)
        for _click in range(2):
            mouse.pointer_down()
            mouse.pointer_up()
        chain.perform()
        if len(line(window)) == number:
            return


def line(window: Any, number: str = "0") -> list[list[int]]:
    found: list[list[int]] = seen(window)["clips"][number]["line"]
    return found


def decibels(gain: int) -> float:
    return 20 * math.log10(gain / FULL)


def lines(_: str | None) -> None:
    """Points are put on the line by double clicks, dragged, and taken away again."""
    with opened("piece_1.dff", "piece_2.dff") as desk:
        laid_out(desk)
        with browser(desk, SIZE) as window:
            in_sight(window)
            click_twice(window, spot(window, "mix", x_of(window, LENGTH / 2), y_of(window, 0)), 3)
            found = line(window)
            near = abs(found[1][0] - LENGTH / 2) < 3 * scale(window) if len(found) == 3 else False
            demand(near and {it[1] for it in found} == {FULL}, f"a double click on the line adds no point: {found}")
            dragged(window)
            taken_away(window)
            quiet(window, "lines")
    print("in Chromium: gain points are put on the line, dragged, with their level shown, and taken away", flush=True)


def dragged(window: Any) -> None:
    """A point is dragged in time and level, which is shown meanwhile, as one step."""
    before = line(window)
    x, y = x_of(window, before[1][0]), y_of(window, 0)
    steps = [(x, y), (x + 10, y_of(window, -3)), (x + 20, y_of(window, -9)), (x + 37, y_of(window, -12))]
    hold(window, *[spot(window, "mix", *it) for it in steps])
    tip = element(window, "#tip").text
    let_go(window)
    found = line(window)
    level, moved = decibels(found[1][1]), (found[1][0] - before[1][0]) / scale(window)
    demand(abs(level + 12) <= 0.5 and 34 <= moved <= 40, f"it is dragged to {level:.2f} dB, by {moved:.1f} pixels")
    demand(abs(level - round(level, 1)) < 1e-4, f"levels aren't tenths of a decibel: {level}")
    wanted = f"{level:.1f} dB at 0:00:00.{round(found[1][0] / 2822.4):03d}".replace("-", "−")
    demand(tip == wanted, f"while it is dragged, {tip!r} is shown, not {wanted!r}")
    demand(not element(window, "#tip").is_displayed(), "what was shown stays")
    fields = [element(window, f"#{it}-1").get_attribute("value") for it in ("point", "place")]
    demand(fields[0] == f"{level:.1f}".rstrip("0").rstrip(".").replace("-", "−"), f"its field has {fields}")
    press(window, "control z")
    demand(line(window) == before, "undo of a drag takes more than a step")
    press(window, "control y")
    demand(line(window) == found, "redo")


def taken_away(window: Any) -> None:
    """Delete takes the chosen point away, and a double click, too; the clip stays."""
    found = line(window)
    place = x_of(window, found[1][0]), y_of(window, decibels(found[1][1]))
    drag(window, spot(window, "mix", *place))
    press(window, "DELETE")
    after = seen(window)["clips"]
    demand(len(after) == 2 and after["0"]["line"] == [[0, FULL]], f"Delete: {after}")
    press(window, "control z")
    demand(line(window) == found, "undo brings no point")
    click_twice(window, spot(window, "mix", *place), 1)
    demand(line(window) == [[0, FULL]], f"a double click takes no point away: {line(window)}")
    press(window, "control z", "DELETE")
    demand(set(seen(window)["clips"]) == {"1"}, "without a chosen point Delete leaves the clip")
    press(window, "control z")


# Fields, and the wheel.

TITLE = "  My  song"


def fields(_: str | None) -> None:
    """What is typed is saved by the key for it, letter by letter, while the field has the focus."""
    with opened("piece_1.dff", "piece_2.dff") as desk:
        laid_out(desk)
        with browser(desk, SIZE) as window:
            window.find_elements("css selector", "#clips button")[0].click()
            element(window, "#title").send_keys(TITLE)
            press(window, "control s")
            demand(until(lambda: seen(window)["saved"], 10), f"nothing is saved: {seen(window)['notes']}")
            text = get("album.mix.toml").decode()
            demand(
                f'# title = "{TITLE}"' in text, f"what was typed isn't saved: {desk.state()['clips']['0']['title']!r}"
            )
            focused = window.execute_script(
                "const it = document.activeElement; return [it.id, it.value, it.selectionStart]"
            )
            demand(focused == ["title", TITLE, len(TITLE)], f"after that the focus is elsewhere: {focused}")
            press(window, "BACKSPACE", "control s")
            demand(until(lambda: f'"{TITLE[:-1]}"' in get("album.mix.toml").decode(), 10), "it isn't saved again")
            window.refresh()
            ready(window)
            names = window.execute_script(
                "return [...document.querySelectorAll('#clips button')].map(it => it.innerText)"
            )
            demand(TITLE[:-1] in names[0], f"the list has another title: {names}")
            press(window, "control z")
            demand(seen(window)["clips"]["0"]["title"] == TITLE, "undo after the page was loaded again")
            wheeled(window)
            quiet(window, "fields")
    print("in Chromium: fields are saved as they are typed; the wheel scrolls, and zooms at the pointer", flush=True)


def wheel(window: Any, lane: str, x: int, by: int, *held: str) -> None:
    """Turns the wheel over a place of a lane."""
    from selenium.webdriver.common.action_chains import ActionChains
    from selenium.webdriver.common.actions.wheel_input import ScrollOrigin
    from selenium.webdriver.common.keys import Keys

    canvas = element(window, f"#{lane}")
    window.execute_script("arguments[0].scrollIntoView({ block: 'center' })", canvas)
    chain = ActionChains(window)
    for it in held:
        chain.key_down(getattr(Keys, it.upper()))
    origin = ScrollOrigin.from_element(canvas, x - canvas.rect["width"] // 2, 0)
    chain.scroll_from_origin(origin, 0, by)
    for it in held:
        chain.key_up(getattr(Keys, it.upper()))
    chain.perform()


def wheeled(window: Any) -> None:
    for lane in ("mix", "takes"):
        wheel(window, lane, 600, -300, "control")
        before = seen(window)["views"][lane]
        wheel(window, lane, 600, 120)
        view = seen(window)["views"][lane]
        moved = (view["from"] - before["from"]) / before["per"]
        demand(view["per"] == before["per"] and abs(moved - 120) < 1, f"{lane}: the wheel scrolls by {moved} pixels")
        wheel(window, lane, 600, -200, "control")
        near = seen(window)["views"][lane]
        places = [it["from"] + 599 * it["per"] for it in (view, near)]
        demand(near["per"] < view["per"] / 1.2, f"{lane}: Ctrl and the wheel zoom from {view} to {near}")
        demand(abs(places[0] - places[1]) <= 2 * near["per"], f"{lane}: the pointer is at {places}")


def led(_: str | None) -> None:
    """The file with which a browser is started leads to the page."""
    with opened("piece_1.dff") as desk, browser(desk, SIZE) as window:
        window.get("about:blank")
        door = Door(desk.address)
        window.get(door.address)
        door.close()
        until(lambda: window.current_url == desk.address, 10)
        ready(window)
        demand(window.current_url == desk.address, f"the file leads to {window.current_url}")
        quiet(window, "led")
    print("in Chromium: a file leads to the page", flush=True)


def contrasts(_: str | None) -> None:
    """Each text of the page is read on its ground, light and dark, in each state."""
    with opened("piece_1.dff", "piece_2.dff") as desk, browser(desk, SIZE) as window:
        count = 0

        def look(where: str) -> None:
            nonlocal count
            for scheme in SCHEMES:
                show_in(window, scheme)
                time.sleep(0.3)
                count += contrast(window, f"{where}, {scheme}")

        look("an empty mix")
        drag(window, spot(window, "takes", 60, 80), spot(window, "takes", 300, 85))
        laid_out(desk, title="A title", gains=[[[0, FULL], [1000, FULL // 2]], [[0, FULL]]])
        until(lambda: window.find_elements("css selector", "#clips button"), 10)
        window.find_elements("css selector", "#clips button")[0].click()
        window.execute_script("window.desk.say('It is refused.', true)")
        until(lambda: element(window, "#spectrum").is_displayed(), 10)
        look("a clip, a range and a refusal")
        press(window, "?")
        look("the list of keys")
        press(window, "ESCAPE")
    print(f"in Chromium: {count} texts have a contrast of at least 4.5, light and dark", flush=True)


TRIALS = (overlaps, lines, fields, led, contrasts)
