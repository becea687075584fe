"""Somebody who never saw the desk makes an album by what the page shows; and long recordings are opened and scrolled."""
import os
import re
import subprocess
import sys
import time
from typing import Any

from tests.desk import browsing, editing
from tests.desk.browsing import RULER, browser, drag, picture, quiet, seen, spot
from tests.desk.desks import ADDRESS, START, Desk, clip, opened, until
from tests.helpers.trials import ROOT, demand

SOON = 1.0  # seconds from the command to the waves on the page, for a file that was opened before
FRAMES = 55.0  # pictures a second of a lane that is scrolled, where the machine is idle
HOUR = 3600 * 352_800  # bytes of a channel
LONG = 180.0  # seconds that the walk takes at most


def busy() -> float:
    return max(os.getloadavg()[0] / (os.cpu_count() or 1), 1)


# What a page shows: buttons by their words, fields by their labels.


def named(window: Any, tag: str, words: str) -> Any:
    """What has a name, as it is read aloud, and is in sight."""
    script = """const [tag, words] = arguments;
    const names = it => [it.textContent, it.getAttribute("aria-label"), ...[...(it.labels ?? [])].map(label => label.textContent)];
    const found = [...document.querySelectorAll(tag)].find(it => it.offsetParent && names(it).some(name => name?.trim() === words));
    found?.scrollIntoView({ block: "center" });
    return found"""
    found = window.execute_script(script, tag, words)
    if found is None:
        raise RuntimeError(f"the page shows no {tag} {words}")
    demand(found.accessible_name == words or found.text == words, f"{words} is read as {found.accessible_name}")
    return found


def push(window: Any, words: str) -> None:
    named(window, "button", words).click()
    time.sleep(0.25)


def write(window: Any, label: str, text: str) -> None:
    """Types into a field."""
    from selenium.webdriver.common.keys import Keys

    field = named(window, "input", label)
    field.click()
    field.send_keys(Keys.CONTROL, "a")
    field.send_keys(text, Keys.ENTER)
    time.sleep(0.25)


def shown(window: Any, name: str) -> str | None:
    """The text of what has this name, if it is there."""
    found = window.execute_script(f"return document.querySelector('{name}')?.textContent")
    return None if found is None else str(found)


def read(window: Any, label: str) -> str:
    return str(named(window, "input", label).get_attribute("value"))


def clips_of(window: Any) -> list[str]:
    """What the list of clips says."""
    seen(window)
    script = "return [...document.querySelectorAll('#clips button')].map(it => it.innerText)"
    return list(window.execute_script(script))


def choose(window: Any, number: int) -> None:
    window.find_elements("css selector", "#clips button")[number].click()
    time.sleep(0.3)


def wide(window: Any, lane: str) -> float:
    return float(window.execute_script(f"return document.querySelector('#{lane}').clientWidth"))


def walk(pictures: str | None) -> None:
    """An album with a crossfade, a pause and fades, by what the page shows alone."""
    begun = time.monotonic()
    with opened("piece_1.dff", "piece_2.dff") as desk, browser(desk, (1280, 800)) as window:
        picture(window, pictures, "walk-1-empty")
        demand("Drag over a wave below" in window.find_element("css selector", "aside").text, "no first steps")
        for y in (90, 200, 90):
            part = [spot(window, "takes", it * wide(window, "takes"), y) for it in (0.1, 0.4, 0.85)]
            drag(window, *part)
            push(window, "Put into the mix")
        demand(len(clips_of(window)) == 3, f"three parts are put into the mix: {clips_of(window)}")
        laid(window)
        choose(window, 2)
        first = read(window, "at")
        write(window, "How long the pause is", "0.2 s")
        demand(read(window, "at") != first, f"no pause: {read(window, 'at')}")
        write(window, "fade out: time", "20 ms")
        write(window, "title", "Second")
        choose(window, 0)
        write(window, "title", "First")
        write(window, "fade in: time", "10 ms")
        texts = clips_of(window)
        wanted = (("First", "fade in 10.000 ms", "fade out"), ("fade in",), ("Second", "fade out 20.000 ms"))
        demand(all(all(it in text for it in row) for row, text in zip(wanted, texts)), f"the clips: {texts}")
        levelled(window)
        picture(window, pictures, "walk-2-mix")
        finished(window, desk, pictures)
        quiet(window, "the walk")
    took = time.monotonic() - begun
    demand(took < LONG * busy(), f"the walk takes {took:.0f} s")
    print(
        f"in Chromium: an album with a crossfade, a pause and fades by what the page shows, in {took:.0f} s", flush=True
    )


def laid(window: Any) -> None:
    """Lays the second clip over the end of the first, by its name: they crossfade."""
    choose(window, 1)
    scale = wide(window, "mix") / 1.04 / 3  # a clip is as long as the others, and all of them are in sight
    window.execute_script("document.querySelector('#mix').scrollIntoView({ block: 'center' })")
    start = spot(window, "mix", scale * 1.5, RULER + 12)
    drag(window, start, (start[0] - 30, start[1]), (start[0] - 60, start[1]))
    demand(["fade" in it for it in clips_of(window)] == [True, True, False], f"no crossfade: {clips_of(window)}")
    push(window, "undo move")
    demand(not any("fade" in it for it in clips_of(window)), "undo leaves the crossfade")
    push(window, "redo move")


def levelled(window: Any) -> None:
    """Gives the right channel of the first clip a line of its own, by its fields and by the mouse."""
    named(window, "input", "levels for each channel").click()
    time.sleep(0.25)
    named(window, "select", "channel").send_keys("FR")
    time.sleep(0.25)
    window.execute_script("document.querySelector('#mix').scrollIntoView({ block: 'center' })")
    x = wide(window, "mix") / 12
    drag(window, spot(window, "mix", x, RULER + 90))
    push(window, "Gain point")
    write(window, "level in dB of gain point 2", "-6")
    write(window, "time of gain point 2", "20ms")
    demand(read(window, "time of gain point 2") == "0:00:00.020", "a gain point has another time")
    lines = next(it["gains"] for it in seen(window)["clips"].values() if it["title"] == "First")
    demand(len(lines[0]) == 1 and len(lines[1]) == 3, f"levels of single channels: {lines}")
    row = named(window, "button", "take gain point 2 away")
    row.click()
    time.sleep(0.25)
    push(window, "undo take a gain point away")


def finished(window: Any, desk: Desk, pictures: str | None) -> None:
    """Hears the mix, has it predicted, and makes the master, with cuts that may move."""
    push(window, "Play")
    demand(until(lambda: seen(window)["latency"] is not None, 10), f"nothing is heard: {seen(window)['notes']}")
    if seen(window)["on"]:
        push(window, "Stop")
    named(window, "input", "move cuts by up to").click()
    push(window, "Predict")
    text = until(lambda: shown(window, "#predicted, #why"), 120)
    demand(text and "predicted" in text, f"no prediction: {text} {desk.json('lines')}")
    picture(window, pictures, "walk-3-predicted")
    push(window, "Make master")
    browsing.master(window, pictures)
    verdict = shown(window, "#verdict") or ""
    moved: list[float] = [it["us"] for it in desk.state()["made"]["moves"]]
    demand(moved and max(abs(it) for it in moved) <= 1000 and shown(window, "#moved"), f"no cut moved: {moved}")
    levels = [re.findall(r"at most (\S+) dB", it) for it in (text or "", verdict)]
    demand(levels[0][0] == levels[1][0], f"another level than was predicted: {text} {verdict}")
    window.refresh()
    browsing.ready(window)
    demand(shown(window, "#verdict") == verdict, "the verdict is gone after the page was loaded again")
    moves = named(window, "input", "move cuts by up to").is_selected()
    demand(moves, "after the page was loaded again cuts don't move as they did")
    browsing.looks(window, pictures)


# Long recordings.


def hour(name: str, count: int) -> None:
    """An hour of sound that takes no room, with waves in the cache, as if it had been opened before."""
    from dsdarc_scripts import dsdiffs

    size = HOUR * count
    head, tail = dsdiffs.around(2_822_400, count, size)
    with open(name, "wb") as file:
        file.write(head)
        file.truncate(len(head) + size)
        file.seek(len(head) + size)
        file.write(tail)
    script = """import sys; sys.path[:0] = sys.argv[2:]
import numpy
from desk.peaks import Peaks, coarser
from desk.sound import Source
peaks, chance = Peaks(Source(sys.argv[1])), numpy.random.default_rng(1)
most = chance.integers(0, 12_000, peaks.shape(0)[:2], numpy.int16)
peaks.levels = [numpy.stack([-most, most], axis=-1)]
for _ in peaks.sizes[1:]:
    peaks.levels.append(coarser(peaks.levels[-1]))
peaks.keep()"""
    done = subprocess.run([sys.executable, "-c", script, name, ROOT, os.path.join(ROOT, "python")], check=False)
    demand(done.returncode == 0, f"{name}: no waves in the cache")


def reopened(window: Any) -> float:
    """Seconds from the command to the waves on the page, in a browser that runs."""
    begun = time.time()
    child = subprocess.Popen([START, "--no-browser", "two.dff"], stdout=subprocess.PIPE)
    try:
        assert child.stdout is not None
        address = ADDRESS.search(child.stdout.readline().decode())
        demand(address, "no desk of an hour")
        window.get(address[0] if address else "")
        script = (
            "const it = performance.getEntriesByName('waves')[0]; return it && performance.timeOrigin + it.startTime"
        )
        time.sleep(SOON)  # asking meanwhile would take time from the page
        return float(until(lambda: window.execute_script(script)) or 0) / 1000 - begun
    finally:
        window.get("about:blank")  # the page would miss the desk
        child.terminate()
        child.communicate()


def scrolled(window: Any, lane: str, per: int) -> float:
    """Pictures a second of a lane that is scrolled by its wheel, at so many bits a pixel."""
    script = """const [lane, per, done] = arguments, canvas = document.querySelector(`#${lane}`), times = [];
    Object.assign(window.desk.model.views[lane], { per, from: 60 * window.desk.model.about.rate });
    const step = () => {
      times.push(performance.now());
      if (times.length > 100) return done(60000 / (times.at(-1) - times[40]));
      canvas.dispatchEvent(new WheelEvent("wheel", { deltaX: 12, bubbles: true, cancelable: true }));
      requestAnimationFrame(step);
    };
    requestAnimationFrame(step);"""
    return float(window.execute_async_script(script, lane, per))


def long_ones(_: str | None) -> None:
    """An hour of stereo that was opened before is there at once; an hour of six channels is scrolled without a jerk."""
    hour("two.dff", 2)
    hour("six.dff", 6)
    with opened("six.dff", "-o", "six.mix.toml") as desk:
        desk.change(label="put", clips={"0": clip(start=0, length=8 * HOUR)})
        with browser(desk, (1400, 1000)) as window:
            rates = [scrolled(window, lane, per) for lane in ("takes", "mix") for per in (169_344, 2822)]
            took = min(reopened(window) for _ in range(2))
            quiet(window, "long recordings")
    demand(min(rates) * busy() >= FRAMES, f"six channels are scrolled with {min(rates):.0f} pictures a second")
    demand(took <= SOON * busy() * 1.5, f"an hour that was opened before is there after {took:.2f} s")
    rate = f"{min(rates):.0f} to {max(rates):.0f} pictures a second"
    print(
        f"in Chromium: an hour again after {took:.2f} s, six channels at {rate}, at {busy():.1f} times the load",
        flush=True,
    )


TRIALS = (*browsing.TRIALS, *editing.TRIALS, walk, long_ones)
