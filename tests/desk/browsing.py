"""The page of the desk in Chromium, as people use it: by mouse, by keys alone, in many tabs, in narrow windows."""
import base64
import contextlib
import importlib.util
import os
import shutil
import signal
import time
from collections.abc import Iterator
from typing import Any

from tests.desk.desks import Desk, clip, opened, until
from tests.helpers.trials import ROOT, built_program, demand, get, put, run

USUAL = (1400, 1000)
SIZES = ((1280, 800), (390, 844), (1920, 1080))
SCHEMES = ("light", "dark")
CONTRAST = 4.5
SOON = 0.15  # seconds in which a sound begins, at most, where the machine is idle
PAGE = 200_000  # bytes
RULER = 42  # pixels at the top of a lane


def why_not() -> str:
    """Why there is no browser here."""
    missing = [it for it in ("chromium", "chromedriver") if not shutil.which(it)]
    missing += ["python3-selenium"] if importlib.util.find_spec("selenium") is None else []
    return f"{' and '.join(missing)} isn't installed" if missing else ""


WHY = why_not()


@contextlib.contextmanager
def browser(desk: Desk, size: tuple[int, int] = USUAL) -> Iterator[Any]:
    """A window with the desk's page."""
    from selenium import webdriver
    from selenium.webdriver.chrome.options import Options
    from selenium.webdriver.chrome.service import Service

    options = Options()
    for it in ("--headless=new", "--no-sandbox", "--disable-gpu", f"--window-size={size[0]},{size[1]}"):
        options.add_argument(it)
    options.set_capability("goog:loggingPrefs", {"browser": "ALL"})
    window = webdriver.Chrome(service=Service(shutil.which("chromedriver") or ""), options=options)
    try:
        window.set_script_timeout(60)
        load(window, desk)
        yield window
    finally:
        window.quit()


def load(window: Any, desk: Desk) -> None:
    window.get(desk.address)
    ready(window)


def ready(window: Any) -> None:
    is_ready = until(lambda: window.execute_script("return document.documentElement.dataset.ready"))
    demand(is_ready, "the page isn't ready")
    time.sleep(0.3)


def settle(window: Any) -> None:
    """Waits until all that the page asked for is answered."""
    script = "const end = arguments[0]; import(new URL('model.js', location)).then(it => it.done()).then(end, end)"
    window.execute_async_script(script)


def seen(window: Any) -> dict[str, Any]:
    """What the page holds, once all that was asked for is answered."""
    time.sleep(0.4)
    settle(window)
    found: dict[str, Any] = window.execute_script(
        """const { model, player } = window.desk;
        return { number: model.state.number, clips: Object.fromEntries(model.clips), selected: [...model.selected],
          range: model.range, cursor: model.cursor, saved: model.state.saved, undo: model.state.undo,
          views: model.views, on: player.isOn, latency: player.latency, make: model.state.make,
          notes: document.querySelector("#notes").innerText }"""
    )
    return found


def element(window: Any, name: str) -> Any:
    return window.find_element("css selector", name)


def click(window: Any, name: str) -> None:
    window.execute_script("arguments[0].scrollIntoView({ block: 'center' })", element(window, name))
    element(window, name).click()


def press(window: Any, *keys: str) -> None:
    """Presses keys where the page is, each of those named as selenium names them, and letters as they are."""
    from selenium.webdriver.common.action_chains import ActionChains
    from selenium.webdriver.common.keys import Keys

    chain = ActionChains(window)
    for key in keys:
        *held, last = key.split(" ")
        for it in held:
            chain.key_down(getattr(Keys, it.upper()))
        chain.send_keys(getattr(Keys, last, last) if len(last) > 1 else last)
        for it in held:
            chain.key_up(getattr(Keys, it.upper()))
    chain.perform()


def spot(window: Any, lane: str, x: float, y: float) -> tuple[int, int]:
    """A point of a lane in the window."""
    element_ = element(window, f"#{lane}")
    box = window.execute_script("const it = arguments[0].getBoundingClientRect(); return [it.x, it.y]", element_)
    return round(box[0] + 1 + x), round(box[1] + 1 + y)


def drag(window: Any, *points: tuple[int, int]) -> None:
    """Drags the mouse from point to point."""
    from selenium.webdriver.common.action_chains import ActionChains

    chain = ActionChains(window, duration=40)
    mouse = chain.w3c_actions.pointer_action
    mouse.move_to_location(*points[0])
    mouse.pointer_down()
    for it in points[1:]:
        mouse.move_to_location(*it)
    mouse.pointer_up()
    chain.perform()


def x_of(window: Any, lane: str, bit: float) -> float:
    view = seen(window)["views"][lane]
    return float((bit - view["from"]) / view["per"])


def quiet(window: Any, where: str) -> None:
    """The page says nothing on the console."""
    said = [it["message"] for it in window.get_log("browser")]
    demand(not said, f"{where}: the console says {said}")


def picture(window: Any, pictures: str | None, name: str) -> None:
    if pictures:
        os.makedirs(pictures, exist_ok=True)
        window.save_screenshot(os.path.join(pictures, f"{name}.png"))


def by_mouse(_: str | None) -> None:
    """A mix is made of two takes, heard, saved, and opened again."""
    with opened("piece_1.dff", "piece_2.dff") as desk, browser(desk) as window:
        drag(window, spot(window, "takes", 60, 80), spot(window, "takes", 500, 85), spot(window, "takes", 700, 80))
        range_ = seen(window)["range"]
        demand(range_ and range_["lane"] == "take-0" and range_["to"] > range_["from"], f"no range: {range_}")
        drag(window, spot(window, "takes", 100, 70), spot(window, "takes", 120, 20), spot(window, "mix", 3, 150))
        found = seen(window)
        clips = list(found["clips"].values())
        demand(len(clips) == 1 and clips[0]["at"] == 0, f"a part of a take isn't dropped at the start: {clips}")
        # A drag that leaves the window, and one that Escape ends.
        drag(window, spot(window, "takes", 60, 170), spot(window, "takes", 500, 175), spot(window, "takes", 800, 170))
        click(window, "#insert")
        click(window, "#all")
        found = seen(window)
        demand(len(found["clips"]) == 2, "the button puts nothing into the mix")
        number = str(found["selected"][0])
        second = found["clips"][number]
        first = next(it for key, it in found["clips"].items() if key != number)
        demand(second["at"] == first["length"], f"it isn't put at the end of the first: {second}")
        mouse_edits(window, number, second)
        heard(window, desk)
        press(window, "control s")
        demand(until(lambda: seen(window)["saved"], 10), f"it isn't saved: {seen(window)['notes']}")
        before = seen(window)["clips"]
        window.refresh()
        ready(window)
        demand(seen(window)["clips"] == before, "another mix after the page was loaded again")
        quiet(window, "by mouse")
    print("in Chromium: a mix cut by mouse, heard, saved, and there again", flush=True)


def mouse_edits(window: Any, number: str, second: dict[str, Any]) -> None:
    """Moves, trims and fades a clip, and undoes it."""
    middle = x_of(window, "mix", second["at"] + second["length"] / 2)
    top = RULER + 3 + 8
    drag(
        window,
        spot(window, "mix", middle, top),
        spot(window, "mix", middle - 60, top),
        spot(window, "mix", middle - 90, top),
    )
    found = seen(window)
    moved = found["clips"][number]
    demand(found["undo"] == "move" and moved["at"] < second["at"], f"it isn't moved: {found['undo']} {moved}")
    rows = window.execute_script(
        "return import(new URL('draw.js', location)).then(it => [...it.rows(window.desk.model.clips).found])"
    )
    row = next(int(it) for clip, it in rows if clip == int(number))
    height = window.execute_script("return document.querySelector('#mix').clientHeight")
    size = (height - RULER - 6) / 2
    body = RULER + 3 + row * size
    end = x_of(window, "mix", moved["at"] + moved["length"])
    drag(
        window,
        spot(window, "mix", end - 2, body + 60),
        spot(window, "mix", end - 30, body + 60),
        spot(window, "mix", end - 50, body + 61),
    )
    found = seen(window)
    demand(found["undo"] == "trim the end", f"it isn't trimmed: {found['undo']}")
    trimmed = found["clips"][number]
    demand(trimmed["length"] < moved["length"] and trimmed["at"] == moved["at"], f"it isn't trimmed: {trimmed}")
    end = x_of(window, "mix", trimmed["at"] + trimmed["length"])
    drag(
        window,
        spot(window, "mix", end - 1, body + 5),
        spot(window, "mix", end - 40, body + 5),
        spot(window, "mix", end - 70, body + 5),
    )
    found = seen(window)
    demand(found["undo"] == "fade out" and found["clips"][number]["out"], f"it doesn't fade: {found['undo']}")
    press(window, "control z")
    demand(seen(window)["clips"][number] == trimmed, "undo doesn't take the fade away")
    press(window, "control y")
    demand(seen(window)["clips"][number]["out"], "redo doesn't bring the fade")
    click(window, "#cross")
    found = seen(window)
    demand(found["undo"] == "crossfade" and found["clips"][number]["in"], f"no crossfade: {found['notes']}")
    # A drag out of the window ends as one inside; Escape leaves all as it was.
    before = found["clips"]
    escape(window, spot(window, "mix", 150, body if row == 0 else top))
    demand(seen(window)["clips"] == before, "Escape doesn't end a drag")


def escape(window: Any, point: tuple[int, int]) -> None:
    """Begins a drag, and ends it by Escape."""
    from selenium.webdriver.common.action_chains import ActionChains

    chain = ActionChains(window, duration=40)
    mouse = chain.w3c_actions.pointer_action
    mouse.move_to_location(*point)
    mouse.pointer_down()
    mouse.move_to_location(point[0] + 80, point[1] + 5)
    chain.perform()
    press(window, "ESCAPE")
    chain = ActionChains(window, duration=40)
    chain.w3c_actions.pointer_action.pointer_up()
    chain.perform()


def heard(window: Any, desk: Desk) -> None:
    """What is played is what the program plays, and it begins soon."""
    script = """const [source, from, count, done] = arguments;
    fetch(`api/frames?source=${source}&from=${from}&count=${count}`, { headers: { "X-Desk-Token": location.pathname.split("/")[1] } })
      .then(it => it.arrayBuffer()).then(it => done(btoa(String.fromCharCode(...new Uint8Array(it).slice(0, 60000)))))"""
    data = base64.b64decode(window.execute_async_script(script, "take-0", 1000, 9000))
    done = run(built_program(), "play", os.path.join(ROOT, "filters", "dsd64-to-88200-24.toml"), "piece_1.dff", "p.wav")
    wave = get("p.wav")
    place = wave.index(b"data") + 8
    wanted = wave[place + 6000 : place + 6000 + len(data)]
    demand(done.returncode == 0 and len(data) > 50_000 and data == wanted, "other bytes reach the page than are played")
    numbers = window.execute_async_script(
        """const done = arguments[0]; import(new URL("player.js", location)).then(it => {
        const data = new Uint8Array([0, 0, 128, 255, 255, 127, 1, 0, 0, 255, 255, 255]);
        done([...it.decoded(data.buffer, "s24")].map(it => it * 8388608)); })"""
    )
    demand(numbers == [-8388608, 8388607, 1, -1], f"numbers of the page: {numbers}")
    latencies = []
    for _ in range(4):
        press(window, "HOME")
        click(window, "#play")
        until(lambda: seen(window)["latency"] is not None or not seen(window)["on"], 10)
        latency = seen(window)["latency"]
        if latency is not None:
            latencies.append(latency)
        until(lambda: not seen(window)["on"], 10)
    demand(latencies, f"nothing is heard: {seen(window)['notes']}")
    busy = max(os.getloadavg()[0] / (os.cpu_count() or 1), 1)
    if latencies:
        demand(min(latencies) <= SOON * 1000 * busy, f"the first sound comes after {min(latencies):.0f} ms")
        print(f"in Chromium: the first sound after {min(latencies):.0f} ms at {busy:.1f} times the load", flush=True)


def master(window: Any, pictures: str | None) -> None:
    """A master that is being made is shown and heard."""
    is_done = until(
        lambda: window.find_elements("css selector", "#verdict") or window.find_elements("css selector", "#why"), 300
    )
    demand(
        is_done and window.find_elements("css selector", "#verdict"), f"no master: {element(window, '#master').text}"
    )
    text = element(window, "#master").text
    demand("accepted" in text and "differs audibly from its mix by at most" in text, f"the master: {text[:300]}")
    rows = window.find_elements("css selector", "#cuts tbody tr")
    demand(rows and "dB" in rows[0].text, "no cut is shown")
    links = window.find_elements("css selector", "#files a")
    demand(len(links) >= 5, f"{len(links)} files are given")
    demand(until(lambda: in_sight(window, "#files a"), 5), "the files aren't in sight")
    radio = element(window, "[name=heard][value=master]")
    demand(radio.is_enabled(), "the master can't be heard")
    press(window, "ESCAPE")
    click(window, "[name=heard][value=master]")
    click(window, "#play")
    demand(until(lambda: seen(window)["latency"] is not None, 10), f"the master isn't heard: {seen(window)['notes']}")
    until(lambda: not seen(window)["on"], 10)
    click(window, "#all")
    click(window, "#cuts button")
    until(lambda: not seen(window)["on"], 10)
    picture(window, pictures, "made")


def in_sight(window: Any, name: str) -> bool:
    """Whether all that have this name are in the window, between its head and its foot."""
    script = """const box = it => it.getBoundingClientRect(), rows = [...document.querySelectorAll(arguments[0])].map(box);
    const [head, foot, notes] = ["header", "footer", "#notes"].map(name => box(document.querySelector(name)));
    return rows.every(it => it.top >= Math.max(head.bottom, notes.bottom) && it.bottom <= foot.top)"""
    return bool(window.execute_script(script, name))


def looks(window: Any, pictures: str | None) -> None:
    """In each size, light and dark, all is in sight, and has a name."""
    for size in SIZES:
        for scheme in SCHEMES:
            show_in(window, scheme)
            metrics = {"width": size[0], "height": size[1], "deviceScaleFactor": 1, "mobile": False}
            window.execute_cdp_cmd("Emulation.setDeviceMetricsOverride", metrics)
            time.sleep(0.7)
            contrast(window, f"{size[0]} pixels, {scheme}")
            picture(window, pictures, f"{size[0]}-{scheme}")
            wide = window.execute_script(
                "const it = document.documentElement; return [it.scrollWidth, it.clientWidth, "
                "[...document.querySelectorAll('button, input, select, canvas')].filter(it => it.offsetParent && "
                "(it.getBoundingClientRect().right > innerWidth + 1 || it.getBoundingClientRect().left < -1)).map(it => it.id)]"
            )
            demand(
                wide[0] <= wide[1] and not wide[2], f"{size[0]} pixels: the page is {wide[0]} wide, outside: {wide[2]}"
            )
    named(window)
    weight = sum(it.stat().st_size for it in os.scandir(os.path.join(ROOT, "desk", "page")))
    demand(weight < PAGE, f"the page has {weight} bytes")


def named(window: Any) -> None:
    """Each thing that can be used has a name for those who hear the page."""
    for it in window.find_elements("css selector", "button, input, select, canvas[tabindex], [role=meter], a, summary"):
        if it.is_displayed():
            demand(it.accessible_name, f"without a name: {it.get_attribute('outerHTML')[:120]}")
    roles = [it.aria_role for it in window.find_elements("css selector", "header, main, footer, aside")]
    demand({"main", "complementary"} <= set(roles), f"landmarks: {roles}")


def show_in(window: Any, scheme: str) -> None:
    """Shows the page light or dark."""
    features = {"features": [{"name": "prefers-color-scheme", "value": scheme}]}
    window.execute_cdp_cmd("Emulation.setEmulatedMedia", features)


def contrast(window: Any, where: str) -> int:
    """All texts in sight are read on their grounds: how many there are."""
    script = get(os.path.join(ROOT, "tests", "desk", "faint.js")).decode()
    count, found = window.execute_async_script(script, CONTRAST)
    demand(count > 60 and not found, f"{where}: of {count} texts are faint: {found}")
    return int(count)


def by_keys(_: str | None) -> None:
    """A mix is made without a mouse."""
    with opened("piece_1.dff", "piece_2.dff") as desk, browser(desk) as window:
        demand(goes_to(window, "takes"), "Tab doesn't lead to the takes")
        press(window, "HOME", *["shift ARROW_RIGHT"] * 5, "[", *["shift ARROW_RIGHT"] * 40, "]")
        demand(seen(window)["range"], "keys select nothing")
        press(window, "i")
        press(window, "ARROW_DOWN", "HOME", *["shift ARROW_RIGHT"] * 5, "[", *["shift ARROW_RIGHT"] * 40, "]", "i")
        found = seen(window)
        demand({it["take"] for it in found["clips"].values()} == {0, 1}, f"keys put in {found['clips']}")
        demand(goes_to(window, "mix"), "Tab doesn't lead to the mix")
        press(window, "0", "n", *["shift ,"] * 8)
        press(window, "p", "n", "x")
        found = seen(window)
        press(window, "p", *["shift ARROW_RIGHT"] * 10, "g", "s")
        after = seen(window)
        demand(len(after["clips"]) == 3, f"keys split nothing: {after['notes']}")
        press(window, "control z", "control z")
        press(window, "TAB")
        demand(until(lambda: seen(window)["latency"] is not None, 10), "Tab plays no cut")
        press(window, "ESCAPE", "TAB")
        time.sleep(0.3)
        left = window.execute_script("return document.activeElement.id")
        demand(left != "mix", "Tab doesn't leave the mix after Escape")
        press(window, "control s")
        demand(until(lambda: seen(window)["saved"], 10), "keys save nothing")
        press(window, "?")
        demand(element(window, "#help").is_displayed(), "? shows no list of keys")
        press(window, "ESCAPE")
        quiet(window, "by keys")
    print("in Chromium: a mix cut by keys alone", flush=True)


def goes_to(window: Any, name: str) -> bool:
    """Goes by Tab to what has this name."""
    window.execute_script("document.activeElement.blur()")
    for _ in range(60):
        press(window, "ESCAPE", "TAB")
        if window.execute_script("return document.activeElement.id") == name:
            return True
    return False


def asked(_: str | None) -> None:
    """The page asks what is to become of what nobody saved, and of what another program wrote; and stops a making."""
    desk = Desk("piece_1.dff", "piece_2.dff")
    desk.change(label="put", clips={"0": clip()})
    desk.save()
    crash(desk)
    with opened("album.mix.toml") as desk, browser(desk) as window:
        kept_once(window)
        crash(desk)
        with opened("album.mix.toml") as desk:
            load(window, desk)
            window.get_log("browser")  # the desk that was killed didn't answer
            question = element(window, "#question")
            demand("nobody saved" in question.text and not seen(window)["saved"], f"taken up: {question.text!r}")
            question.find_elements("css selector", "button")[1].click()
            demand(until(lambda: seen(window)["saved"], 10), "what was taken up isn't dropped")
            other_text(window)
            quiet(window, "asked")
    print("in Chromium: it asks what is to become of what wasn't saved, and stops", flush=True)


def crash(desk: Desk) -> None:
    """A change that nobody saves, and the end of the server."""
    desk.change(label="move", clips={"0": clip(at=800)})
    desk.end(signal.SIGKILL)


def kept_once(window: Any) -> None:
    """What is taken up is said once, and not again once it is kept."""
    question = element(window, "#question")
    demand("1 change that" in question.text and not seen(window)["saved"], f"taken up: {question.text!r}")
    demand(element(window, "#notes").text == "", f"what was taken up is said twice: {element(window, '#notes').text}")
    question.find_elements("css selector", "button")[0].click()
    demand(until(lambda: not question.is_displayed(), 10), "what was taken up can't be kept")
    window.refresh()
    ready(window)
    question = element(window, "#question")
    demand(not question.is_displayed() and not seen(window)["notes"], "what was kept is said again")
    press(window, "control z")
    demand(until(lambda: seen(window)["saved"], 10), "what was taken up can't be undone")


def other_text(window: Any) -> None:
    """Another program writes the text; and a making is stopped."""
    question = element(window, "#question")
    window.execute_script("window.desk.edits.insert(900000, { take: 1, start: 0, length: 100000 })")
    demand(len(seen(window)["clips"]) == 2, "nothing was put in")
    put("album.mix.toml", get("album.mix.toml").decode().replace("at = 0\n", "at = 80\n"))
    demand(until(lambda: "another program" in question.text, 10), f"outside: {question.text!r}")
    question.find_elements("css selector", "button")[0].click()
    is_other = until(lambda: [it["at"] for it in seen(window)["clips"].values()] == [80], 10)
    demand(is_other and seen(window)["saved"], f"the other text isn't taken: {seen(window)['clips']}")
    click(window, "#make")
    if until(lambda: window.find_elements("css selector", "#stop-making"), 20):
        click(window, "#stop-making")
        demand(until(lambda: "stopped" in element(window, "#master").text, 20), element(window, "#master").text)
    else:
        demand(False, f"a making can't be stopped: {element(window, '#master').text}")


def ten_tabs(_: str | None) -> None:
    """Ten tabs at once show one mix, and none writes over what another did. The server goes, and comes again."""
    with opened("piece_1.dff", "piece_2.dff") as desk, browser(desk) as window:
        tabs = [window.current_window_handle]
        for _number in range(9):
            window.switch_to.new_window("tab")
            load(window, desk)
            tabs.append(window.current_window_handle)
        for number, it in enumerate(tabs):
            window.switch_to.window(it)
            window.execute_script(
                f"window.desk.edits.insert({number} * 500000, {{ take: 0, start: 0, length: 400000 }})"
            )
        wanted = len(desk.state()["clips"])
        demand(wanted >= 1, "no tab changed anything")
        for it in tabs:
            window.switch_to.window(it)
            same = until(lambda: len(seen(window)["clips"]) == len(desk.state()["clips"]), 10)
            demand(same, f"a tab shows {len(seen(window)['clips'])} clips, and there are {len(desk.state()['clips'])}")
            window.get_log("browser")  # a change that was refused is one line there
        speed(window)
    print(f"in Chromium: ten tabs show one mix of {wanted} clips", flush=True)


def speed(window: Any) -> None:
    """How long a picture of a lane takes while it is scrolled."""
    took = window.execute_async_script(
        """const done = arguments[0]; import(new URL("draw.js", location)).then(async it => {
        const canvas = document.querySelector("#mix"), { model } = window.desk;
        for (let step = 0; step < 20; step++) { model.views.mix.from += 2000; it.drawMix(canvas); await new Promise(requestAnimationFrame); }
        const begun = performance.now();
        for (let step = 0; step < 60; step++) { model.views.mix.from += 2000; it.drawMix(canvas); }
        done((performance.now() - begun) / 60); })"""
    )
    busy = max(os.getloadavg()[0] / (os.cpu_count() or 1), 1)
    demand(took <= 16 * busy, f"a picture of the mix takes {took:.1f} ms at {busy:.1f} times the load")
    print(f"in Chromium: a picture of a scrolled mix takes {took:.1f} ms at {busy:.1f} times the load", flush=True)


TRIALS = (by_mouse, by_keys, asked, ten_tabs)
