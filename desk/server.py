"""The server of the desk, for one user on this machine.

It listens on 127.0.0.1 alone. Each path begins with a token that nobody can guess, and each call of the page has it as a
header, too. Requests for another host, or from a page of another origin, are refused, so no other page in the same
browser reaches it. Answers allow no script and no file of another place."""
import asyncio
import contextlib
import json
import os
import secrets
import socket
import sys
from collections.abc import Awaitable, Callable
from typing import Any

from aiohttp import web

from desk import sound
from desk.core import Desk, Outdated
from desk.peaks import COLUMNS
from dsdarc_scripts import outputs
from dsdarc_scripts.outputs import Refused

PAGE = os.path.join(os.path.dirname(os.path.abspath(__file__)), "page")
KINDS = {".html": "text/html", ".css": "text/css", ".js": "text/javascript", ".svg": "image/svg+xml"}
TOKEN = "X-Desk-Token"
MOST_FRAMES = 1 << 19  # of one answer
MOST_SELECTED = 1 << 36
MOST_BODY = 1 << 23  # bytes
MOST_WAITING = 4096  # news that a page hasn't taken yet
LOOK = 1.0  # seconds between two looks at the files
LIVE = 20.0  # seconds between two signs of life
WARM = 1.0  # seconds after which the page is shown
HEADERS = {
    "Content-Security-Policy": "default-src 'self'; object-src 'none'; base-uri 'none'; form-action 'none'; "
    "frame-ancestors 'none'",
    "X-Content-Type-Options": "nosniff",
    "X-Frame-Options": "DENY",
    "Referrer-Policy": "no-referrer",
    "Cross-Origin-Opener-Policy": "same-origin",
    "Cross-Origin-Resource-Policy": "same-origin",
    "Cache-Control": "no-store",
}

Handler = Callable[[web.Request], Awaitable[web.StreamResponse]]


def whole(request: web.Request, key: str, least: int, most: int) -> int:
    """A whole number of a request."""
    text = request.query.get(key, "")
    digits = text.removeprefix("-")
    if not digits.isascii() or not digits.isdecimal() or len(digits) > 15 or not least <= int(text) <= most:
        raise Refused(f"{key} is a whole number from {least} to {most}")
    return int(text)


def answer(value: object, status: int = 200) -> web.Response:
    return web.Response(text=json.dumps(value), status=status, content_type="application/json")


def refused(why: str, status: int = 400) -> web.Response:
    return answer({"why": why}, status)


class Server:
    """The desk, as a browser sees it."""

    def __init__(self, desk: Desk, token: str) -> None:
        self.desk, self.token = desk, token
        self.came: Callable[[], None] = lambda: None  # what is done once a page came
        self.hosts = set[str]()
        self.queues = set[asyncio.Queue[bytes | None]]()
        self.loop: asyncio.AbstractEventLoop | None = None
        self.is_ending = False

    # News for all pages.

    def say(self, news: dict[str, Any]) -> None:
        """Tells all pages something, from any thread."""
        if self.loop is not None and not self.is_ending:
            with contextlib.suppress(RuntimeError):
                self.loop.call_soon_threadsafe(self.put, json.dumps(news).encode() + b"\n")

    def put(self, line: bytes) -> None:
        for queue in self.queues:
            if queue.qsize() < MOST_WAITING:
                queue.put_nowait(line)

    async def watch(self) -> None:
        """Looks at the files now and then, and at what is made."""
        desk, was_running = self.desk, False
        while True:
            await asyncio.sleep(LOOK)
            try:
                news = await asyncio.to_thread(desk.look_outside)
                news = await asyncio.to_thread(desk.look_at_takes) or news
            except OSError:
                continue
            is_running = desk.maker.state["running"]
            if was_running and not is_running:
                await asyncio.to_thread(desk.open_master)
                news = True
            was_running = is_running
            if news:
                self.say({"changed": desk.journal.history.number})

    # Who is answered.

    def why_refused(self, request: web.Request) -> str | None:
        """Why a request isn't answered."""
        if request.headers.get("Host", "") not in self.hosts:
            return "another host"
        origin = request.headers.get("Origin")
        if origin is not None and origin not in {f"http://{it}" for it in self.hosts}:
            return "another origin"
        if request.headers.get("Sec-Fetch-Site", "none") not in ("same-origin", "none") and not self.is_opening(
            request
        ):
            return "another origin"
        if not secrets.compare_digest(request.match_info.get("token", "").encode(), self.token.encode()):
            return "no token"
        is_call = request.path.startswith(f"/{self.token}/api/")
        if is_call and not secrets.compare_digest(request.headers.get(TOKEN, "").encode(), self.token.encode()):
            return "no token"
        return None

    @staticmethod
    def is_opening(request: web.Request) -> bool:
        """Whether a window is to show the page, as from the file that leads to it (desk/door.py)."""
        how = [request.headers.get(f"Sec-Fetch-{it}") for it in ("Mode", "Dest")]
        is_page = request.path.endswith("/") and request.path.count("/") == 2
        return is_page and request.method == "GET" and how == ["navigate", "document"]

    @web.middleware
    async def guard(self, request: web.Request, handler: Handler) -> web.StreamResponse:
        """Refuses strangers, and says faults in a line."""
        why = self.why_refused(request)
        if why is not None:
            response: web.StreamResponse = web.Response(text=f"refused: {why}\n", status=403)
        else:
            response = await self.answered(request, handler)
        if not response.prepared:
            response.headers.update(HEADERS)
        return response

    async def answered(self, request: web.Request, handler: Handler) -> web.StreamResponse:
        try:
            return await handler(request)
        except Outdated:
            return refused("this page doesn't show what was done last", 409)
        except Refused as error:
            return refused(str(error))
        except OSError as error:
            return refused(outputs.reason_of(error), 410)
        except web.HTTPException as error:
            return refused(error.reason, error.status)
        except MemoryError:
            return refused("more memory is wanted than there is", 507)
        except (ConnectionError, asyncio.CancelledError):
            raise
        except Exception as error:  # a fault of the desk's own; the page says it, and goes on
            print(f"dsdarc-desk: {type(error).__name__}: {error}", file=sys.stderr)
            return refused(f"the desk itself is wrong: {type(error).__name__}: {error}", 500)

    # What is answered.

    async def page(self, request: web.Request) -> web.Response:
        """A file of the page."""
        name = request.match_info.get("name") or "index.html"
        if name == "index.html":
            self.came()
        ending = os.path.splitext(name)[1]
        if name not in os.listdir(PAGE) or ending not in KINDS:
            return refused("there is no such file", 404)
        with open(os.path.join(PAGE, name), "rb") as file:
            return web.Response(body=file.read(), content_type=KINDS[ending], charset="utf-8")

    async def state(self, _: web.Request) -> web.Response:
        return answer(await asyncio.to_thread(self.desk.state))

    async def about(self, _: web.Request) -> web.Response:
        return answer(await asyncio.to_thread(self.desk.about))

    async def body(self, request: web.Request) -> dict[str, Any]:
        """What a page sends."""
        if request.content_type != "application/json":
            raise Refused("a page sends JSON")
        try:
            found = json.loads(await request.read())
        except (ValueError, RecursionError):
            raise Refused("this is no JSON") from None
        if not isinstance(found, dict):
            raise Refused("a page sends an object")
        return found

    async def changed(self, call: Callable[..., Any], *arguments: object) -> web.Response:
        """Does something, and answers with what is there now. Other pages are told."""
        desk = self.desk
        await asyncio.to_thread(call, *arguments)
        state = await asyncio.to_thread(desk.state)
        self.put(json.dumps({"changed": state["number"]}).encode() + b"\n")
        return answer(state)

    async def operations(self, request: web.Request) -> web.Response:
        return await self.changed(self.desk.change, await self.body(request))

    async def save(self, request: web.Request) -> web.Response:
        it = await self.body(request)
        return await self.changed(self.desk.save, it.get("number"), it.get("over") is True)

    async def drop(self, request: web.Request) -> web.Response:
        return await self.changed(self.desk.drop_taken_up, (await self.body(request)).get("number"))

    async def keep(self, request: web.Request) -> web.Response:
        return await self.changed(self.desk.keep_taken_up, (await self.body(request)).get("number"))

    async def other(self, request: web.Request) -> web.Response:
        return await self.changed(self.desk.take_other, (await self.body(request)).get("number"))

    async def tile(self, request: web.Request) -> web.Response:
        """Columns of a wave: for each, and each channel, the least and the greatest, in 16 bits."""
        desk, name = self.desk, request.query.get("source", "")
        block, index = whole(request, "block", 1, 1 << 40), whole(request, "index", 0, 1 << 40)
        peaks = await asyncio.to_thread(desk.peaks_of, name)
        data, is_whole = await asyncio.to_thread(peaks.tile, block, index)
        more = {"X-Complete": str(int(is_whole)), "X-Columns": str(COLUMNS)}
        return web.Response(body=data, headers=more, content_type="application/octet-stream")

    async def frames(self, request: web.Request) -> web.Response:
        """Frames of a source as the bytes that `dsdarc play` writes; those of the mix as numbers of 32 bits, floating."""
        desk, name = self.desk, request.query.get("source", "")
        first, count = whole(request, "from", 0, 1 << 40), whole(request, "count", 1, MOST_FRAMES)
        if name == "mix":
            rows = await asyncio.to_thread(desk.numbers_of, name, first, count)
            data, form = rows.astype("<f4").tobytes(), "f32"
        else:
            source = desk.source(name)
            data, form = await asyncio.to_thread(source.data, first, count), f"s{source.width}"
        return web.Response(body=data, headers={"X-Format": form}, content_type="application/octet-stream")

    async def levels(self, request: web.Request) -> web.Response:
        desk, name = self.desk, request.query.get("source", "")
        first, count = whole(request, "from", 0, 1 << 40), whole(request, "count", 1, MOST_SELECTED)
        if name != "mix":
            desk.source(name)
        rate = desk.sources[0].rate
        return answer(
            await asyncio.to_thread(sound.measured, lambda *it: desk.numbers_of(name, *it), rate, first, count)
        )

    async def make(self, request: web.Request) -> web.Response:
        """Begins to make a master of the text that was saved."""
        return await self.begun(request, False)

    async def predict(self, request: web.Request) -> web.Response:
        """Begins to predict what the cuts of the mix will leave, saved or not."""
        return await self.begun(request, True)

    async def begun(self, request: web.Request, predicts: bool) -> web.Response:
        desk, move = self.desk, (await self.body(request)).get("move", 0)
        wanted = await asyncio.to_thread(desk.wanted, move, predicts)
        if desk.maker.state["running"]:
            raise Refused("a master is being made")
        desk.maker.start(wanted, predicts)
        return answer({"running": True})

    async def stop(self, _: web.Request) -> web.Response:
        await self.desk.maker.stop()
        return answer({"running": False})

    async def lines(self, _: web.Request) -> web.Response:
        return answer({"lines": self.desk.maker.state.get("lines", [])})

    async def events(self, request: web.Request) -> web.StreamResponse:
        """What happens, a line for each thing, until the page goes. It is no call, so it has no header of its own: its
        address has the token, and a browser says from which origin it comes."""
        if request.headers.get("Origin") is None:
            return refused("another origin", 403)
        response = web.WebSocketResponse(heartbeat=LIVE, max_msg_size=1 << 10)
        await response.prepare(request)
        queue: asyncio.Queue[bytes | None] = asyncio.Queue()
        for it in self.desk.progress():
            queue.put_nowait(json.dumps(it).encode())
        self.queues.add(queue)
        hearing = asyncio.create_task(self.hear(response, queue))
        warming = asyncio.create_task(self.warm())
        try:
            while (line := await queue.get()) is not None:
                await response.send_str(line.decode())
        except ConnectionError:
            pass
        finally:
            self.queues.discard(queue)
            hearing.cancel()
            warming.cancel()
            await response.close()
        return response

    async def warm(self) -> None:
        """Gets ready what is needed later, once the page is shown."""
        await asyncio.sleep(WARM)
        with contextlib.suppress(OSError, Refused):
            await asyncio.to_thread(self.desk.warm)

    @staticmethod
    async def hear(response: web.WebSocketResponse, queue: asyncio.Queue[bytes | None]) -> None:
        """Waits until a page goes, which says nothing before."""
        async for _ in response:
            pass
        queue.put_nowait(None)

    async def file(self, request: web.Request) -> web.StreamResponse:
        """A file of the master that was made."""
        desk, ending = self.desk, request.match_info["ending"]
        found = await asyncio.to_thread(desk.maker.result)
        if found is None or f".{ending}" not in found["endings"]:
            return refused("there is no such file", 404)
        path = desk.folders.demand(desk.maker.file(f".{ending}"), "the file")
        name = os.path.basename(path).encode("ascii", "replace").decode().replace('"', "_").replace("\\", "_")
        return web.FileResponse(path, headers={**HEADERS, "Content-Disposition": f'attachment; filename="{name}"'})

    def application(self) -> web.Application:
        """All that is answered, below the token."""
        made = web.Application(middlewares=[self.guard], client_max_size=MOST_BODY)
        top = "/{token}"
        for path, get in {
            "/": self.page,
            "/api/state": self.state,
            "/api/about": self.about,
            "/api/tile": self.tile,
            "/api/frames": self.frames,
            "/api/levels": self.levels,
            "/api/lines": self.lines,
            "/events": self.events,
            "/file/{ending}": self.file,
            "/{name}": self.page,
        }.items():
            made.router.add_get(f"{top}{path}", get)
        for path, post in {
            "/api/operations": self.operations,
            "/api/save": self.save,
            "/api/drop": self.drop,
            "/api/keep": self.keep,
            "/api/other": self.other,
            "/api/make": self.make,
            "/api/predict": self.predict,
            "/api/stop": self.stop,
        }.items():
            made.router.add_post(f"{top}{path}", post)
        return made

    async def begin(self, listening: socket.socket) -> web.AppRunner:
        """Answers those who come to a socket."""
        self.loop = asyncio.get_running_loop()
        self.desk.hearers.append(self.say)
        number = listening.getsockname()[1]
        self.hosts = {f"127.0.0.1:{number}", f"localhost:{number}"}
        runner = web.AppRunner(self.application(), access_log=None, handle_signals=False)
        await runner.setup()
        await web.SockSite(runner, listening, shutdown_timeout=1.0).start()
        return runner

    async def end(self, runner: web.AppRunner) -> None:
        """Ends what runs. All that was done is in the journal."""
        self.is_ending = True
        for queue in self.queues:
            queue.put_nowait(None)
        desk = self.desk
        await desk.maker.stop()
        await runner.cleanup()
        await asyncio.to_thread(desk.close)
