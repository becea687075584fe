"""A desk that is started for a test, and what asks it."""
import contextlib
import http.client
import json
import os
import re
import signal
import subprocess
import time
import urllib.parse
from collections.abc import Callable, Iterator
from typing import Any

from tests.helpers.trials import ROOT

START = os.path.join(ROOT, "bin", "dsdarc-desk")
FULL = 1 << 24
ADDRESS = re.compile(r"http://127\.0\.0\.1:(\d+)/([\w-]+)/")
PATIENCE = 60  # seconds


class Desk:
    """A desk that runs; with a browser of these variables, if there are some."""

    def __init__(self, *arguments: str, browser: dict[str, str] | None = None) -> None:
        command = [START, *([] if browser else ["--no-browser"]), *arguments]
        environment = os.environ | (browser or {})
        self.child = subprocess.Popen(
            command, stdin=subprocess.DEVNULL, stdout=subprocess.PIPE, stderr=subprocess.PIPE, env=environment
        )
        assert self.child.stdout is not None
        line = self.child.stdout.readline().decode()
        found = ADDRESS.search(line)
        if found is None:
            _, err = self.child.communicate()
            raise RuntimeError(f"no desk: {line}{err.decode()}")
        self.port, self.token, self.address = int(found[1]), found[2], found[0]

    def ask(
        self, path: str, body: Any = None, method: str = "", headers: dict[str, str | None] | None = None
    ) -> tuple[int, bytes, dict[str, str]]:
        """Status, body and headers of an answer. `headers` are put in place of the usual ones; None leaves one out."""
        usual: dict[str, str | None] = {"Host": f"127.0.0.1:{self.port}", "X-Desk-Token": self.token}
        data = None if body is None else body if isinstance(body, bytes) else json.dumps(body).encode()
        if data is not None:
            usual |= {"Content-Type": "application/json", "Content-Length": str(len(data))}
        connection = http.client.HTTPConnection("127.0.0.1", self.port, timeout=PATIENCE)
        try:
            connection.putrequest(method or ("GET" if data is None else "POST"), path, skip_host=True)
            for key, it in (usual | (headers or {})).items():
                if it is not None:
                    connection.putheader(key, it)
            connection.endheaders(data)
            answer = connection.getresponse()
            return answer.status, answer.read(), dict(answer.getheaders())
        finally:
            connection.close()

    def get(self, path: str) -> tuple[int, bytes]:
        return self.ask(f"/{self.token}/api/{path}")[:2]

    def json(self, path: str, body: Any = None) -> Any:
        return json.loads(self.ask(f"/{self.token}/api/{path}", body)[1])

    def state(self) -> Any:
        return self.json("state")

    def change(self, **what: Any) -> tuple[int, Any]:
        """Changes the mix as it is now."""
        body = {"number": self.state()["number"]} | what
        status, data, _ = self.ask(f"/{self.token}/api/operations", body)
        return status, json.loads(data)

    def save(self, **what: Any) -> tuple[int, Any]:
        status, data, _ = self.ask(f"/{self.token}/api/save", {"number": self.state()["number"]} | what)
        return status, json.loads(data)

    def frames(self, source: str, first: int, count: int) -> bytes:
        return self.get(f"frames?source={urllib.parse.quote(source)}&from={first}&count={count}")[1]

    def end(self, number: int = signal.SIGTERM) -> tuple[int, str]:
        """Ends it by a signal: its status, and what it said on standard error."""
        if self.child.poll() is None:
            self.child.send_signal(number)
        _, err = self.child.communicate(timeout=PATIENCE)
        return self.child.returncode, err.decode(errors="replace")


@contextlib.contextmanager
def opened(*arguments: str, browser: dict[str, str] | None = None) -> Iterator[Desk]:
    """A desk for the time of a block."""
    desk = Desk(*arguments, browser=browser)
    try:
        yield desk
    finally:
        desk.end()


def refused(*arguments: str) -> str:
    """Why a desk isn't opened."""
    done = subprocess.run(
        [START, "--no-browser", *arguments],
        stdin=subprocess.DEVNULL,
        capture_output=True,
        timeout=PATIENCE,
        check=False,
    )
    return f"{done.returncode} {done.stdout.decode()}{done.stderr.decode()}"


def clip(**what: Any) -> dict[str, Any]:
    """A clip of the first take at full gain."""
    usual = {"take": 0, "decoder": 0, "start": 14_112, "at": 0, "length": 300_000, "title": None}
    return usual | {"line": [[0, FULL]], "in": None, "out": None} | what


def until(holds: Callable[[], Any], seconds: float = PATIENCE) -> Any:
    """What holds at last, or None."""
    ends = time.monotonic() + seconds
    while time.monotonic() < ends:
        found = holds()
        if found:
            return found
        time.sleep(0.1)
    return None
