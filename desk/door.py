"""A file that leads the browser to the desk.

Everybody on a machine can read with what words a program was started. So a browser is started with the path of this file
in place of the desk's address, which has its token. Nobody else can read the file, and it goes once the page came."""
import contextlib
import os
import tempfile
from pathlib import Path

LIVES = 60.0  # seconds after which it goes, if no page comes
PAGE = """<!doctype html>
<meta charset="utf-8">
<meta name="referrer" content="no-referrer">
<meta http-equiv="refresh" content="0; url={0}">
<title>dsdarc desk</title>
<p><a href="{0}">Open the desk</a></p>
"""


class Door:
    """The file, which has the mode 0600, and a name that nobody can guess."""

    def __init__(self, address: str) -> None:
        handle, self.path = tempfile.mkstemp(prefix="dsdarc-desk-", suffix=".html")
        with open(handle, "w") as file:
            file.write(PAGE.format(address))

    @property
    def address(self) -> str:
        """What a browser opens."""
        return Path(self.path).as_uri()

    def close(self) -> None:
        """Takes it away."""
        with contextlib.suppress(OSError):
            os.remove(self.path)
