"""Tries that MPD passes on WAVE files with the frames of `play`, and with DoP samples, bit for bit: by its output `pipe`, to a
file."""
import os
import random
import shutil
import socket
import subprocess
import time
import wave
from typing import IO

from dsdarc_scripts.dsdiffs import dsdiff
from tests.helpers.trials import ROOT, demand, get
from tests.helpers.trials import said as run
from tests.library.bitwise import wanted
from tests.library.playing import PROGRAM, frames_of

MOST_SECONDS = 60  # what doesn't come to its end is given up then
CONFIGURATION = """music_directory "{folder}/music"
db_file "{folder}/database"
log_file "{folder}/log"
bind_to_address "{folder}/socket"
replaygain "off"
audio_output {{
    type "pipe"
    name "raw"
    command "cat >{folder}/heard.pcm"
    format "*:32:*"
    mixer_type "none"
}}
"""


class Daemon:
    """An MPD of its own in a folder, and a connection to it."""

    def __init__(self, folder: str) -> None:
        configuration = os.path.join(folder, "mpd.conf")
        with open(configuration, "w", encoding="ascii") as file:
            file.write(CONFIGURATION.format(folder=folder))
        self._log = open(os.path.join(folder, "said"), "wb")
        command = ["mpd", "--no-daemon", configuration]
        self._child = subprocess.Popen(command, stdout=self._log, stderr=self._log)
        self._stop, self._socket = time.monotonic() + MOST_SECONDS, socket.socket(socket.AF_UNIX)
        while self._socket.connect_ex(os.path.join(folder, "socket")) != 0 and time.monotonic() < self._stop:
            time.sleep(0.05)
        self._lines: IO[str] = self._socket.makefile("rw")
        self._lines.readline()

    def ask(self, line: str) -> str:
        """What it answers."""
        self._lines.write(f"{line}\n")
        self._lines.flush()
        said = ""
        while not (last := self._lines.readline()).startswith(("OK", "ACK")) and last:
            said += last
        return said + last

    def wait(self, words: str, are_there: bool) -> None:
        """Waits until its status has these words, or hasn't."""
        while (words in self.ask("status")) != are_there and time.monotonic() < self._stop:
            time.sleep(0.05)

    def stop(self) -> None:
        self._lines.close()
        self._socket.close()
        self._child.terminate()
        self._child.wait()
        self._log.close()


def heard(folder: str, name: str) -> bytes:
    """The samples that MPD plays of a file: the high 24 bits of each 32."""
    room = os.path.join(folder, "mpd-room")
    os.makedirs(os.path.join(room, "music"))
    shutil.copy(name, os.path.join(room, "music", "in.wav"))
    daemon = Daemon(room)
    try:
        daemon.ask("update")
        daemon.wait("updating_db", False)
        said = daemon.ask("add in.wav") + daemon.ask("play")
        daemon.wait("state: stop", True)
    finally:
        daemon.stop()
    demand(said == "OK\nOK\n", f"mpd: {said}")
    path = os.path.join(room, "heard.pcm")
    wide = get(path) if os.path.exists(path) else b""
    shutil.rmtree(room)
    return b"".join(wide[at + 1 : at + 4] for at in range(0, len(wide), 4))


def try_mpd(folder: str) -> None:
    """Frames and DoP samples, where MPD is installed."""
    if not shutil.which("mpd"):
        print("left out: mpd, as it isn't installed")
        return
    name, out = os.path.join(folder, "mpd.dff"), os.path.join(folder, "mpd.wav")
    data = dsdiff(2822400, 2, random.Random(8).randbytes(2 * 352_800))
    with open(name, "wb") as file:
        file.write(data)
    run(PROGRAM, "play", os.path.join(ROOT, "filters", "dsd64-to-88200-24.toml"), name, out)
    demand(heard(folder, out) == frames_of(get(out))[0], "mpd: other frames of a WAVE file")
    samples = wanted("dop", data)[0]
    with wave.open(out, "wb") as written:
        written.setnchannels(2)
        written.setsampwidth(3)
        written.setframerate(176400)
        written.writeframes(samples)
    demand(heard(folder, out) == samples, "mpd: other DoP samples of a WAVE file")
