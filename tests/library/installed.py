"""Tries the library as users have it: installed, from the Debian packages, and by pip. The lines of README.md and of
docs/LIBRARY.md are run as they are there, beside what is installed and a file `in.dsf`."""
import os
import platform
import re
import shutil
import subprocess
import sys
import zipfile

from tests.helpers.trials import ROOT, demand, get
from tests.library.playing import BUILT, PROGRAM, frames_of

PYTHON = "lib/python3/dist-packages"
# What shows Python and others where the library is, which nothing may need here.
NAMED = ("DSDARC", "DSDARC_LIBRARY", "DSDARC_FILTERS", "DSDARC_FILTER", "PYTHONPATH", "PKG_CONFIG_PATH")
# What a package of those that programs in C need has, and the other has of the library.
DEVELOPMENT = ("include/dsdarc.h", "lib/libdsdarc.a", "lib/libdsdarc.so", "lib/pkgconfig/dsdarc.pc")


def lines_of(name: str, *parts: str) -> list[str]:
    """The lines of a document's programs that have one of these parts."""
    with open(os.path.join(ROOT, name), encoding="utf-8") as file:
        lines = [line[4:].rstrip("\n") for line in file if line.startswith("    ")]
    return [line for line in lines if any(part in line for part in parts)]


class Users:
    """A folder with `in.dsf` and what is installed below a prefix, in which lines are run as a user does."""

    def __init__(self, folder: str, prefix: str, sound: str, frames: bytes) -> None:
        self.folder, self.prefix, self.frames = folder, prefix, frames
        os.mkdir(folder)
        for name in ("clients", "filters"):
            os.symlink(f"{prefix}/share/dsdarc/{name}", f"{folder}/{name}")
        for name in ("gstdsdarcdec.c", "mpvdsdarc.c", "speakers.h", "tags.h"):
            os.symlink(f"{prefix}/share/dsdarc/clients/{name}", f"{folder}/{name}")
        shutil.copy(sound, f"{folder}/in.dsf")
        config = 'pcm.n { type null }\npcm.!default { type file slave.pcm n file "heard.pcm" format "raw" }\n'
        self.put("asoundrc", config)
        # LLVM's libunwind, which may be there in place of Debian's, has no such file, and that of GStreamer names it.
        self.put("pc/libunwind.pc", "Name: libunwind\nDescription: none\nVersion: 1\n")

    def put(self, name: str, text: str) -> None:
        path = os.path.join(self.folder, name)
        os.makedirs(os.path.dirname(path), exist_ok=True)
        with open(path, "w", encoding="utf-8") as file:
            file.write(text)

    def run(self, *arguments: str, **more: str) -> tuple[int, bytes]:
        """Status of a command and what it prints; it knows nothing of the clone."""
        given = {name: value for name, value in os.environ.items() if name not in NAMED}
        given |= {
            "PATH": f"{self.prefix}/bin:{given['PATH']}",
            "LD_LIBRARY_PATH": f"{self.prefix}/lib",
            "PKG_CONFIG_PATH": f"{self.prefix}/lib/pkgconfig:{self.folder}/pc",
            "ALSA_CONFIG_PATH": f"/usr/share/alsa/alsa.conf:{self.folder}/asoundrc",
            "GST_REGISTRY": f"{self.folder}/registry",
            "PYTHONDONTWRITEBYTECODE": "1",
        }
        done = subprocess.run(arguments, cwd=self.folder, env=given | more, capture_output=True, check=False)
        return done.returncode, done.stdout + done.stderr

    def follow(self, what: str, lines: list[str], count: int, made: str) -> None:
        """Runs these lines, of which there are so many, and asks for the frames in a file."""
        demand(len(lines) == count, f"{what}: {len(lines)} lines are there, not {count}: {lines}")
        for line in lines:
            status, said = self.run("bash", "-c", line)
            demand(status == 0, f"{what}: {line}: status {status}, {said[-300:]}")
        path = os.path.join(self.folder, made)
        is_right = os.path.exists(path) and get(path) == self.frames
        demand(is_right, f"{what}: other frames in {made}")

    def plays(self, source: str, script: str) -> None:
        """The players of the documents, in C, over ALSA and by GStreamer, and the script in Python."""
        self.put("play.c", source)
        self.put("script.py", script)
        lines = ["cc play.c $(pkg-config --cflags --libs dsdarc) -o play"]
        demand(any(lines[0] in line for line in open(f"{ROOT}/README.md", encoding="utf-8")), "README: another cc")
        lines.append('./play "$(filters/pick 88200/24 in.dsf)" <in.dsf >out.pcm')
        self.follow("README's program in C", lines, 2, "out.pcm")
        if os.path.exists("/usr/include/alsa/asoundlib.h"):
            self.follow("README's player", lines_of("README.md", "dsdarcplay"), 2, "heard.pcm")
        if shutil.which("mpv") and os.path.exists("/usr/include/mpv/stream_cb.h"):
            self.plays_in_mpv()
        if os.path.exists("/usr/include/gstreamer-1.0/gst/tag/tag.h"):
            os.remove(f"{self.folder}/out.pcm")
            lines = lines_of("docs/LIBRARY.md", "gstdsdarcdec.c", "gst-launch-1.0")
            self.follow("the element", lines, 2, "out.pcm")
        self.runs_script("Python, installed", sys.executable, PYTHONPATH=f"{self.prefix}/{PYTHON}")

    def plays_in_mpv(self) -> None:
        """The lines of the plugin of mpv, also once it is where mpv looks for scripts."""
        self.put("mpv/mpv.conf", "ao=pcm\nao-pcm-file=mpv.wav\naudio-display=no\n")
        lines = lines_of("docs/LIBRARY.md", "mpvdsdarc.c", "mpv --script=")
        demand(len(lines) == 2, f"the plugin of mpv: other lines: {lines}")
        for line in (*lines, "mkdir mpv/scripts && mv dsdarc.so mpv/scripts && mpv in.dsf"):
            status, said = self.run("bash", "-c", line, MPV_HOME=f"{self.folder}/mpv")
            demand(status == 0, f"the plugin of mpv: {line}: status {status}, {said[-300:]}")
            if "in.dsf" in line and status == 0:
                wide, _ = frames_of(get(f"{self.folder}/mpv.wav"))
                frames = b"".join(wide[at + 1 : at + 4] for at in range(0, len(wide), 4))
                demand(frames == self.frames, f"the plugin of mpv: {line}: other frames")
                os.remove(f"{self.folder}/mpv.wav")

    def runs_script(self, what: str, python: str, **more: str) -> None:
        """README's script in Python, and where its package is found."""
        status, said = self.run(python, "script.py", **more)
        is_right = status == 0 and said.startswith(b"Info(samplerate=88200, channels=")
        demand(is_right, f"{what}: status {status}, {said[-300:]}")
        code = "import dsdarc; print(dsdarc.__file__, dsdarc.version(), dsdarc.__version__)"
        status, said = self.run(python, "-c", code, **more)
        version = get(os.path.join(ROOT, "VERSION")).decode().strip()
        is_own = not said.startswith(ROOT.encode()) and said.endswith(f" {version} {version}\n".encode())
        demand(status == 0 and is_own, f"{what}: {said[-300:]}")


def beside(folder: str) -> dict[str, str]:
    """The program with the library beside it, as `bin/build` leaves them."""
    os.mkdir(folder)
    shutil.copy(PROGRAM, f"{folder}/dsdarc")
    for name in os.listdir(BUILT):
        if name.startswith("libdsdarc"):
            shutil.copy(os.path.join(BUILT, name), folder, follow_symlinks=False)
    return {"DSDARC": f"{folder}/dsdarc"}


def files_below(folder: str) -> set[str]:
    return {os.path.relpath(os.path.join(at, name), folder) for at, folders, names in os.walk(folder) for name in names}


def below_local(folder: str, users: Users, given: dict[str, str]) -> None:
    """Below /usr/local the Python package is where Debian's Python looks for it, and finds the library and filters."""
    code = 'import site; print(*[it for it in site.getsitepackages() if it.startswith("/usr/local/")][:1])'
    status, said = users.run("/usr/bin/python3", "-I", "-c", code)
    if status != 0 or not said.strip():
        print("left out: the Python package below /usr/local, as no /usr/bin/python3 looks there")
        return
    status, said_of = users.run(f"{ROOT}/bin/install", "/usr/local", DESTDIR=folder, **given)
    demand(status == 0, f"bin/install below /usr/local: status {status}, {said_of}")
    place = folder + said.decode().strip()
    demand(os.path.isfile(f"{place}/dsdarc/__init__.py"), f"bin/install below /usr/local: nothing in {place}")
    users.runs_script("Python, below /usr/local", sys.executable, PYTHONPATH=place, LD_LIBRARY_PATH="")


def files_of_packages(folder: str, users: Users, made: list[str]) -> str:
    """Each file that is installed is in one of the packages, and the library where Debian has libraries."""
    there = []
    for number, name in enumerate(made):
        status, said = users.run("dpkg-deb", "-R", name, f"{folder}/{number}")
        demand(status == 0, f"{name}: {said}")
        shutil.copytree(f"{folder}/{number}/usr", f"{folder}/usr", symlinks=True, dirs_exist_ok=True)
        there.append(
            {it for it in files_below(f"{folder}/{number}/usr") if not re.match("share/(doc/|man/man1/dsdarc-)", it)}
        )
    place = os.path.dirname(next(it for it in sorted(there[1]) if it.endswith("/libdsdarc.so.0")))
    installed = files_below(users.prefix) - {"share/dsdarc/installed.txt"}
    wanted = {it.replace("zsh/site-functions", "zsh/vendor-completions") for it in installed}
    moved = {it: re.sub("^lib/(libdsdarc|pkgconfig)", rf"{place}/\1", it) for it in wanted}
    library = {it for it in moved if it.startswith("lib/libdsdarc.so.")}
    split = (wanted - library - set(DEVELOPMENT), library, set(DEVELOPMENT))
    for name, is_there, rows in zip(made, there, split):
        rows = {moved[it] for it in rows}
        demand(is_there == rows, f"{name} differs in {sorted(is_there ^ rows)[:9]}")
    return place


def packages(folder: str, users: Users, given: dict[str, str]) -> None:
    """The packages: each file is in one of them, from all together a program is built, and lintian has no errors."""
    if not shutil.which("dpkg-deb"):
        print("left out: the packages, as dpkg-deb isn't here")
        return
    os.mkdir(folder)
    status, said = users.run(f"{ROOT}/tools/package", folder, **given)
    made = said.decode().splitlines()
    demand(status == 0 and len(made) == 3, f"tools/package: status {status}, {said[-300:]}")
    place = f"{folder}/usr/{files_of_packages(folder, users, made)}"
    line = "cc play.c $(pkg-config --cflags --libs dsdarc) -o packaged && ./packaged filters/dsd64-to-88200-24.toml"
    # The package's own folders are below the root of the system.
    status, said = users.run("sed", "-i", f"s|^prefix=.*|prefix={folder}/usr|", f"{place}/pkgconfig/dsdarc.pc")
    more = {"PKG_CONFIG_PATH": f"{place}/pkgconfig", "LD_LIBRARY_PATH": place}
    status, said = users.run("bash", "-c", f"{line} <in.dsf", **more)
    demand((status, said) == (0, users.frames), f"a program from the packages: status {status}, {said[-300:]}")
    if shutil.which("dpkg-shlibdeps"):
        users.put(
            "debian/control", "Source: packaged\n\nPackage: packaged\nArchitecture: any\nDepends: ${shlibs:Depends}\n"
        )
        status, said = users.run("dpkg-shlibdeps", "-O", f"-S{folder}/1", f"-l{place}", "packaged")
        is_named = status == 0 and b"libdsdarc0 (>= 0.2.0)" in said and b"libc6" in said
        demand(is_named, f"dpkg-shlibdeps of a program: status {status}, {said[-300:]}")
    if shutil.which("lintian"):
        status, said = users.run("lintian", "--no-cfg", "--allow-root", "--fail-on", "error", *made)
        demand(status == 0, f"lintian: status {status}, {said[-900:]}")


def by_pip(folder: str, users: Users) -> None:
    """`pip install .` and `pip wheel .` in copies of the clone, in virtual environments that see Debian's packages, and
    without a network."""
    python = environment(f"{folder}/venv", users)
    names = 'import importlib.util as of; exit(not all(map(of.find_spec, ("pip", "setuptools", "wheel", "numpy"))))'
    if not python or users.run(python, "-c", names)[0] != 0:
        print("left out: pip install ., as python3-venv, -pip, -setuptools, -wheel or -numpy isn't installed")
        return
    clone, offline = copied(f"{folder}/clone"), ("--quiet", "--no-build-isolation", "--no-index")
    status, said = users.run(python, "-m", "pip", "install", *offline, clone)
    demand(status == 0, f"pip install: status {status}, {said[-500:]}")
    shutil.rmtree(clone)
    users.runs_script("Python, by pip", python, LD_LIBRARY_PATH="")
    clone = copied(f"{folder}/clone")
    status, said = users.run(python, "-m", "pip", "wheel", *offline, "--no-deps", "-w", f"{folder}/wheels", clone)
    demand(status == 0, f"pip wheel: status {status}, {said[-500:]}")
    by_wheel(users, "pip wheel", f"{folder}/wheels")
    if users.run(python, "-c", "import build")[0] != 0:
        print("left out: python -m build, as python3-build isn't installed")
    else:
        # A wheel of the archive of the sources, which is made first.
        status, said = users.run(python, "-m", "build", "--no-isolation", "-o", f"{folder}/built-wheels", clone)
        demand(status == 0, f"python -m build: status {status}, {said[-500:]}")
        by_wheel(users, "python -m build", f"{folder}/built-wheels")
    shutil.rmtree(clone)


def environment(folder: str, users: Users) -> str | None:
    """The Python of a new virtual environment that sees Debian's packages; None if there can't be one."""
    status, _ = users.run("/usr/bin/python3", "-m", "venv", "--system-site-packages", folder)
    return f"{folder}/bin/python3" if status == 0 else None


def copied(clone: str) -> str:
    """A copy of what pip needs of the clone, with the library where it is built."""
    keeps = shutil.ignore_patterns("__pycache__", "responses", "build", "*.egg-info")
    for name in ("python", "filters"):
        shutil.copytree(os.path.join(ROOT, name), f"{clone}/{name}", ignore=keeps)
    for name in ("pyproject.toml", "setup.py", "MANIFEST.in", "VERSION", "README.md", "LICENSE"):
        shutil.copy(os.path.join(ROOT, name), clone)
    os.makedirs(f"{clone}/crates/dsdarc/out")
    for name in os.listdir(BUILT):
        if name.startswith("libdsdarc.so"):
            shutil.copy(os.path.join(BUILT, name), f"{clone}/crates/dsdarc/out", follow_symlinks=False)
    return clone


def by_wheel(users: Users, what: str, made: str) -> None:
    """The one wheel of a folder is for any Python 3 of this kind of processor, and has the library and the filters."""
    version = get(os.path.join(ROOT, "VERSION")).decode().strip()
    wheels = [it for it in os.listdir(made) if it.endswith(".whl")]
    name = f"dsdarc-{version}-py3-none-linux_{platform.machine()}.whl"
    demand(wheels == [name], f"{what}: {wheels}, not {name}")
    with zipfile.ZipFile(f"{made}/{wheels[0]}") as wheel:
        inside = set(wheel.namelist())
    ready = {
        f"dsdarc/filters/{it}" for it in os.listdir(f"{ROOT}/filters") if re.fullmatch(r"dsd.*\.toml|index\.txt", it)
    }
    missing = (ready | {"dsdarc/libdsdarc.so.0", "dsdarc/py.typed"}) - inside
    demand(not missing, f"{what}: the wheel has no {sorted(missing)[:3]}")
    python = environment(f"{made}-venv", users)
    status, said = users.run(str(python), "-m", "pip", "install", "--quiet", "--no-index", f"{made}/{wheels[0]}")
    demand(status == 0, f"{what}: the wheel isn't installed: {said[-500:]}")
    users.runs_script(f"Python, by a wheel of {what}", str(python), LD_LIBRARY_PATH="")


def try_installed(folder: str, sound: str, frames: bytes, source: str, script: str) -> None:
    """All of it, of a DSF file with the frames that `play` makes of it by 88200/24; and README's programs."""
    os.mkdir(folder)
    given = beside(f"{folder}/built")
    users = Users(f"{folder}/user", f"{folder}/prefix", sound, frames)
    status, said = users.run(f"{ROOT}/bin/install", users.prefix, **given)
    demand(status == 0, f"bin/install: status {status}, {said}")
    users.plays(source, script)
    below_local(f"{folder}/local", users, given)
    packages(f"{folder}/packages", users, given)
    by_pip(f"{folder}/pip", users)
    status, said = users.run(f"{ROOT}/bin/install", "--remove", users.prefix)
    demand(status == 0 and not files_below(users.prefix), f"bin/install --remove: {said}, {files_below(users.prefix)}")
