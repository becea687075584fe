"""Adds to the Python package what the clone has for it: the ready filters and, once it is built, the library. A wheel with
the library is for any Python 3 of this kind of processor, as the library is called by ctypes."""
import pathlib
import platform
import shutil
from typing import Any

import setuptools
from setuptools.command.build_py import build_py

try:
    from setuptools.command.bdist_wheel import bdist_wheel
except ImportError:  # setuptools before 70.1
    from wheel.bdist_wheel import bdist_wheel

ROOT = pathlib.Path(__file__).resolve().parent
VERSION = (ROOT / "VERSION").read_text(encoding="ascii").strip()
# The name by which programs are linked with the library.
SONAME = f"libdsdarc.so.{VERSION.split('.')[0]}"
# Where bin/library puts it for this kind of processor. An archive of the sources has the file itself, and not its link.
BUILT = ROOT / "crates" / "dsdarc" / "out" / ("aarch64" if platform.machine() == "aarch64" else ".")
LIBRARY = next((it for it in (BUILT / SONAME, BUILT / f"libdsdarc.so.{VERSION}") if it.is_file()), None)


class Adding(build_py):
    """Puts the package together."""

    def run(self) -> None:
        super().run()
        package = pathlib.Path(self.build_lib) / "dsdarc"
        (package / "filters").mkdir(parents=True, exist_ok=True)
        for path in (ROOT / "filters" / "index.txt", *sorted((ROOT / "filters").glob("dsd*.toml"))):
            shutil.copyfile(path, package / "filters" / path.name)
        if LIBRARY:
            shutil.copyfile(LIBRARY, package / SONAME)
        else:
            (package / SONAME).unlink(missing_ok=True)


class Package(setuptools.Distribution):
    """The package, which is one of this kind of processor where the library is in it."""

    def has_ext_modules(self) -> Any:
        return LIBRARY is not None


class Wheel(bdist_wheel):
    """A wheel for each Python 3, as nothing in it is built for one of them."""

    def get_tag(self) -> tuple[str, str, str]:
        _, _, kind = super().get_tag()
        return "py3", "none", kind


setuptools.setup(distclass=Package, cmdclass={"build_py": Adding, "bdist_wheel": Wheel})
