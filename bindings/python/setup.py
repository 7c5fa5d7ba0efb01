"""Builds the package `dgt`, with the shared library of `bindings/c/build` in its wheel.

The wheel fits each CPython that the package supports, on one platform: `py3-none-PLATFORM`. Its
bytes depend only on the sources and the library: each file has mode 0644 and the same time, which
SOURCE_DATE_EPOCH may set. DGT_LIBRARY names another library than the source tree's; a build from a
source distribution needs it.
"""

import os
import shutil
from pathlib import Path

from setuptools import Distribution, setup
from setuptools.command.build_py import build_py
from setuptools.errors import FileError

try:
    from setuptools.command.bdist_wheel import bdist_wheel
except ImportError:  # setuptools before 70.1
    from wheel.bdist_wheel import bdist_wheel

BUILT = Path(__file__).resolve().parents[1] / "c" / "out" / "libdgt.so"
EARLIEST = 315532800  # 1 January 1980, the first time that a zip file can name


class PlatformDistribution(Distribution):
    """A package for one platform, though it has no extension module."""

    def has_ext_modules(self):
        return True


class PlatformWheel(bdist_wheel):
    """A wheel for every CPython on one platform."""

    def get_tag(self):
        return "py3", "none", super().get_tag()[2]


class BuildWithLibrary(build_py):
    """Copies the shared library next to the modules. An editable installation uses it in place."""

    def run(self):
        if self.editable_mode:
            return super().run()
        library = Path(os.environ.get("DGT_LIBRARY") or BUILT)
        if not library.is_file():
            raise FileError(f"{library} is missing: run bindings/c/build, or name the library in "
                            "DGT_LIBRARY")
        package = Path(self.build_lib, "dgt")
        shutil.rmtree(package, ignore_errors=True)  # left by an earlier build
        super().run()
        shutil.copyfile(library, package / "libdgt.so")
        for path in package.iterdir():
            path.chmod(0o644)


os.umask(0o022)
os.environ.setdefault("SOURCE_DATE_EPOCH", str(EARLIEST))
setup(
    distclass=PlatformDistribution,
    cmdclass={"bdist_wheel": PlatformWheel, "build_py": BuildWithLibrary},
)
