"""A wheel holds libfluent.so, and is for this platform alone: that of FLUENT_LIBRARY, or the one in the package's folder, or
the one that './build libfluent' built. Without any of them it holds the package alone."""
import ctypes
import os
import re
import shutil
from pathlib import Path

from setuptools import Distribution, setup
from setuptools.command.build_py import build_py

try:
    from setuptools.command.bdist_wheel import bdist_wheel
except ImportError:
    from wheel.bdist_wheel import bdist_wheel

HERE = Path(__file__).resolve().parent
PLACES = [HERE / "fluent_rattle/libfluent.so", HERE.parents[1] / "crates/fluent_c/out/libfluent.so"]


def found():
    named = os.environ.get("FLUENT_LIBRARY")
    return Path(named).resolve() if named else next((place for place in PLACES if place.exists()), None)


def check_version(library):
    """Refuses a library of another version than the package's."""
    version = re.search('^version = "(.*)"$', (HERE / "pyproject.toml").read_text(encoding="utf-8"), re.MULTILINE)[1]
    call = ctypes.CDLL(str(library)).fluent_version
    call.restype = ctypes.c_char_p
    if call().decode("utf-8") != version:
        raise SystemExit(f"{library} has version {call().decode('utf-8')}, and the package {version}")


class Package(Distribution):
    def has_ext_modules(self):
        return found() is not None


class Build(build_py):
    def run(self):
        # What an earlier build left would be in the wheel too.
        shutil.rmtree(Path(self.build_lib, "fluent_rattle"), ignore_errors=True)
        super().run()
        if found():
            check_version(found())
            to = Path(self.build_lib, "fluent_rattle/libfluent.so")
            self.mkpath(str(to.parent))
            self.copy_file(str(found()), str(to))


class Wheel(bdist_wheel):
    def get_tag(self):
        return "py3", "none", super().get_tag()[2]


setup(distclass=Package, cmdclass={"build_py": Build, "bdist_wheel": Wheel})
