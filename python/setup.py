"""Builds the wheel, which has the library inside: it is for any Python 3 on Linux with x86-64.

pyproject.toml has the rest. CITYSEQ_LIBRARY names a library to take where cityseq/libcityseq.so is
not there, and CITYSEQ_PLATFORM another tag of the platform."""
import os
import shutil
import sys

from setuptools import setup
from setuptools.command.build_py import build_py
from setuptools.dist import Distribution

try:
    from setuptools.command.bdist_wheel import bdist_wheel
except ImportError:
    from wheel.bdist_wheel import bdist_wheel

LIBRARY = os.path.join("cityseq", "libcityseq.so")


class Binary(Distribution):
    """A package with a library, though no module is compiled."""

    def has_ext_modules(self):
        return True


class BuildPy(build_py):
    """Copies the package, and the library with it."""

    def run(self):
        given = os.environ.get("CITYSEQ_LIBRARY")
        if given is None and not os.path.isfile(LIBRARY):
            sys.exit(
                "cityseq: this source has no libcityseq.so: "
                "set CITYSEQ_LIBRARY to the path of one, or install the wheel"
            )
        super().run()
        if given is not None:
            target = os.path.join(self.build_lib, LIBRARY)
            if os.path.exists(target):
                os.remove(target)
            shutil.copyfile(given, target)


class Wheel(bdist_wheel):
    """A wheel for any Python 3, since ctypes loads the library."""

    def get_tag(self):
        return "py3", "none", os.environ.get("CITYSEQ_PLATFORM") or super().get_tag()[2]


setup(distclass=Binary, cmdclass={"build_py": BuildPy, "bdist_wheel": Wheel})
