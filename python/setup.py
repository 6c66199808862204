"""Puts the library into the package, as ./build or `tools/unproved library` left it last; so a wheel is one of this platform, for any
Python 3. The version says where the library is unproved."""

from pathlib import Path
from shutil import copy

from setuptools import setup
from setuptools.command.build_py import build_py

try:
    from setuptools.command.bdist_wheel import bdist_wheel
except ImportError:
    from wheel.bdist_wheel import bdist_wheel

OUT = Path(__file__).resolve().parent.parent / "out"
BUILT = [it for it in (OUT / "librgw.so.1", OUT / "unproved" / "librgw.so.1") if it.is_file()]
LIBRARY = max(BUILT, key=lambda it: it.stat().st_mtime, default=None)
# (the name that an unproved one exports besides)
IS_UNPROVED = LIBRARY is not None and b"\0rgw_unproved\0" in LIBRARY.read_bytes()


class WithLibrary(build_py):
    """The package with the library in it."""

    def run(self) -> None:
        super().run()
        if LIBRARY is None:
            raise SystemExit(f"there is no {OUT}/librgw.so.1: ./build makes it, and `tools/unproved library` an unproved one in minutes")
        copy(LIBRARY, Path(self.build_lib, "rgw"))


class OfPlatform(bdist_wheel):  # type: ignore[misc]
    """A wheel of this platform, in which nothing is compiled for one Python."""

    def finalize_options(self) -> None:
        super().finalize_options()
        self.root_is_pure = False

    def get_tag(self) -> tuple[str, str, str]:
        return "py3", "none", super().get_tag()[2]


setup(version="0.1.0+unproved" if IS_UNPROVED else "0.1.0", cmdclass={"build_py": WithLibrary, "bdist_wheel": OfPlatform})
